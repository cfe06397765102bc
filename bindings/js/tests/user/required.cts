// SPDX-License-Identifier: Apache-2.0
// A CommonJS module in TypeScript: it compiles, but for the line below a @ts-expect-error.
import davgyuti = require('davgyuti');

const { Builder, chunks } = davgyuti;
const bytes: Uint8Array = new Builder({ sourcePort: 1, destinationPort: 2, verificationTag: 3 }).addCookieAck().finish();
export const types: number[] = [...chunks(bytes)].map(it => it.type);
// @ts-expect-error the package has no default export
export const missing = davgyuti.default;
