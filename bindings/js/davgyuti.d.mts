// SPDX-License-Identifier: Apache-2.0
export * from './davgyuti.js';
