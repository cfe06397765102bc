// SPDX-License-Identifier: Apache-2.0
// Opens peer.html in Chromium. Each line of the input is JSON, [number, expression]; [number, value, error] answers it.
import { createInterface } from 'node:readline';
import { Browser } from '../../page/tests/browser.mjs';

const browser = await Browser.start('--allow-loopback-in-peer-connection', '--disable-features=WebRtcHideLocalIpsWithMdns');
try {
  await browser.open(new URL('peer.html', import.meta.url).href);
  for await (const line of createInterface({ input: process.stdin })) {
    const [number, expression] = JSON.parse(line);
    browser.ask(expression).then(value => [value], error => [null, error.message])
      .then(answer => console.log(JSON.stringify([number, ...answer])));
  }
} finally {
  await browser.close();
}
