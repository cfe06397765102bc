// SPDX-License-Identifier: Apache-2.0
// The files that were chosen.

export { namedApart };

/** Files by the names that the program has for them: none is `-` or an option, and none is there twice. */
function namedApart(files) {
  const names = new Map();
  for (const it of files) {
    const own = it.name.startsWith('-') ? `./${it.name}` : it.name;
    let name = own;
    for (let i = 2; names.has(name); i++)
      name = `${own} (${i})`;
    names.set(name, it);
  }
  return [...names];
}
