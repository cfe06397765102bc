#!/usr/bin/env python3
# SPDX-License-Identifier: Apache-2.0
"""usage: page/make.py [--into FILE] [--home URL]

Makes page/out/sctp.html: sctp_dump as WebAssembly, dist/sctp_dump.wasm, and a page that shows what it prints, in one file that needs
no server and no network.

  --into FILE  the page, in place of page/out/sctp.html
  --home URL   the address of this project: the page links it, and previews of a link to the page show URL/docs/page.png
  --help       prints this

As dist/wasm.py says of the C library, no verdict is given for WebAssembly: the functions are those of the proved module
for x86-64. What they take from a system, page/src/program.mjs supplies. The page runs no other script than this one, and
asks for nothing, by its Content-Security-Policy.

The modules of page/src are joined as functions, each after those that it imports. A module begins with a head of lines, in any order:
comments after //, lines with nothing, and in a line of their own

    import './name.mjs';
    import { one, two as other } from './name.mjs';
    export { one, two };

What comes after its head is taken as it is, and no line of that begins with import or export. What a module exports it assigns once.
A module that breaks this rule is named with its line, and no page is made.
"""

import argparse
import base64
import hashlib
import html
import os
import re
import sys

HERE = os.path.dirname(os.path.abspath(__file__))
ROOT = os.path.dirname(HERE)

NAME = r"[A-Za-z_]\w*"
IMPORT = re.compile(rf"import (?:\{{ ({NAME}(?: as {NAME})?(?:, {NAME}(?: as {NAME})?)*) \}} from )?'\./(\w+)\.mjs';")
EXPORT = re.compile(rf"export \{{ ({NAME}(?:, {NAME})*) \}};")
# What page.html asks for where it isn't joined, each once: its parts by their names take that place.
PLACES = {
    "script-src 'self'": "script-src {script_sum}",
    "style-src 'self'": "style-src {style_sum}",
    " connect-src 'self';": "",
    "worker-src 'self'": "worker-src blob:",
    '<link rel="stylesheet" href="page.css">': "<style>{style}</style>",
    "<!-- version -->": "{version}",
    "<!--home: tags-->": "{tags}",
    "<!--home: link-->": "{link}",
    '<script type="module" src="src/main.mjs"></script>': """\
<script type="text/plain" id="worker-script">{worker}</script>
<script type="text/plain" id="program">{program}</script>
<script type="text/plain" id="sample">{sample}</script>
<script type="module">{script}</script>""",
}
# What --home adds.
TAGS = '<meta property="og:url" content="{url}">\n<meta property="og:image" content="{url}/docs/page.png">'
LINK = '<a href="{url}" target="_blank" rel="noreferrer">Davgyuti</a>. '


def fail(text):
    sys.exit(f"page/make.py: {text}")


def read_bytes(path):
    with open(path, "rb") as file:
        return file.read()


def read(name):
    return read_bytes(f"{HERE}/{name}").decode()


class Module:
    """A module of page/src: what it imports, as lines' numbers, names and modules; what it exports; and its text after the head."""

    def __init__(self, name):
        self.name, self.imports, self.exports = name, [], []
        try:
            lines = read(f"src/{name}.mjs").split("\n")
        except FileNotFoundError:
            fail(f"there is no src/{name}.mjs")
        at = 0
        while at < len(lines) and self.takes(lines[at], at + 1):
            at += 1
        self.body = "\n".join(lines[at:])
        for i, line in enumerate(lines[at:], at + 1):
            if re.match(r"\s*(import|export)\b", line):
                self.fail(i, f"after the head a line begins with {line.split()[0]}")
            if re.search(r"</script|<!--", line, re.I):
                self.fail(i, "a script ends in its midst where it is part of HTML")

    def fail(self, line, text):
        fail(f"src/{self.name}.mjs:{line}: {text}")

    def takes(self, line, number):
        """Whether a line is one of the head."""
        if not line or line.startswith("//"):
            return True
        if found := IMPORT.fullmatch(line):
            names = [it.split(" as ") for it in found[1].split(", ")] if found[1] else []
            self.imports.append((number, names, found[2]))
        elif found := EXPORT.fullmatch(line):
            self.exports += found[1].split(", ")
        return bool(found)

    def text(self):
        """The module as a function that is called at once."""
        takes = [f"const {{ {', '.join(': '.join(it) for it in names)} }} = modules.{name};\n" for _, names, name in self.imports if names]
        return (f"modules.{self.name} = (() => {{\n{''.join(takes)}{self.body}"
                f"return {{ {', '.join(self.exports)} }};\n}})();\n")


def joined(entry):
    """A module as a script, with all that it imports."""
    modules, open_ones = {}, []

    def add(name):
        open_ones.append(name)
        module = Module(name)
        for line, names, other in module.imports:
            if other in open_ones:
                module.fail(line, f"{other}.mjs imports this module, too")
            if other not in modules:
                add(other)
            for it in names:
                if it[0] not in modules[other].exports:
                    module.fail(line, f"{other}.mjs doesn't export {it[0]}")
        modules[name] = module
        open_ones.pop()

    add(entry)
    return "'use strict';\nconst modules = {};\n" + "".join(it.text() for it in modules.values())


def sum_of(text):
    return f"'sha256-{base64.b64encode(hashlib.sha256(text.encode()).digest()).decode()}'"


def page(program, sample, home):
    """The page, with all that it needs."""
    style, script, url = read("page.css"), joined("main"), html.escape(home.rstrip("/"))
    parts = {
        "style": style, "script": script, "worker": joined("worker"), "program": base64.b64encode(program).decode(),
        "sample": base64.b64encode(sample).decode(), "style_sum": sum_of(style), "script_sum": sum_of(script),
        "version": re.search(r'#define DCSCTP_VERSION "(.*)"', read("../include/dcsctp.h"))[1],
        "tags": TAGS.format(url=url) if url else "", "link": LINK.format(url=url) if url else "",
    }
    text = read("page.html")
    for place in PLACES:
        if text.count(place) != 1:
            fail(f"page.html has {place} {text.count(place)} times, and has to have it once")
    # (in one go, so that no part of the page is taken for a place)
    places = "|".join(re.escape(it) for it in PLACES)
    return re.sub(places, lambda it: PLACES[it[0]].format(**parts), text)


def main():
    parser = argparse.ArgumentParser(usage=__doc__.strip()[7:], add_help=False)
    parser.add_argument("--into", default=f"{HERE}/out/sctp.html")
    parser.add_argument("--home", default="")
    parser.add_argument("--help", action="store_true")
    given = parser.parse_args()
    if given.help:
        print(__doc__.strip())
        return
    if given.home and not given.home.startswith(("https://", "http://")):
        fail("--home takes an address that begins with https:// or http://")
    program = read_bytes(f"{ROOT}/dist/sctp_dump.wasm")
    os.makedirs(os.path.dirname(os.path.abspath(given.into)), exist_ok=True)
    text = page(program, read_bytes(f"{HERE}/sample.pcap"), given.home)
    with open(given.into, "w", encoding="utf-8", newline="\n") as file:
        file.write(text)
    print(f"{os.path.basename(given.into)}: {len(text.encode()):,} bytes; the program is {len(program):,} bytes of WebAssembly")


if __name__ == "__main__":
    main()
