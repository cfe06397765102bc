#!/usr/bin/env python3
# SPDX-License-Identifier: Apache-2.0
"""usage: tools/links.py FOLDER | --help

Follows each relative link of each .md file below FOLDER: it has to lead to a file or a folder in FOLDER, and after # to a
heading of that page, by the names that GitHub gives headings. Prints those that lead nowhere. Links in code aren't followed.
Of a checkout it also prints the definitions that the list in docs/ARCHITECTURE.md names and that aren't there, and those
of the library that it doesn't name.
"""
import glob
import os
import re
import sys

FENCED = re.compile(r'^```.*?^```$', re.M | re.S)
CODE = re.compile(FENCED.pattern + r'|^(?: {4}[^\n]*\n)+|(?<!`)(`+)(?!`)(?:(?!\n\n).)*?(?<!`)\1(?!`)', re.M | re.S)


def anchors_of(text):
    """The names of a page's headings. Of equal ones the second gets -1, the third -2."""
    found = set()
    for heading in re.findall(r'^#+ +(.*)', FENCED.sub('', text), re.M):
        name = base = re.sub(r'[^\w\- ]', '', re.sub(r'\]\([^)]*\)', '', heading).lower()).replace(' ', '-')
        count = 0
        while name in found:
            count += 1
            name = f'{base}-{count}'
        found.add(name)
    return found


def unlisted(root, page):
    """What is wrong in a page's tables of definitions, whose last cells have `crate/Name`, and then `Name`, of the same crate."""
    listed, free, crate = set(), set(), None
    for line in page.splitlines():
        cells = line.split('|')
        for prefix, name, rest in re.findall(r'`(?:(\w+)/)?([\w*]+)`|(the rest)', cells[-2] if len(cells) > 2 else line):
            if prefix:
                crate = prefix if os.path.isdir(f'{root}/crates/{prefix}') else f'dcsctp_{prefix}'
            if rest:
                free.add(crate)
            elif prefix or len(cells) > 2 and name[0] in '*ABCDEFGHIJKLMNOPQRSTUVWXYZ':
                listed.update(glob.glob(f'{root}/crates/{crate}/specs/{name}.antt') or [f'{root}/no {crate}/{name}'])
    there = {it for it in glob.glob(f'{root}/crates/dcsctp_*/specs/*.antt')
             if it.split('/')[-3] not in free and not it.endswith('/Lib.antt')}
    return [os.path.relpath(it, root) for it in sorted(there - listed) + [it for it in sorted(listed) if '/no ' in it]]


def main(root):
    root = os.path.realpath(root)
    pages = {}
    for folder, folders, names in os.walk(root):
        # (what a checkout builds, and git's own)
        folders[:] = [it for it in folders if it not in ('.git', 'out', 'target')]
        for name in names:
            if name.endswith('.md'):
                path = os.path.join(folder, name)
                with open(path, encoding='utf-8') as file:
                    pages[path] = file.read()
    followed = wrong = 0
    for page, text in sorted(pages.items()):
        for link in re.findall(r'\]\(([^)\s]+)\)', CODE.sub('', text)):
            if re.match(r'[a-z]+:', link):
                continue
            path, _, anchor = link.partition('#')
            to = os.path.realpath(os.path.join(os.path.dirname(page), path)) if path else page
            is_there = os.path.commonpath([to, root]) == root and os.path.exists(to)
            followed += 1
            if not is_there or anchor and anchor not in anchors_of(pages.get(to, '')):
                wrong += 1
                print(f'{os.path.relpath(page, root)}: {link} leads nowhere')
    believed = pages.get(os.path.join(root, 'docs/ARCHITECTURE.md'), '').partition('## What must be believed')[2].partition('\n## ')[0]
    for name in unlisted(root, believed) if os.path.isdir(os.path.join(root, 'crates/dcsctp_wire/specs')) else []:
        wrong += 1
        print(f'docs/ARCHITECTURE.md: the list of definitions: {name}')
    if wrong or not followed:
        sys.exit(f'links: {followed} followed, {wrong} wrong')


if sys.argv[1:] == ['--help']:
    print(__doc__)
elif len(sys.argv) != 2 or sys.argv[1].startswith('-'):
    sys.exit(__doc__)
else:
    main(sys.argv[1])
