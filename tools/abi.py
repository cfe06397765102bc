#!/usr/bin/env python3
# SPDX-License-Identifier: Apache-2.0
"""usage: tools/abi.py [--write | --assertions | --must-fail | --help]

Compares the binary interface that include/dcsctp.h declares, where pointers have 64 bits, with dist/dcsctp.abi: the result and
the arguments of each function, the size and the alignment of each struct, the type and the offset of each field, and the value
of each constant. Prints each line that differs and whether the soname has to change with it, and fails if there is one.
Fails as well if dist/dcsctp.map doesn't name the version of the soname.

  --write       writes dist/dcsctp.abi, once a difference is meant
  --assertions  prints dist/dcsctp.abi as C, which compiles where the compiler reads dcsctp.h the same way
  --must-fail   changes a copy of the header in one place after the other, and fails if a change isn't noticed, or is taken for
                one of the other kind
  --help        prints this
"""
import re
import sys

sys.dont_write_bytecode = True
import check_header

ABI, MAP = 'dist/dcsctp.abi', 'dist/dcsctp.map'
SIZES = {'bool': 1, 'uint8_t': 1, 'uint16_t': 2, 'uint32_t': 4, 'uint64_t': 8, 'size_t': 8}


def c_name(kind):
    """A type of check_header as C writes it."""
    return re.sub(r'\bdcsctp_', 'struct dcsctp_', kind)


def soname(text):
    version = re.search(r'^#define DCSCTP_VERSION "(\d+\.\d+)', text, flags=re.M)[1]
    return f'libdcsctp.so.{version}'


def abi_of(text):
    """The lines that a header gives."""
    functions, structs, constants = check_header.header_side(text)[:3]
    lines = [f'# {soname(text)}, where pointers have 64 bits; tools/abi.py makes and compares this']
    for name, (result, arguments) in sorted(functions.items()):
        lines.append(f'{result} {name}({", ".join(c_name(kind) for kind, _ in arguments) or "void"})')
    sizes = {kind: (size, size) for kind, size in SIZES.items()}
    laid_out = {}
    # (in the header's order, since a struct may hold those before it)
    for name, fields in structs.items():
        places, at, most = [], 0, 1
        for kind, field in fields:
            field, _, count = field.rstrip(']').partition('[')
            size, alignment = sizes[kind]
            at += -at % alignment
            places.append(f'{name}.{field}: {c_name(kind)}{f"[{count}]" if count else ""} at {at}')
            at += size * int(count or 1)
            most = max(most, alignment)
        sizes[name] = at + -at % most, most
        laid_out[name] = [f'struct {name}: size {sizes[name][0]}, alignment {most}', *places]
    lines += [line for _, its in sorted(laid_out.items()) for line in its]
    return lines + [f'DCSCTP_{name} = {value}' for name, value in sorted(constants.items())]


def name_in(line):
    return re.match(r'#|struct \w+|\w+\.\w+|\w+(?= =)|\w+ \w+', line)[0]


def differences(old, new):
    """For each line that differs whether programs that were linked before break, and what is to be said."""
    old, new = ({name_in(it): it for it in lines} for lines in (old, new))
    for name, line in old.items():
        # (a field may come into the place of a reserve, which had to be 0)
        if new.get(name) != line:
            yield name != '#' and not name.endswith('.reserved'), f'{line} -> {new.get(name, "nothing")}'
    for name, line in new.items():
        if name not in old:
            yield False, f'{line}: this is added'


def said(old, new):
    """What is said of all differences."""
    found = list(differences(old, new))
    lines = [f'{"breaks programs" if breaks else "breaks nothing"}: {it}' for breaks, it in found]
    if any(breaks for breaks, _ in found) and old[0] == new[0]:
        lines.append(f'the soname has to change once {old[0].split()[1].rstrip(",")} is released: until 1.0.0 by the minor version')
    return lines


def assertions(lines):
    """The lines as C."""
    yield '#include <dcsctp.h>'
    for line in lines[1:]:
        parts = re.split(r': size |, alignment |: | at | = ', line)
        if line.startswith('struct '):
            claim = f'sizeof({parts[0]}) == {parts[1]} && _Alignof({parts[0]}) == {parts[2]}'
        elif '.' in parts[0]:
            struct, field = parts[0].split('.')
            place = f'((struct {struct} *)0)->{field}'
            kind, _, count = parts[1].partition('[')
            is_kind = f'_Generic({place}{"[0]" if count else ""}, {kind}: 1, default: 0)'
            claim = f'offsetof(struct {struct}, {field}) == {parts[2]} && {is_kind}'
            claim += f' && sizeof({place}) == sizeof({kind}[{count.rstrip("]") or 1}])'
        elif len(parts) == 2:
            claim = line.replace('=', '==')
        else:
            yield f'{line};'
            continue
        yield f'_Static_assert({claim}, "{line}");'


# What is changed, into what, and whether programs that were linked before break.
CHANGES = [
    ('uint32_t dcsctp_set_tag(uint8_t *packet, size_t length,', 'uint32_t dcsctp_set_tag(uint8_t *packet, uint32_t length,', True),
    ('uint32_t dcsctp_version_number(void);', '', True),
    ('uint32_t dcsctp_version_number(void);', 'uint32_t dcsctp_version_number(void);\nbool dcsctp_more(void);', False),
    ('    uint16_t end;\n', '    uint16_t end;\n    uint16_t gap;\n', True),
    ('    uint32_t mid;\n    uint32_t fsn;\n', '    uint32_t fsn;\n    uint32_t mid;\n', True),
    ('    uint8_t reserved[5];', '    bool more;\n    uint8_t reserved[4];', False),
    ('    uint8_t reserved[5];', '    bool more;\n    uint8_t reserved[5];', True),
    ('DCSCTP_NO_MEMORY = 6', 'DCSCTP_NO_MEMORY = 16', True),
    ('DCSCTP_CHUNK_I_DATA = 64,', 'DCSCTP_CHUNK_I_DATA = 64,\n    DCSCTP_CHUNK_MORE = 65,', False),
]


def must_fail(text, lines):
    for old, new, breaks in CHANGES:
        if text.count(old) != 1:
            sys.exit(f'abi: the header has no place, or more than one, with {old}')
        changed = abi_of(text.replace(old, new))
        found = [it for it, _ in differences(lines, changed)]
        if not found or any(found) != breaks:
            sys.exit(f'abi: not noticed, or taken for another kind: {new}')
        print('\n'.join(said(lines, changed)))


def main():
    words = sys.argv[1:]
    if words not in ([], ['--write'], ['--assertions'], ['--must-fail'], ['--help']):
        sys.exit(__doc__)
    text = check_header.read('include/dcsctp.h')
    if words == ['--help']:
        print(__doc__, end='')
    elif words == ['--write']:
        with open(f'{check_header.ROOT}/{ABI}', 'w', encoding='utf-8') as file:
            file.writelines(f'{it}\n' for it in abi_of(text))
    elif words == ['--assertions']:
        print('\n'.join(assertions(check_header.read(ABI).splitlines())))
    elif words == ['--must-fail']:
        must_fail(text, abi_of(text))
    else:
        found = said(check_header.read(ABI).splitlines(), abi_of(text))
        version = soname(text).removeprefix('libdcsctp.so.')
        if f'\nDCSCTP_{version} {{' not in f'\n{check_header.read(MAP)}':
            found.append(f'{MAP} has no version DCSCTP_{version}')
        if found:
            sys.exit('\n'.join([f'include/dcsctp.h and {ABI} differ; if that is meant, run tools/abi.py --write:', *found]))


main()
