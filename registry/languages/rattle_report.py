# SPDX-License-Identifier: Apache-2.0
"""What registry/make.py writes of the table for reports: what the values hold that the library keeps as bytes."""
from layouts import WIDTHS, Wrong

RATTLE = '''\
//! What the values hold that the library keeps as bytes. registry/make.py writes this file:
//! registry/sctp.txt is edited in its place.

use crate::fields::Form;
use crate::held::{{Held, HeldFlag, HeldNumber, Rest}};
use crate::names::NamedBy;

/// Returns what the value of a chunk of this type holds; `None` of a type that isn't kept as bytes,
/// and of one that holds nothing else.
pub fn held_in_chunk(typ: u8) -> Option<Held> {{
{chunk}
}}

/// Returns what the value of a parameter holds, as `held_in_chunk` does.
pub fn held_in_parameter(typ: u16) -> Option<Held> {{
{parameter}
}}

/// Returns what the value of an error cause holds, as `held_in_chunk` does.
pub fn held_in_cause(code: u16) -> Option<Held> {{
{cause}
}}
'''

# Of each level the name of the argument, the form of a number, and how deep further lines are.
LEVELS = {'chunk': ('typ', 'd', '  '), 'parameter': ('typ', '#06x', '    '), 'cause': ('code', '#06x', '    ')}
NAMES = ('hmac', 'address', 'chunk')
"""The forms of numbers that are shown by their names."""
OCTETS = {'ipv4': 4, 'ipv6': 16}


def laid_out(begin, fields, end, indent):
    """A struct of named fields, as rt fmt lays it out."""
    return '\n'.join([begin, *(f'{indent}    {name}: {value},' for name, value in fields.items()), indent + end])


def array(name, entries, indent):
    """A slice of structs."""
    if len(entries) < 2:
        return '&[' + ''.join(laid_out(name + ' {', it, '}', indent) for it in entries) + ']'
    lines = [f'{indent}    {laid_out(name + " {", it, "}", indent + "    ")},' for it in entries]
    return '\n'.join(['&[', *lines, f'{indent}]'])


def quoted(text):
    return '"' + text.replace('\n', '\\n') + '"'


def rest_of(row, it, shown, deep):
    """What comes after the numbers of a value: a Rest."""
    words, key, form = shown
    if it.what == 'address' and it.form != 'address':
        return f'Rest::Address({OCTETS[it.form]})'
    if it.what == 'address' or it.what == 'rest' and it.form == 'parameters':
        return 'Rest::Parameters'
    if it.what == 'rest' and it.form == 'causes':
        return 'Rest::Causes'
    if form == 'text':
        return 'Rest::Text'
    if form in NAMES:
        size = WIDTHS.get(it.form, 1)
        fields = {'key': quoted(key), 'entry': quoted(words), 'size': size, 'by': f'NamedBy::{form.capitalize()}'}
        return laid_out('Rest::Names {', fields, '}', ' ' * 12)
    if it.what == 'rest':
        return laid_out('Rest::Bytes {', {'words': quoted(f'\n{deep}{words}: '), 'key': quoted(key)}, '}', ' ' * 12)
    raise Wrong(f'{row.name}: {it.name} is shown by hand, or in no form')


def held(row, shown_of, deep):
    """What a value holds: a Held."""
    numbers, flags, rest = [], [], 'Rest::Nothing'
    for it in row.layout.fields:
        words, key, form = shown = shown_of(row, it)
        if it.what == 'number':
            words = (', ' if numbers else ': ') + (words and f'{words} ')
            numbers.append({'words': quoted(words), 'key': quoted(key), 'place': it.at, 'size': WIDTHS[it.form],
                            'form': 'Form::' + ('Decimal' if form in ('-', *NAMES) else form.capitalize()),
                            'by': f'Some(NamedBy::{form.capitalize()})' if form in NAMES else 'None'})
        elif it.what != 'reserved' and rest == 'Rest::Nothing':
            rest = rest_of(row, it, shown, deep)
        elif it.what != 'reserved' and (rest, it.form) != ('Rest::Parameters', 'parameters'):
            raise Wrong(f'{row.name}: {it.name} comes after the rest')
    for it in row.flags:
        words, key, _ = shown_of(row, it)
        flags.append({'words': quoted(f', {words}'), 'key': quoted(key), 'bit': f'{it.flag.number:#04x}'})
    fields = {'size': row.layout.size, 'numbers': array('HeldNumber', numbers, ' ' * 12),
              'flags': array('HeldFlag', flags, ' ' * 12), 'rest': rest}
    return laid_out('Some(Held {', fields, '})', ' ' * 8)


def report(table):
    notes, used = {}, set()
    for row in table['shown']:
        notes[row.type, row.shown] = row.words.strip('-'), row.key, row.form

    def shown_of(row, it):
        used.add((row.name, it.name))
        words = it.name.lower()
        return notes.get((row.name, it.name)) or (words, words.replace(' ', '_'), '-')

    bodies = {}
    for level, (argument, form, deep) in LEVELS.items():
        arms = {}
        for row in table[level]:
            fields = row.layout.fields
            # (lists whose counts are in the value are walked by hand; other numbers without names, and bytes alone, are those of any value)
            unnamed = [it for it in fields if it.what == 'list' and (row.name, it.name) not in notes]
            if row.read == 'kind' or unnamed:
                continue
            if [(it.what, it.form) for it in fields] == [('rest', 'bytes')] and (row.name, fields[0].name) not in notes:
                continue
            arms.setdefault(held(row, shown_of, deep), []).append(f'{row.number:{form}}')
        lines = [f'        {" | ".join(numbers)} => {value},' for value, numbers in arms.items()]
        bodies[level] = '\n'.join([f'    match {argument} {{', *lines, '        _ => None,', '    }'])
    if unused := sorted(set(notes) - used):
        raise Wrong(f'no value that is bytes has {", ".join(" of ".join(it[::-1]) for it in unused)}')
    return RATTLE.format(**bodies)


FILES = {'crates/dcsctp_report/src/registered.rt': report}
MARKED = {}
