# SPDX-License-Identifier: Apache-2.0
"""What several languages say of the table."""
import re
import textwrap

from layouts import registered_of

HEADER_SIZE = 4
"""Bytes of a chunk, a parameter or an error cause before its value."""


def digits(row, upper=False):
    """The number as the standards write it: types and codes of extensions in hexadecimal."""
    if row.number <= (99 if row.level == 'cause' else 255):
        return str(row.number)
    return f'0x{row.number:{"X" if upper else "x"}}'


def reference(row):
    """Where the standard says what a thing is."""
    number, _, section = row.standard.partition(' ')
    if not number.isdigit():
        return number
    return f'RFC {number} {"appendix" if section.isalpha() else "section"} {section}' if section else f'RFC {number}'


def rule_name(row):
    """The name of a rule, as sctp_dump writes it."""
    return row.identifier.lower().replace('_', '-')


def rule_standard(row):
    """The section that gives a rule, or the sections."""
    number, _, sections = row.standard.partition(' ')
    return f'RFC {number} section{"s" if " and " in sections else ""} {sections}'


LISTS = {'chunk': 'chunks', 'parameter': 'parameters', 'cause': 'error causes'}
"""The levels that have a `value`, and what they number."""


# ---- the fields of registered types

def fields_of(row):
    """The name and the form of each field of a value, in order: numbers with a name, an address, and what ends the value. Lists whose
    counts are in the value are its end together: each count is one of `counts`, and the lists are bytes."""
    laid, last = row.layout.laid, row.layout.fields[-1:]
    fields = [('counts' if it.what == 'count' else it.name, it.form) for it in laid.numbers + laid.short_numbers]
    fields += [(row.layout.address.name, 'address')] if laid.address else []
    if laid.rest == 'lists':
        return [*fields, ('lists', 'bytes')]
    return fields + [(it.name, it.form if laid.rest == 'items' else laid.rest) for it in last if laid.rest]


OWN_NAMES = {'host name': 'name', 'data': 'bytes'}
"""What programs in Go, JavaScript and C++ call these fields, so that it can't change."""


def registered(table, level):
    """The registered types of a level, and the fields of each, for Go, JavaScript and C++."""
    return [(row, [(OWN_NAMES.get(name, name), form) for name, form in fields_of(row)]) for row in registered_of(table, level)]


NO_BREAK = '\0'
"""A blank at which a line doesn't break."""


def wrapped(begin, fields, end, indent, more):
    """A line of a table whose fields follow one another: more than one line, where it is long."""
    text = begin + ', '.join(field.replace(' ', NO_BREAK) for field in fields) + end
    lines = textwrap.wrap(text, 110, initial_indent=indent, subsequent_indent=more, break_on_hyphens=False)
    return '\n'.join(lines).replace(NO_BREAK, ' ')


# The fields of C's struct dcsctp_registered, for numbers of each size in their order.
C_NUMBERS = {'u32': ('number', 'second_number'), 'u16': ('short_number', 'second_short_number', 'third_short_number')}


def c_registered(row):
    """The fields of struct dcsctp_registered that a value of bytes has: numbers with a name, an address, and the rest."""
    left = {size: list(names) for size, names in C_NUMBERS.items()}
    return [left[form].pop(0) if form in left else 'address' if form == 'address' else 'rest' for _, form in fields_of(row)]


# What each is, in both.
REGISTERED = {'chunk': 'RegisteredChunk', 'parameter': 'RegisteredParameter', 'cause': 'RegisteredCause'}


def kind_name(row):
    return ''.join(word.capitalize() for word in row.identifier.split('_'))


def kind_about(row):
    value = '' if row.value == '-' else f' Its value: {row.value}.'
    return f'{row.name} ({reference(row)}). {row.about}.{value}'


def kinds(table, level):
    """The rows of a level that have such a kind; and of each field its identifier, and its form: that of a number is the name of
    its field in C's struct dcsctp_registered, and three of two bytes that have one name are `counts`."""
    for row in registered_of(table, level):
        forms = {}
        for (name, form), place in zip(fields_of(row), c_registered(row)):
            name = name.lower().replace(' ', '_')
            forms[name] = 'counts' if name in forms else form.replace(' ', '_') if place == 'rest' else place
        yield row, [*forms.items()]


# ---- the struct that C and C++ have for each of these types

SHARED = {'ECNE': 'congestion', 'IPV4_ADDRESS': 'ip_address', 'RANDOM': 'random_or_padding', 'ADD_IP_ADDRESS': 'address_request',
          'UNRESOLVABLE_ADDRESS': 'parameters_cause'}
"""The struct of several types, by the first of them."""


def snake(name):
    return re.sub(r'\W', '_', name).lower()


def members_of(row):
    """The fields of a struct: its name; its form; the field of struct dcsctp_registered; and what is said of it."""
    members, lists = [], [it for it in row.layout.fields if it.what == 'list']
    for it, place in zip((it for it in row.layout.fields if it.what != 'reserved'), c_registered(row)):
        if it.what == 'count':
            members.append((f'{snake(it.name).removesuffix("s")}_count', it.form, place, f'How many: {it.about[0].lower()}{it.about[1:]}'))
        elif it.what == 'list' and it.count:
            named = [of.name for of in lists]
            members.append(('lists', 'bytes', place, f'The {", ".join(named[:-1])} and {named[-1]}, one after the other.'))
        else:
            members.append((snake(it.name), 'short_numbers' if it.what == 'list' else it.form, place, it.about))
    return members


def registered_structs(table, level):
    """The structs of a level, each by its name: the types that have it, and its fields, of which what is said comes from them all.
    A type without fields has none."""
    found = {}
    for row, fields in registered(table, level):
        if fields:
            found.setdefault(tuple(fields), []).append(row)
    structs = {}
    for rows in found.values():
        members = []
        for same in zip(*map(members_of, rows)):
            abouts = [it[3] for it in same]
            apart = [f'Of {row.name}: {it[0].lower()}{it[1:]}' for row, it in zip(rows, abouts)]
            members.append((*same[0][:3], abouts[0] if len(set(abouts)) == 1 else ' '.join(apart)))
        structs[SHARED.get(rows[0].identifier, rows[0].identifier.lower())] = rows, members
    return structs
