# SPDX-License-Identifier: Apache-2.0
"""What registry/make.py writes of the table in C."""
import re
import textwrap

from header import PATH
from languages.words import NO_BREAK, digits, reference, rule_name, rule_standard

ENUMS = {
    'chunk': ('dcsctp_chunk_type', 'DCSCTP_CHUNK_', 'Types of chunks (RFC 9260 section 3.2).'),
    'parameter': ('dcsctp_parameter_type', 'DCSCTP_PARAMETER_', 'Types of parameters (RFC 9260 section 3.2.1).'),
    'cause': ('dcsctp_cause_code', 'DCSCTP_CAUSE_', 'Codes of error causes (RFC 9260 section 3.3.10).'),
    'result': ('dcsctp_re_config_result', 'DCSCTP_RE_CONFIG_', 'Results of a response of RE-CONFIG (RFC 6525 section 4.4).'),
    'rule': ('dcsctp_rule', 'DCSCTP_RULE_', 'A rule that a check does not look at, as a bit: what breaks it, and the section that gives it.'),
}
NAMES = {
    'chunk': ('dcsctp_chunk_name(uint8_t type)', 'type',
              'Returns the name of a type of chunk as the standards write it; "unknown" for one that has none.'),
    'parameter': ('dcsctp_parameter_name(uint16_t type)', 'type', 'Returns the name of a type of parameter, or "unknown".'),
    'cause': ('dcsctp_cause_name(uint16_t code)', 'code', 'Returns the name of a code of an error cause, or "unknown".'),
    'result': ('dcsctp_re_config_result_name(uint32_t result)', 'result', 'Returns the name of a result of RE-CONFIG, or "unknown".'),
}
PREFIXES = {'result': 'DCSCTP_', 'tag_verdict': 'DCSCTP_TAG_', 'init_fault': 'DCSCTP_INIT_', 'cookie_state': 'DCSCTP_COOKIE_'}
"""Of what calls return the beginning of a constant, where it isn't the enum's name."""


def prefix_of(enum):
    return PREFIXES.get(enum, f'DCSCTP_{enum.upper()}_')


def comment(text, indent=''):
    """A comment, in lines."""
    return '\n'.join(textwrap.wrap(f'/* {text} */', 120, initial_indent=indent, subsequent_indent=f'{indent}   ', break_on_hyphens=False))


def lower(text):
    """A sentence as it goes on after something: its first word small, where that isn't a name."""
    first = text.partition(' ')[0]
    return text if first.upper() == first and len(first) > 1 else text[0].lower() + text[1:]


def enum(name, about, constants):
    """An enum; each constant with its number and its comment, which comes before it where the line would be too long."""
    lines, all_own = [], [f'{constant} = {number}{"," if constant != constants[-1][0] else ""}' for constant, number, _ in constants]
    width = max(map(len, all_own))
    for own, (_, _, text) in zip(all_own, constants):
        line = f'    {own:{width}} /* {text} */'.rstrip() if text else f'    {own}'
        lines += [line] if len(line) <= 128 else [comment(text, '    '), f'    {own}']
    return '\n'.join([comment(about), f'enum {name} {{', *lines, '};', ''])


def numbers(level, rows):
    name, prefix, about = ENUMS[level]
    constants = []
    for row in rows:
        note = 'bytes to this library: ' if getattr(row, 'read', 'kind') != 'kind' else ''
        text = f'{row.text} ({rule_standard(row)})' if level == 'rule' else '' if level == 'result' else f'{note}{reference(row)}'
        constants.append((prefix + row.identifier, f'{row.number:#x}' if level == 'rule' else digits(row), text))
    return enum(name, about, constants)


def returned(row, rows):
    """The enum of what a call returns."""
    constants = [(prefix_of(row.name) + it.identifier, it.number, lower(it.about)) for it in rows if it.of == row.name]
    return enum(f'dcsctp_{row.name}', f'{row.about}.', constants)


def switch(declaration, argument, about, arms, default='unknown'):
    lines = [f'    case {constant}: return "{text}";' for constant, text in arms]
    return '\n'.join([comment(about), f'static inline const char *{declaration}', '{', f'    switch ({argument}) {{', *lines,
                      f'    default: return "{default}";', '    }', '}', ''])


BYTES = '''\
/* Where a constant is marked as bytes to this library, dcsctp_registered_chunk, .._parameter or .._cause reads its value, of
   which a check takes any bytes. */
'''


def base(level, rows):
    """The types of a level that RFC 9260 has, as a list to which a program adds those of extensions."""
    constants = ', '.join(ENUMS[level][1] + row.identifier for row in rows if row.standard.startswith('9260'))
    lines = textwrap.wrap(constants, 116)
    return f'#define DCSCTP_BASE_{level.upper()}S \\\n' + ' \\\n'.join(f'    {line}' for line in lines) + '\n'


BASES = """\
/* The types that RFC 9260 has itself, from which what dcsctp_add_unrecognized_.. takes as known is begun: a program that knows
   I-DATA too has `const uint8_t known[] = {DCSCTP_BASE_CHUNKS, DCSCTP_CHUNK_I_DATA};`. */
"""


def writer_calls():
    """A call of a struct dcsctp_writer for each that adds to a packet, as the header declares it."""
    with open(PATH, encoding='utf-8') as file:
        found = re.findall(r'^uint32_t dcsctp_(add_\w+)\(uint8_t \*packet, size_t room, size_t \*size,? ?([^;]*)\);', file.read(), re.M)
    for name, rest in found:
        given = [' '.join(it.split()) for it in rest.split(',') if it.strip()]
        to_list = given[:1] == ['size_t start']
        given = given[1:] if to_list else given
        head = ', '.join(['struct dcsctp_writer *writer', *given])
        passed = ', '.join(['writer->packet', 'writer->room', '&writer->size', *['writer->last'] * to_list,
                            *(re.search(r'\w+$', it)[0] for it in given)])
        call = f'dcsctp_{name}({passed})'
        body = [f'    return {call};'] if to_list else ['    size_t start = writer->size;',
                                                        f'    return dcsctp_writer_added(writer, start, {call});']
        yield '\n'.join(wrapped(f'static inline uint32_t dcsctp_writer_{name}({head})', '{', *body, '}', ''))


def wrapped(*lines):
    """Lines of code, broken after commas, with what follows below the last bracket."""
    for line in lines:
        fields = re.sub(r'(?<!,) ', NO_BREAK, line)
        yield from (it.replace(NO_BREAK, ' ') for it in textwrap.wrap(
            fields, 120, subsequent_indent=NO_BREAK * (line.rfind('(') + 1), break_on_hyphens=False) or [''])


def header(table):
    results = [('DCSCTP_' + row.identifier, row.text) for row in table['constant'] if row.of == 'result']
    rules = [('DCSCTP_RULE_' + row.identifier, row) for row in table['rule']]
    switches = [switch(*NAMES[level], [(ENUMS[level][1] + row.identifier, row.name) for row in table[level]]) for level in NAMES]
    switches += [
        switch('dcsctp_result_text(uint32_t result)', 'result', 'Returns what a result means, in a few words.', results, 'unknown result'),
        switch('dcsctp_rule_name(uint32_t rule)', 'rule', 'Returns the name of a rule, one bit, as sctp_dump writes it, or "unknown".',
               [(constant, rule_name(row)) for constant, row in rules]),
        switch('dcsctp_rule_text(uint32_t rule)', 'rule', 'Returns what breaks a rule, one bit, in a few words, or "unknown".',
               [(constant, row.text) for constant, row in rules])]
    enums = [returned(row, table['constant']) for row in table['enum']] + [BYTES] + [numbers(level, table[level]) for level in ENUMS]
    bases = BASES + ''.join(base(level, table[level]) for level in ('chunk', 'parameter'))
    return ['\n'.join([*enums, bases]), '\n'.join(switches), '\n'.join(writer_calls())]


FILES = {}
MARKED = {'include/dcsctp.h': header}
