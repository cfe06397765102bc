# SPDX-License-Identifier: Apache-2.0
"""What registry/make.py writes of the registered types in Rattle: how the value of each is laid out, in the code and in the
definition that its contracts cite."""
from layouts import registered_of

from languages.words import LISTS, reference

TYPES = {'chunk': ('a chunk of this type', 'typ: u8'), 'parameter': ('a parameter of this type', 'typ: u16'),
         'cause': ('an error cause of this code', 'code: u16')}
"""What is laid out by a number of a level, and the argument."""
ADDRESSES = {'': 'Nothing', 'ipv4': 'Ipv4', 'ipv6': 'Ipv6', 'address': 'Parameter'}
RESTS = {'': 'Nothing', 'bytes': 'Bytes', 'short numbers': 'ShortNumbers', 'items': 'Items', 'lists': 'Lists'}


def parts(row):
    """How many numbers of four bytes a value has and of two, how many reserved bytes, its address, and its rest."""
    it = row.layout.laid
    return len(it.numbers), len(it.short_numbers), it.reserved, ADDRESSES[it.address], RESTS[it.rest]


def digits(row):
    return f'{row.number:#06x}' if row.level != 'chunk' and row.number > 99 else str(row.number)


CODE = '''\
//! How the values of {levels} are laid out that have no kind. registry/make.py writes this file:
//! registry/sctp.txt is edited in its place.

ghost use Rattle.std.specs.Prelude.{{◌≡◌}};
ghost use Rattle.dcsctp_registry.specs.{{{module}.{{{level}_rows}}, Registered.{{layout_in}}}};

use crate::layout::{{AddressForm, Layout, Rest}};

{constants}
/// Returns how the value of {a}
/// is laid out; `None` if and only if it isn't one of these.
#[tactic(auto, unfolding(crate::specs::{module}::{level}_rows))]
pub fn {level}_layout({argument}) -> Option<Layout>
    ensures {{ result ≡ layout_in {level}_rows {name} }}
{{
    let (numbers, short_numbers, reserved, address, rest) = match {name} {{
{arms}
        _ => return None,
    }};
    Some(Layout {{
        numbers,
        short_numbers,
        reserved,
        address,
        rest,
    }})
}}
'''
DEFINITION = '''\
-- How the values of {levels} are laid out that have no kind. registry/make.py writes this file:
-- registry/sctp.txt is edited in its place.
use Rattle.std.specs.Prelude.{{List, [], ◌∷◌}}
use Rattle.dcsctp_registry.specs.Row.{{Row, row}}
use Rattle.dcsctp_registry.specs.declared.layout.AddressForm.TheVariants as address
use Rattle.dcsctp_registry.specs.declared.layout.Rest.TheVariants as rest

unfoldable pub {level}_rows : List Row
{level}_rows =
{rows}
    []
'''


def constant(about, name, typ, number):
    return f'/// {about}.\npub const {name}: {typ} = {number};\n'


def indexes(row):
    """A constant for each number of a value: which one it is of those of its size; and where counts are, of what has lists."""
    for them, size in ((row.layout.laid.numbers, 'four'), (row.layout.laid.short_numbers, 'two')):
        for index, it in enumerate(them):
            name = f'{row.identifier}_{it.name.upper().replace(" ", "_")}'
            said = f'the count of {it.name}' if it.what == 'count' else f'the {it.name}'
            yield constant(f'The index of {said} of {row.name} among its numbers of {size} bytes', name, 'usize', index)
            if it.what == 'count':
                yield constant(f'The offset of {said} in the value of {row.name}', f'{name}_OFFSET', 'usize', it.at)
    if row.layout.lists and row.layout.lists[0].count:
        yield constant(f'The offset of the lists in the value of {row.name}', f'{row.identifier}_LISTS_OFFSET', 'usize', row.layout.size)


def code(table, level):
    a, argument = TYPES[level]
    name, _, typ = argument.partition(': ')
    what = a.rpartition(' ')[2]
    constants, arms = [], []
    for row in registered_of(table, level):
        numbers, shorts, reserved, address, rest = parts(row)
        constants += [constant(f'The {what} of {row.name} ({reference(row)})', row.identifier, typ, digits(row)), *indexes(row)]
        arms.append(f'        {row.identifier} => ({numbers}, {shorts}, {reserved}, AddressForm::{address}, Rest::{rest}),')
    return CODE.format(levels=LISTS[level], level=level, module=f'{level.capitalize()}Layouts', argument=argument, name=name, a=a,
                       constants='\n'.join(constants), arms='\n'.join(arms))


def definition(table, level):
    rows = []
    for row in registered_of(table, level):
        numbers, shorts, reserved, address, rest = parts(row)
        rows.append(f'    -- {row.name} ({reference(row)})\n'
                    f'    row {digits(row)} {numbers} {shorts} {reserved} address.{address} rest.{rest} ∷')
    return DEFINITION.format(levels=LISTS[level], level=level, rows='\n'.join(rows))


BY_TYPE = '''\
//! What is made of the layout of a type that has no kind. Each layout is a constant where it is used,
//! so that what is made of it is compiled for it alone. registry/make.py writes this file:
//! registry/sctp.txt is edited in its place.

ghost use Rattle.std.specs.{{Prelude.{{◌≡◌}}, Option.{{option_and_then}}}};
ghost use Rattle.dcsctp_registry.specs.{{CauseLayouts.{{cause_rows}}, ChunkLayouts.{{chunk_rows}}, ParameterLayouts.{{parameter_rows}}, Registered.{{layout_in}}}};

use crate::registered::ByLayout;
use dcsctp_registry::layout::{{AddressForm, Layout, Rest}};
{functions}
/// Returns a layout by its parts.
#[inline(always)]
fn layout(numbers: u8, short_numbers: u8, reserved: u8, address: AddressForm, rest: Rest) -> Layout
    ensures {{ result ≡ record {{
      numbers = numbers;
      short_numbers = short_numbers;
      reserved = reserved;
      address = address;
      rest = rest;
    }} }}
{{
    Layout {{
        numbers,
        short_numbers,
        reserved,
        address,
        rest,
    }}
}}
'''
OF_LEVEL = '''
/// Returns what is made of the layout of {a}.
#[tactic(auto, unfolding(dcsctp_registry::specs::{module}::{level}_rows))]
pub(crate) fn {level}_by_type<M: ByLayout>({argument}, maker: &M) -> Option<M::Made>
    ensures {{ result ≡ option_and_then (M.made maker.now) (layout_in {level}_rows {name}) }}
{{
    match {name} {{
{arms}
        _ => None,
    }}
}}
'''


def of_level(table, level):
    a, argument = TYPES[level]
    arms = []
    # (each type has an arm of its own, of which the compiler makes a table of jumps; it makes comparisons of types that share one)
    for row in registered_of(table, level):
        numbers, shorts, reserved, address, rest = parts(row)
        arms.append(f'        {digits(row)} => maker.by(layout({numbers}, {shorts}, {reserved}, AddressForm::{address}, Rest::{rest})),')
    return OF_LEVEL.format(level=level, module=f'{level.capitalize()}Layouts', argument=argument, name=argument.partition(':')[0], a=a,
                           arms='\n'.join(arms))


def by_type(table):
    return BY_TYPE.format(functions=''.join(of_level(table, level) for level in LISTS))


CRATE = 'crates/dcsctp_registry'
FILES = {f'{CRATE}/src/{level}_layouts.rt': lambda table, level=level: code(table, level) for level in LISTS} | {
    f'{CRATE}/specs/{level.capitalize()}Layouts.antt': lambda table, level=level: definition(table, level) for level in LISTS} | {
    'crates/dcsctp_c/src/registered_by_type.rt': by_type}
MARKED = {}
