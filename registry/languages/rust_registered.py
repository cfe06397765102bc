# SPDX-License-Identifier: Apache-2.0
"""The types of IANA's registry that have no kind of their own, by field, in Rust."""
import re
import sys

from languages.rust_words import LICENSE, arm, call, chain, docs, example
from languages.words import REGISTERED, kind_about, kind_name, kinds, members_of, reference

FRONT = '''\
//! The types of IANA's registry that have no kind of their own, by field.

use crate::debug::Bytes;
use crate::items::{Causes, Parameters};
use crate::list::ShortNumbers;
use crate::raw::{Raw, Read};
use crate::types::{CauseCode, ChunkType, ParameterType};
use core::fmt;
use core::net::IpAddr;
'''
ABOUTS = {'RESTART_WITH_NEW_ADDRESSES': {'parameters': 'The parameters that are the new addresses: [`Parameters::addresses`] returns these.'}}
"""What is said of a field here alone."""
TYPES = {
    'number': 'u32', 'second_number': 'u32', 'short_number': 'u16', 'second_short_number': 'u16', 'third_short_number': 'u16',
    'flags': 'u8', 'counts': '[u16; 3]', 'address': 'IpAddr', 'parameters': "Parameters<'a>", 'causes': "Causes<'a>",
    'short_numbers': "ShortNumbers<'a>", 'bytes': "&'a [u8]",
}
"""The type of a field of each form."""
READ = {'counts': 'it.counts()', 'address': 'it.address()?', 'parameters': 'it.parameters()', 'causes': 'it.causes()',
        'short_numbers': 'it.short_numbers()', 'bytes': 'it.rest()'}
"""How a field is read, where it isn't a number."""
WRITTEN = {'counts': 'raw.put_counts(*{0})', 'address': 'raw.put_address(*{0})', 'bytes': 'raw.rest = {0}'}
"""How a field is put where C looks for it."""

LEVELS = {
    'chunk': ('ChunkType', 'chunk_type', "A chunk of the rest of IANA's registry, by its fields: "
              '[`Chunk::registered`](crate::Chunk::registered) reads it, and '
              '[`PacketBuilder::registered`](crate::PacketBuilder::registered) adds it.', '''\
use davgyuti::{Chunk, Parameters, RegisteredChunk, RegisteredParameter};

/// Adds to the addresses of a peer what its ASCONF asks for (RFC 5061 section 4.2.1).
fn change(chunk: &Chunk, addresses: &mut Vec<std::net::IpAddr>) {
    if let Some(RegisteredChunk::Asconf { parameters, .. }) = chunk.registered() {
        for request in parameters {
            if let Some(RegisteredParameter::AddIpAddress { address, .. }) = request.registered() {
                addresses.push(address);
            }
        }
    }
}
# let mut buffer = [0; 100];
# let mut packet = davgyuti::PacketBuilder::begin(&mut buffer, 1, 2, 3)?;
# let (own, added) = ([192, 0, 2, 1].into(), [192, 0, 2, 2].into());
# let asconf = RegisteredChunk::Asconf { sequence_number: 1, address: own, parameters: Parameters::of(&[]) };
# let add = RegisteredParameter::AddIpAddress { correlation_id: 1, address: added };
# packet.registered(&asconf)?.registered_parameter(&add)?;
# let mut addresses = vec![];
# change(&Chunk::at(packet.as_bytes(), 12).unwrap(), &mut addresses);
# assert_eq!(addresses, [added]);
# Ok::<(), davgyuti::WriteError>(())'''),
    'parameter': ('ParameterType', 'parameter_type', "A parameter of the rest of IANA's registry, by its fields: "
                  '[`Parameter::registered`](crate::Parameter::registered) reads it, and '
                  '[`ChunkBuilder::registered_parameter`](crate::ChunkBuilder::registered_parameter) adds it.', '''\
use davgyuti::{Parameter, ParameterType, RegisteredParameter};

let mut output = [0; 8];
let parameter = Parameter::write(&mut output, ParameterType::IPV4_ADDRESS, &[192, 0, 2, 1])?;
let address = [192, 0, 2, 1].into();
assert_eq!(parameter.registered(), Some(RegisteredParameter::Ipv4Address { address }));
# Ok::<(), davgyuti::WriteError>(())'''),
    'cause': ('CauseCode', 'code', "An error cause of the rest of IANA's registry, by its fields: "
              '[`Cause::registered`](crate::Cause::registered) reads it, and '
              '[`ChunkBuilder::registered_cause`](crate::ChunkBuilder::registered_cause) adds it.', '''\
use davgyuti::{Cause, CauseCode, RegisteredCause};

let mut output = [0; 8];
let cause = Cause::write(&mut output, CauseCode::STALE_COOKIE, &[0, 0, 1, 0])?;
assert_eq!(cause.registered(), Some(RegisteredCause::StaleCookie { microseconds: 256 }));
# Ok::<(), davgyuti::WriteError>(())'''),
}
"""Of each level the type of its numbers, its method here, what the enum is, and an example."""


def flags_of(row):
    """The names of the flags of a kind's chunk here, and each."""
    return [(f'{row.identifier}_{it.flag.identifier}', it) for it in row.flags]


def flagged(table, level):
    """The kinds of a level, whose first field is the flags of the chunk, where these have a meaning."""
    return [(row, [*[('flags', 'flags')] * bool(row.flags), *fields]) for row, fields in kinds(table, level)]


def declared(row, fields):
    """A variant, and what is said of it."""
    name = kind_name(row)
    text = docs(re.sub(r'a_rwnd|GapAckBlock\*', r'`\g<0>`', kind_about(row)), 4)
    if not fields:
        return f'{text}    {name},\n'
    said = {it: about.replace('The octets of an', 'An') for it, _, _, about in members_of(row)} | ABOUTS.get(row.identifier, {})
    if 'lists' in said:
        said['counts'] = said['lists'].replace('The ', 'How many ').replace(', one after the other', '')
    if row.flags:
        *most, last = [f'[`{flag}`](Self::{flag})' for flag, _ in flags_of(row)]
        said['flags'] = f'Flags: {", ".join(most)} and {last}.'
    lines = ''.join(docs(said[field], 8) + f'        {field}: {TYPES[form]},\n' for field, form in fields)
    return f'{text}    {name} {{\n{lines}    }},\n'


def pattern(row, fields):
    return f'Self::{kind_name(row)}' + (f' {{ {", ".join(name for name, _ in fields)} }}' if fields else '')


def read(row, fields, number):
    """The arm that reads a kind."""
    head = f'{number}::{row.identifier} => '
    if not fields:
        return f'            {head}Self::{kind_name(row)},\n'
    parts = [f'{name}: {READ.get(form) or f"it.fields.{form}"}' for name, form in fields]
    line = f'            {head}Self::{kind_name(row)} {{ {", ".join(parts)} }},\n'
    if len(line) <= 101:
        return line
    inner = call(16, f'Self::{kind_name(row)} {{ ', parts, ' }')
    if inner.count('\n') == 1:
        return f'            {head}{{\n{inner}            }}\n'
    return call(12, f'{head}Self::{kind_name(row)} {{ ', parts, ' },')


def written(row, fields):
    """The arm that puts a kind's fields where C looks for them."""
    lines = [WRITTEN.get(form, 'raw.rest = {0}.as_bytes()' if TYPES[form].endswith("<'a>") else 'raw.fields.%s = *{0}' % form)
             .format(name) for name, form in fields]
    if not lines:
        return f'            {pattern(row, fields)} => {{}}\n'
    if len(lines) == 1 and len(line := f'            {pattern(row, fields)} => {lines[0]},\n') <= 101:
        return line
    return f'            {pattern(row, fields)} => {{\n' + ''.join(f'                {it};\n' for it in lines) + '            }\n'


def shown(row, fields):
    calls = [f'.debug_struct("{kind_name(row)}")']
    calls += [f'.field("{name}", {"&Bytes(%s)" % name if form == "bytes" else name})' for name, form in fields]
    return chain(12, f'{pattern(row, fields)} => ', 'f', [*calls, '.finish()'], ',')


def enum(table, level):
    name, (number, method, text, lines) = REGISTERED[level], LEVELS[level]
    rows = flagged(table, level)
    for row, fields in rows:
        forms = [form for _, form in fields]
        after = forms[forms.index('address') + 1:] if 'address' in forms else []
        if after not in ([], ['parameters'] if level == 'chunk' else []):
            sys.exit(f'{row.name}: Rust writes no {after[0]} after an address')
    constants = ''.join(docs(f'A flag of {row.name} ({reference(row)}). {it.about}', 4) +
                        f'    pub const {flag}: u8 = {it.flag.number:#04x};\n\n' for row, _ in rows for flag, it in flags_of(row))
    return f'''
{docs(text)}{example(lines.split(chr(10)))}#[derive(Clone, PartialEq, Eq)]
#[non_exhaustive]
pub enum {name}<'a> {{
{''.join(declared(*it) for it in rows)}}}

impl<'a> {name}<'a> {{
{constants}    /// Returns the number of this kind.
    ///
    /// ```
    /// use davgyuti::{{CauseCode, ParameterType, RegisteredCause, RegisteredParameter}};
    ///
    /// let parameter = RegisteredParameter::EcnCapable;
    /// assert_eq!(parameter.parameter_type(), ParameterType::ECN_CAPABLE);
    /// assert_eq!(RegisteredCause::OutOfResource.code(), CauseCode::OUT_OF_RESOURCE);
    /// ```
    #[must_use]
    pub const fn {method}(&self) -> {number} {{
        match self {{
{''.join(arm(12, f'Self::{kind_name(row)}{" { .. }" if fields else ""}', f'{number}::{row.identifier}') for row, fields in rows)}        }}
    }}

    /// What C read of a value.
    pub(crate) fn of(number: {number}, it: &Read<'a>) -> Option<Self> {{
        Some(match number {{
{''.join(read(*it, number) for it in rows)}            _ => return None,
        }})
    }}

    #[allow(clippy::match_same_arms)] // a kind in each
    pub(crate) fn raw(&self) -> Raw<'_> {{
        let mut raw = Raw::default();
        match self {{
{''.join(written(*it) for it in rows)}        }}
        raw
    }}
}}

impl fmt::Debug for {name}<'_> {{
    fn fmt(&self, f: &mut fmt::Formatter<'_>) -> fmt::Result {{
        match self {{
{''.join(shown(*it) for it in rows)}        }}
    }}
}}
'''


def rust_registered(table):
    return ''.join([LICENSE, FRONT, *(enum(table, level) for level in LEVELS)])
