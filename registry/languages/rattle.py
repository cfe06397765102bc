# SPDX-License-Identifier: Apache-2.0
"""What registry/make.py writes of the table in Rattle."""
from languages.words import HEADER_SIZE, reference


def rattle_names(rows, argument, form):
    """The body of a function from a number to a name."""
    arms = [f'        {row.number:{form}} => Some("{row.name}"),' for row in rows]
    return '\n'.join([f'    match {argument} {{', *arms, '        _ => None,', '    }'])


def rattle_least(rows, argument, form):
    """The body of a function from a number to the least length and the step."""
    arms = {}
    for row in rows:
        least, _, step = row.least.partition('+')
        if least not in ('-', '0'):
            length = HEADER_SIZE + int(least), int(step) if step.isdigit() else 0
            arms.setdefault(length, []).append(f'{row.number:{form}}')
    lines = [f'        {" | ".join(numbers)} => {length},' for length, numbers in arms.items()]
    return '\n'.join([f'    match {argument} {{', *lines, f'        _ => ({HEADER_SIZE}, 0),', '    }'])


def rattle_sections(rows, argument, form):
    """The body of a function from a number to its standard's section."""
    arms = {}
    for row in rows:
        arms.setdefault(reference(row), []).append(f'{row.number:{form}}')
    lines = [f'        {" | ".join(numbers)} => Some("{section}"),' for section, numbers in arms.items()]
    return '\n'.join([f'    match {argument} {{', *lines, '        _ => None,', '    }'])


RATTLE = '''\
//! The names of types and codes, and the least lengths. registry/make.py writes this file:
//! registry/sctp.txt is edited in its place.

// IANA, "SCTP Parameters", "Chunk Types", and {drafts} of drafts.
/// Returns the name of a chunk type, in the words of its standard; `None` of a type that has none
/// here.
pub fn chunk_name(typ: u32) -> Option<&'static str> {{
{chunk_names}
}}

// IANA, "SCTP Parameters", "Chunk Parameter Types".
/// Returns the name of a parameter.
pub fn parameter_name(typ: u16) -> Option<&'static str> {{
{parameter_names}
}}

// IANA, "SCTP Parameters", "Error Cause Codes".
/// Returns the name of an error cause.
pub fn cause_name(code: u16) -> Option<&'static str> {{
{cause_names}
}}

// IANA, "SCTP Parameters", "SCTP Payload Protocol Identifiers", where Wireshark's table agrees; in
// their short forms.
/// Returns the name of a payload protocol identifier.
pub fn payload_protocol(ppid: u32) -> Option<&'static str> {{
{protocol_names}
}}

// RFC 8832 section 5.1.
/// Returns what a type of data channel says of its messages.
pub fn channel_type_name(typ: u32) -> Option<&'static str> {{
{channel_names}
}}

// RFC 9260 section 3.3.2.1.
/// Returns the name of a type of address.
pub fn address_name(typ: u32) -> Option<&'static str> {{
{address_names}
}}

// RFC 4895 section 3.3.
/// Returns the name of an HMAC by its identifier.
pub fn hmac_name(identifier: u32) -> Option<&'static str> {{
{hmac_names}
}}

// RFC 6525 section 4.4.
/// Returns the name of a result of a RE-CONFIG request.
pub fn result_name(code: u32) -> Option<&'static str> {{
{result_names}
}}

/// Returns the section that defines a chunk type; `None` of a type that has no name here.
pub fn chunk_section(typ: u8) -> Option<&'static str> {{
{chunk_sections}
}}

/// Returns the section that defines a parameter.
pub fn parameter_section(typ: u16) -> Option<&'static str> {{
{parameter_sections}
}}

/// Returns the section that defines an error cause.
pub fn cause_section(code: u16) -> Option<&'static str> {{
{cause_sections}
}}

/// Returns the least length of a chunk of this type, with its header, and the step by which it can
/// be longer: 0, where it can't, and where its bytes say by how much. A type that isn't listed has
/// the header's length, and 0.
pub fn least_chunk(typ: u8) -> (usize, u8) {{
{least_chunks}
}}

/// Returns the least length and the step of a parameter of this type, as `least_chunk` does.
pub fn least_parameter(typ: u16) -> (usize, u8) {{
{least_parameters}
}}

/// Returns the least length and the step of an error cause of this code, as `least_chunk` does.
pub fn least_cause(code: u16) -> (usize, u8) {{
{least_causes}
}}
'''


def rattle(table):
    drafts = ' and '.join(str(row.number) for row in table['chunk'] if row.read == 'draft')
    return RATTLE.format(
        drafts=drafts,
        chunk_names=rattle_names(table['chunk'], 'typ', 'd'),
        parameter_names=rattle_names(table['parameter'], 'typ', '#06x'),
        cause_names=rattle_names(table['cause'], 'code', '#06x'),
        protocol_names=rattle_names(table['protocol'], 'ppid', 'd'),
        channel_names=rattle_names(table['channel'], 'typ', '#04x'),
        address_names=rattle_names(table['address'], 'typ', 'd'),
        hmac_names=rattle_names(table['hmac'], 'identifier', 'd'),
        result_names=rattle_names(table['result'], 'code', 'd'),
        chunk_sections=rattle_sections(table['chunk'], 'typ', 'd'),
        parameter_sections=rattle_sections(table['parameter'], 'typ', '#06x'),
        cause_sections=rattle_sections(table['cause'], 'code', '#06x'),
        least_chunks=rattle_least(table['chunk'], 'typ', 'd'),
        least_parameters=rattle_least(table['parameter'], 'typ', '#06x'),
        least_causes=rattle_least(table['cause'], 'code', '#06x'))


FILES = {'crates/dcsctp_report/src/registry.rt': rattle}
MARKED = {}
