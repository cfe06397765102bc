# SPDX-License-Identifier: Apache-2.0
"""The numbers that have names, what calls return, and the rules, in Rust."""
from languages.rust_words import LICENSE, camel, docs, example
from languages.words import REGISTERED, digits, kind_name, reference, rule_name, rule_standard

# ---- types of chunks and parameters, codes of error causes

TYPES = '''\
//! The numbers that the RFCs have names for.

use core::fmt;

/// Defines a type of such numbers, with a constant and a name for each.
macro_rules! named {
    (
        $(#[$about:meta])*
        $name:ident($number:ty), $other:literal, $width:literal;
        $($(#[$section:meta])* $constant:ident = $value:literal, $text:literal;)*
    ) => {
        $(#[$about])*
        #[repr(transparent)]
        #[derive(Clone, Copy, PartialEq, Eq, PartialOrd, Ord, Hash)]
        pub struct $name(pub $number);

        impl $name {
            $($(#[$section])* pub const $constant: Self = Self($value);)*

            /// Returns the name as the standards write it, in ASCII; `"unknown"` for a number that
            /// has no constant here.
            ///
            /// ```
            /// assert_eq!(davgyuti::CauseCode::STALE_COOKIE.name(), "Stale Cookie");
            /// assert_eq!(davgyuti::CauseCode(99).name(), "unknown");
            /// ```
            #[must_use]
            pub const fn name(self) -> &'static str {
                match self.0 {
                    $($value => $text,)*
                    _ => "unknown",
                }
            }

            /// Returns whether the number has a constant here, and so a [name](Self::name). That
            /// says nothing of your association: list what it knows yourself.
            ///
            /// ```
            /// assert!(davgyuti::ParameterType::STATE_COOKIE.is_known());
            /// assert!(!davgyuti::ParameterType(0x8006).is_known());
            /// ```
            #[must_use]
            #[allow(clippy::manual_range_patterns)] // the numbers come one by one
            pub const fn is_known(self) -> bool {
                matches!(self.0, $($value)|*)
            }
        }

        /// Writes the name; for a number that has none, the number in decimal and in hexadecimal.
        impl fmt::Display for $name {
            fn fmt(&self, f: &mut fmt::Formatter<'_>) -> fmt::Result {
                if self.is_known() {
                    f.pad(self.name())
                } else {
                    write!(f, concat!($other, " {0} ({0:#0", $width, "x})"), self.0)
                }
            }
        }

        /// Writes the number, as of [`u8`] or [`u16`].
        impl fmt::LowerHex for $name {
            fn fmt(&self, f: &mut fmt::Formatter<'_>) -> fmt::Result {
                fmt::LowerHex::fmt(&self.0, f)
            }
        }

        /// Writes the number, as of [`u8`] or [`u16`].
        impl fmt::UpperHex for $name {
            fn fmt(&self, f: &mut fmt::Formatter<'_>) -> fmt::Result {
                fmt::UpperHex::fmt(&self.0, f)
            }
        }

        /// The same as [`Display`](fmt::Display).
        impl fmt::Debug for $name {
            fn fmt(&self, f: &mut fmt::Formatter<'_>) -> fmt::Result {
                fmt::Display::fmt(self, f)
            }
        }

        impl From<$number> for $name {
            fn from(number: $number) -> Self {
                Self(number)
            }
        }

        impl From<$name> for $number {
            fn from(it: $name) -> Self {
                it.0
            }
        }
    };
}
'''
LEVELS = {
    'chunk': ('A type of chunk (RFC 9260 section 3.2): any number of a byte, with names for some.', 'ChunkType(u8), "chunk type", 4', [
        'use davgyuti::ChunkType;', '', 'let types = [ChunkType::SACK, ChunkType(0x4d)];',
        'assert_eq!(types.map(|it| it.name()), ["SACK", "unknown"]);',
        'assert_eq!(types.map(|it| it.is_known()), [true, false]);',
        'assert_eq!(types.map(|it| it.to_string()), ["SACK", "chunk type 77 (0x4d)"]);',
        'assert_eq!(format!("{:x} {:#04X}", types[1], types[0]), "4d 0x03");']),
    'parameter': ('A type of parameter (RFC 9260 section 3.2.1): any number of two bytes, with names for some.',
                  'ParameterType(u16), "parameter type", 6', [
                      'use davgyuti::ParameterType;', '', 'let other = ParameterType(0x8006);', 'assert!(!other.is_known());',
                      'assert_eq!(other.to_string(), "parameter type 32774 (0x8006)");',
                      'assert_eq!(ParameterType::STATE_COOKIE.to_string(), "State Cookie");']),
    'cause': ('A code of an error cause (RFC 9260 section 3.3.10): any number of two bytes, with names for some.',
              'CauseCode(u16), "cause code", 6', [
                  'use davgyuti::CauseCode;', '', 'assert_eq!(CauseCode(99).to_string(), "cause code 99 (0x0063)");',
                  'assert_eq!(CauseCode::NO_USER_DATA.name(), "No User Data");']),
}
"""Of each level what the type of its numbers is."""


def rust_types(table):
    def constant(row):
        text = f'{row.about} ({reference(row)}).'
        if row.read != 'kind':
            text += f' By field it is [`{kind_name(row)}`](crate::{REGISTERED[row.level]}::{kind_name(row)}).'
        return f'{docs(text, 4)}    {row.identifier} = {digits(row, upper=True)}, "{row.name}";\n'

    texts = [LICENSE, TYPES]
    for level, (text, name, lines) in LEVELS.items():
        texts += ['\nnamed! {\n', docs(text, 4), example(lines, 4), f'    {name};\n', *map(constant, table[level]), '}\n']
    return ''.join(texts)


# ---- what calls return

RETURNED = '''\
//! What calls return.

use core::fmt;

/// Defines what an enum of the C API is here: a number, and a few words.
macro_rules! numbered {
    ($name:ident, $number:ident, $($case:ident = $value:literal, $text:literal;)*) => {
        impl $name {
            /// Returns the number that the C API has for it.
            ///
            /// ```
            /// assert_eq!(davgyuti::Answer::Abort.number(), 4);
            /// assert_eq!(davgyuti::WriteError::BadPlace.code(), 10);
            /// ```
            #[must_use]
            pub const fn $number(self) -> u32 {
                self as u32
            }

            /// Returns what it is, in a few words.
            ///
            /// ```
            /// assert_eq!(davgyuti::Answer::Abort.text(), "ABORT");
            /// assert_eq!(davgyuti::WriteError::NoRoom.text(), "no room");
            /// ```
            #[must_use]
            pub const fn text(self) -> &'static str {
                match self {
                    $(Self::$case => $text,)*
                }
            }

            /// The one of a number; none where no case has it.
            pub(crate) const fn of_number(number: u32) -> Option<Self> {
                Some(match number {
                    $($value => Self::$case,)*
                    _ => return None,
                })
            }
        }

        impl fmt::Display for $name {
            fn fmt(&self, f: &mut fmt::Formatter<'_>) -> fmt::Result {
                f.pad(self.text())
            }
        }
    };
}
'''
ENUMS = {
    'action': ('Action', '[`unrecognized_chunk`](crate::unrecognized_chunk) has an example.'),
    'tag_verdict': ('TagVerdict', '[`verify_tag`](crate::verify_tag) has an example.'),
    'answer': ('Answer', '[`out_of_the_blue`](crate::out_of_the_blue) has an example; '
                         '[`PacketBuilder::reply`](crate::PacketBuilder::reply) writes what is sent back.'),
    'init_fault': ('InitFault', '[`init_fault`](crate::init_fault) has an example.'),
    'refusal': ('Refusal', '[`init_refusal`](crate::init_refusal) has an example; '
                           '[`PacketBuilder::init_abort`](crate::PacketBuilder::init_abort) writes the ABORT.'),
}
"""Of enums that are the same here the name, and what else is said of it."""
ERRORS = {
    'FaultKind': ('FAULT_', 'Why bytes are no packet.', [
        'use davgyuti::{Fault, FaultKind, UnknownNumber};', '', 'let fault = Fault { kind: FaultKind::Checksum, offset: 8 };',
        'assert_eq!(FaultKind::from(fault).to_string(), "wrong checksum");',
        'assert_eq!(FaultKind::try_from(fault.kind.code()), Ok(FaultKind::Checksum));',
        'assert_eq!(FaultKind::try_from(0), Err(UnknownNumber(0)));']),
    'WriteError': (('NO_ROOM', 'BAD_'), 'Why nothing was written into a packet.', [
        'use davgyuti::{PacketBuilder, WriteError};', '', 'let mut buffer = [0; 12];',
        'let mut packet = PacketBuilder::begin(&mut buffer, 5000, 5001, 7)?;',
        'assert_eq!(packet.cookie_ack().unwrap_err(), WriteError::NoRoom);', '# Ok::<(), WriteError>(())']),
}
"""Of the results of calls those that are errors: how their constants begin, what they are, and an example."""
EXAMPLES = {'action': 'Action::Skip.text(), "skip"', 'tag_verdict': 'TagVerdict::Accept.text(), "accept"',
            'answer': 'Answer::Discard.text(), "discard"', 'init_fault': 'InitFault::TagZero.text(), "initiate tag 0"',
            'refusal': 'Refusal::Abort.text(), "abort"'}


def enum(name, number, text, lines, cases, begin='', attributes=''):
    """An enum, and what it has in common with the others."""
    arms = [(camel(it.identifier.removeprefix(begin)), it) for it in cases]
    # (without these an enum can grow)
    return ''.join([
        '\n', docs(text), example(lines), f'#[derive(Clone, Copy, PartialEq, Eq, Hash, Debug)]\n{attributes}pub enum {name} {{\n',
        *(docs(f'{it.about}.', 4) + f'    {case} = {it.number},\n' for case, it in arms), f'}}\n\nnumbered! {{\n    {name}, {number},\n',
        *(f'    {case} = {it.number}, "{it.text}";\n' for case, it in arms), '}\n'])


def rust_returned(table):
    def cases(of, begin=''):
        return [it for it in table['constant'] if it.of == of and it.identifier.startswith(begin)]

    texts = [LICENSE, RETURNED]
    for row in table['enum']:
        if row.name in ENUMS:
            name, more = ENUMS[row.name]
            # (what has no fault is none)
            some = [it for it in cases(row.name) if it.identifier != 'NO_FAULT']
            texts.append(enum(name, 'number', f'{row.about}. {more}', [f'assert_eq!(davgyuti::{EXAMPLES[row.name]});'], some))
    for name, (begin, text, lines) in ERRORS.items():
        prefix = begin if isinstance(begin, str) else ''
        texts.append(enum(name, 'code', text, lines, cases('result', begin), prefix, '#[non_exhaustive]\n'))
        texts.append(f'''
impl core::error::Error for {name} {{}}

impl TryFrom<u32> for {name} {{
    type Error = crate::UnknownNumber;

    /// Returns the one of a [`code`](Self::code).
    fn try_from(code: u32) -> Result<Self, Self::Error> {{
        Self::of_number(code).ok_or(crate::UnknownNumber(code))
    }}
}}
''')
    return ''.join(texts)


# ---- rules

RULES = '''\
//! The rules that a packet may break.

use core::fmt;

/// A rule of the RFCs beyond what [`check`](crate::check) looks at, which accepts a packet that
/// breaks it: what breaks it, and the section that gives it.
/// [`broken_rules`](crate::broken_rules) has an example.
///
/// The section of each says what is done with such a packet, if anything is. A later version may
/// have more rules.
///
/// ```
/// use davgyuti::Rule;
///
/// assert_eq!(Rule::PortZero.to_string(), "a port is 0");
/// ```
#[derive(Clone, Copy, PartialEq, Eq, PartialOrd, Ord, Hash, Debug)]
#[non_exhaustive]
pub enum Rule {
%s}

impl Rule {
    /// All rules, in the order of their bits.
    pub const ALL: [Self; %d] = [
%s    ];

    /// Returns its bit in [`Rules::bits`](crate::Rules::bits): the number that the C API has for it.
    ///
    /// ```
    /// assert_eq!(davgyuti::Rule::InitTag.number(), 4);
    /// ```
    #[must_use]
    pub const fn number(self) -> u32 {
        self as u32
    }

    /// Returns its name: words with hyphens, as `sctp_dump --check` writes it.
    ///
    /// ```
    /// assert_eq!(davgyuti::Rule::InitTag.name(), "init-tag");
    /// ```
    #[doc(alias = "dcsctp_rule_name")]
    #[must_use]
    pub const fn name(self) -> &'static str {
        match self {
%s        }
    }

    /// Returns what breaks it, in a few words.
    ///
    /// ```
    /// assert_eq!(davgyuti::Rule::ReservedBits.text(), "reserved flags are set");
    /// ```
    #[doc(alias = "dcsctp_rule_text")]
    #[must_use]
    pub const fn text(self) -> &'static str {
        match self {
%s        }
    }
}

impl fmt::Display for Rule {
    fn fmt(&self, f: &mut fmt::Formatter<'_>) -> fmt::Result {
        f.pad(self.text())
    }
}
'''


def rust_rules(table):
    rows = [(camel(row.identifier), row) for row in table['rule']]

    def number(row):
        digits = f'{row.number:x}'
        return f'0x{digits[:-4]}_{digits[-4:]}' if len(digits) > 4 else f'0x{digits}'

    return LICENSE + RULES % (
        ''.join(docs(f'{row.text[0].upper()}{row.text[1:]} ({rule_standard(row)}).', 4) + f'    {case} = {number(row)},\n'
                for case, row in rows),
        len(rows), ''.join(f'        Self::{case},\n' for case, _ in rows),
        ''.join(f'            Self::{case} => "{rule_name(row)}",\n' for case, row in rows),
        ''.join(f'            Self::{case} => "{row.text}",\n' for case, row in rows))
