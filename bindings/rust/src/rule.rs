// SPDX-License-Identifier: Apache-2.0
//! Which rules a packet breaks.

use crate::error::call;
use crate::ffi;
use crate::rules::Rule;
use core::fmt;
use core::iter::FusedIterator;

/// A set of rules: those that a packet breaks, as an iterator over them in the order of
/// [`Rule::ALL`].
#[derive(Clone, Default, PartialEq, Eq, Hash)]
pub struct Rules(u32);

impl Rules {
    /// Returns whether the rule is one of them.
    #[must_use]
    pub const fn contains(&self, rule: Rule) -> bool {
        self.0 & rule.number() != 0
    }

    /// Returns whether there is none.
    #[must_use]
    pub const fn is_empty(&self) -> bool {
        self.0 == 0
    }

    /// Returns the set as the C API has it: the bit of each rule that is in it.
    #[must_use]
    pub const fn bits(&self) -> u32 {
        self.0
    }
}

impl Iterator for Rules {
    type Item = Rule;

    /// Takes the first rule out of the set.
    fn next(&mut self) -> Option<Rule> {
        let rule = Rule::ALL.into_iter().find(|&it| self.contains(it))?;
        self.0 &= !rule.number();
        Some(rule)
    }

    fn size_hint(&self) -> (usize, Option<usize>) {
        let count = Rule::ALL.iter().filter(|&&it| self.contains(it)).count();
        (count, Some(count))
    }
}

impl ExactSizeIterator for Rules {}
impl FusedIterator for Rules {}

impl fmt::Debug for Rules {
    fn fmt(&self, f: &mut fmt::Formatter) -> fmt::Result {
        f.debug_set().entries(self.clone()).finish()
    }
}

/// What you know of the association that a packet belongs to, when you ask for the
/// [`broken_rules`]. By default: nothing.
///
/// ```
/// use davgyuti::{Known, Rule, broken_rules};
///
/// // A COOKIE ACK with a checksum field of zero.
/// let bytes = *b"\0\x01\0\x02\0\0\0\x07\0\0\0\0\x0b\0\0\x04";
/// let known = Known { refuses_zero: true, ..Known::default() };
/// assert!(broken_rules(&bytes, &known).contains(Rule::ZeroChecksum));
/// assert!(broken_rules(&bytes, &Known::default()).is_empty());
/// ```
#[derive(Clone, Copy, Default, PartialEq, Eq, Hash, Debug)]
pub struct Known {
    /// Whether the end that it goes to sent INIT or INIT ACK without Zero Checksum Acceptable (RFC
    /// 9653 section 4).
    pub refuses_zero: bool,
    /// Whether an end sent DATA.
    pub has_data: bool,
    /// Whether an end sent I-DATA.
    pub has_i_data: bool,
}

/// Returns the rules that a packet breaks, by what is known of its association.
///
/// Its common header and its chunks are looked at, up to the first chunk whose length is
/// impossible: a field that isn't there breaks no rule. Its CRC32c is computed here.
///
/// ```
/// use davgyuti::{Init, Known, PacketBuilder, Rule};
///
/// let mut buffer = [0; 100];
/// let mut packet = PacketBuilder::begin(&mut buffer, 5000, 5001, 7)?;
/// let init = Init { initiate_tag: 9, outbound_streams: 1, inbound_streams: 1, ..Init::default() };
/// packet.init(&init)?;
/// let mut rules = davgyuti::broken_rules(packet.seal(), &Known::default());
/// assert_eq!((rules.next(), rules.next()), (Some(Rule::InitTag), Some(Rule::SmallWindow)));
/// assert_eq!(rules.next(), None);
/// let rules: davgyuti::Rules = davgyuti::broken_rules(&[0; 12], &Known::default());
/// assert!(rules.contains(Rule::PortZero) && !rules.is_empty());
/// assert_eq!(rules.bits(), Rule::PortZero.number());
/// # Ok::<(), davgyuti::WriteError>(())
/// ```
#[doc(alias = "dcsctp_broken_rules")]
#[must_use]
pub fn broken_rules(bytes: &[u8], known: &Known) -> Rules {
    let known = ffi::Known {
        refuses_zero: known.refuses_zero,
        has_data: known.has_data,
        has_i_data: known.has_i_data,
    };
    Rules(call!(dcsctp_broken_rules, [bytes], &raw const known))
}
