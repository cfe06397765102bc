// SPDX-License-Identifier: Apache-2.0
//! The word of a packet by the processor's own instruction for CRC32c, where it has one: SSE4.2 and
//! PCLMULQDQ on x86-64, CRC on arm64. It is looked for at run time.
//!
//! **Not proved**: `tests/processor.rs` compares it with the library's.

use crate::packet::Word;

/// Returns the word of a packet; none for fewer than 12 bytes, or where the instruction isn't there.
#[inline]
pub(crate) fn word(bytes: &[u8]) -> Option<Word> {
    let (first, rest) = (bytes.first_chunk()?, bytes.get(12..)?);
    // SAFETY: it is there.
    is_there().then(|| Word::from_crc32c(!unsafe { after(u64::from_le_bytes(*first), rest) }))
}

/// The numbers of eight bytes that a slice is, without the rest.
fn eights(bytes: &[u8]) -> impl Iterator<Item = u64> {
    bytes.chunks_exact(8).map(|it| u64::from_le_bytes(it.try_into().unwrap_or_default()))
}

#[cfg(target_arch = "x86_64")]
use x86_64::{after, is_there};

#[cfg(target_arch = "x86_64")]
mod x86_64 {
    use super::eights;
    use core::arch::x86_64::{
        _mm_clmulepi64_si128, _mm_crc32_u8, _mm_crc32_u32, _mm_crc32_u64, _mm_cvtsi64_si128,
        _mm_cvtsi128_si64,
    };

    /// The most numbers of eight bytes in a lane, and the fewest bytes that take less time in three.
    const LANE: usize = 64;
    const LEAST: usize = 96;

    /// At `n`, what moves a CRC over `n` numbers of eight bytes: x^(64 n - 33) modulo the polynomial of
    /// CRC32c, with x^0 in the highest bit. Each is the one before it times x^64, the first one x^31.
    const OVER: [u32; 2 * LANE + 1] = {
        let (mut over, mut power, mut n) = ([0; 2 * LANE + 1], 1, 1);
        while n < over.len() {
            over[n] = power;
            let mut place = 0;
            while place < 64 {
                power = (power >> 1) ^ (0x82f6_3b78 * (power & 1));
                place += 1;
            }
            n += 1;
        }
        over
    };

    pub(super) fn is_there() -> bool {
        std::is_x86_feature_detected!("sse4.2") && std::is_x86_feature_detected!("pclmulqdq")
    }

    /// Returns what a CRC, xored to the last of `n` numbers, does in place of the CRC before the first.
    ///
    /// # Safety
    /// The instruction [is there](is_there).
    #[target_feature(enable = "sse4.2,pclmulqdq")]
    #[allow(unused_unsafe)] // the calls are safe from Rust 1.86 on
    #[allow(clippy::cast_possible_wrap, clippy::cast_sign_loss)] // bits are meant
    unsafe fn moved(register: u64, n: usize) -> u64 {
        // SAFETY: the caller knows that the instruction is there.
        unsafe {
            let by = _mm_cvtsi64_si128(i64::from(OVER[n]));
            let product = _mm_clmulepi64_si128::<0>(_mm_cvtsi64_si128(register as i64), by);
            _mm_cvtsi128_si64(product) as u64
        }
    }

    /// Returns the register after eight bytes, four zeros and the rest.
    ///
    /// # Safety
    /// The instruction [is there](is_there).
    #[target_feature(enable = "sse4.2,pclmulqdq")]
    #[allow(unused_unsafe)] // the calls are safe from Rust 1.86 on
    #[allow(clippy::cast_possible_truncation)] // a register has 32 bits
    pub(super) unsafe fn after(first: u64, mut rest: &[u8]) -> u32 {
        // SAFETY: the caller knows that the instruction is there.
        unsafe {
            let mut register = u64::from(_mm_crc32_u32(_mm_crc32_u64(!0 >> 32, first) as u32, 0));
            // An instruction waits for three of its kind: so three lanes are gone along at once, the
            // second and third from a CRC of zero.
            while rest.len() >= LEAST {
                let lane = (rest.len() / 24).min(LANE);
                let (one, others) = rest.split_at(8 * lane);
                let (two, others) = others.split_at(8 * lane);
                let (three, others) = others.split_at(8 * lane);
                let (three, last) = three.split_at(8 * lane - 8);
                let (two, last_of_two) = two.split_at(8 * lane - 8);
                let (one, last_of_one) = one.split_at(8 * lane - 8);
                let (mut second, mut third) = (0, 0);
                for ((a, b), c) in eights(one).zip(eights(two)).zip(eights(three)) {
                    register = _mm_crc32_u64(register, a);
                    second = _mm_crc32_u64(second, b);
                    third = _mm_crc32_u64(third, c);
                }
                for (a, b) in eights(last_of_one).zip(eights(last_of_two)) {
                    register = _mm_crc32_u64(register, a);
                    second = _mm_crc32_u64(second, b);
                }
                register = moved(register, 2 * lane) ^ moved(second, lane);
                for c in eights(last) {
                    register = _mm_crc32_u64(third, register ^ c);
                }
                rest = others;
            }
            for eight in eights(rest) {
                register = _mm_crc32_u64(register, eight);
            }
            let ones = &rest[rest.len() & !7..];
            ones.iter().fold(register as u32, |register, one| _mm_crc32_u8(register, *one))
        }
    }
}

#[cfg(target_arch = "aarch64")]
use aarch64::{after, is_there};

#[cfg(target_arch = "aarch64")]
mod aarch64 {
    use super::eights;
    use core::arch::aarch64::{__crc32cb, __crc32cd, __crc32cw};

    pub(super) fn is_there() -> bool {
        std::arch::is_aarch64_feature_detected!("crc")
    }

    /// Returns the register after eight bytes, four zeros and the rest.
    ///
    /// # Safety
    /// The instruction [is there](is_there).
    #[target_feature(enable = "crc")]
    #[allow(unused_unsafe)] // the calls are safe from Rust 1.86 on
    pub(super) unsafe fn after(first: u64, rest: &[u8]) -> u32 {
        // SAFETY: the caller knows that the instruction is there.
        unsafe {
            let mut register = __crc32cw(__crc32cd(u32::MAX, first), 0);
            for eight in eights(rest) {
                register = __crc32cd(register, eight);
            }
            let ones = &rest[rest.len() & !7..];
            ones.iter().fold(register, |register, one| __crc32cb(register, *one))
        }
    }
}
