//! The tests of slices. The compiler turns the test of a block of 32 or 16 bytes into vector instructions.

use super::{is_valid_ascii, is_valid_letter};

/// Returns whether every byte of `slc` is allowed ASCII, as [`is_valid_ascii`] defines it. If `slc` is empty, the
/// result is `true`.
///
/// ```
/// use peltzivar::ascii::is_valid_ascii_slice;
///
/// assert!(is_valid_ascii_slice(b"1_000\t") && !is_valid_ascii_slice("1\u{a0}000".as_bytes()));
/// ```
#[must_use]
pub const fn is_valid_ascii_slice(slc: &[u8]) -> bool {
    all_pass::<false>(slc)
}

/// Returns whether every byte of `slc` is an ASCII letter, uppercase or lowercase. If `slc` is empty, the result is
/// `true`.
///
/// ```
/// use peltzivar::ascii::is_valid_letter_slice;
///
/// assert!(is_valid_letter_slice(b"NaN") && !is_valid_letter_slice(b"1e5"));
/// ```
#[must_use]
pub const fn is_valid_letter_slice(slc: &[u8]) -> bool {
    all_pass::<true>(slc)
}

/// Returns whether every byte is a letter, or allowed ASCII if `LETTERS` is false. Stops after a block that fails.
#[inline(always)]
const fn all_pass<const LETTERS: bool>(bytes: &[u8]) -> bool {
    let mut rest = bytes;
    while let Some((block, others)) = rest.split_first_chunk::<32>() {
        if !few_pass::<LETTERS>(block) {
            return false;
        }
        rest = others;
    }
    match rest.split_first_chunk::<16>() {
        Some((block, others)) => few_pass::<LETTERS>(block) && few_pass::<LETTERS>(others),
        None => few_pass::<LETTERS>(rest),
    }
}

/// Tests a few bytes, and reads all of them before it returns. A branch for each byte would be slower.
#[inline(always)]
const fn few_pass<const LETTERS: bool>(bytes: &[u8]) -> bool {
    let (mut all, mut index) = (true, 0);
    while index < bytes.len() {
        let byte = bytes[index];
        all &= if LETTERS { is_valid_letter(byte) } else { is_valid_ascii(byte) };
        index += 1;
    }
    all
}
