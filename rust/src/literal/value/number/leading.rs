// Made by rust/tools/erase.py from crates/lexical_number/src/leading.rt: change that file.

//! The leading digits of a number of any length.

use crate::digit::char_to_digit;

/// The leading digits of a number, without the lowest `dropped`, of which some are not 0 if `more` is true.
#[derive(Debug, Clone, Copy, PartialEq, Eq)]
pub struct Leading {
    /// The number that the leading digits represent. It is below `2 ^ 96`, if the radix is at most 36.
    pub digits: u128,
    /// Whether some digit that was dropped is not 0.
    pub more: bool,
    /// The number of digits that were dropped.
    pub dropped: u128,
}

impl Leading {
    /// The leading digits of 0.
    pub const ZERO: Leading = Leading { digits: 0, more: false, dropped: 0 };

    /// Returns all digits of a number as its leading digits.
    #[must_use]
    pub const fn whole(number: u64) -> Leading {
        Leading { digits: number as u128, ..Leading::ZERO }
    }
}

// Returns the leading digits after one more digit.
#[inline(always)]
const fn push(leading: Leading, radix: u32, digit: u32) -> Leading {
    if leading.digits < 1 << 90 {
        let digits = leading.digits * radix as u128 + digit as u128;
        return Leading { digits, ..leading };
    }
    Leading { more: leading.more | (digit != 0), dropped: leading.dropped + 1, ..leading }
}

/// Returns the leading digits after those of `bytes`. Other bytes are skipped.
#[must_use]
pub const fn push_all(leading: Leading, radix: u32, bytes: &[u8]) -> Leading {
    let mut leading = leading;
    let mut index = 0;
    while index < bytes.len() {
        if let Some(digit) = char_to_digit(bytes[index], radix) {
            leading = push(leading, radix, digit);
        }
        index += 1;
    }
    leading
}

/// Returns the number that the digits among `bytes` represent in `radix`, or `2 ^ 90` if that is less.
#[must_use]
pub const fn saturating(bytes: &[u8], radix: u32) -> u128 {
    let digits = push_all(Leading::ZERO, radix, bytes).digits;
    if digits < 1 << 90 {
        digits
    } else {
        1 << 90
    }
}
