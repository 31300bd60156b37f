// Made by rust/tools/erase.py from crates/lexical_number/src/scaling.rt: change that file.

//! The float nearest to digits with an exponent, if both are in radixes that are powers of two.

use crate::literal::value::number::binary::{infinity, nearest_bits, nearest_to_word};
use crate::literal::value::number::leading::Leading;

/// Returns the number of bits of a digit of `radix`, if `radix` is a power of two up to 32.
#[must_use]
#[inline(always)]
pub const fn bits_of(radix: u32) -> Option<u32> {
    match radix {
        2 => Some(1),
        4 => Some(2),
        8 => Some(3),
        16 => Some(4),
        32 => Some(5),
        _ => None,
    }
}

/// Returns the bits of the float nearest to a number by its leading digits, over the radix to the power of `places`, times
/// a power of two with `bits` bits to the exponent `exponent`, or `2 ^ 90` or more.
#[must_use]
pub const fn raised_bits(
    double: bool,
    leading: Leading,
    radix_bits: u32,
    places: u64,
    negative: bool,
    exponent: u128,
    base_bits: u32,
) -> u64 {
    if leading.digits == 0 {
        return 0;
    }
    if exponent == 1 << 90 {
        return if negative { 0 } else { infinity(double) };
    }
    let (up, down) = scales(
        leading.dropped * radix_bits as u128,
        places as u128 * radix_bits as u128,
        negative,
        exponent * base_bits as u128,
    );
    nearest_bits(double, leading.digits, leading.more, up, down)
}

/// Returns the bits of the float nearest to `digits` over the radix to the power of `places`, times a power of two with `bits`
/// bits to the exponent.
#[must_use]
#[inline(always)]
pub const fn raised_word(
    double: bool,
    digits: u64,
    radix_bits: u32,
    places: u64,
    negative: bool,
    exponent: u64,
    base_bits: u32,
) -> u64 {
    if digits == 0 || places >= 1 << 56 || exponent >= 1 << 56 {
        let leading = Leading::whole(digits);
        let exponent = exponent as u128;
        return raised_bits(double, leading, radix_bits, places, negative, exponent, base_bits);
    }
    let (up, down) = scales(0, places as u128 * radix_bits as u128, negative, exponent as u128 * base_bits as u128);
    let zeros = digits.leading_zeros() as u64;
    nearest_to_word(double, digits << zeros, false, up as u64, down as u64 + zeros)
}

// Returns the exponents above and below the line of a fraction.
#[inline(always)]
pub(crate) const fn scales(up: u128, down: u128, negative: bool, exponent: u128) -> (u128, u128) {
    if negative {
        (up, down + exponent)
    } else {
        (up + exponent, down)
    }
}
