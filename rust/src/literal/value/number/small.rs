// Made by rust/tools/erase.py from crates/lexical_number/src/small.rt: change that file.

//! Numbers of 64 bits, by the digits that represent them.

use crate::digit::{char_is_digit_const, char_to_digit};

/// Returns the number of digits of `radix` among `bytes`.
#[must_use]
pub const fn count(bytes: &[u8], radix: u32) -> usize {
    let mut count = 0;
    let mut index = 0;
    while index < bytes.len() {
        if char_is_digit_const(bytes[index], radix) {
            count += 1;
        }
        index += 1;
    }
    count
}

// For each radix, the greatest number of digits with which each number is below `2 ^ 64`.
#[rustfmt::skip]
const MOST: [u8; 37] = [
    0, 0, 64, 40, 32, 27, 24, 22, 21, 20, 19, 18, 17, 17, 16, 16, 16, 15, 15, 15, 14, 14, 14, 14, 13, 13, 13, 13, 13, 13, 13, 12, 12, 12, 12, 12, 12,
];

/// Returns whether each number of so many digits in `radix` is below `2 ^ 64`.
#[must_use]
#[inline(always)]
pub const fn fits(radix: u32, digits: usize) -> bool {
    // In each radix, 12 digits fit.
    if digits <= 12 {
        return true;
    }
    digits <= if radix <= 36 { MOST[radix as usize] as usize } else { 0 }
}

/// Returns the number that the digits of `bytes` represent after those of `before`, modulo `2 ^ 64`. Other bytes are skipped.
#[must_use]
pub const fn add_all(before: u64, bytes: &[u8], radix: u32) -> u64 {
    let mut sum = before;
    let mut index = 0;
    while index < bytes.len() {
        if let Some(digit) = char_to_digit(bytes[index], radix) {
            sum = sum.wrapping_mul(radix as u64).wrapping_add(digit as u64);
        }
        index += 1;
    }
    sum
}

// Returns the number of zeros that the digits of `bytes` begin with, and whether there are no other digits.
const fn leading_zeros(bytes: &[u8], radix: u32) -> (usize, bool) {
    let mut zeros = 0;
    let mut index = 0;
    while index < bytes.len() {
        match char_to_digit(bytes[index], radix) {
            Some(0) => zeros += 1,
            Some(_) => return (zeros, false),
            None => (),
        }
        index += 1;
    }
    (zeros, true)
}

// Returns the number of zeros that the digits of `integer` and `fraction` begin with together.
const fn all_zeros(integer: &[u8], fraction: &[u8], radix: u32) -> usize {
    let (zeros, all) = leading_zeros(integer, radix);
    if all {
        zeros + leading_zeros(fraction, radix).0
    } else {
        zeros
    }
}

/// Returns whether the digits of `integer` and `fraction` are so few behind their leading zeros that each number of so many is below
/// `2 ^ 64`. There are `digits` of them.
#[must_use]
#[cold]
pub const fn is_small(radix: u32, integer: &[u8], fraction: &[u8], digits: usize) -> bool {
    fits(radix, digits - all_zeros(integer, fraction, radix))
}
