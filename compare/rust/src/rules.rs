//! The rules in which the library differs from `lexical-util` on purpose, stated over the results of `lexical-util`.
//!
//! - If a prefix or a suffix is a letter, both its cases play its role, unless its flag makes it case-sensitive; an
//!   exponent character likewise. Digit separator and decimal point are one byte.
//! - A word with a reserved bit breaks a last rule.

use crate::results::Results;
use upstream::format_flags::{BASE_PREFIX, BASE_SUFFIX, DIGIT_SEPARATOR, EXPONENT_BASE, FLAG_MASK, RADIX_MASK};

const INVALID_PUNCTUATION: u128 = 27;
const INVALID_FLAGS: u128 = 35;
pub const SUCCESS: u128 = 48;

/// The bits that hold no flag and no byte.
pub const RESERVED: u128 = !(FLAG_MASK | DIGIT_SEPARATOR | BASE_PREFIX | BASE_SUFFIX | RADIX_MASK | EXPONENT_BASE);

/// The bytes that play a role: a byte, and the other case of a letter unless it is case-sensitive.
type Role = [u8; 2];

fn role(byte: u8, case_sensitive: bool) -> Role {
    let has_other_case = byte.is_ascii_alphabetic() && !case_sensitive;
    [byte, if has_other_case { byte ^ 0x20 } else { byte }]
}

/// Returns whether a byte plays both roles. The byte 0 plays none.
fn meet(one: Role, other: Role) -> bool {
    one[0] != 0 && one.iter().any(|byte| other.contains(byte))
}

/// Separator, prefix and suffix.
fn roles(word: u128) -> [Role; 3] {
    let (byte, flag) = (|at: u32| (word >> at) as u8, |bit: u32| word >> bit & 1 == 1);
    [role(byte(64), true), role(byte(88), flag(16)), role(byte(96), flag(17))]
}

fn roles_are_apart(word: u128) -> bool {
    let [separator, prefix, suffix] = roles(word);
    !meet(separator, prefix) && !meet(separator, suffix) && !meet(prefix, suffix)
}

/// Returns the first broken rule, from the one that `lexical-util` names. Its rules up to that on punctuation stay as they
/// are, and so does that one where it is broken already.
fn error(word: u128, theirs: u128) -> u128 {
    if theirs >= INVALID_PUNCTUATION && !roles_are_apart(word) {
        INVALID_PUNCTUATION
    } else if theirs == SUCCESS && word & RESERVED != 0 {
        INVALID_FLAGS
    } else {
        theirs
    }
}

/// The results of `calls::word`: three errors, two tests for `Success`, the rule of punctuation, and others.
pub fn word<const N: usize>(word: u128, theirs: Results<N>) -> Results<N> {
    let mut ours = theirs;
    let error = error(word, theirs.values[0]);
    ours.values[..3].fill(error);
    ours.values[3..5].fill((error == SUCCESS).into());
    ours.values[5] &= u128::from(roles_are_apart(word));
    ours
}

pub fn options(word: u128, exponent: u8, decimal_point: u8, theirs: bool) -> bool {
    let (exponent, point) = (role(exponent, word >> 15 & 1 == 1), role(decimal_point, true));
    let taken = |role: Role| roles(word).into_iter().any(|own| meet(own, role));
    theirs && !meet(exponent, point) && !taken(exponent) && !taken(point)
}

/// Results that begin with a word, what a strict call makes of it, and its error; the rest stays.
pub fn strict<const N: usize>(theirs: Results<N>) -> Results<N> {
    let mut ours = theirs;
    let [word, _, their_error] = theirs.values[..3] else { unreachable!("at least three results") };
    let error = error(word, their_error);
    ours.values[1] = if error == SUCCESS { word } else { 0 };
    ours.values[2] = error;
    ours
}
