// Made by rust/tools/erase.py from crates/lexical_base/src/digit.rt: change that file.

//! Functions that convert and test single digits. They do not process whole strings.
//!
//! The *digit characters* are `0` to `9`, with the values 0 to 9, and the letters of both cases, with the values 10
//! (`A` and `a`) to 35 (`Z` and `z`). Every other byte has the value 255. A byte is a *digit* of a radix if its value
//! is below the radix.
//!
//! The functions whose names end in `_const` are for a radix that is known at compile time. If the radix is at most 10,
//! they do not use a table.

// The digit characters. Each of them is at the index that equals its value.
const DIGIT_CHARACTERS: [u8; 36] = *b"0123456789ABCDEFGHIJKLMNOPQRSTUVWXYZ";

// The values of all bytes. Each value is at the index that equals the byte.
const VALUES: [u32; 256] = [
    255, 255, 255, 255, 255, 255, 255, 255, 255, 255, 255, 255, 255, 255, 255, 255, 255, 255, 255, 255, 255, 255, 255,
    255, 255, 255, 255, 255, 255, 255, 255, 255, 255, 255, 255, 255, 255, 255, 255, 255, 255, 255, 255, 255, 255, 255,
    255, 255, 0, 1, 2, 3, 4, 5, 6, 7, 8, 9, 255, 255, 255, 255, 255, 255, 255, 10, 11, 12, 13, 14, 15, 16, 17, 18, 19,
    20, 21, 22, 23, 24, 25, 26, 27, 28, 29, 30, 31, 32, 33, 34, 35, 255, 255, 255, 255, 255, 255, 10, 11, 12, 13, 14,
    15, 16, 17, 18, 19, 20, 21, 22, 23, 24, 25, 26, 27, 28, 29, 30, 31, 32, 33, 34, 35, 255, 255, 255, 255, 255, 255,
    255, 255, 255, 255, 255, 255, 255, 255, 255, 255, 255, 255, 255, 255, 255, 255, 255, 255, 255, 255, 255, 255, 255,
    255, 255, 255, 255, 255, 255, 255, 255, 255, 255, 255, 255, 255, 255, 255, 255, 255, 255, 255, 255, 255, 255, 255,
    255, 255, 255, 255, 255, 255, 255, 255, 255, 255, 255, 255, 255, 255, 255, 255, 255, 255, 255, 255, 255, 255, 255,
    255, 255, 255, 255, 255, 255, 255, 255, 255, 255, 255, 255, 255, 255, 255, 255, 255, 255, 255, 255, 255, 255, 255,
    255, 255, 255, 255, 255, 255, 255, 255, 255, 255, 255, 255, 255, 255, 255, 255, 255, 255, 255, 255, 255, 255, 255,
    255, 255, 255, 255, 255, 255, 255, 255, 255, 255, 255, 255,
];

// Returns the value of the byte `c`: 0 to 35 for a digit character, and 255 for any other byte.
const fn byte_value(c: u8) -> u32 {
    VALUES[c as usize]
}

/// Returns the value of the byte `c` as a digit in the given radix. The result is meaningful only if
/// [`char_to_digit_const`] returns `Some`.
///
/// `radix` may be any number. If it is at most 10, the result is `c.wrapping_sub(b'0')`. If it is above 10, the result
/// is between 0 and 35 for a digit character, and 255 for any other byte.
///
/// ```
/// use peltzivar::digit::char_to_valid_digit_const;
///
/// assert_eq!(char_to_valid_digit_const(b'7', 10), 7);
/// assert_eq!(char_to_valid_digit_const(b'x', 16), 33); // not a digit of the radix
/// ```
#[must_use]
pub const fn char_to_valid_digit_const(c: u8, radix: u32) -> u32 {
    if radix <= 10 {
        c.wrapping_sub(b'0') as u32
    } else {
        byte_value(c)
    }
}

/// Returns the value of the byte `c` as a digit in the given radix, or `None` if it is not such a digit.
///
/// The digits `0` to `9` have the values 0 to 9, and the letters of either case have the values 10 to 35. `radix` may
/// be any number. If it is at least 36, all these characters are digits. If it is above 255, every other byte is also a
/// digit, and has the value 255.
///
/// ```
/// use peltzivar::digit::char_to_digit_const;
///
/// const F: Option<u32> = char_to_digit_const(b'f', 16);
/// assert_eq!((F, char_to_digit_const(b'f', 10)), (Some(15), None));
/// ```
#[must_use]
pub const fn char_to_digit_const(c: u8, radix: u32) -> Option<u32> {
    let digit = char_to_valid_digit_const(c, radix);
    if digit < radix {
        Some(digit)
    } else {
        None
    }
}

/// Returns whether the byte `c` is a digit in the given radix, that is, whether [`char_to_digit_const`] returns `Some`.
///
/// ```
/// use peltzivar::digit::char_is_digit_const;
///
/// assert!(char_is_digit_const(b'7', 8) && !char_is_digit_const(b'8', 8));
/// ```
#[must_use]
pub const fn char_is_digit_const(c: u8, radix: u32) -> bool {
    matches!(char_to_digit_const(c, radix), Some(_))
}

/// Returns the character that represents `digit` in `radix`: `0` to `9` for 0 to 9, and `A` to `Z` for 10 to 35.
///
/// `digit` must be below 36, and should be below `radix`, which may be any number. If `radix` is at most 10, the result
/// is `b'0' + digit`. That byte is not a digit character if `digit` is 10 or more.
///
/// # Panics
///
/// If `digit` is 36 or more, the result is unspecified, and the call may panic if overflow checks are enabled.
///
/// ```
/// use peltzivar::digit::digit_to_char_const;
///
/// const DIGITS: [u8; 2] = [digit_to_char_const(9, 16), digit_to_char_const(10, 16)];
/// assert_eq!(&DIGITS, b"9A");
/// ```
#[must_use]
pub const fn digit_to_char_const(digit: u32, radix: u32) -> u8 {
    if radix <= 10 || digit < 10 {
        digit as u8 + b'0'
    } else {
        digit as u8 + b'A' - 10
    }
}

/// Returns the value of the byte `c` as a digit in the given radix, or `None` if it is not such a digit.
///
/// [`char_to_digit_const`] returns the same result. Use `char_to_digit` for a radix that is known only at run time.
///
/// ```
/// use peltzivar::digit::char_to_digit;
///
/// assert_eq!("1F".bytes().filter_map(|c| char_to_digit(c, 16)).fold(0, |sum, digit| sum * 16 + digit), 31);
/// ```
#[must_use]
pub const fn char_to_digit(c: u8, radix: u32) -> Option<u32> {
    let digit = byte_value(c);
    if digit < radix {
        Some(digit)
    } else {
        None
    }
}

/// Returns whether the byte `c` is a digit in the given radix, that is, whether [`char_to_digit`] returns `Some`.
///
/// ```
/// use peltzivar::digit::char_is_digit;
///
/// assert_eq!("1101;".bytes().take_while(|&c| char_is_digit(c, 2)).count(), 4);
/// ```
#[must_use]
pub const fn char_is_digit(c: u8, radix: u32) -> bool {
    matches!(char_to_digit(c, radix), Some(_))
}

/// Returns the character that represents `digit`: `0` to `9` for 0 to 9, and `A` to `Z` for 10 to 35.
///
/// `digit` must be below 36. In every radix above `digit`, the character is a digit with the value `digit`.
///
/// # Panics
///
/// Panics if `digit` is 36 or more.
///
/// ```
/// use peltzivar::digit::digit_to_char;
///
/// assert_eq!([digit_to_char(31 / 16), digit_to_char(31 % 16)], *b"1F");
/// ```
#[must_use]
pub const fn digit_to_char(digit: u32) -> u8 {
    DIGIT_CHARACTERS[digit as usize]
}
