// Made by rust/tools/erase.py from crates/lexical_util/src/feature_format/roles.rt: change that file.

//! The roles of bytes in the numbers of a format.

use super::FormatView;
use crate::digit::char_to_digit;
use crate::format_flags as flags;
use crate::format_flags::Part;

/// The role of a byte in a number.
#[derive(Debug, Clone, Copy, PartialEq, Eq, Hash)]
#[non_exhaustive]
pub enum Role {
    /// A digit of the mantissa or of the exponent.
    Digit,
    /// A sign: `+` or `-`.
    Sign,
    /// The digit separator.
    Separator,
    /// The base prefix.
    Prefix,
    /// The base suffix.
    Suffix,
    /// The exponent character.
    Exponent,
    /// The decimal point.
    Point,
}

/// Where digit separators are allowed in a part of a number.
#[derive(Debug, Clone, Copy, PartialEq, Eq, Hash)]
#[non_exhaustive]
pub struct Separators {
    /// Whether a digit separator is allowed between digits.
    pub internal: bool,
    /// Whether a digit separator is allowed before the digits.
    pub leading: bool,
    /// Whether a digit separator is allowed after the digits.
    pub trailing: bool,
    /// Whether several digit separators in a row are allowed, at the positions where one is.
    pub consecutive: bool,
}

impl FormatView {
    /// Returns the value of `byte` as a digit of the mantissa, or `None` if `byte` is not a digit in the mantissa radix.
    /// The case of a letter does not matter. The value is at most 35, and below the mantissa radix.
    #[must_use]
    pub const fn mantissa_digit(&self, byte: u8) -> Option<u32> {
        char_to_digit(byte, self.mantissa_radix())
    }

    /// Returns the value of `byte` as a digit of the exponent, or `None` if `byte` is not a digit in the exponent radix,
    /// which is the mantissa radix if the exponent radix byte is 0. The case of a letter does not matter. The value is
    /// at most 35, and below the exponent radix.
    #[must_use]
    pub const fn exponent_digit(&self, byte: u8) -> Option<u32> {
        char_to_digit(byte, self.exponent_radix())
    }

    /// Returns whether `byte` is the digit separator, and some flag allows a digit separator. [`Self::separators`]
    /// returns where one is allowed.
    #[must_use]
    pub const fn is_separator(&self, byte: u8) -> bool {
        let own = flags::digit_separator(self.format);
        flags::is_separator_allowed(self.format) && is_byte(own, true, byte)
    }

    /// Returns whether `byte` is the base prefix. A base prefix that is a letter matches both cases unless
    /// `case_sensitive_base_prefix` is set. Without a base prefix, the result is `false`.
    #[must_use]
    pub const fn is_base_prefix(&self, byte: u8) -> bool {
        let own = flags::base_prefix(self.format);
        is_byte(own, self.case_sensitive_base_prefix(), byte)
    }

    /// Returns whether `byte` is the base suffix. A base suffix that is a letter matches both cases unless
    /// `case_sensitive_base_suffix` is set. Without a base suffix, the result is `false`.
    #[must_use]
    pub const fn is_base_suffix(&self, byte: u8) -> bool {
        let own = flags::base_suffix(self.format);
        is_byte(own, self.case_sensitive_base_suffix(), byte)
    }

    /// Returns whether `byte` is the exponent character `exponent`, which options choose. An exponent character that is
    /// a letter matches both cases unless `case_sensitive_exponent` is set. If `exponent` is 0, the result is `false`.
    #[must_use]
    pub const fn is_exponent_character(&self, exponent: u8, byte: u8) -> bool {
        is_byte(exponent, self.case_sensitive_exponent(), byte)
    }

    /// Returns where digit separators are allowed in `part` of a number.
    #[must_use]
    pub const fn separators(&self, part: Part) -> Separators {
        match part {
            Part::Integer => Separators {
                internal: self.integer_internal_digit_separator(),
                leading: self.integer_leading_digit_separator(),
                trailing: self.integer_trailing_digit_separator(),
                consecutive: self.integer_consecutive_digit_separator(),
            },
            Part::Fraction => Separators {
                internal: self.fraction_internal_digit_separator(),
                leading: self.fraction_leading_digit_separator(),
                trailing: self.fraction_trailing_digit_separator(),
                consecutive: self.fraction_consecutive_digit_separator(),
            },
            Part::Exponent => Separators {
                internal: self.exponent_internal_digit_separator(),
                leading: self.exponent_leading_digit_separator(),
                trailing: self.exponent_trailing_digit_separator(),
                consecutive: self.exponent_consecutive_digit_separator(),
            },
        }
    }

    /// Returns the role of `byte` in numbers with the exponent character `exponent` and the decimal point
    /// `decimal_point`, or `None` if `byte` plays no role.
    ///
    /// If the word is [lawful][flags::Rule] and accepts these options
    /// ([`is_valid_options_punctuation`][flags::is_valid_options_punctuation]), no byte plays two roles. For any other
    /// word or options, the result is the first role that `byte` plays, in the order of the variants of [`Role`].
    ///
    /// ```
    /// use peltzivar::{format::STANDARD, FormatView, Role};
    ///
    /// let roles = b"1.5e+".map(|byte| FormatView::new(STANDARD).role_of(b'e', b'.', byte).unwrap());
    /// assert_eq!(roles, [Role::Digit, Role::Point, Role::Digit, Role::Exponent, Role::Sign]);
    /// ```
    ///
    /// # Proved of the source
    ///
    /// - If the word is lawful and accepts these options, `byte` plays the returned role and no other.
    #[must_use]
    pub const fn role_of(&self, exponent: u8, decimal_point: u8, byte: u8) -> Option<Role> {
        self.first_role(exponent, decimal_point, byte)
    }

    // Returns the first role that `byte` plays, in the order of the variants of `Role`.
    const fn first_role(&self, exponent: u8, decimal_point: u8, byte: u8) -> Option<Role> {
        if flags::is_digit_of_either_radix(self.word(), byte) {
            Some(Role::Digit)
        } else if is_sign(byte) {
            Some(Role::Sign)
        } else if self.is_separator(byte) {
            Some(Role::Separator)
        } else if self.is_base_prefix(byte) {
            Some(Role::Prefix)
        } else if self.is_base_suffix(byte) {
            Some(Role::Suffix)
        } else if self.is_exponent_character(exponent, byte) {
            Some(Role::Exponent)
        } else if is_byte(decimal_point, true, byte) {
            Some(Role::Point)
        } else {
            None
        }
    }
}

// Returns whether `byte` is a sign.
const fn is_sign(byte: u8) -> bool {
    matches!(byte, b'+' | b'-')
}

// Returns whether `byte` is `own` or, if `case_sensitive` is false, the same letter in the other case. Returns `false`
// if `own` is 0, which means absent.
#[inline(always)]
const fn is_byte(own: u8, case_sensitive: bool, byte: u8) -> bool {
    own != 0 && (byte == own || !case_sensitive && byte.eq_ignore_ascii_case(&own))
}
