// Made by rust/tools/erase.py from crates/lexical_util/src/feature_format/getters.rt: change that file.

//! Getters for the flags of a format word, individually and in groups.

use super::FormatView;
use crate::format_flags as flags;

impl FormatView {
    // FLAGS OTHER THAN DIGIT SEPARATOR FLAGS

    /// Returns whether the format requires digits before the decimal point.
    #[must_use]
    pub const fn required_integer_digits(&self) -> bool {
        has_any!(self, REQUIRED_INTEGER_DIGITS)
    }

    /// Returns whether the format requires digits after a decimal point.
    #[must_use]
    pub const fn required_fraction_digits(&self) -> bool {
        has_any!(self, REQUIRED_FRACTION_DIGITS)
    }

    /// Returns whether the format requires digits after an exponent character.
    #[must_use]
    pub const fn required_exponent_digits(&self) -> bool {
        has_any!(self, REQUIRED_EXPONENT_DIGITS)
    }

    /// Returns whether the format requires a digit in the mantissa of a float.
    #[must_use]
    pub const fn required_mantissa_digits(&self) -> bool {
        has_any!(self, REQUIRED_MANTISSA_DIGITS)
    }

    /// Returns whether any of the flags that require digits is set.
    #[must_use]
    pub const fn required_digits(&self) -> bool {
        has_any!(self, REQUIRED_DIGITS)
    }

    /// Returns whether the format forbids a `+` before an integer or a float.
    #[must_use]
    pub const fn no_positive_mantissa_sign(&self) -> bool {
        has_any!(self, NO_POSITIVE_MANTISSA_SIGN)
    }

    /// Returns whether the format requires a sign before an integer or a float.
    #[must_use]
    pub const fn required_mantissa_sign(&self) -> bool {
        has_any!(self, REQUIRED_MANTISSA_SIGN)
    }

    /// Returns whether the format forbids an exponent in a float.
    #[must_use]
    pub const fn no_exponent_notation(&self) -> bool {
        has_any!(self, NO_EXPONENT_NOTATION)
    }

    /// Returns whether the format forbids a `+` in the exponent.
    #[must_use]
    pub const fn no_positive_exponent_sign(&self) -> bool {
        has_any!(self, NO_POSITIVE_EXPONENT_SIGN)
    }

    /// Returns whether the format requires a sign in the exponent.
    #[must_use]
    pub const fn required_exponent_sign(&self) -> bool {
        has_any!(self, REQUIRED_EXPONENT_SIGN)
    }

    /// Returns whether the format requires a decimal point before an exponent.
    #[must_use]
    pub const fn no_exponent_without_fraction(&self) -> bool {
        has_any!(self, NO_EXPONENT_WITHOUT_FRACTION)
    }

    /// Returns whether the format forbids all special values.
    #[must_use]
    pub const fn no_special(&self) -> bool {
        has_any!(self, NO_SPECIAL)
    }

    /// Returns whether special values are case-sensitive.
    #[must_use]
    pub const fn case_sensitive_special(&self) -> bool {
        has_any!(self, CASE_SENSITIVE_SPECIAL)
    }

    /// Returns whether the format forbids leading zeros in an integer.
    #[must_use]
    pub const fn no_integer_leading_zeros(&self) -> bool {
        has_any!(self, NO_INTEGER_LEADING_ZEROS)
    }

    /// Returns whether the format forbids leading zeros in a float.
    #[must_use]
    pub const fn no_float_leading_zeros(&self) -> bool {
        has_any!(self, NO_FLOAT_LEADING_ZEROS)
    }

    /// Returns whether the format requires an exponent in a float.
    #[must_use]
    pub const fn required_exponent_notation(&self) -> bool {
        has_any!(self, REQUIRED_EXPONENT_NOTATION)
    }

    /// Returns whether the exponent character is case-sensitive.
    #[must_use]
    pub const fn case_sensitive_exponent(&self) -> bool {
        has_any!(self, CASE_SENSITIVE_EXPONENT)
    }

    /// Returns whether the base prefix is case-sensitive.
    #[must_use]
    pub const fn case_sensitive_base_prefix(&self) -> bool {
        has_any!(self, CASE_SENSITIVE_BASE_PREFIX)
    }

    /// Returns whether the base suffix is case-sensitive.
    #[must_use]
    pub const fn case_sensitive_base_suffix(&self) -> bool {
        has_any!(self, CASE_SENSITIVE_BASE_SUFFIX)
    }

    // DIGIT SEPARATOR FLAGS

    /// Returns whether the format allows a digit separator between integer digits.
    #[must_use]
    pub const fn integer_internal_digit_separator(&self) -> bool {
        has_any!(self, INTEGER_INTERNAL_DIGIT_SEPARATOR)
    }

    /// Returns whether the format allows a digit separator between fraction digits.
    #[must_use]
    pub const fn fraction_internal_digit_separator(&self) -> bool {
        has_any!(self, FRACTION_INTERNAL_DIGIT_SEPARATOR)
    }

    /// Returns whether the format allows a digit separator between exponent digits.
    #[must_use]
    pub const fn exponent_internal_digit_separator(&self) -> bool {
        has_any!(self, EXPONENT_INTERNAL_DIGIT_SEPARATOR)
    }

    /// Returns whether the format allows a digit separator before the integer digits.
    #[must_use]
    pub const fn integer_leading_digit_separator(&self) -> bool {
        has_any!(self, INTEGER_LEADING_DIGIT_SEPARATOR)
    }

    /// Returns whether the format allows a digit separator before the fraction digits.
    #[must_use]
    pub const fn fraction_leading_digit_separator(&self) -> bool {
        has_any!(self, FRACTION_LEADING_DIGIT_SEPARATOR)
    }

    /// Returns whether the format allows a digit separator before the exponent digits.
    #[must_use]
    pub const fn exponent_leading_digit_separator(&self) -> bool {
        has_any!(self, EXPONENT_LEADING_DIGIT_SEPARATOR)
    }

    /// Returns whether the format allows a digit separator after the integer digits.
    #[must_use]
    pub const fn integer_trailing_digit_separator(&self) -> bool {
        has_any!(self, INTEGER_TRAILING_DIGIT_SEPARATOR)
    }

    /// Returns whether the format allows a digit separator after the fraction digits.
    #[must_use]
    pub const fn fraction_trailing_digit_separator(&self) -> bool {
        has_any!(self, FRACTION_TRAILING_DIGIT_SEPARATOR)
    }

    /// Returns whether the format allows a digit separator after the exponent digits.
    #[must_use]
    pub const fn exponent_trailing_digit_separator(&self) -> bool {
        has_any!(self, EXPONENT_TRAILING_DIGIT_SEPARATOR)
    }

    /// Returns whether the format allows consecutive digit separators in the integer part.
    #[must_use]
    pub const fn integer_consecutive_digit_separator(&self) -> bool {
        has_any!(self, INTEGER_CONSECUTIVE_DIGIT_SEPARATOR)
    }

    /// Returns whether the format allows consecutive digit separators in the fraction.
    #[must_use]
    pub const fn fraction_consecutive_digit_separator(&self) -> bool {
        has_any!(self, FRACTION_CONSECUTIVE_DIGIT_SEPARATOR)
    }

    /// Returns whether the format allows consecutive digit separators in the exponent.
    #[must_use]
    pub const fn exponent_consecutive_digit_separator(&self) -> bool {
        has_any!(self, EXPONENT_CONSECUTIVE_DIGIT_SEPARATOR)
    }

    /// Returns whether any of the flags that allow a digit separator between digits is set.
    #[must_use]
    pub const fn internal_digit_separator(&self) -> bool {
        has_any!(self, INTERNAL_DIGIT_SEPARATOR)
    }

    /// Returns whether any of the flags that allow a digit separator before digits is set.
    #[must_use]
    pub const fn leading_digit_separator(&self) -> bool {
        has_any!(self, LEADING_DIGIT_SEPARATOR)
    }

    /// Returns whether any of the flags that allow a digit separator after digits is set.
    #[must_use]
    pub const fn trailing_digit_separator(&self) -> bool {
        has_any!(self, TRAILING_DIGIT_SEPARATOR)
    }

    /// Returns whether any of the flags that allow consecutive digit separators is set.
    #[must_use]
    pub const fn consecutive_digit_separator(&self) -> bool {
        has_any!(self, CONSECUTIVE_DIGIT_SEPARATOR)
    }

    /// Returns whether the format allows digit separators in special values.
    #[must_use]
    pub const fn special_digit_separator(&self) -> bool {
        has_any!(self, SPECIAL_DIGIT_SEPARATOR)
    }

    // FLAG GROUPS

    /// Returns the flags of the word. All other bits of the result are 0.
    #[must_use]
    pub const fn flags(&self) -> u128 {
        self.format & flags::FLAG_MASK
    }

    /// Returns the bitwise AND of the word and [`INTERFACE_FLAG_MASK`][super::super::format].
    #[must_use]
    pub const fn interface_flags(&self) -> u128 {
        self.format & flags::INTERFACE_FLAG_MASK
    }

    /// Returns the digit separator flags of the word. All other bits of the result are 0.
    #[must_use]
    pub const fn digit_separator_flags(&self) -> u128 {
        self.format & flags::DIGIT_SEPARATOR_FLAG_MASK
    }

    /// Returns the bitwise AND of the word and [`EXPONENT_FLAG_MASK`][super::super::format], which does not contain
    /// the flag `case_sensitive_exponent`.
    #[must_use]
    pub const fn exponent_flags(&self) -> u128 {
        self.format & flags::EXPONENT_FLAG_MASK
    }

    /// Returns the flags that allow digit separators in the integer part. All other bits of the result are 0.
    #[must_use]
    pub const fn integer_digit_separator_flags(&self) -> u128 {
        self.format & flags::INTEGER_DIGIT_SEPARATOR_FLAG_MASK
    }

    /// Returns the flags that allow digit separators in the fraction. All other bits of the result are 0.
    #[must_use]
    pub const fn fraction_digit_separator_flags(&self) -> u128 {
        self.format & flags::FRACTION_DIGIT_SEPARATOR_FLAG_MASK
    }

    /// Returns the flags that allow digit separators in the exponent. All other bits of the result are 0.
    #[must_use]
    pub const fn exponent_digit_separator_flags(&self) -> u128 {
        self.format & flags::EXPONENT_DIGIT_SEPARATOR_FLAG_MASK
    }
}
