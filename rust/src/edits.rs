// Made by rust/tools/erase.py from crates/lexical_util/src/edits.rt: change that file.

//! Edits, which are setter calls stored as values, and the normal form of a format word.

use crate::error::Error;
use crate::format_builder::NumberFormatBuilder;
use crate::format_flags::check;

mod listing;
mod setters;
mod settings;

pub use listing::{edits_of, is_built};
pub(crate) use setters::mask_of;
pub use setters::{
    field_edits_of, ArgumentKind, Edit, FlagSetter, Setter, ALL_SETTERS, FIELD_COUNT, FLAG_COUNT, SETTERS,
};
pub use settings::{byte_from_decimal, EditError, EditErrorKind};
pub(crate) use settings::{likeness, nearest, Fault};

/// Calls the setter of `edit` on `builder`, and returns the new builder.
///
/// ```
/// use peltzivar::{edits::apply, Edit, NumberFormatBuilder};
///
/// let builder = apply(NumberFormatBuilder::new(), Edit::MantissaRadix(16));
/// assert_eq!(builder.get_mantissa_radix(), 16);
/// ```
#[inline(always)]
pub const fn apply(builder: NumberFormatBuilder, edit: Edit) -> NumberFormatBuilder {
    match edit {
        Edit::Flag(setter, flag) => apply_flag(builder, setter, flag),
        Edit::DigitSeparator(byte) => builder.digit_separator(byte),
        Edit::BasePrefix(byte) => builder.base_prefix(byte),
        Edit::BaseSuffix(byte) => builder.base_suffix(byte),
        Edit::MantissaRadix(radix) => builder.mantissa_radix(radix),
        Edit::Radix(radix) => builder.radix(radix),
        Edit::ExponentBase(base) => builder.exponent_base(base),
        Edit::ExponentRadix(radix) => builder.exponent_radix(radix),
    }
}

// Calls a flag setter or a group setter with `flag`.
#[inline(always)]
const fn apply_flag(builder: NumberFormatBuilder, setter: FlagSetter, flag: bool) -> NumberFormatBuilder {
    builder.with_flags(mask_of(setter) as u128, flag)
}

/// Applies `edits` in order to `builder`, and returns the new builder.
///
/// To build a new format, apply the edits to a new builder, and call
/// [`build_strict`][NumberFormatBuilder::build_strict]. The mantissa radix is used in place of an exponent base or
/// exponent radix that no edit sets.
///
/// ```
/// use peltzivar::{edits::apply_all, Edit, FlagSetter, NumberFormatBuilder};
///
/// let edits = [Edit::MantissaRadix(16), Edit::Flag(FlagSetter::NoExponentNotation, true)];
/// let builder = apply_all(NumberFormatBuilder::new(), &edits);
/// assert_eq!(builder, NumberFormatBuilder::new().mantissa_radix(16).no_exponent_notation(true));
/// ```
#[inline(always)]
pub const fn apply_all(mut builder: NumberFormatBuilder, edits: &[Edit]) -> NumberFormatBuilder {
    let mut index = 0;
    while index < edits.len() {
        builder = apply(builder, edits[index]);
        index += 1;
    }
    builder
}

/// Applies `edits` in order to a format word, which need not be [lawful][crate::format_flags::Rule], and
/// returns the new word.
///
/// Use this function to change a finished format. An edit of the mantissa radix changes neither the exponent base nor
/// the exponent radix. If either is absent, it is first set to the old mantissa radix. To build a new format, use
/// [`apply_all`].
///
/// The new word is computed in four steps:
///
/// 1. The fields of `format` are read.
/// 2. An exponent base or exponent radix of 0 is set to the mantissa radix.
/// 3. Each edit is applied. If several edits set the same field, the last one wins. An exponent base or exponent radix
///    that an edit sets to `None` stays 0.
/// 4. The digit separator is set to 0 if no flag allows one, and the fields are packed. The reserved bits, which hold
///    no field, are 0 in the new word.
///
/// Pass all edits in one call. If you split them between two calls, the result can be a different word. The first call
/// drops a digit separator if no flag allows one yet. The second call sets an exponent base or exponent radix to the
/// mantissa radix if the first call set it to `None`.
///
/// ```
/// use peltzivar::edits::{edit_word, Edit, FlagSetter};
/// use peltzivar::format::STANDARD;
///
/// // The exponent base and the exponent radix stay 10. They are now stored in the word.
/// let edits = [Edit::MantissaRadix(16), Edit::Flag(FlagSetter::NoSpecial, true)];
/// assert_eq!(edit_word(STANDARD, &edits), 0x0A0A1000_00000000_00000000_0000040C);
/// ```
///
/// # Proved of the source
///
/// - The result has the fields of the four steps, and is the only word with these fields and without reserved bits.
/// - Only the last write to each field matters. So edits of different fields can be in any order, and a group edit is
///   equivalent to the edits of its flags.
#[must_use]
#[inline]
pub const fn edit_word(format: u128, edits: &[Edit]) -> u128 {
    apply_all(NumberFormatBuilder::rebuild(format), edits).build_unchecked()
}

/// Returns the normal form of a format word, whether or not the word is [lawful][crate::format_flags::Rule].
/// The normal form is the canonical word among all equivalent words.
///
/// In the normal form, an exponent base or exponent radix of 0 is set to the mantissa radix. The digit separator is 0
/// if no flag allows one, and the reserved bits, which hold no field, are 0. All other fields are unchanged. Two words
/// are equivalent if they have the same normal form.
///
/// ```
/// use peltzivar::edits::normal_form;
///
/// // The exponent base and the exponent radix of both are 10.
/// const SHORT: u128 = 0x00000A00_00000000_00000000_0000000C;
/// assert_eq!(normal_form(SHORT), normal_form(0x0A0A0A00_00000000_00000000_0000000C));
/// ```
///
/// # Proved of the source
///
/// - The normal form of the result is the result itself. It is equivalent to `format`.
/// - The normal form of a lawful word is lawful. If no separator is dropped and no reserved bit, it has the same error.
/// - If no separator is dropped, all edits turn `format` and the result into the same word.
#[must_use]
pub const fn normal_form(format: u128) -> u128 {
    NumberFormatBuilder::rebuild(format).build_unchecked()
}

/// Returns the [normal form][normal_form] of `format` if that form is [lawful][crate::format_flags::Rule].
///
/// Use this function for stored words that `lexical-util` built, or that this crate built before its rules changed. Set
/// reserved bits and a digit separator that no flag allows are not errors, since the normal form drops them.
///
/// # Errors
///
/// If the normal form is not lawful, returns the error of the first rule that it breaks. The error is never `Success`
/// or `InvalidFlags`.
///
/// ```
/// use peltzivar::{edits::migrate, error::Error};
///
/// // Bit 31 is reserved and is cleared. The exponent base and the exponent radix become 10.
/// // Flags 4 and 5 cannot both be set.
/// assert_eq!(migrate(0x00000A00_00000000_00000000_8000000C), Ok(0x0A0A0A00_00000000_00000000_0000000C));
/// assert_eq!(migrate(0x00000A00_00000000_00000000_0000003C), Err(Error::InvalidMantissaSign));
/// ```
pub const fn migrate(format: u128) -> Result<u128, Error> {
    let word = normal_form(format);
    match check(word) {
        Ok(_) => Ok(word),
        Err(error) => Err(error),
    }
}

/// Returns whether two words are equivalent, that is, whether they have the same [normal form][normal_form].
///
/// ```
/// use peltzivar::{edits::same_format, NumberFormatBuilder};
///
/// let unused = NumberFormatBuilder::new().digit_separator(core::num::NonZero::new(b'_'));
/// assert!(same_format(unused.build_unchecked(), NumberFormatBuilder::new().build_unchecked()));
/// ```
#[must_use]
pub const fn same_format(a: u128, b: u128) -> bool {
    normal_form(a) == normal_form(b)
}
