//! This module has all items for number formats, as in `lexical-util`: the builder, the types that read a format word,
//! and the functions that read or check one.
//!
//! It also has a `u128` for each field. For a flag, this is the flag's bit, with the name of the setter in capitals, such
//! as `NO_SPECIAL`. For a flag group, as `REQUIRED_DIGITS`, and for a byte, as `BASE_PREFIX`, it is a mask. A byte also
//! has a shift, such as `BASE_PREFIX_SHIFT`. The masks of several fields are `FLAG_MASK`, `RADIX_MASK`,
//! `INTERFACE_FLAG_MASK`, `EXPONENT_FLAG_MASK` and those that end in `DIGIT_SEPARATOR_FLAG_MASK`.
//!
//! For a word that is known only at run time, use [`FormatView`], or [`Format`] if the word must be lawful. The
//! prebuilt formats of `lexical-util` are not included. [`Language`][crate::literal::Language] has formats of languages.

#[doc(no_inline)]
pub use crate::feature_format::NumberFormat;
#[doc(no_inline)]
pub use crate::format_builder::{NonZeroU8, NumberFormatBuilder, OptionU8};
#[doc(inline)]
pub use crate::format_flags::{
    base_prefix, base_suffix, digit_separator, exponent_base, exponent_radix, is_clean, is_digit_of_either_radix,
    is_separator_allowed, is_valid_base_prefix, is_valid_base_suffix, is_valid_digit_separator,
    is_valid_exponent_flags, is_valid_options_punctuation, is_valid_punctuation, is_valid_radix, mantissa_radix,
    radix_from_flags,
};
#[doc(no_inline)]
pub use crate::format_flags::{
    Part, Rule, BASE_PREFIX, BASE_PREFIX_SHIFT, BASE_SUFFIX, BASE_SUFFIX_SHIFT, DIGIT_SEPARATOR, DIGIT_SEPARATOR_SHIFT,
    EXPONENT_BASE, EXPONENT_BASE_SHIFT, EXPONENT_FLAG_MASK, EXPONENT_RADIX, EXPONENT_RADIX_SHIFT, FLAG_MASK,
    INTERFACE_FLAG_MASK, MANTISSA_RADIX, MANTISSA_RADIX_SHIFT, RADIX, RADIX_MASK, RADIX_SHIFT,
};
#[doc(no_inline)]
pub use crate::lawful::Format;
#[doc(no_inline)]
pub use crate::view::FormatView;
#[doc(inline)]
pub use crate::word::STANDARD;

use crate::error::Error;
use crate::lawful::FormatError;
use crate::short_text::ShortText;

// Exports the constants of all flags and groups.
macro_rules! constants {
    (() { $($Flag:ident $flag:ident $FLAG:ident;)* } { $($Group:ident $group:ident $GROUP:ident;)* }) => {
        #[doc(no_inline)]
        pub use crate::format_flags::{$($FLAG,)* $($GROUP,)*};
    };
}

crate::with_setters!(constants());

/// Returns whether the format word `FORMAT` is lawful, that is, whether [`format_error`] returns `Success` for it.
///
/// ```
/// use peltzivar::format::{format_is_valid, STANDARD};
///
/// // A format that another crate exports is checked where it is used.
/// const _: () = assert!(format_is_valid::<STANDARD>());
/// ```
#[must_use]
pub const fn format_is_valid<const FORMAT: u128>() -> bool {
    NumberFormat::<FORMAT>::new().is_valid()
}

/// Returns the error of the first [rule][Rule] that the format word `FORMAT` breaks, or [`Error::Success`] if it breaks
/// none.
///
/// ```
/// use peltzivar::{format::format_error, Error};
///
/// const WORD: u128 = 0x0A0A1000_6200005F_00000000_0000000C; // `b` is a digit in radix 16
/// assert_eq!(format_error::<WORD>(), Error::InvalidBasePrefix);
/// ```
#[must_use]
pub const fn format_error<const FORMAT: u128>() -> Error {
    NumberFormat::<FORMAT>::new().error()
}

impl Format {
    /// Returns the format whose word is `FORMAT`, which is known at compile time. If the word is not lawful, the call
    /// does not compile: `cargo build` fails, but `cargo check` may not.
    ///
    /// ```compile_fail,E0080
    /// let format = peltzivar::Format::of::<0>();
    /// ```
    #[must_use]
    pub const fn of<const FORMAT: u128>() -> Self {
        const {
            match Format::new(FORMAT) {
                Ok(format) => format,
                Err(error) => panic!("{}", error.text().as_str()),
            }
        }
    }
}

impl NumberFormatBuilder {
    /// Returns the view of the word that the builder packs, whether or not the word is [lawful][Rule].
    ///
    /// ```
    /// let view = peltzivar::NumberFormatBuilder::new().mantissa_radix(37).view();
    /// for reason in view.reasons() {
    ///     println!("{reason}"); // the mantissa radix 37 is not between 2 and 36
    /// }
    /// ```
    #[must_use]
    pub const fn view(&self) -> FormatView {
        FormatView::new(self.build_unchecked())
    }

    /// Packs the fields into a word, and returns the word as a [`Format`] if it is lawful.
    ///
    /// A digit separator that no flag allows is dropped, and is not an error. [`notes`][Self::notes] of the builder has a
    /// note on it, which the notes of the format lack.
    ///
    /// ```
    /// let builder = peltzivar::NumberFormatBuilder::new().digit_separator(core::num::NonZeroU8::new(b'_'));
    /// assert_eq!(builder.notes().next().unwrap().to_string(), "no flag allows the digit separator '_'");
    /// assert_eq!(builder.build_format().unwrap().notes().count(), 0);
    /// ```
    ///
    /// # Errors
    ///
    /// If the word is not lawful, returns an error with the reasons.
    pub const fn build_format(&self) -> Result<Format, FormatError> {
        Format::new(self.build_unchecked())
    }

    /// Packs the fields into a format word. If this method is called in a constant and the word is not [lawful][Rule],
    /// the program does not compile. A digit separator that no flag allows is dropped without an error: only
    /// [`notes`][Self::notes] of the builder has a note on it.
    ///
    /// ```
    /// use core::num::NonZeroU8;
    /// use peltzivar::format::NumberFormatBuilder;
    ///
    /// const FORMAT: u128 = NumberFormatBuilder::new()
    ///     .digit_separator(NonZeroU8::new(b'_'))
    ///     .internal_digit_separator(true)
    ///     .build_or_panic();
    /// assert_eq!(FORMAT, 0x00000A00_0000005F_00000007_0000000C);
    /// ```
    ///
    /// The compile-time error contains the error description of the first broken rule, and the reason why the rule is
    /// broken. In this example, the reason is `the digit separator '5' is a digit in radix 10`:
    ///
    /// ```compile_fail,E0080
    /// use core::num::NonZeroU8;
    /// use peltzivar::format::NumberFormatBuilder;
    ///
    /// const FORMAT: u128 = NumberFormatBuilder::new()
    ///     .digit_separator(NonZeroU8::new(b'5'))
    ///     .internal_digit_separator(true)
    ///     .build_or_panic();
    /// # fn main() { let _ = FORMAT; }
    /// ```
    ///
    /// # Panics
    ///
    /// Panics if the word is not lawful. To get a `Result` instead, call [`build_strict`][Self::build_strict] or
    /// [`build_format`][Self::build_format].
    #[must_use]
    #[track_caller]
    pub const fn build_or_panic(&self) -> u128 {
        match self.build_format() {
            Ok(format) => format.word(),
            Err(error) => {
                let description = ShortText::of(error.code().description()).and(": ");
                panic!("{}", description.and(error.text().as_str()).as_str())
            }
        }
    }

    /// Packs the fields into a word, and returns it as a [`Format`]. Use it in constants, as `build_or_panic`, which
    /// also drops a digit separator that no flag allows.
    ///
    /// ```
    /// use core::num::NonZeroU8;
    /// use peltzivar::{Format, NumberFormatBuilder};
    ///
    /// const FORMAT: Format =
    ///     NumberFormatBuilder::new().mantissa_radix(16).base_prefix(NonZeroU8::new(b'x')).build_format_or_panic();
    /// assert_eq!(FORMAT.base_prefix(), NonZeroU8::new(b'x'));
    /// ```
    ///
    /// # Panics
    ///
    /// Panics if the word is not [lawful][Rule], with the text of the error of [`build_format`][Self::build_format]:
    /// the reason alone, such as `the digit separator 'b' is a digit in radix 16`.
    #[must_use]
    #[track_caller]
    pub const fn build_format_or_panic(&self) -> Format {
        match self.build_format() {
            Ok(format) => format,
            Err(error) => panic!("{}", error.text().as_str()),
        }
    }
}
