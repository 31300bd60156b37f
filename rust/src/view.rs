// Made by rust/tools/erase.py from crates/lexical_util/src/feature_format.rt: change that file.

//! A view that reads the fields of a format word and checks the word.

use crate::error::Error;
use crate::format_builder::NumberFormatBuilder;
use crate::format_flags as flags;
use crate::format_flags::{format_error_impl, radix_error_impl};
use crate::word::STANDARD;

// Is true if any bit of the mask is set in the word of the view.
macro_rules! has_any {
    ($view:ident, $MASK:ident) => {
        $view.format & flags::$MASK != 0
    };
}

pub use crate::view::roles::{Role, Separators};

/// A view of a format word. It reads the fields of the word, and checks the word.
///
/// Every method works on any word, whether or not the word is [lawful][flags::Rule]. The word may be known only at run
/// time. Getters of fields have the names of the setters of [`NumberFormatBuilder`], which have examples.
///
/// ```
/// use peltzivar::FormatView;
///
/// let view = FormatView::new(0x0A0A1000_6200005F_00000000_0000000C);
/// assert_eq!((view.mantissa_radix(), view.base_prefix().map(u8::from)), (16, Some(b'b')));
/// assert!(!view.is_valid() && view.error().is_invalid_base_prefix());
/// ```
#[derive(Clone, Copy, PartialEq, Eq, PartialOrd, Ord, Hash)]
pub struct FormatView {
    format: u128,
}

impl Default for FormatView {
    /// Returns the view of the [standard format][STANDARD], which is the format word of a new builder.
    fn default() -> Self {
        FormatView { format: STANDARD }
    }
}

mod own {
    use super::*;
    impl FormatView {
        // CONSTRUCTORS

        /// Returns a view of `format`, which may be any word.
        #[must_use]
        pub const fn new(format: u128) -> Self {
            FormatView { format }
        }

        /// Returns the format word.
        #[must_use]
        pub const fn word(&self) -> u128 {
            self.format
        }

        // CHECKS

        /// Returns whether the word is lawful, that is, whether it satisfies all the rules that [`error`][Self::error]
        /// checks.
        #[must_use]
        pub const fn is_valid(&self) -> bool {
            self.error().is_success()
        }

        /// Returns the error of the first rule that the word breaks, in the order of the variants of [`Rule`][flags::Rule], or
        /// `Success` if the word is lawful.
        ///
        /// # Proved of the source
        ///
        /// - The result is `Success` if and only if the word satisfies every rule.
        /// - No other error is that of the first broken rule.
        #[must_use]
        pub const fn error(&self) -> Error {
            format_error_impl(self.format)
        }

        /// Returns whether the mantissa radix, the exponent base and the exponent radix are all between 2 and 36. An
        /// exponent base or exponent radix of 0 means the mantissa radix.
        #[must_use]
        pub const fn is_valid_radix(&self) -> bool {
            self.error_radix().is_success()
        }

        /// Checks, in this order, whether the mantissa radix, the exponent base and the exponent radix are between 2 and
        /// 36. Returns the error of the first one that is not, or `Success`.
        #[must_use]
        pub const fn error_radix(&self) -> Error {
            radix_error_impl(self.format)
        }

        // BYTES

        /// Returns whether the digit separator byte is not 0.
        #[must_use]
        pub const fn has_digit_separator(&self) -> bool {
            has_any!(self, DIGIT_SEPARATOR)
        }

        /// Returns whether the base prefix byte is not 0.
        #[must_use]
        pub const fn has_base_prefix(&self) -> bool {
            has_any!(self, BASE_PREFIX)
        }

        /// Returns whether the base suffix byte is not 0.
        #[must_use]
        pub const fn has_base_suffix(&self) -> bool {
            has_any!(self, BASE_SUFFIX)
        }

        // RADIXES

        /// Returns the [mantissa radix][NumberFormatBuilder::mantissa_radix], a number from 0 to 255. In a
        /// [lawful][flags::Rule] word, it is between 2 and 36.
        #[must_use]
        pub const fn mantissa_radix(&self) -> u32 {
            flags::mantissa_radix(self.format)
        }

        /// Returns the mantissa radix, as [`mantissa_radix`][Self::mantissa_radix] does.
        #[must_use]
        pub const fn radix(&self) -> u32 {
            self.mantissa_radix()
        }

        /// Returns the square of the mantissa radix.
        #[must_use]
        pub const fn radix2(&self) -> u32 {
            let radix = self.mantissa_radix();
            radix * radix
        }

        /// Returns the fourth power of the mantissa radix.
        #[must_use]
        pub const fn radix4(&self) -> u32 {
            let square = self.radix2();
            square * square
        }

        /// Returns the eighth power of the mantissa radix modulo 2^32. The result is exact up to radix 15, and it is 0 for
        /// radix 16.
        #[must_use]
        pub const fn radix8(&self) -> u32 {
            let fourth = self.radix4();
            fourth.wrapping_mul(fourth)
        }

        /// Returns the [exponent base][NumberFormatBuilder::exponent_base], or the mantissa radix if the exponent base byte
        /// is 0. In a [lawful][flags::Rule] word, the result is between 2 and 36.
        #[must_use]
        pub const fn exponent_base(&self) -> u32 {
            flags::exponent_base(self.format)
        }

        /// Returns the [exponent radix][NumberFormatBuilder::exponent_radix], or the mantissa radix if the exponent radix
        /// byte is 0. In a [lawful][flags::Rule] word, the result is between 2 and 36.
        #[must_use]
        pub const fn exponent_radix(&self) -> u32 {
            flags::exponent_radix(self.format)
        }

        // BUILDERS

        /// Returns a new builder, which does not depend on any word.
        pub const fn builder() -> NumberFormatBuilder {
            NumberFormatBuilder::new()
        }

        /// Returns a builder with the fields of the word. An exponent base or exponent radix of 0 becomes the mantissa
        /// radix.
        pub const fn rebuild(&self) -> NumberFormatBuilder {
            NumberFormatBuilder::rebuild(self.format)
        }
    }
}
mod bytes;
mod getters;
mod roles;
