//! Getters for the bytes of a format word that may be absent.

use super::FormatView;
use crate::format_builder::{NonZeroU8, OptionU8};
use crate::format_flags as flags;

impl FormatView {
    /// Returns the [digit separator][super::NumberFormatBuilder::digit_separator], or `None` if it is absent. The byte is
    /// returned even if no flag allows digit separators.
    #[must_use]
    #[inline]
    pub const fn digit_separator(&self) -> OptionU8 {
        NonZeroU8::new(flags::digit_separator(self.word()))
    }

    /// Returns the [base prefix][super::NumberFormatBuilder::base_prefix], or `None` if it is absent.
    #[must_use]
    #[inline]
    pub const fn base_prefix(&self) -> OptionU8 {
        NonZeroU8::new(flags::base_prefix(self.word()))
    }

    /// Returns the [base suffix][super::NumberFormatBuilder::base_suffix], or `None` if it is absent.
    #[must_use]
    #[inline]
    pub const fn base_suffix(&self) -> OptionU8 {
        NonZeroU8::new(flags::base_suffix(self.word()))
    }
}
