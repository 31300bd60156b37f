//! A frame for seven modules of `lexical-util`, which are copied next to this file and are not part of this repository.
#![allow(deprecated, dead_code, unused_imports)]

pub mod ascii;
pub mod digit;
pub mod error;
pub mod feature_format;
pub mod format;
pub mod format_builder;
pub mod format_flags;

/// `format` re-exports the prebuilt formats, which nothing here uses.
mod prebuilt_formats {}

/// The checks of a word that is known only at run time, which the crate keeps to itself.
pub mod checks {
    use crate::error::Error;

    #[inline(always)]
    pub fn format_error(format: u128) -> Error {
        crate::feature_format::format_error_impl(format)
    }

    #[inline(always)]
    pub fn radix_error(format: u128) -> Error {
        crate::feature_format::radix_error_impl(format)
    }
}
