//! The type of bytes that are not 0.

pub use core::num::NonZeroU8;
