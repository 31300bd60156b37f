//! Implementations of traits that need no code. The equality and the order of errors are derived.

use super::Error;

impl core::error::Error for Error {}
