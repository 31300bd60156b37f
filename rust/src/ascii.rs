// Made by rust/tools/erase.py from crates/lexical_base/src/ascii.rt: change that file.

//! Functions that test for ASCII characters that a number format may use, and for ASCII letters.

mod slices;

pub use slices::{is_valid_ascii_slice, is_valid_letter_slice};

/// Returns whether the byte `c` is *allowed ASCII*: an ASCII character that a number format may use.
///
/// The allowed bytes are the control characters 9 to 13 (tab, line feed, vertical tab, form feed, carriage return), the
/// space, and the visible characters `!` to `~`. The result is `false` for every other byte, including 127 (delete) and
/// all bytes above it.
///
/// ```
/// use peltzivar::ascii::is_valid_ascii;
///
/// assert!(is_valid_ascii(b'\t') && is_valid_ascii(b'~') && !is_valid_ascii(b'\0') && !is_valid_ascii(0x80));
/// ```
#[must_use]
pub const fn is_valid_ascii(c: u8) -> bool {
    (c >= 0x09 && c <= 0x0d) || (c >= 0x20 && c < 0x7f)
}

/// Returns whether the byte `c` is an ASCII letter, uppercase or lowercase.
///
/// ```
/// use peltzivar::ascii::is_valid_letter;
///
/// assert!(is_valid_letter(b'z') && is_valid_letter(b'A') && !is_valid_letter(b'_'));
/// ```
#[must_use]
pub const fn is_valid_letter(c: u8) -> bool {
    (c >= b'A' && c <= b'Z') || (c >= b'a' && c <= b'z')
}
