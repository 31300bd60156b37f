// Made by rust/tools/erase.py from crates/numfmt/src/word.rt: change that file.

//! Format words as text: `0x` and hexadecimal digits.

use peltzivar::word_text;

/// Parses `text` as a format word. Returns `None` unless `text` is `0x` and 1 to 32 hexadecimal digits of either case.
pub fn read_word(text: &str) -> Option<u128> {
    word_text::parse_word(text).ok()
}

/// Returns the text of `word` as it is printed: `0x` and 32 uppercase hexadecimal digits. [`read_word`] returns `word`
/// for this text.
pub fn word_text(word: u128) -> [u8; 34] {
    word_text::word_text(word)
}
