//! The loops over the library, the crate in `rust/`.

use peltzivar::ascii::{is_valid_ascii_slice, is_valid_letter_slice};
use peltzivar::digit::{char_is_digit, char_to_digit};
use peltzivar::edits::{edit_word, normal_form, Edit};
use peltzivar::format::NumberFormat;
use peltzivar::format_builder::NumberFormatBuilder;
use peltzivar::format_flags::is_valid_options_punctuation;
use peltzivar::word::format_error;
use peltzivar::{Format, FormatView};

include!("loops.rs");

/// The word that a lawful builder packs.
fn strict(builder: NumberFormatBuilder) -> u128 {
    builder.build_strict().unwrap_or(0)
}

fn format_of(word: u128) -> Option<u128> {
    Format::new(word).ok().map(|format| format.word())
}

fn role(word: u128, byte: u8) -> u64 {
    FormatView::new(word).role_of(b'p', b'.', byte).map_or(0, |role| role as u64 + 1)
}
