//! `Debug` for builders, views, formats and syntaxes. It prints the format word, each field that differs from a
//! new builder's, any reserved bits, and any broken rules.

use core::fmt;

use crate::edits::{edits_of, Edit};
use crate::feature_format::NumberFormat;
use crate::format_builder::NumberFormatBuilder;
use crate::format_flags::{Rule, DIGIT_SEPARATOR_SHIFT};
use crate::lawful::Format;
use crate::literal::Syntax;
use crate::view::FormatView;

/// Writes a struct with `word` and those fields of the format word `fields` that differ from a new builder's. A
/// separator, prefix or suffix is a character if it is visible ASCII, and any other byte is a number.
fn write(f: &mut fmt::Formatter<'_>, name: &str, word: u128, fields: u128) -> fmt::Result {
    let mut text = f.debug_struct(name);
    text.field("word", &format_args!("{word:#034X}"));
    let (edits, count) = edits_of(fields);
    for edit in &edits[..count] {
        let (name, byte) = (edit.name(), edit.argument_byte());
        match edit {
            Edit::Flag(_, flag) => text.field(name, flag),
            Edit::DigitSeparator(_) | Edit::BasePrefix(_) | Edit::BaseSuffix(_) if byte.is_ascii_graphic() => {
                text.field(name, &char::from(byte))
            }
            _ => text.field(name, &byte),
        };
    }
    let reserved = word & Rule::ReservedBitsAreZero.mask();
    if reserved != 0 {
        text.field("reserved_bits", &format_args!("{reserved:#X}"));
    }
    let view = FormatView::new(word);
    if !view.is_valid() {
        text.field("broken_rules", &BrokenRules(view));
    }
    text.finish()
}

/// The rules that a word breaks, which are printed as a list.
struct BrokenRules(FormatView);

impl fmt::Debug for BrokenRules {
    fn fmt(&self, f: &mut fmt::Formatter<'_>) -> fmt::Result {
        f.debug_list().entries(self.0.broken_rules()).finish()
    }
}

/// Writes the packed word, each field of the builder that differs from a new builder's, and any broken rules. A digit
/// separator that no flag allows is written, although the builder does not pack it.
impl fmt::Debug for NumberFormatBuilder {
    fn fmt(&self, f: &mut fmt::Formatter<'_>) -> fmt::Result {
        let word = self.build_unchecked();
        let separator = self.get_digit_separator().map_or(0, |byte| byte.get());
        let fields = word | u128::from(separator) << DIGIT_SEPARATOR_SHIFT;
        write(f, "NumberFormatBuilder", word, fields)
    }
}

/// Writes the word, each field that differs from a new builder's, and any reserved bits and broken rules.
impl fmt::Debug for FormatView {
    fn fmt(&self, f: &mut fmt::Formatter<'_>) -> fmt::Result {
        write(f, "FormatView", self.word(), self.word())
    }
}

/// Writes the word and each field that differs from a new builder's.
impl fmt::Debug for Format {
    fn fmt(&self, f: &mut fmt::Formatter<'_>) -> fmt::Result {
        write(f, "Format", self.word(), self.word())
    }
}

/// Writes the word and its fields, as [`FormatView`] does.
impl<const FORMAT: u128> fmt::Debug for NumberFormat<FORMAT> {
    fn fmt(&self, f: &mut fmt::Formatter<'_>) -> fmt::Result {
        write(f, "NumberFormat", FORMAT, FORMAT)
    }
}

/// Writes the view of the format, the options, and the conditions.
impl fmt::Debug for Syntax {
    fn fmt(&self, f: &mut fmt::Formatter<'_>) -> fmt::Result {
        f.debug_struct("Syntax")
            .field("format", &self.format().view())
            .field("exponent", &self.exponent().map(char::from))
            .field("point", &self.point().map(char::from))
            .field("conditions", &self.conditions())
            .finish()
    }
}
