// Made by rust/tools/erase.py from crates/lexical_util/src/source.rt: change that file.

//! Prints format words as Rust code.

use crate::edits::{edits_of, Edit};
use crate::format_flags as flags;
use crate::short_text::ShortText;
use crate::word::format_is_valid;
use core::fmt;

/// A format word that is printed as Rust code. The code is an expression that builds the word.
///
/// The expression creates a new builder, calls a setter for each field in which the word differs from this builder, and
/// packs the fields. A digit separator that no flag allows is left out, since a builder does not pack it. Any word can
/// be printed. The expression evaluates to the word if and only if [`is_built`][crate::edits::is_built] returns `true`
/// for the word.
///
/// If the word is lawful, the expression ends with `build_or_panic()`, which checks the word when the code is compiled
/// as the value of a constant. Otherwise, it ends with `build_unchecked()`.
///
/// ```
/// use peltzivar::source::BuilderExpression;
///
/// let code = BuilderExpression(0x00001000_78000000_00000000_0000000C).to_string();
/// assert_eq!(
///     code,
///     "NumberFormatBuilder::new().base_prefix(NonZeroU8::new(b'x')).mantissa_radix(16).build_or_panic()",
/// );
/// ```
#[derive(Clone, Copy, Debug)]
#[doc = may_change!()]
pub struct BuilderExpression(pub u128);

/// Prints the expression. The options of the formatter, such as a width, are ignored.
impl fmt::Display for BuilderExpression {
    fn fmt(&self, f: &mut fmt::Formatter<'_>) -> fmt::Result {
        let (edits, count) = edits_of(self.0);
        let packs_separator = flags::is_separator_allowed(self.0);
        f.write_str("NumberFormatBuilder::new()")?;
        for edit in edits.iter().take(count) {
            if packs_separator || !matches!(edit, Edit::DigitSeparator(_)) {
                write!(f, ".{}({})", edit.name(), argument(edit).as_str())?;
            }
        }
        f.write_str(if format_is_valid(self.0) { ".build_or_panic()" } else { ".build_unchecked()" })
    }
}

// Returns the argument of the call that an edit makes. A byte that is not a radix is a byte literal, if it is a visible
// ASCII character that needs no escape.
fn argument(edit: &Edit) -> ShortText {
    let byte = edit.argument_byte();
    match edit {
        Edit::Flag(_, flag) => ShortText::of(if *flag { "true" } else { "false" }),
        Edit::MantissaRadix(_) | Edit::Radix(_) => ShortText::of("").decimal(byte as usize),
        _ if byte == 0 => ShortText::of("None"),
        Edit::DigitSeparator(_) | Edit::BasePrefix(_) | Edit::BaseSuffix(_)
            if byte.is_ascii_graphic() && byte != b'\'' && byte != b'\\' =>
        {
            ShortText::of("NonZeroU8::new(b").quoted(byte).and(")")
        }
        _ => ShortText::of("NonZeroU8::new(").decimal(byte as usize).and(")"),
    }
}
