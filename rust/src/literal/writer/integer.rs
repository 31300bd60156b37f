// Made by rust/tools/erase.py from crates/lexical_writer/src/integer.rt: change that file.

//! Integers are written.

use crate::literal::syntax::{Condition, Syntax};
use crate::literal::value::number::integer::Integer;
use crate::literal::writer::digits::put_if_any;
use crate::literal::writer::layout::{needs_exponent, sign_of, Amount, Layout, Style, WriteError};
use crate::literal::writer::patterns::{integer_pattern, no_groups};
use crate::literal::writer::run::{Run, Source};
use crate::literal::writer::sink::{Sink, Window};
use crate::word::{base_prefix, base_suffix};

/// An integer, by its sign and its size, that is written as a literal of a syntax in a style.
#[derive(Clone, Copy)]
pub struct WrittenInteger {
    pub(crate) negative: bool,
    pub(crate) size: u128,
    pub(crate) syntax: Syntax,
    pub(crate) style: Style,
}

/// Returns how the value of an integer is written as a literal of `syntax`.
///
/// # Errors
///
/// [`WriteError::Negative`] if the value is below 0 and no literal has the sign `-`.
#[inline(always)]
pub fn format_integer<T: Integer>(syntax: &Syntax, value: T, style: Style) -> Result<WrittenInteger, WriteError> {
    let (negative, size) = value.sign_and_size();
    WrittenInteger::of_size(negative, size, syntax, style)
}

impl WrittenInteger {
    // Returns how an integer with a sign and a size is written as a literal of `syntax`, unless its sign is refused.
    #[inline(always)]
    pub(crate) fn of_size(
        negative: bool,
        size: u128,
        syntax: &Syntax,
        style: Style,
    ) -> Result<WrittenInteger, WriteError> {
        match Amount::of_size(negative, size).refusal(syntax) {
            Some(refusal) => Err(refusal),
            None => Ok(WrittenInteger { negative, size, syntax: *syntax, style }),
        }
    }

    // Returns the number.
    #[inline(always)]
    const fn amount(&self) -> Amount<'static> {
        Amount::of_size(self.negative, self.size)
    }

    // Returns whether there is a decimal point or an exponent.
    pub(crate) fn is_float(&self) -> bool {
        let amount = self.amount();
        amount.has_point(&self.syntax) | amount.has_exponent(&self.syntax)
    }

    /// Returns the parts of the literal.
    pub fn lay_out(&self) -> Layout<'static> {
        self.amount().parts(&self.syntax, self.style)
    }

    /// Writes the text to the beginning of a buffer, as far as it has room, and returns its length, as [`Layout::write`] does.
    pub fn write(&self, buffer: &mut [u8]) -> usize {
        let mut window = Window { bytes: buffer, length: 0 };
        self.fill(&mut window);
        window.length
    }

    // Writes the text to a buffer.
    #[inline(always)]
    fn fill(&self, window: &mut Window) {
        self.put(window);
    }

    // Writes the text.
    #[inline(always)]
    pub(crate) fn put<S: Sink>(&self, sink: &mut S) {
        if self.is_plain() {
            self.put_plain(sink);
        } else {
            self.lay_out().put(sink);
        }
    }

    // Writes a sign, if there is one, and decimal digits.
    #[inline(always)]
    fn put_plain<S: Sink>(&self, sink: &mut S) {
        let required = self.syntax.format().view().required_mantissa_sign();
        put_if_any(sink, sign_of(self.negative, required));
        let digits =
            Run { source: Source::Number(self.size), radix: 10, least: 1, pattern: no_groups(self.style.lowercase) };
        digits.put(sink);
    }

    // Returns whether the text is known to have only decimal digits, without zeros before them, behind a sign if it has one.
    #[inline(always)]
    fn is_plain(&self) -> bool {
        let format = self.syntax.format().view();
        let conditions = self.syntax.conditions();
        let leads = conditions.has(Condition::LeadingZero)
            | conditions.has(Condition::DecimalFirstDigit)
            | (self.style.min_digits > 1);
        let exponent = needs_exponent(&self.syntax);
        (format.mantissa_radix() == 10)
            & (base_prefix(format.word()) == 0)
            & (base_suffix(format.word()) == 0)
            & (integer_pattern(format, conditions, self.style).last == 0)
            & !leads
            & !exponent
    }
}
