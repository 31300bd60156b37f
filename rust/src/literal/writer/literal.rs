// Made by rust/tools/erase.py from crates/lexical_writer/src/literal.rt: change that file.

//! Literals are written as literals of another syntax: by their own digits, or else by their value.

use crate::literal::literal::{Literal, Parts};
use crate::literal::syntax::Syntax;
use crate::literal::writer::layout::{
    allows_exponent, is_whole, needs_exponent, Amount, ExponentStyle, Layout, Power, Style, WriteError,
};
use crate::literal::writer::run::Source;
use crate::literal::writer::units::by_value;
use crate::word::FormatView;

/// Returns how a literal is written as a literal of `syntax`: the number that it represents, whatever its kind is.
///
/// # Errors
///
/// If the literal cannot be written, returns why.
pub fn format_literal<'a>(literal: &Literal<'a>, syntax: &Syntax, style: Style) -> Result<Layout<'a>, WriteError> {
    let parts = literal.cut();
    let amount = amount_of(literal, &parts, syntax, style)?;
    amount.lay_out(syntax, style)
}

// Returns what is written of a literal with these parts, or why nothing is.
fn amount_of<'a>(
    literal: &Literal<'a>,
    parts: &Parts<'a>,
    syntax: &Syntax,
    style: Style,
) -> Result<Amount<'a>, WriteError> {
    if !keeps(literal.format(), parts, syntax) {
        return by_value(literal, parts, syntax);
    }
    if !is_unwanted(parts, syntax, style) {
        return Ok(own_amount(parts));
    }
    match by_value(literal, parts, syntax) {
        Ok(amount) => Ok(amount),
        Err(_) => Ok(own_amount(parts)),
    }
}

// Returns whether a literal of `format` with these parts can be written by its own digits.
fn keeps(format: FormatView, parts: &Parts, syntax: &Syntax) -> bool {
    keeps_power(format, parts, syntax)
        && format.mantissa_radix() == syntax.format().view().mantissa_radix()
        && !(has_point(parts) && is_whole(syntax))
}

// Returns whether literals of `syntax` can have the exponent of such a literal, if it has one.
fn keeps_power(format: FormatView, parts: &Parts, syntax: &Syntax) -> bool {
    if !has_power(parts) {
        return true;
    }
    let to = syntax.format().view();
    allows_exponent(syntax)
        && format.exponent_base() == to.exponent_base()
        && format.exponent_radix() == to.exponent_radix()
}

// Returns whether a literal has an exponent that is not to be written.
fn is_unwanted(parts: &Parts, syntax: &Syntax, style: Style) -> bool {
    has_power(parts) && !needs_exponent(syntax) && matches!(style.exponent, ExponentStyle::Never)
}

// Returns the digits and the exponent of a literal.
fn own_amount<'a>(parts: &Parts<'a>) -> Amount<'a> {
    Amount {
        negative: is_minus(parts.sign),
        integer: Source::Bytes(parts.integer),
        fraction: if has_point(parts) { Some(Source::Bytes(parts.fraction)) } else { None },
        exponent: if has_power(parts) {
            Some(Power { negative: is_minus(parts.exponent_sign), source: Source::Bytes(parts.exponent) })
        } else {
            None
        },
    }
}

// Returns whether a literal has a fraction.
fn has_point(parts: &Parts) -> bool {
    !parts.point.is_empty() || !parts.fraction.is_empty()
}

// Returns whether a literal has an exponent.
fn has_power(parts: &Parts) -> bool {
    !parts.exponent_character.is_empty() || !parts.exponent.is_empty()
}

// Returns whether a sign is a minus sign.
pub(crate) const fn is_minus(sign: &[u8]) -> bool {
    matches!(sign, [b'-', ..])
}
