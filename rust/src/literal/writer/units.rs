// Made by rust/tools/erase.py from crates/lexical_writer/src/units.rt: change that file.

//! The value of a literal, as an amount without an exponent.

use crate::literal::literal::{Literal, Parts};
use crate::literal::syntax::Syntax;
use crate::literal::value::integer::ValueErrorKind;
use crate::literal::value::number::numeral::{Magnitude, Numeral};
use crate::literal::value::scaled::to_scaled;
use crate::literal::writer::layout::{is_whole, Amount, WriteError};
use crate::literal::writer::literal::is_minus;
use crate::literal::writer::run::Source;

// What is known of the value of a float, times a power of ten.
#[derive(Debug, Clone, Copy)]
pub(crate) enum Units {
    // It is this number, apart from its sign.
    Whole(u128),
    // It is not whole.
    Broken,
    // Nothing is known.
    Unknown,
}

// Returns what is known of the value of a float times `10 ^ places`.
fn units_at(literal: &Literal, places: u8) -> Units {
    match to_scaled(literal, places, u128::MAX, u128::MAX) {
        Ok((_, units)) => Units::Whole(units),
        Err(ValueErrorKind::NotWhole) => Units::Broken,
        Err(_) => Units::Unknown,
    }
}

// Returns the fewest digits behind a decimal point with which a float may be whole, and what is known with these.
fn fewest(literal: &Literal, most: u8) -> (u16, Units) {
    let mut places = 0;
    while places <= most as u16 {
        match units_at(literal, places as u8) {
            Units::Broken => places += 1,
            other => return (places, other),
        }
    }
    (places, Units::Broken)
}

// Returns what is before and behind the point of a number of units of the last of so many digits behind it.
fn split(units: u128, places: u16) -> (u128, u128) {
    match 10_u128.checked_pow(places as u32) {
        Some(unit) => (units / unit, units % unit),
        None => (0, units),
    }
}

// Returns a float by what is known of it, or why it is not written.
fn amount_of(negative: bool, integers: bool, places: u16, it: Units) -> Result<Amount<'static>, WriteError> {
    let units = match it {
        Units::Whole(units) => units,
        Units::Broken if integers => return Err(WriteError::Fraction),
        _ => return Err(WriteError::Radix),
    };
    let (integer, fraction) = split(units, places);
    Ok(Amount {
        negative,
        integer: Source::Number(integer),
        fraction: if integers { None } else { Some(Source::Least(fraction, places as usize)) },
        exponent: None,
    })
}

// Returns how many digits of a value are behind the point at most.
fn most_places(syntax: &Syntax) -> u8 {
    if is_whole(syntax) || syntax.format().view().mantissa_radix() != 10 {
        0
    } else {
        255
    }
}

// Returns the value of a literal with these parts as an amount of `syntax`, or why it is not written.
#[cold]
pub(crate) fn by_value(literal: &Literal, parts: &Parts, syntax: &Syntax) -> Result<Amount<'static>, WriteError> {
    let negative = is_minus(parts.sign);
    if literal.is_float() {
        let (places, it) = fewest(literal, most_places(syntax));
        return amount_of(negative, is_whole(syntax), places, it);
    }
    let numeral =
        Numeral { negative: false, magnitude: Magnitude::Digits(parts.integer, literal.format().mantissa_radix()) };
    match numeral.as_u128() {
        Some(size) => Ok(Amount::of_size(negative, size)),
        None => Err(WriteError::Radix),
    }
}
