// Made by rust/tools/erase.py from crates/lexical_writer/src/form.rt: change that file.

//! How the digits of a float are written.

use crate::literal::syntax::Syntax;
use crate::literal::value::number::shortest::Decimal;
use crate::literal::writer::float_digits::split;
use crate::literal::writer::layout::{allows_exponent, is_whole, needs_exponent, Amount, ExponentStyle, Power, Style};
use crate::literal::writer::run::Source;

// How the digits of a number are written: with zeros behind them, with a point before the last of all these digits, and with an
// exponent, whether its sign is `-` and its size, if there is one.
#[derive(Debug, Clone, Copy)]
pub(crate) struct Shape {
    pub(crate) after: usize,
    pub(crate) places: usize,
    pub(crate) exponent: Option<(bool, u64)>,
}

// Returns a fraction, if it has digits, of which there are as many as `places`.
#[inline(always)]
pub(crate) const fn fraction_in<'a>(places: u128, fraction: Source<'a>) -> Option<Source<'a>> {
    if places > 0 {
        Some(fraction)
    } else {
        None
    }
}

// Returns the exponent of a shape.
#[inline(always)]
const fn power_in(exponent: Option<(bool, u64)>) -> Option<Power<'static>> {
    match exponent {
        Some((negative, size)) => Some(Power { negative, source: Source::Number(size as u128) }),
        None => None,
    }
}

// Returns digits in a shape, as a number that is to be written.
#[inline(always)]
pub(crate) fn amount_in<'a>(negative: bool, digits: &'a [u8], shape: Shape) -> Amount<'a> {
    let (integer, fraction) = split(digits, shape.after, shape.places);
    Amount {
        negative,
        integer,
        fraction: fraction_in(shape.places as u128, fraction),
        exponent: power_in(shape.exponent),
    }
}

// Returns to how many digits behind the point a float is rounded in a syntax.
#[inline(always)]
pub(crate) fn decimals_in(syntax: &Syntax, style: Style) -> Option<u8> {
    if is_whole(syntax) || syntax.format().view().mantissa_radix() != 10 {
        None
    } else {
        style.decimals
    }
}

// Returns whether an exponent is written by a wish, of a float that is far from 1 or not.
#[inline(always)]
const fn is_wanted(wish: ExponentStyle, far: bool) -> bool {
    match wish {
        ExponentStyle::AsNumber => far,
        ExponentStyle::Never => false,
        ExponentStyle::Always => true,
    }
}

// Returns whether a float that is far from 1 or not has an exponent.
#[inline(always)]
pub(crate) fn is_shown(syntax: &Syntax, style: Style, far: bool) -> bool {
    let plain = decimals_in(syntax, style).is_none();
    allows_exponent(syntax) && ((plain && needs_exponent(syntax)) || is_wanted(style.exponent, plain && far))
}

// A number without its sign: `number` times `base` to the power of `power - zero`. Its first digit in this base is that of the power
// `top - zero`. A digit of its radix has `width` digits of the base, and its exponent base is the base to the power of `step`. Proofs
// alone read the base.
#[allow(dead_code)]
#[derive(Debug, Clone, Copy)]
pub(crate) struct Powers {
    pub(crate) number: u64,
    pub(crate) base: u64,
    pub(crate) power: u64,
    pub(crate) top: u64,
    pub(crate) zero: u64,
    pub(crate) width: u64,
    pub(crate) step: u64,
}

impl Powers {
    // Returns by how many digits of the base the number is moved, and its shape, over a power of the base, with an exponent and at
    // least so many digits behind the point.
    #[inline(always)]
    fn over(&self, low: u64, least: u64, exponent: Option<(bool, u64)>) -> (u64, Shape) {
        let places = low.saturating_sub(self.power).div_ceil(self.width).max(least);
        let up = self.power + self.width * places - low;
        let shape = Shape { after: (up / self.width) as usize, places: places as usize, exponent };
        (up % self.width, shape)
    }

    // Returns by how many digits of the base the number is moved, and its shape. It is far from 1 if it is below the radix to the power
    // of -4, or at least that to the power of 16.
    #[inline(always)]
    pub(crate) fn shape(&self, syntax: &Syntax, style: Style) -> (u64, Shape) {
        let Powers { top, zero, step, .. } = *self;
        let far = (top + 4 * self.width < zero) | (top >= zero + 16 * self.width);
        if !is_shown(syntax, style, far) {
            return self.over(zero, !is_whole(syntax) as u64, None);
        }
        let (exponent, none) = (top / step, zero / step);
        let power = Some((exponent < none, exponent.abs_diff(none)));
        self.over(exponent * step, 0, power)
    }
}

// Returns an exponent of ten, plus 400.
#[inline(always)]
const fn raised(decimal: Decimal) -> u64 {
    if decimal.negative {
        400 - decimal.exponent
    } else {
        400 + decimal.exponent
    }
}

// Returns a decimal number of so many digits.
#[inline(always)]
pub(crate) const fn decimal_powers(length: usize, decimal: Decimal) -> Powers {
    let power = raised(decimal);
    Powers {
        number: decimal.digits,
        base: 10,
        power,
        top: power + length.saturating_sub(1) as u64,
        zero: 400,
        width: 1,
        step: 1,
    }
}
