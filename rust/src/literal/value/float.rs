// Made by rust/tools/erase.py from crates/lexical_value/src/float.rt: change that file.

//! The value of a literal as a value of a float type.

use crate::literal::kind::{FloatKind, FloatLimits, Kind};
use crate::literal::literal::Literal;
use crate::literal::value::integer::{fewer, integer_numeral, is_exact, keeps, ValueErrorKind};
use crate::literal::value::number::decimal::{decimal_to_float, digits_to_float};
use crate::literal::value::number::float::Float;
use crate::literal::value::number::leading::{push_all, saturating, Leading};
use crate::literal::value::number::numeral::Magnitude;
use crate::literal::value::number::scaling::{bits_of, raised_bits, raised_word};
use crate::word::FormatView;

/// Returns the value of a literal by its kind as a value of a float type: rounded once to the nearest float, or to the even one
/// if two are as near. Unless its kind has limits, the value is infinite if it is that large. Its sign is that of the literal, also
/// for 0.
///
/// # Errors
///
/// If the mantissa radix and the exponent base are neither both 10 nor both powers of two, of any literal, or if a number is too
/// large for its kind, or vanishes.
#[inline(always)]
pub fn to_float<F: Float>(literal: &Literal) -> Result<F, ValueErrorKind> {
    let Some(kind) = nearest_kind(literal) else {
        return whole_float(&{ *literal });
    };
    match float_of_kind::<F>(kind.floats(), literal) {
        Ok(value) => match beyond(kind.limits(), value.is_infinite(), value.is_zero(), literal) {
            None => Ok(value),
            Some(error) => Err(error),
        },
        Err(error) => Err(error),
    }
}

// Returns a kind by which a literal is worth the float that it is by its own, and by which it is the nearest one within limits, or `None`
// if it is an integer that may be worth another number than its digits represent.
#[inline(always)]
fn nearest_kind(literal: &Literal) -> Option<Kind> {
    let kind = literal.kind();
    let integers = kind.integers();
    if is_exact(integers) {
        return Some(kind);
    }
    match integer_numeral(literal) {
        None => Some(kind),
        Some(numeral) if keeps(integers, &numeral) => Some(Kind::EXACT),
        Some(_) => None,
    }
}

// Returns the nearest float, or the nearest `f32` if floats are single.
#[inline(always)]
fn float_of_kind<F: Float>(kind: FloatKind, literal: &Literal) -> Result<F, ValueErrorKind> {
    match kind {
        FloatKind::Nearest => nearest_float(literal),
        FloatKind::Single => match nearest_single(&{ *literal }) {
            Ok(single) => Ok(F::from_single(single)),
            Err(error) => Err(error),
        },
    }
}

// Returns why a literal has no float by these limits, if its nearest one is infinite or 0.
#[cfg_attr(not(peltzivar_small), inline(always))]
pub(crate) const fn beyond(
    limits: FloatLimits,
    infinite: bool,
    zero: bool,
    literal: &Literal,
) -> Option<ValueErrorKind> {
    match limits {
        FloatLimits::None => None,
        _ if infinite => Some(ValueErrorKind::out_of_range(literal.is_negative())),
        FloatLimits::Both if zero && has_digits(&{ *literal }) => Some(ValueErrorKind::Vanishes),
        _ => None,
    }
}

// Returns whether a digit of the mantissa is not 0.
#[cold]
const fn has_digits(literal: &Literal) -> bool {
    leading_of(literal, literal.format().mantissa_radix()).digits != 0
}

// Returns the nearest `f32`, in one copy.
#[cold]
#[inline(never)]
fn nearest_single(literal: &Literal) -> Result<f32, ValueErrorKind> {
    nearest_float(literal)
}

// Returns the float nearest to what an integer of a kind that is not exact is worth.
#[cold]
fn whole_float<F: Float>(literal: &Literal) -> Result<F, ValueErrorKind> {
    if !supports_floats(literal.format()) {
        return Err(ValueErrorKind::UnsupportedRadix);
    }
    let Some(numeral) = integer_numeral(literal) else { unreachable!() };
    match fewer(literal.kind().integers(), &numeral) {
        Some(own) => match own.magnitude {
            Magnitude::Word(size) => Ok(signed(digits_to_float(size, 0, false, 0), own.negative)),
            Magnitude::Digits(_, _) => nearest_float(literal),
        },
        None => Err(ValueErrorKind::out_of_range(numeral.negative)),
    }
}

/// Returns the float nearest to the number that a literal represents, whatever its kind is, or to the even one if two are as near.
///
/// # Errors
///
/// If the mantissa radix and the exponent base are neither both 10 nor both powers of two.
#[inline(always)]
pub fn nearest_float<F: Float>(literal: &Literal) -> Result<F, ValueErrorKind> {
    let size = if has_decimal_floats(literal.format()) {
        decimal_size(literal)
    } else if let Some(bits) = binary_size(F::DOUBLE, &{ *literal }) {
        F::from_magnitude(bits)
    } else {
        return Err(ValueErrorKind::UnsupportedRadix);
    };
    Ok(signed(size, literal.is_negative()))
}

/// Returns a float, or the same with the sign `-` if `negative` is true.
#[must_use]
#[inline(always)]
pub fn signed<F: Float>(size: F, negative: bool) -> F {
    if negative {
        size.negated()
    } else {
        size
    }
}

/// Returns whether a literal of `format` has a value of a float type: whether the mantissa radix and the exponent base are
/// both 10 or both powers of two.
#[must_use]
pub const fn supports_floats(format: FormatView) -> bool {
    let radixes = (bits_of(format.mantissa_radix()), bits_of(format.exponent_base()));
    has_decimal_floats(format) || matches!(radixes, (Some(_), Some(_)))
}

// Returns whether floats of `format` are decimal.
#[inline(always)]
pub(crate) const fn has_decimal_floats(format: FormatView) -> bool {
    format.mantissa_radix() == 10 && format.exponent_base() == 10
}

// Returns the number that the exponent digits of a literal represent, or `2 ^ 90` if that is less.
#[inline(always)]
pub(crate) const fn exponent_of(literal: &Literal) -> u128 {
    match literal.scale() {
        Some(exponent) => exponent as u128,
        None => saturating(literal.cut().exponent, literal.format().exponent_radix()),
    }
}

// Returns the float nearest to a decimal literal, without its sign.
#[inline(always)]
fn decimal_size<F: Float>(literal: &Literal) -> F {
    let negative = literal.has_negative_exponent();
    if let (Some(mantissa), Some(exponent)) = (literal.mantissa(), literal.scale()) {
        return digits_to_float(mantissa, literal.places() as u64, negative, exponent);
    }
    let parts = literal.cut();
    decimal_to_float(parts.integer, parts.fraction, negative, exponent_of(literal))
}

// Returns the bits of the float nearest to a literal, without its sign, or `None` if a radix is not a power of two.
pub(crate) const fn binary_size(double: bool, literal: &Literal) -> Option<u64> {
    let format = literal.format();
    let Some(radix_bits) = bits_of(format.mantissa_radix()) else {
        return None;
    };
    let Some(base_bits) = bits_of(format.exponent_base()) else {
        return None;
    };
    let places = literal.places() as u64;
    let negative = literal.has_negative_exponent();
    if let (Some(mantissa), Some(exponent)) = (literal.mantissa(), literal.scale()) {
        return Some(raised_word(double, mantissa, radix_bits, places, negative, exponent, base_bits));
    }
    Some(long_binary_size(double, literal, radix_bits, base_bits))
}

// Returns what `binary_size` returns, of a literal whose mantissa or exponent has many digits.
#[cold]
const fn long_binary_size(double: bool, literal: &Literal, radix_bits: u32, base_bits: u32) -> u64 {
    let leading = leading_of(literal, literal.format().mantissa_radix());
    let places = literal.places() as u64;
    let negative = literal.has_negative_exponent();
    let exponent = exponent_of(literal);
    raised_bits(double, leading, radix_bits, places, negative, exponent, base_bits)
}

// Returns the leading digits of the mantissa, all of them if it is known.
pub(crate) const fn leading_of(literal: &Literal, radix: u32) -> Leading {
    match literal.mantissa() {
        Some(size) => Leading::whole(size),
        None => {
            let parts = literal.cut();
            let integer = push_all(Leading::ZERO, radix, parts.integer);
            push_all(integer, radix, parts.fraction)
        }
    }
}
