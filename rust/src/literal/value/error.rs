//! Why a text has no value in a type.

use core::fmt;
use core::ops::Range;

use crate::literal::value::integer::limit;
use crate::literal::value::{FromLiteral, ValueErrorKind};
use crate::literal::{FormError, IntegerKind, ReadError};

/// Why a number has no value in a type.
#[derive(Debug, Clone, Copy, PartialEq, Eq, Hash)]
pub struct ValueError {
    kind: ValueErrorKind,
    target: &'static Target,
    size: usize,
    /// The kind of an integer.
    of: IntegerKind,
    /// The power of 10 with which the value was multiplied.
    places: u8,
}

/// What the errors of a type that is parsed name: the type, with its limits.
#[derive(Debug, Clone, Copy, PartialEq, Eq, Hash)]
pub struct Target {
    name: &'static str,
    limits: Option<(i128, u128)>,
}

impl Target {
    /// Returns the name of a type without limits that errors could name.
    #[must_use]
    pub const fn new(name: &'static str) -> Target {
        Target { name, limits: None }
    }

    /// Returns the name of a type of integers, with its least and its largest value.
    #[must_use]
    pub const fn integer(name: &'static str, least: i128, largest: u128) -> Target {
        Target { name, limits: Some((least, largest)) }
    }

    /// Returns the same limits with another name.
    pub(super) const fn named(self, name: &'static str) -> Target {
        Target { name, ..self }
    }

    /// Returns the name of a type of floats.
    pub(super) const fn unlimited(name: &'static str, _: i128, _: u128) -> Target {
        Target::new(name)
    }

    /// Returns the sizes of the least and the largest value that the type may have.
    pub(super) const fn limits(&self) -> (u128, u128) {
        match self.limits {
            Some((least, largest)) => (least.unsigned_abs(), largest),
            None => (u128::MAX, u128::MAX),
        }
    }

    /// Returns whether the type may have values of more than 64 bits.
    pub(super) const fn has_long_values(&self) -> bool {
        match self.limits {
            Some((_, largest)) => largest > u64::MAX as u128,
            None => true,
        }
    }
}

impl ValueError {
    /// Returns the error of a literal of `size` bytes, whose kind is that of an integer.
    pub(crate) const fn of<T: FromLiteral>(kind: ValueErrorKind, size: usize, of: IntegerKind) -> ValueError {
        ValueError { kind, target: const { &T::TARGET }, size, of, places: 0 }
    }

    /// Returns the error of the value times 10 to the power of `places`.
    pub(crate) const fn scaled(self, places: u8) -> ValueError {
        ValueError { places, ..self }
    }

    /// Returns the size of the largest or least number of its kind, if a number is out of range for it: the type has more values.
    fn limit_of_kind(&self) -> Option<u128> {
        let negative = matches!(self.kind, ValueErrorKind::TooSmall);
        let most = limit(self.of, negative)?;
        let power = 10_u128.checked_pow(self.places.into());
        let has_more = |(least, largest): (i128, u128)| {
            let size = if negative { least.unsigned_abs() } else { largest };
            power.map_or(0, |power| size / power) > most
        };
        self.target.limits.is_none_or(has_more).then_some(most)
    }

    /// Returns what is wrong.
    #[must_use]
    pub const fn kind(&self) -> ValueErrorKind {
        self.kind
    }

    /// Returns the name of the type, such as `u16`.
    #[must_use]
    pub const fn target(&self) -> &'static str {
        self.target.name
    }

    /// Returns the range of the bytes of the literal, from the [opening][crate::literal::Form::with_opening] before it on. Of NaN and
    /// infinity, it is the whole text, or empty if they were not parsed in the same call.
    #[must_use]
    pub const fn span(&self) -> Range<usize> {
        0..self.size
    }

    /// Prints the limit that the value is beyond: of its kind, or else of the type.
    fn fmt_limit(&self, f: &mut fmt::Formatter<'_>) -> fmt::Result {
        let negative = matches!(self.kind, ValueErrorKind::TooSmall);
        let (beyond, last) = if negative { ("below", "least") } else { ("above", "largest") };
        let target = self.target();
        match (self.limit_of_kind(), self.target.limits) {
            (Some(size), _) => {
                let limit = Limit { negative: negative && size > 0, size, places: 0 };
                write!(f, "{beyond} {limit}, the {last} {}", Named(self.of))
            }
            (None, Some((least, largest))) => {
                let size = if negative { least.unsigned_abs() } else { largest };
                let limit = Limit { negative: negative && least < 0, size, places: self.places };
                match self.places {
                    0 => write!(f, "{beyond} {limit}, the {last} {target}"),
                    _ => write!(f, "{beyond} {limit}"),
                }
            }
            (None, None) => write!(f, "{beyond} the {last} {target}"),
        }
    }
}

/// A limit of a type, before a value is multiplied by a power of 10.
struct Limit {
    negative: bool,
    size: u128,
    places: u8,
}

impl fmt::Display for Limit {
    fn fmt(&self, f: &mut fmt::Formatter<'_>) -> fmt::Result {
        let sign = if self.negative { "-" } else { "" };
        let places = self.places.into();
        let power = 10_u128.checked_pow(self.places.into());
        let (whole, rest) = power.map_or((0, self.size), |power| (self.size / power, self.size % power));
        match places {
            0 => write!(f, "{sign}{whole}"),
            _ => write!(f, "{sign}{whole}.{rest:0places$}"),
        }
    }
}

/// The kind of an integer as its sentences name it, such as `u8` or `number of 32 bits`.
struct Named(IntegerKind);

impl fmt::Display for Named {
    fn fmt(&self, f: &mut fmt::Formatter<'_>) -> fmt::Result {
        match self.0 {
            IntegerKind::Signed(bits) => write!(f, "i{bits}"),
            IntegerKind::Unsigned(bits) => write!(f, "u{bits}"),
            IntegerKind::Wraps(bits) | IntegerKind::WrapsModulo(bits) => write!(f, "number of {bits} bits"),
            IntegerKind::Exact => f.write_str("number"),
        }
    }
}

/// Prints the reason with the type and its limit, such as `above 65535, the largest u16`, or with the limit of the kind.
impl fmt::Display for ValueError {
    fn fmt(&self, f: &mut fmt::Formatter<'_>) -> fmt::Result {
        let target = self.target();
        match self.kind {
            ValueErrorKind::Float => write!(f, "a float, and {target} is an integer type"),
            ValueErrorKind::Special => write!(f, "NaN or infinity, and {target} is an integer type"),
            ValueErrorKind::NotWhole => match self.places {
                0 => f.write_str("not a whole number"),
                1 => f.write_str("more than 1 digit after the point"),
                places => write!(f, "more than {places} digits after the point"),
            },
            ValueErrorKind::TooLong => write!(f, "too many digits for scaling, as an {target}"),
            ValueErrorKind::UnsupportedRadix => {
                write!(f, "no {target}: the mantissa radix and the exponent base are not both 10 or both powers of two")
            }
            ValueErrorKind::Vanishes => write!(f, "too near to 0 for an {target}"),
            ValueErrorKind::Zero => write!(f, "0, which is no {target}"),
            ValueErrorKind::TooLarge | ValueErrorKind::TooSmall => self.fmt_limit(f),
        }
    }
}

/// Why a text has no value in a type.
///
/// ```
/// use peltzivar::literal::{Language, ParseError};
///
/// let answer = |text| match Language::JSON.parse::<u8>(text) {
///     Ok(value) => value.to_string(),
///     Err(ParseError::Read(error)) => format!("not a number: {error}"),
///     Err(ParseError::Value(error)) => format!("a number, but {error}"),
/// };
/// assert_eq!(answer("01"), "not a number: unexpected leading zero");
/// assert_eq!(answer("256"), "a number, but above 255, the largest u8");
/// ```
#[derive(Debug, Clone, Copy, PartialEq, Eq, Hash)]
#[allow(clippy::exhaustive_enums, reason = "a text that is a number has a value or no value")]
pub enum ParseError {
    /// The text is not a number. For a single syntax, the form has the index 0 and no name.
    Read(FormError),
    /// The text is a number, and has no value in the type.
    Value(ValueError),
}

impl ParseError {
    /// Returns the range of the bytes to show, which may be empty: that of the [read error][ReadError::span], or the whole
    /// [literal][ValueError::span].
    #[must_use]
    pub const fn span(&self) -> Range<usize> {
        match self {
            ParseError::Read(error) => error.span(),
            ParseError::Value(error) => error.span(),
        }
    }

    /// Returns the index of the form of which the text is not a literal, or `None` if it is a number.
    #[must_use]
    pub const fn form(&self) -> Option<usize> {
        match self {
            ParseError::Read(error) => Some(error.form),
            ParseError::Value(_) => None,
        }
    }

    /// Returns the number of bytes at the beginning of the text that are right: of a number, those of its
    /// [span][ValueError::span].
    #[must_use]
    pub const fn valid_up_to(&self) -> usize {
        match self {
            ParseError::Read(error) => error.valid_up_to(),
            ParseError::Value(error) => error.size,
        }
    }
}

conversions! {
    error: FormError => ParseError { ParseError::Read(error) }
    error: ReadError => ParseError { ParseError::Read(FormError::alone(error)) }
    error: ValueError => ParseError { ParseError::Value(error) }
}

/// Prints the error of the text or of the value.
impl fmt::Display for ParseError {
    fn fmt(&self, f: &mut fmt::Formatter<'_>) -> fmt::Result {
        match self {
            ParseError::Read(error) => error.fmt(f),
            ParseError::Value(error) => error.fmt(f),
        }
    }
}
