//! The values of literals as Rust's types, which are written by hand around the proved conversions.

use core::fmt::{self, Write};
use core::num::NonZero;

use crate::format_flags::Part;
use crate::literal::forms::rest_of;
use crate::literal::literal::Sums;
use crate::literal::stop::Stopped;
use crate::literal::{FloatKind, FloatLimits, IntegerKind, Kind, Literal, Number, Sign, Special, Spelling, Syntax};

mod error;
pub(crate) mod float;
pub(crate) mod integer;
pub(crate) mod scaled;
pub(crate) mod number {
    pub(crate) mod big;
    pub(crate) mod binary;
    pub(crate) mod decimal;
    pub(crate) mod float;
    pub(crate) mod integer;
    pub(crate) mod leading;
    pub(crate) mod long;
    pub(crate) mod nearest;
    pub(crate) mod numeral;
    pub(crate) mod powers;
    pub(crate) mod scaling;
    pub(crate) mod shortest;
    pub(crate) mod small;
}

pub use error::{ParseError, Target, ValueError};
pub use integer::ValueErrorKind;

use float::{beyond, binary_size, exponent_of, nearest_float, to_float};
use integer::{integer_numeral, own_numeral, to_integer};
use number::decimal::{decimal_to_bits, digits_to_bits};
use number::float::Float;
use number::numeral::{Magnitude, Numeral};
use scaled::to_scaled;

/// A type that can be [parsed][Syntax::parse]: each integer type of Rust, also as a [`NonZero`], `f64` and `f32`, and a type of
/// your own.
///
/// Rust's types are also [made][TryFrom] from a [`Literal`] or a [`Number`], as in `u16::try_from(literal)`.
///
/// A float is the value of the literal, rounded once to the nearest float, or to the even one if two are as near. Values
/// from halfway above the largest float on are infinite, unless their [kind][Kind::limits] has limits, and `-0` is `-0.0`.
/// A decimal number of up to 19 digits takes one or two multiplications, or a division. One that its first 19 digits do not
/// decide can take 3.5 kB of the stack.
///
/// ```
/// use core::num::NonZeroU16;
/// use peltzivar::literal::{FromLiteral, Language, Literal, Target, ValueErrorKind};
///
/// #[derive(Debug, PartialEq)]
/// struct Port(NonZeroU16);
///
/// impl FromLiteral for Port {
///     const TARGET: Target = Target::integer("port", 1, u16::MAX as u128);
///
///     fn from_literal(literal: Literal<'_>) -> Result<Port, ValueErrorKind> {
///         let number = u16::from_literal(literal)?;
///         NonZeroU16::new(number).map(Port).ok_or(ValueErrorKind::TooSmall)
///     }
/// }
///
/// assert_eq!(Language::TOML.parse::<Port>("8_080"), Ok(Port(NonZeroU16::new(8080).unwrap())));
/// assert_eq!(Language::TOML.parse::<Port>("0").unwrap_err().to_string(), "below 1, the least port");
/// ```
pub trait FromLiteral: Sized {
    /// What errors name.
    const TARGET: Target;

    /// Returns the value of a literal. A type of digits can be made of [`Literal::plain`] or of [`Literal::digits`].
    ///
    /// # Errors
    ///
    /// If the type does not have the value, returns why.
    fn from_literal(literal: Literal<'_>) -> Result<Self, ValueErrorKind>;

    /// Returns NaN or infinity, if the type has them. Unless it is overridden, it returns an error.
    ///
    /// # Errors
    ///
    /// If the type does not have the value, returns why.
    fn from_special(_special: Special) -> Result<Self, ValueErrorKind> {
        Err(ValueErrorKind::Special)
    }
}

impl<'a> Literal<'a> {
    /// Returns the value times 10 to the power of `places`, from 0 to 255, as an exact integer: with 2, a price in cents. A float
    /// has a value here, if the product is whole. All its digits count, also if floats are single. Of an integer, the value is
    /// that of its [kind][Literal::kind].
    ///
    /// # Errors
    ///
    /// If the product is [not whole][ValueErrorKind::NotWhole], if it is out of the range of the type, if an integer is too large
    /// for its kind, or if the mantissa radix and the exponent base of a float are neither both 10 nor both powers of two, returns
    /// which. A product that is neither whole nor in the range is not whole, but from 2^90 on (28 digits), it may be out of the
    /// range. There, a float as an `i128` or `u128` may also be [too long][ValueErrorKind::TooLong].
    ///
    /// ```
    /// use peltzivar::literal::{FromLiteral, Language, Literal, Target, ValueErrorKind};
    ///
    /// let price = Language::CSV_DE.read("1.234,5")?.literal().unwrap();
    /// assert_eq!(price.to_scaled::<i64>(2), Ok(123450));
    /// assert_eq!(price.to_scaled::<u32>(0).unwrap_err().kind(), ValueErrorKind::NotWhole);
    ///
    /// /// A price in cents. It is parsed without a literal in memory.
    /// struct Cents(i64);
    ///
    /// impl FromLiteral for Cents {
    ///     const TARGET: Target = Target::new("price in cents");
    ///
    ///     fn from_literal(literal: Literal<'_>) -> Result<Cents, ValueErrorKind> {
    ///         literal.to_scaled(2).map(Cents).map_err(|error| error.kind())
    ///     }
    /// }
    ///
    /// assert_eq!(Language::CSV_DE.parse::<Cents>("-19,99").unwrap().0, -1999);
    /// # Ok::<(), peltzivar::literal::FormError>(())
    /// ```
    #[inline(always)]
    pub fn to_scaled<T: FromLiteral + TryFrom<i128> + TryFrom<u128>>(self, places: u8) -> Result<T, ValueError> {
        let (least, largest) = const { T::TARGET.limits() };
        let value = match to_scaled(&self, places, least, largest) {
            Ok((false, size)) => T::try_from(size).map_err(|_| ValueErrorKind::TooLarge),
            Ok((true, size)) => T::try_from(0_i128.wrapping_sub_unsigned(size)).map_err(|_| ValueErrorKind::TooSmall),
            Err(kind) => Err(kind),
        };
        value.map_err(|kind| self.error::<T>(kind).scaled(places))
    }

    /// Returns the literal as Rust and most other programs read it: without digit separators, prefix, suffix and plus
    /// signs, with `.`, `e` and lowercase digits, and with a `0` for digits that are absent. Nothing is allocated.
    ///
    /// Returns `None` for a float if its digits, its exponent or the base of its exponent are not decimal. An integer can
    /// be in any [radix][Literal::radix], which the text does not show.
    ///
    /// ```
    /// use peltzivar::literal::Language;
    ///
    /// let literal = Language::RUST.read("0xFF")?.literal().unwrap();
    /// assert_eq!(u128::from_str_radix(&literal.plain().unwrap().to_string(), 16), Ok(255));
    /// # Ok::<(), peltzivar::literal::FormError>(())
    /// ```
    #[must_use]
    pub fn plain(&self) -> Option<Plain<'a>> {
        let radixes = [self.format().mantissa_radix(), self.format().exponent_base(), self.format().exponent_radix()];
        (radixes == [10; 3] || !self.is_float()).then_some(Plain(*self))
    }

    /// Returns the value by the kind, if it is not the number that the literal represents.
    #[inline(never)]
    pub(crate) fn other_value(&self) -> Option<Other> {
        if self.has_integer_kind() {
            let Ok(own) = own_numeral(self) else { return Some(Other::TooLarge) };
            let value = own.as_i128()?;
            let written = integer_numeral(self)?.as_i128();
            (written != Some(value)).then_some(Other::Integer(value))
        } else if self.is_single() || self.is_float() && !matches!(self.kind().limits(), FloatLimits::None) {
            let nearest = nearest_float::<f64>(self).ok()?;
            let Ok(value) = to_float::<f64>(self) else { return Some(Other::TooLarge) };
            (value.to_bits() != nearest.to_bits()).then_some(Other::Single(value))
        } else {
            None
        }
    }

    /// Returns the error of the literal in a type.
    const fn error<T: FromLiteral>(&self, kind: ValueErrorKind) -> ValueError {
        ValueError::of::<T>(kind, self.end(), self.integer_kind())
    }

    /// Returns the kind of the literal if it is an integer. A float has none.
    pub(crate) const fn integer_kind(&self) -> IntegerKind {
        if self.is_float() {
            IntegerKind::Exact
        } else {
            self.kind().integers()
        }
    }

    /// Returns whether the literal is an integer of a kind that is not exact.
    const fn has_integer_kind(&self) -> bool {
        !matches!(self.integer_kind(), IntegerKind::Exact)
    }

    /// Returns whether the literal is worth a single as a float.
    const fn is_single(&self) -> bool {
        matches!(self.kind().floats(), FloatKind::Single) && !self.has_integer_kind()
    }
}

/// The text of [`Literal::plain`], which its `Display` prints.
#[derive(Debug, Clone, Copy)]
pub struct Plain<'a>(Literal<'a>);

impl fmt::Display for Plain<'_> {
    fn fmt(&self, f: &mut fmt::Formatter<'_>) -> fmt::Result {
        let mut write = |mark: &str, part| {
            f.write_str(mark)?;
            let mut digits = self.0.digits(part).filter_map(|digit| char::from_digit(digit.into(), 36));
            f.write_char(digits.next().unwrap_or('0'))?;
            digits.try_for_each(|digit| f.write_char(digit))
        };
        write(if self.0.is_negative() { "-" } else { "" }, Part::Integer)?;
        if !self.0.point().is_empty() {
            write(".", Part::Fraction)?;
        }
        match (self.0.exponent_character(), self.0.exponent_sign()) {
            ([], _) => Ok(()),
            (_, b"-") => write("e-", Part::Exponent),
            _ => write("e", Part::Exponent),
        }
    }
}

/// What is known at once of a text: its value, or where reading stops if it is not a literal.
pub(crate) enum Decimal<T> {
    Value(T),
    Stopped(Stopped),
    Unknown,
}

/// Makes the conversions to types, by their calls for literals, and for NaN and infinity.
macro_rules! conversions {
    ($($type:ident)*: $target:path, $convert:ident, $special:expr) => {
        $(
            impl FromLiteral for $type {
                const TARGET: Target = $target(stringify!($type), $type::MIN as i128, $type::MAX as u128);

                #[inline(always)]
                fn from_literal(literal: Literal<'_>) -> Result<$type, ValueErrorKind> {
                    $convert(&literal)
                }

                fn from_special(special: Special) -> Result<$type, ValueErrorKind> {
                    $special(special)
                }
            }

            /// Makes the value from its literal. That of a float is rounded once.
            impl TryFrom<Literal<'_>> for $type {
                type Error = ValueError;

                #[inline(always)]
                fn try_from(literal: Literal<'_>) -> Result<$type, ValueError> {
                    let (size, of) = (literal.end(), literal.integer_kind());
                    $type::from_literal(literal).map_err(|kind| ValueError::of::<$type>(kind, size, of))
                }
            }

            /// Makes the value from a number of a language. That of a float is rounded once.
            impl TryFrom<Number<'_>> for $type {
                type Error = ValueError;

                fn try_from(number: Number<'_>) -> Result<$type, ValueError> {
                    number.value()
                }
            }
        )*
    };
}

conversions! {
    u8 u16 u32 u64 usize u128 i8 i16 i32 i64 isize i128: Target::integer, to_integer, |_| Err(ValueErrorKind::Special)
}

/// Makes the types without 0. Each has the limits of its type of integers.
macro_rules! non_zero {
    ($($type:ident)*) => {
        $(
            impl FromLiteral for NonZero<$type> {
                const TARGET: Target = <$type>::TARGET.named(concat!("NonZero<", stringify!($type), ">"));

                fn from_literal(literal: Literal<'_>) -> Result<Self, ValueErrorKind> {
                    NonZero::new($type::from_literal(literal)?).ok_or(ValueErrorKind::Zero)
                }
            }
        )*
    };
}

non_zero! { u8 u16 u32 u64 usize u128 i8 i16 i32 i64 isize i128 }

conversions! { f64: Target::unlimited, to_float, |special: Special| Ok(special.to_f64()) }
conversions! { f32: Target::unlimited, to_float, |special: Special| Ok(special.to_f32()) }

/// Makes the calls for constants.
macro_rules! constant_calls {
    ($($name:ident $call:ident $type:ident,)*) => {
        impl Literal<'_> {
            $(
                #[doc = concat!("Returns the value of an integer in the type `", stringify!($type), "`, also in a constant.")]
                ///
                /// # Errors
                ///
                /// If the literal is a float, or if its value is not one of the type, returns which.
                pub const fn $name(self) -> Result<$type, ValueError> {
                    let kind = match own_numeral(&self) {
                        Err(kind) => kind,
                        Ok(numeral) => match numeral.$call() {
                            Some(value) => return Ok(value),
                            None => ValueErrorKind::out_of_range(numeral.negative),
                        },
                    };
                    Err(self.error::<$type>(kind))
                }
            )*
        }
    };
}

constant_calls! { to_i64 as_i64 i64, to_u64 as_u64 u64, to_i128 as_i128 i128, to_u128 as_u128 u128, }

/// The value of a literal by its kind, which is not the number that it represents, or none.
pub(crate) enum Other {
    Integer(i128),
    Single(f64),
    TooLarge,
}

/// Returns the bits of the float nearest to a literal, without its sign, or `None` if the radix and the base are not both 10.
const fn decimal_size(double: bool, literal: &Literal) -> Option<u64> {
    if !float::has_decimal_floats(literal.format()) {
        return None;
    }
    let negative = literal.has_negative_exponent();
    Some(match (literal.mantissa(), literal.scale()) {
        (Some(mantissa), Some(exponent)) => {
            digits_to_bits(double, mantissa, literal.places() as u64, negative, exponent)
        }
        _ => {
            let parts = literal.cut();
            decimal_to_bits(double, parts.integer, parts.fraction, negative, exponent_of(literal))
        }
    })
}

/// Makes the calls for floats, also in constants.
macro_rules! floats {
    ($($type:ident $to_float:ident $worth:ident,)*) => {
        $(
            impl Literal<'_> {
                #[doc = concat!("Returns the value, rounded once to the nearest `", stringify!($type), "`, or to the even")]
                /// one if two are as near. Unless its kind has [limits][Kind::limits], it can be infinite. The sign is that of
                /// the literal, also for 0. A constant can have it, too.
                ///
                /// # Errors
                ///
                /// If the mantissa radix and the exponent base are neither both 10 nor both powers of two, as
                /// [`Syntax::supports_floats`] finds out once for all literals, or if the literal has no value by its kind.
                pub const fn $to_float(self) -> Result<$type, ValueError> {
                    let double = <$type as Float>::DOUBLE && !self.is_single();
                    let bits = match decimal_size(double, &self) {
                        None => binary_size(double, &self),
                        bits => bits,
                    };
                    match bits {
                        Some(bits) => self.$worth(double, bits),
                        None => Err(self.error::<$type>(ValueErrorKind::UnsupportedRadix)),
                    }
                }

                /// Returns the value by the kind, where `bits` are those of the number without its sign, as an `f64` or `f32`.
                const fn $worth(&self, double: bool, bits: u64) -> Result<$type, ValueError> {
                    let size = if double { f64::from_bits(bits) as $type } else { f32::from_bits(bits as u32) as $type };
                    let is_own = self.has_integer_kind();
                    let (size, negative) = match own_numeral(self) {
                        Err(kind) if is_own => return Err(self.error::<$type>(kind)),
                        Ok(Numeral { negative, magnitude: Magnitude::Word(own) }) if is_own => (own as $type, negative),
                        _ => (size, self.is_negative()),
                    };
                    if !is_own {
                        if let Some(kind) = beyond(self.kind().limits(), size.is_infinite(), size == 0.0, self) {
                            return Err(self.error::<$type>(kind));
                        }
                    }
                    Ok(if negative { -size } else { size })
                }
            }

            impl Special {
                #[doc = concat!("Returns the NaN or infinity as an `", stringify!($type), "`, with its sign.")]
                #[must_use]
                pub const fn $to_float(self) -> $type {
                    let size = match self.spelling {
                        Spelling::Nan => $type::NAN,
                        Spelling::Inf | Spelling::Infinity => $type::INFINITY,
                    };
                    match self.sign {
                        Some(Sign::Minus) => -size,
                        _ => size,
                    }
                }
            }
        )*
    };
}

floats! { f64 to_f64 f64_worth, f32 to_f32 f32_worth, }

impl Syntax {
    /// Returns the value of the literal `text`. That of `-0` is 0 in each integer type.
    ///
    /// ```
    /// use peltzivar::literal::Language;
    ///
    /// let syntax = Language::TOML.forms()[0].syntax();
    /// assert_eq!(syntax.parse::<u16>("65_535"), Ok(65535));
    /// let error = syntax.parse::<u16>("65_536").unwrap_err();
    /// assert_eq!(error.to_string(), "above 65535, the largest u16");
    /// let error = syntax.parse::<u16>("65_").unwrap_err();
    /// assert_eq!(error.to_string(), syntax.read("65_").unwrap_err().to_string());
    /// ```
    ///
    /// # Errors
    ///
    /// If `text` is not a literal, or if its value is not one of the type, returns why.
    pub fn parse<T: FromLiteral>(&self, text: impl AsRef<[u8]>) -> Result<T, ParseError> {
        let text = text.as_ref();
        match self.parse_decimal(Kind::EXACT, text) {
            Decimal::Value(value) => Ok(value),
            Decimal::Stopped(at) => self.refuse_value(text, at),
            Decimal::Unknown => self.parse_generally(text),
        }
    }

    // Returns what is known at once of a text that may be a decimal literal of a kind. The literal is not stored in memory,
    // unless its digits have to be looked at again. With up to 19 digits, a number fits 64 bits.
    #[inline(always)]
    pub(crate) fn parse_decimal<T: FromLiteral>(&self, kind: Kind, text: &[u8]) -> Decimal<T> {
        if !self.is_decimal() {
            return Decimal::Unknown;
        }
        let begun = self.begin(true, text, false);
        if begun.covers(text) {
            if begun.sums.mantissa.digits <= 19 && begun.sums.exponent.digits <= 19 {
                let literal = self.usual_grammar().literal(text, begun.counts, begun.sums, kind);
                if let Ok(value) = T::from_literal(literal) {
                    return Decimal::Value(value);
                }
            } else if T::TARGET.has_long_values() {
                if let Ok(value) = self.long_value(kind, text, begun.counts, begun.sums) {
                    return Decimal::Value(value);
                }
            }
        } else if begun.refused || begun.at.is_refused(self, text) {
            return Decimal::Stopped(begun.at);
        }
        Decimal::Unknown
    }

    // Returns the value of a literal of many digits. Were it inlined, those of few digits would take longer.
    #[inline(never)]
    fn long_value<T: FromLiteral>(
        &self,
        kind: Kind,
        text: &[u8],
        counts: [usize; 9],
        sums: Sums,
    ) -> Result<T, ValueErrorKind> {
        T::from_literal(self.usual_grammar().literal(text, counts, sums, kind))
    }

    // Returns what `parse` returns for any text.
    #[inline(never)]
    fn parse_generally<T: FromLiteral>(&self, text: &[u8]) -> Result<T, ParseError> {
        match self.read_generally(text) {
            Ok(literal) => value_in_memory::<T>(literal)
                .map_err(|kind| ParseError::Value(ValueError::of::<T>(kind, text.len(), IntegerKind::Exact))),
            Err(error) => Err(error.into()),
        }
    }

    /// Returns the value of the longest literal that `text` begins with, and the rest of `text`, as
    /// [`read_prefix`][Self::read_prefix] finds them.
    ///
    /// ```
    /// use peltzivar::literal::{Syntax, ParseError};
    ///
    /// let syntax = Syntax::integers(peltzivar::Format::default());
    /// let (width, rest) = syntax.parse_prefix::<u16>("640x480")?;
    /// assert_eq!((width, rest, syntax.parse_prefix::<u16>(&rest[1..])?.0), (640, "x480", 480));
    /// # Ok::<(), ParseError>(())
    /// ```
    ///
    /// # Errors
    ///
    /// If `text` does not begin with a literal, or if its value is not one of the type, returns why.
    pub fn parse_prefix<'t, T: FromLiteral>(&self, text: &'t str) -> Result<(T, &'t str), ParseError> {
        let (value, rest) = self.parse_prefix_bytes(text.as_bytes())?;
        Ok((value, rest_of(text, rest)))
    }

    /// Returns what [`parse_prefix`][Self::parse_prefix] returns, of bytes.
    ///
    /// # Errors
    ///
    /// Those of this call.
    pub fn parse_prefix_bytes<'t, T: FromLiteral>(&self, text: &'t [u8]) -> Result<(T, &'t [u8]), ParseError> {
        if !cfg!(peltzivar_small) && self.is_decimal() {
            let begun = self.begin(true, text, true);
            if begun.is_front(text) && begun.sums.mantissa.digits <= 19 && begun.sums.exponent.digits <= 19 {
                let (front, rest) = text.split_at(begun.at.size);
                let literal = self.usual_grammar().literal(front, begun.counts, begun.sums, Kind::EXACT);
                if let Ok(value) = T::from_literal(literal) {
                    return Ok((value, rest));
                }
            }
        }
        self.parse_front(text)
    }

    // Returns what `parse_prefix` returns for any text.
    #[inline(never)]
    fn parse_front<'t, T: FromLiteral>(&self, text: &'t [u8]) -> Result<(T, &'t [u8]), ParseError> {
        let (literal, rest) = self.read_prefix_bytes(text)?;
        Ok((Number::Literal { literal, form: 0 }.value()?, rest))
    }

    // Returns why `text`, of which reading stopped at `stop`, is not a literal.
    #[cold]
    fn refuse_value<T>(&self, text: &[u8], stop: Stopped) -> Result<T, ParseError> {
        Err(stop.error(self, text).into())
    }

    /// Returns whether literals have values of float types: whether the mantissa radix and the exponent base of the format
    /// are both 10 or both powers of two. Where this is true, [`Literal::to_f64`] returns no error, unless an integer is too
    /// large for its kind.
    ///
    /// ```
    /// use peltzivar::{literal::Syntax, NumberFormatBuilder};
    ///
    /// let format = NumberFormatBuilder::new().mantissa_radix(3).build_format_or_panic();
    /// let syntax = Syntax::new_or_panic(format, b'e', b'.');
    /// assert!(!syntax.supports_floats() && syntax.parse::<f64>("0.1").is_err() && syntax.parse::<u8>("21") == Ok(7));
    /// ```
    #[must_use]
    pub const fn supports_floats(&self) -> bool {
        float::supports_floats(self.as_grammar().view())
    }
}

// Returns the value of a literal that is in memory. Were it inlined, all of the literal would be copied.
#[inline(never)]
fn value_in_memory<T: FromLiteral>(literal: Literal<'_>) -> Result<T, ValueErrorKind> {
    T::from_literal(literal)
}

impl Number<'_> {
    /// Returns the value in a type.
    ///
    /// ```
    /// use peltzivar::literal::{Language, ParseError};
    ///
    /// let (number, rest) = Language::RUST.read_prefix("0xFF..")?;
    /// assert_eq!((number.value::<u8>()?, rest), (255, ".."));
    /// # Ok::<(), ParseError>(())
    /// ```
    ///
    /// # Errors
    ///
    /// If the type does not have the value, returns why.
    #[inline]
    pub fn value<T: FromLiteral>(self) -> Result<T, ValueError> {
        let (value, size, of) = match self {
            Number::Literal { literal, .. } => (T::from_literal(literal), literal.end(), literal.integer_kind()),
            Number::Special(special) => (T::from_special(special), 0, IntegerKind::Exact),
        };
        value.map_err(|kind| ValueError::of::<T>(kind, size, of))
    }

    /// Returns the value times 10 to the power of `places` as an exact integer, as [`Literal::to_scaled`] does.
    ///
    /// # Errors
    ///
    /// Those of [`Literal::to_scaled`], and [`ValueErrorKind::Special`].
    #[inline]
    pub fn to_scaled<T: FromLiteral + TryFrom<i128> + TryFrom<u128>>(self, places: u8) -> Result<T, ValueError> {
        match self {
            Number::Literal { literal, .. } => literal.to_scaled(places),
            Number::Special(_) => Err(ValueError::of::<T>(ValueErrorKind::Special, 0, IntegerKind::Exact)),
        }
    }

    /// Returns the value, rounded once to the nearest `f64`. The literals of each [`Language`][crate::literal::Language]
    /// have one, unless a number is too large for its kind, or vanishes, and NaN and infinity keep their sign. For a literal that has
    /// none, returns NaN.
    ///
    /// ```
    /// use peltzivar::literal::Language;
    ///
    /// assert_eq!(Language::TOML.read("6.022_140_76e23")?.to_f64(), 6.02214076e23);
    /// assert_eq!(Language::TOML.read("-inf")?.to_f64(), f64::NEG_INFINITY);
    /// # Ok::<(), peltzivar::literal::FormError>(())
    /// ```
    #[must_use]
    pub fn to_f64(&self) -> f64 {
        self.value().unwrap_or(f64::NAN)
    }
}
