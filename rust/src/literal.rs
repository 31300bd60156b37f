//! Literals: the texts that are numbers of a format, their parts, the calls that read them, and why a text is not one.
//!
//! A [`Syntax`] is a lawful format with an exponent character and a decimal point or, for integers alone, without both,
//! and [`Conditions`]. It reads its literals. A [`Literal`] has the parts of a text and, if it is an integer, its value
//! in any integer type of Rust. A [`ReadError`] finds the cause of a refusal, and the flags to blame.
//! NaN and infinity are not literals: [`Specials`] reads them. [`Forms`] read numbers that have several forms, such as
//! `10` and `0x1F`, and a [`Language`] has those of a language.
//!
//! ```
//! use peltzivar::format::{Format, STANDARD};
//! use peltzivar::literal::Syntax;
//!
//! /// The numbers of the standard format.
//! const SYNTAX: Syntax = Syntax::new_or_panic(Format::of::<STANDARD>(), b'e', b'.');
//! let literal = SYNTAX.read("-1.25e3").unwrap();
//! assert!(literal.is_negative() && literal.is_float());
//! assert_eq!((literal.integer(), literal.fraction(), literal.exponent()), (&b"1"[..], &b"25"[..], &b"3"[..]));
//!
//! // A second decimal point is refused. What is before it is a literal.
//! let error = SYNTAX.read("1.25.3").unwrap_err();
//! assert_eq!((error.valid_up_to(), error.to_string()), (4, "unexpected character '.'".into()));
//! let (literal, rest) = SYNTAX.read_prefix("1.25.3").unwrap();
//! assert_eq!((literal.as_bytes(), rest), (&b"1.25"[..], ".3"));
//! ```
//!
//! [`Syntax::parse`] returns the value of a text. [`Syntax::read_prefix`] has an example that splits a text into numbers.
//!
//! # Writing numbers
//!
//! A syntax also determines how a number may be written. [`Syntax::format_integer`] writes an integer of Rust, and
//! [`Syntax::format_literal`] a literal of another syntax. What is written is a literal, with the same value. Nothing is
//! allocated.
//!
//! ```
//! use peltzivar::literal::{Language, Style, WriteError};
//!
//! let number = Language::C.read("1'000.5e3").unwrap();
//! let python = Language::PYTHON.forms()[0].syntax();
//! let text = python.format_literal(&number.literal().unwrap(), Style::PLAIN.group(3))?;
//! assert_eq!(text.to_string(), "1_000.5e3");
//! assert_eq!(python.format_integer(1_234_567, Style::PLAIN)?.to_string(), "1234567");
//! // In Python, the `-` of `-1` is an operator.
//! assert_eq!(python.format_integer(-1, Style::PLAIN).unwrap_err(), WriteError::Negative);
//!
//! // A float is written by the fewest digits that are read as this float.
//! let comma = Language::CSV_DE.forms()[0].syntax();
//! assert_eq!(comma.format_float(0.1 + 0.2, Style::PLAIN)?.to_string(), "0,30000000000000004");
//! # Ok::<(), WriteError>(())
//! ```

mod behind;
mod candidate;
mod cause;
mod conditions;
mod exclude;
mod form;
mod forms;
mod group_size;
mod kind;
mod language;
#[allow(clippy::exhaustive_enums, reason = "numbers are of two kinds")]
mod list;
mod literal;
mod notation;
mod number;
mod opening;
mod scan;
mod sentence;
mod span;
#[allow(
    clippy::exhaustive_enums,
    clippy::exhaustive_structs,
    reason = "callers write spellings, and special values cannot grow"
)]
mod specials;
mod step;
mod stop;
mod suffix;
mod syntax;
mod text;
mod token;
mod tokens;
mod value;
mod writer;

pub use cause::{Place, ReadError, ReadErrorKind};
pub use form::Form;
pub use kind::{FloatKind, FloatLimits, IntegerKind, Kind};
pub use language::{Language, LanguageError};
/// Reads and writes numbers that have one of several forms, such as `10` and `0x1F`.
///
/// A text is a number if it is a literal of one of the forms, or a special value. The first such form gives its parts and its
/// value, so the order matters where forms overlap, as here in `10`:
///
/// ```
/// use peltzivar::literal::{Form, Forms, Syntax};
/// use peltzivar::NumberFormatBuilder;
///
/// const DECIMAL: NumberFormatBuilder = NumberFormatBuilder::new().no_integer_leading_zeros(true);
/// const OCTAL: NumberFormatBuilder = NumberFormatBuilder::new().mantissa_radix(8);
/// static FORMS: Forms<'static> = Forms::new_or_panic(&[
///     Form::new("decimal", Syntax::integers(DECIMAL.build_format_or_panic())),
///     Form::new("octal", Syntax::integers(OCTAL.build_format_or_panic())),
/// ]);
///
/// assert_eq!((FORMS.parse("10"), FORMS.parse("017")), (Ok(10), Ok(15)));
/// assert_eq!(FORMS.read("017").unwrap().form(), Some(1));
/// let error = FORMS.read("0178").unwrap_err();
/// assert_eq!((error.form, error.name, error.to_string()), (1, "octal", "unexpected character '8'".into()));
/// ```
pub use list::Forms;
pub use list::{FormError, Number, Tokens};
/// A number that was read from a text: its parts, which can be converted to a type of Rust.
///
/// A part that is absent has no bytes. All bytes are ASCII. Two literals are equal if they have the same format, up to
/// its [normal form][crate::Format::normal_form], the same parts, and openings of the same length.
///
/// An integer type of Rust, `f64` or `f32` can be made from a literal. Some of these can be made in a constant. A [`Syntax`]
/// can [parse][Syntax::parse] a text in one call.
///
/// ```
/// use peltzivar::literal::{Language, ParseError, ValueErrorKind};
///
/// let literal = Language::TOML.read("-9_223_372_036_854_775_808")?.literal().unwrap();
/// assert_eq!(i64::try_from(literal), Ok(i64::MIN));
/// assert_eq!(i32::try_from(literal).unwrap_err().to_string(), "below -2147483648, the least i32");
/// assert_eq!(Language::RUST.parse::<u16>("0xFFFF")?, u16::MAX);
///
/// // A float is no integer, even if its value is whole.
/// let literal = Language::CSV_EN.read("1,234.50")?.literal().unwrap();
/// assert_eq!(literal.to_i64().unwrap_err().kind(), ValueErrorKind::Float);
/// assert_eq!(f64::try_from(literal)?, 1234.5);
/// # Ok::<(), ParseError>(())
/// ```
pub use literal::Literal;
pub use number::Digits;
pub use opening::Opening;
pub use specials::{Sign, Special, Specials, Spelling};
pub use suffix::{Stop, Suffixes};
pub use syntax::{Condition, Conditions, ConditionsError, ConditionsErrorKind, Syntax};
pub use token::{Token, TokenError};
pub use value::{FromLiteral, ParseError, Plain, Target, ValueError, ValueErrorKind};
#[doc(hidden)]
pub use writer::{scaled, Real, Whole, Writable, LONGEST_SCALED};
pub use writer::{ExponentStyle, Grouping, Style, WriteError, WriteFloat, WriteInteger, Written};
