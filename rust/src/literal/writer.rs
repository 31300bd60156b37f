//! Numbers that are written as literals, which is written by hand around the proved layout.

use core::fmt;
use core::str;

use crate::format::STANDARD;
use crate::literal::value::number::float::Float;
use crate::literal::value::number::integer::Integer;
use crate::literal::value::Other;
use crate::literal::{FloatKind, Form, Forms, Literal, Number, Sign, Special, Specials, Spelling, Syntax};
use crate::Format;

mod binary;
#[allow(
    clippy::exhaustive_structs,
    clippy::manual_map,
    clippy::manual_ok_err,
    reason = "as it is proved, and for the library for C alone"
)]
mod choice;
mod digits;
mod float;
mod float_digits;
mod form;
mod integer;
mod layout;
mod literal;
mod patterns;
mod rounded;
mod run;
mod single;
mod sink;
mod units;
mod written;

pub use layout::{ExponentStyle, Grouping, Style, WriteError};

use choice::{choose, lay_out_first, Chosen, LONGEST};
#[doc(hidden)]
pub use choice::{Real, Whole, Writable};
use float_digits::FloatDigits;
use single::Narrow;
pub use written::Written;
use written::{Kept, Source, Text};

/// A type that can be [written][Syntax::format_integer]: each integer type of Rust.
pub trait WriteInteger: Integer {}

impl<T: Integer> WriteInteger for T {}

/// A type that can be [written][Syntax::format_float]: `f32` and `f64`.
pub trait WriteFloat: Float {}

impl<T: Float> WriteFloat for T {}

/// Makes the calls that state a wish, each by its field and the value of this.
macro_rules! wishes {
    ($($(#[$about:meta])* $name:ident($($value:ident: $Type:ty)?) { $field:ident: $wish:expr })*) => {
        impl Style {
            $(
                $(#[$about])*
                #[must_use]
                pub const fn $name(mut self, $($value: $Type)?) -> Style {
                    self.$field = $wish;
                    self
                }
            )*
        }
    };
}

wishes! {
    /// Writes the integer digits in groups of `size` digits, counted from the right. For `0`, there are no groups. Where a
    /// condition of the syntax has a size, the groups have this, and where the format does not allow separators between digits,
    /// there are none.
    group(size: usize) { group: Grouping::Of(size) }

    /// Leaves out the base prefix and the base suffix, unless a condition of the syntax requires them.
    without_base() { base: false }

    /// Writes the digits that are letters in lowercase. A prefix, a suffix and an exponent character stay as the syntax has
    /// them.
    lowercase() { lowercase: true }

    /// Writes the integer with at least `count` digits. Zeros are added before the others, where the format allows leading
    /// zeros.
    min_digits(count: u8) { min_digits: count }

    /// Chooses whether a number is written with an exponent.
    ///
    /// ```
    /// use peltzivar::literal::{ExponentStyle, Style, Syntax};
    /// use peltzivar::{format::STANDARD, Format};
    ///
    /// let syntax = Syntax::new_or_panic(Format::of::<STANDARD>(), b'e', b'.');
    /// let write = |text, exponent| {
    ///     let literal = syntax.read(text).unwrap();
    ///     syntax.format_literal(&literal, Style::PLAIN.exponent(exponent)).unwrap().to_string()
    /// };
    /// assert_eq!(write("1.5e3", ExponentStyle::Never), "1500.0");
    /// assert_eq!(write("1.5", ExponentStyle::Always), "1.5");
    /// assert_eq!(write("1.5e3", ExponentStyle::AsNumber), "1.5e3");
    /// ```
    exponent(wish: ExponentStyle) { exponent: wish }

    /// Rounds a float to `count` digits behind the point, as `{:.2}` of std does: to the nearest, or to the even one if two
    /// are as near. The sign of a number that becomes 0 is kept. There is no exponent, or 0 where the syntax requires one, unless
    /// the style has [`ExponentStyle::Always`]. Then one digit is before the point. In integers alone, and in another radix than
    /// 10, this wish has no effect.
    ///
    /// ```
    /// use peltzivar::literal::{ExponentStyle, Language, Style};
    ///
    /// let syntax = Language::CSV_DE.forms()[0].syntax();
    /// let money = Style::PLAIN.decimals(2);
    /// assert_eq!(syntax.format_float(1234.5, money).unwrap().to_string(), "1.234,50");
    /// assert_eq!(syntax.format_float(-0.004, money).unwrap().to_string(), "-0,00");
    /// let json = Language::JSON.forms()[0].syntax();
    /// let always = money.exponent(ExponentStyle::Always);
    /// assert_eq!(json.format_float(99999.0, always).unwrap().to_string(), "1.00e5");
    /// ```
    decimals(count: u8) { decimals: Some(count) }
}

/// Defines the default of a type.
macro_rules! defaults {
    ($($Type:ident::$default:ident)*) => {
        $(
            #[doc = concat!("[`", stringify!($Type), "::", stringify!($default), "`].")]
            impl Default for $Type {
                fn default() -> Self {
                    $Type::$default
                }
            }
        )*
    };
}

defaults! { Style::PLAIN Grouping::AsSyntax ExponentStyle::AsNumber }

impl Syntax {
    /// Returns the value of an integer as a literal of this syntax. [Parsing][Syntax::parse] the text returns
    /// the same value or, where each literal has an exponent, as a float: `5e0` has no value of an integer type.
    ///
    /// A `+` is written only where a sign is required. Digits are in uppercase.
    ///
    /// ```
    /// use peltzivar::literal::{Language, Style, WriteError};
    ///
    /// let form = Language::C.forms().as_slice().iter().find(|form| form.name() == "hexadecimal").unwrap();
    /// let text = form.syntax().format_integer(0xC0FFEE, Style::PLAIN.group(4))?;
    /// assert_eq!(text.to_string(), "0xC0'FFEE");
    /// assert_eq!(Language::C.parse(text.to_string()), Ok(0xC0FFEE));
    /// # Ok::<(), WriteError>(())
    /// ```
    ///
    /// # Errors
    ///
    /// [`WriteError::Negative`] if the value is below 0 and the syntax forbids `-`.
    #[inline(always)]
    pub fn format_integer<T: WriteInteger>(&self, value: T, style: Style) -> Result<Written<'static>, WriteError> {
        integer::format_integer(self, value, style).map(|integer| Written::of(Text::Integer(integer)))
    }

    /// Returns the value of a float as a literal of this syntax. [Parsing][Syntax::parse] the text returns the same value, also
    /// for `-0`.
    ///
    /// In radix 10, the digits are the fewest that are read as this value, of these the nearest. In a radix that is a power of
    /// two, the literal is exact. Unless the style has a wish, an exponent is where `{:?}` of std has one: below `1e-4`, and from
    /// `1e16` up. As there, `.0` is written where the value is whole, and no exponent is.
    ///
    /// ```
    /// use peltzivar::literal::{Language, Style, WriteError};
    ///
    /// let syntax = Language::CSV_DE.forms()[0].syntax();
    /// assert_eq!(syntax.format_float(1234.56, Style::PLAIN)?.to_string(), "1.234,56");
    /// assert_eq!(syntax.format_float(1e-7_f32, Style::PLAIN)?.to_string(), "0,0000001");
    /// assert_eq!(syntax.format_float(f64::NAN, Style::PLAIN).unwrap_err(), WriteError::Special);
    /// # Ok::<(), WriteError>(())
    /// ```
    ///
    /// # Errors
    ///
    /// [`WriteError::Special`] for NaN and infinity, [`WriteError::Radix`] if the mantissa radix and the exponent base are
    /// neither both 10 nor both powers of two, and otherwise why no literal has the value.
    #[inline(never)]
    pub fn format_float<T: WriteFloat>(&self, value: T, style: Style) -> Result<Written<'static>, WriteError> {
        let (mut digits, mut text) = (FloatDigits::new(), [0; 40]);
        let length = float::format_float(self, value, style, &mut digits)?.write(&mut text);
        let source = Source::of_float(value);
        Ok(Written::of(Text::Kept(Kept { source, syntax: *self, style, text, length })))
    }

    /// Returns a literal, which may be of another syntax, as a literal of this syntax with the same value.
    ///
    /// The digits and the exponent stay, with trailing zeros and the sign of `-0`, if the mantissa radix, the exponent base and
    /// the exponent radix are the same. Separators and leading zeros are left out, and groups are those of `style`. Where the
    /// format requires digits or an exponent that the literal does not have, `0` and `e0` are added. In another radix, and where
    /// no exponent is allowed, the value is written, if it is known: `0xFF` is `255`, and `1.2e3` is `1200.0`, since a float
    /// stays one, or `1200` in a syntax of integers alone. If the value by the [kind][Literal::kind] of the literal is another
    /// number, that is written: of Java's `0xffffffff`, it is `-1`.
    ///
    /// ```
    /// use peltzivar::literal::{Style, Syntax};
    /// use peltzivar::{format::STANDARD, Format, NumberFormatBuilder};
    ///
    /// const COMMA: NumberFormatBuilder = NumberFormatBuilder::new().required_digits(true);
    /// const COMMAS: Syntax = Syntax::new_or_panic(COMMA.build_format_or_panic(), b'e', b',');
    /// let literal = COMMAS.read("-0012,50").unwrap();
    /// let syntax = Syntax::new_or_panic(Format::of::<STANDARD>(), b'e', b'.');
    /// assert_eq!(syntax.format_literal(&literal, Style::PLAIN).unwrap().to_string(), "-12.50");
    /// ```
    ///
    /// # Errors
    ///
    /// If the literal cannot be written, returns why.
    pub fn format_literal<'a>(&self, literal: &Literal<'a>, style: Style) -> Result<Written<'a>, WriteError> {
        match literal.other_value() {
            None => Ok(Written::of(Text::Number(literal::format_literal(literal, self, style)?))),
            Some(other) => self.format_other(other, style),
        }
    }

    /// Returns the value of a literal that is not the number that it represents.
    #[cold]
    #[inline(never)]
    fn format_other(&self, other: Other, style: Style) -> Result<Written<'static>, WriteError> {
        match other {
            Other::Integer(value) => self.format_integer(value, style),
            Other::Single(value) => self.format_float(value, style),
            Other::TooLarge => Err(WriteError::TooLarge),
        }
    }
}

impl<'a> Forms<'a> {
    /// Returns the value of an integer as a number of one of these forms. [Reading][Self::read] the text returns the same
    /// value, also as a float that is exactly this integer.
    ///
    /// Decimal forms are asked first, and then the others, each in the order of the list. The first is taken whose text is
    /// read, by all forms, as the same value: in C, 15 is not written as `17` of the octal form, which is decimal if it
    /// begins with another digit than 0. Each form is asked without a word, and then with its
    /// [words][super::Suffixes::written]: such a text, as Java's `3000000000L`, is read by [`token`][Self::token] alone.
    ///
    /// ```
    /// use peltzivar::literal::{Language, Style, WriteError};
    ///
    /// assert_eq!(Language::C.forms().format_integer(1_234_567, Style::PLAIN.group(3))?.to_string(), "1'234'567");
    /// assert_eq!(Language::C.forms().format_integer(-1, Style::PLAIN).unwrap_err(), WriteError::Negative);
    /// # Ok::<(), WriteError>(())
    /// ```
    ///
    /// # Errors
    ///
    /// If no form is taken, returns the error of the form that was asked first: [`WriteError::ReadBack`] if the text is read as
    /// another number, and [`WriteError::TooLarge`] if it is too large for its kind. A text of more than 4,096 bytes ends the
    /// search with [`WriteError::Buffer`].
    pub fn format_integer<T: WriteInteger>(&self, value: T, style: Style) -> Result<Written<'static>, WriteError> {
        let number = Whole::of(value);
        match lay_out_first(self, &number, style) {
            Some(integer) => Ok(Written::of(Text::Integer(integer))),
            None => self.format_number(&number, Source::of_integer(value), style),
        }
    }

    /// Returns the value of a float as a number of one of these forms, or as one of the spellings of NaN and infinity.
    /// [Reading][Self::read] the text returns the same bits, but for a NaN. In a list whose floats are all singles, it returns the
    /// nearest `f32`, which is neither infinite nor 0 instead.
    ///
    /// Forms are asked as by [`format_integer`][Self::format_integer], but decimal forms of integers alone come behind those that
    /// have floats. Decimal forms with floats alone write a float that is rounded.
    ///
    /// ```
    /// use peltzivar::literal::{Language, Style, WriteError};
    ///
    /// assert_eq!(Language::TOML.forms().format_float(-1e300, Style::PLAIN)?.to_string(), "-1e300");
    /// assert_eq!(Language::TOML.forms().format_float(f32::INFINITY, Style::PLAIN)?.to_string(), "inf");
    /// # Ok::<(), WriteError>(())
    /// ```
    ///
    /// # Errors
    ///
    /// As [`format_integer`][Self::format_integer], [`WriteError::Special`] for NaN and infinity without a spelling, and
    /// [`WriteError::Fraction`] for a float that is rounded if no decimal form has floats.
    pub fn format_float<T: WriteFloat>(&self, value: T, style: Style) -> Result<Written<'a>, WriteError> {
        match self.format_number(&Real { value }, Source::of_float(value), style) {
            Err(WriteError::Special) => {
                let sign = value.bits().filter(|bits| *bits > u64::MAX >> if T::DOUBLE { 1 } else { 33 });
                let spelling = value.bits().map_or(Spelling::Nan, |_| Spelling::Inf);
                self.format_special(Special { sign: sign.map(|_| Sign::Minus), spelling })
            }
            written => written,
        }
    }

    /// Returns a literal, which may be of other forms, as a number of one of these forms. [Reading][Self::read] the text
    /// returns the same integer, also as a float, or the same bits of `f64` if the literal is a float.
    ///
    /// Forms of the radix of the literal are asked first and, if it has a point or an exponent, only those that have floats. Then
    /// the others are asked. The first is taken whose text is read, by all forms, as the same number.
    ///
    /// ```
    /// use peltzivar::literal::{Language, Style, WriteError};
    ///
    /// let literal = Language::C.read("0x1.8p1").unwrap().literal().unwrap();
    /// let write = |language: Language| language.forms().format_literal(&literal, Style::PLAIN).map(|it| it.to_string());
    /// assert_eq!(write(Language::JAVA)?, "0x1.8p1");
    /// assert_eq!(write(Language::PYTHON)?, "3.0");
    /// # Ok::<(), WriteError>(())
    /// ```
    ///
    /// # Errors
    ///
    /// As [`format_integer`][Self::format_integer].
    pub fn format_literal<'b>(&self, literal: &Literal<'b>, style: Style) -> Result<Written<'b>, WriteError> {
        match literal.other_value() {
            None => self.format_number(literal, Source::Literal(*literal), style),
            Some(Other::Integer(value)) => self.format_integer(value, style),
            Some(Other::Single(value)) => self.format_number(&Real { value }, Source::of_float(value), style),
            Some(Other::TooLarge) => Err(WriteError::TooLarge),
        }
    }

    /// Returns an exact amount, `value` over 10 to the power of `places`, as a number of one of these forms, with as many digits
    /// behind the point: of 1200 and 2, `12.00`. It is written as the literal with these digits is by
    /// [`format_literal`][Self::format_literal], and [`Number::to_scaled`] returns `value`. The style's wish for decimals has no
    /// effect.
    ///
    /// ```
    /// use peltzivar::literal::{Language, Style, WriteError};
    ///
    /// let money = Style::PLAIN.group(3);
    /// assert_eq!(Language::CSV_DE.forms().format_scaled(-123450, 2, money)?.to_string(), "-1.234,50");
    /// assert_eq!(Language::JSON.forms().format_scaled(7, 3, Style::PLAIN)?.to_string(), "0.007");
    /// # Ok::<(), WriteError>(())
    /// ```
    ///
    /// # Errors
    ///
    /// As [`format_literal`][Self::format_literal]. In forms of integers alone, an amount that is not whole has
    /// [`WriteError::Fraction`].
    pub fn format_scaled<T: WriteInteger>(
        &self,
        value: T,
        places: u8,
        style: Style,
    ) -> Result<Written<'static>, WriteError> {
        let buffer = &mut [0; LONGEST_SCALED];
        let literal = scaled(value.sign_and_size(), places, buffer).ok_or(WriteError::ReadBack)?;
        self.format_number(&literal, Source::of_scaled(value), style.decimals(places))
    }

    /// Returns the text of NaN or infinity. Another spelling than the first is written if the first is a literal of a form.
    ///
    /// # Errors
    ///
    /// [`WriteError::Special`] if no spelling is read as this value.
    #[doc(hidden)]
    #[cold]
    pub fn format_special(&self, special: Special) -> Result<Written<'a>, WriteError> {
        let (syntax, specials) = (self[0].syntax(), self.specials());
        for spellings in [Specials { infinity: None, ..specials }, Specials { inf: None, ..specials }] {
            let Ok(written) = spellings.format(&syntax, special) else { continue };
            let buffer = &mut [0; LONGEST];
            let length = written.write(buffer);
            if buffer.get(..length).is_some_and(|text| matches!(self.read_bytes(text), Ok(Number::Special(_)))) {
                return Ok(written);
            }
        }
        Err(WriteError::Special)
    }

    /// Writes a number by the first form whose text the list reads as this number. In a list whose floats are all singles, a float
    /// is read as the nearest single.
    fn choose_form<N: Writable + ?Sized>(
        &self,
        number: &N,
        style: Style,
        text: &mut [u8],
    ) -> Result<Chosen, WriteError> {
        if !number.own(style).integer && self.has_singles_alone() {
            return choose(self, &Narrow(number) as &dyn Writable, style, text);
        }
        choose(self, number, style, text)
    }

    /// Returns whether there are floats, and all are singles.
    fn has_singles_alone(&self) -> bool {
        let mut floats = self.as_slice().iter().filter(|form| form.syntax().point().is_some()).peekable();
        floats.peek().is_some() && floats.all(|form| form.kind().floats() == FloatKind::Single)
    }

    /// Returns a number as one of these forms, with the text that is read back, if it is short.
    fn format_number<'b>(
        &self,
        number: &impl Writable,
        source: Source<'b>,
        style: Style,
    ) -> Result<Written<'b>, WriteError> {
        let mut text = [0; 40];
        match self.choose_form(number, style, &mut text) {
            Ok(chosen) => Ok(self.written_number(source, style, chosen, text)),
            Err(WriteError::Buffer(_)) => self.format_long(number, source, style),
            Err(error) => Err(error),
        }
    }

    /// Returns a number, where the text of a form that is asked has more than 40 bytes. That of another form can be short.
    #[cold]
    #[inline(never)]
    fn format_long<'b>(
        &self,
        number: &dyn Writable,
        source: Source<'b>,
        style: Style,
    ) -> Result<Written<'b>, WriteError> {
        self.choose_long(number, style, |chosen, long| {
            let mut text = [0; 40];
            let size = chosen.length.min(text.len());
            text[..size].copy_from_slice(&long[..size]);
            self.written_number(source, style, chosen, text)
        })
    }

    /// Returns a number by the form, the style and the word with which it is read back, and with the text if it is short.
    fn written_number<'b>(&self, source: Source<'b>, style: Style, chosen: Chosen, text: [u8; 40]) -> Written<'b> {
        let Chosen { form, word, length } = chosen;
        let form = &self.as_slice()[form];
        let (syntax, opening) = (form.syntax(), form.opening());
        Written { text: Text::Kept(Kept { source, syntax, style, text, length }), opening, word }
    }

    /// Passes how a number is written, and the text, which may have any length that is read back.
    #[inline(never)]
    fn choose_long<R>(
        &self,
        number: &dyn Writable,
        style: Style,
        then: impl FnOnce(Chosen, &[u8]) -> R,
    ) -> Result<R, WriteError> {
        let buffer = &mut [0; LONGEST];
        let chosen = self.choose_form(number, style, buffer)?;
        Ok(then(chosen, &buffer[..chosen.length]))
    }

    /// Passes the text of a number in one of these forms, for programs with few bytes.
    ///
    /// # Errors
    ///
    /// As those of the other calls.
    #[doc(hidden)]
    pub fn written<R>(
        &self,
        number: &dyn Writable,
        style: Style,
        then: impl FnOnce(&[u8]) -> R,
    ) -> Result<R, WriteError> {
        let buffer = &mut [0; 40];
        match self.choose_form(number, style, buffer) {
            Ok(Chosen { length, .. }) => Ok(then(&buffer[..length])),
            Err(WriteError::Buffer(_)) => self.choose_long(number, style, |_, text| then(text)),
            Err(error) => Err(error),
        }
    }
}

/// The most bytes of an integer that is scaled: a sign, a point, and 256 digits.
#[doc(hidden)]
pub const LONGEST_SCALED: usize = 258;

/// Returns an integer, by its sign and its size, over 10 to the power of `places`, as a literal. A buffer of
/// [`LONGEST_SCALED`] bytes has its text.
#[doc(hidden)]
pub fn scaled((negative, size): (bool, u128), places: u8, buffer: &mut [u8]) -> Option<Literal<'_>> {
    const DECIMAL: [Form; 1] = [Form::new("", Syntax::new_or_panic(Format::of::<STANDARD>(), b'e', b'.'))];
    let mut start = buffer.len();
    let mut put = |byte| {
        start = start.saturating_sub(1);
        buffer.get_mut(start).map(|to| *to = byte)
    };
    let (mut rest, mut place) = (size, 0);
    while rest > 0 || place <= u32::from(places) {
        if place > 0 && place == places.into() {
            put(b'.')?;
        }
        let (above, digit) = match u64::try_from(rest) {
            Ok(rest) => (u128::from(rest / 10), rest % 10),
            Err(_) => (rest / 10, (rest % 10) as u64),
        };
        put(b'0' + digit as u8)?;
        (rest, place) = (above, place + 1);
    }
    if negative {
        put(b'-')?;
    }
    match Forms::new(&DECIMAL)?.read(&buffer[start..]) {
        Ok(Number::Literal { literal, .. }) => Some(literal),
        _ => None,
    }
}

impl Literal<'_> {
    /// Passes the number that forms write for the literal, or why they write none.
    #[doc(hidden)]
    pub fn with_number<R>(&self, then: impl FnOnce(Result<&dyn Writable, WriteError>) -> R) -> R {
        match self.other_value() {
            None => then(Ok(self)),
            Some(Other::Integer(value)) => then(Ok(&Whole::of(value))),
            Some(Other::Single(value)) => then(Ok(&Real { value })),
            Some(Other::TooLarge) => then(Err(WriteError::TooLarge)),
        }
    }
}

impl<'a> Specials<'a> {
    /// Returns the text of NaN or infinity in `syntax`. [Reading][Self::read] the text returns the same value with the same
    /// sign.
    ///
    /// The text has the first spelling of this value that is read back, in the order inf, infinity. The sign `-` is written,
    /// and `+` where a sign is required.
    ///
    /// ```
    /// use peltzivar::literal::{Language, Sign, Special, Spelling, WriteError};
    ///
    /// let (toml, json) = (Language::TOML, Language::JSON);
    /// let infinity = Special { sign: Some(Sign::Minus), spelling: Spelling::Infinity };
    /// assert_eq!(toml.forms().specials().format(&toml.forms()[0].syntax(), infinity)?.to_string(), "-inf");
    /// assert_eq!(json.forms().specials().format(&json.forms()[0].syntax(), infinity).unwrap_err(), WriteError::Special);
    /// # Ok::<(), WriteError>(())
    /// ```
    ///
    /// # Errors
    ///
    /// [`WriteError::Special`] if none of its spellings is read back, or if the first of these is not UTF-8.
    pub fn format(&self, syntax: &Syntax, special: Special) -> Result<Written<'a>, WriteError> {
        let text = self.spell(syntax, special).ok_or(WriteError::Special)?;
        let word = str::from_utf8(text.word).map_err(|_| WriteError::Special)?;
        let sign = text.sign.map(|sign| if sign == Sign::Minus { b'-' } else { b'+' });
        Ok(Written::of(Text::Special(sign, word)))
    }
}

/// Prints the reason, such as `no literal has the sign '-'`.
impl fmt::Display for WriteError {
    fn fmt(&self, f: &mut fmt::Formatter<'_>) -> fmt::Result {
        f.pad(match self {
            WriteError::Radix => {
                "in this radix or without an exponent, the number has too many digits, or none that are known"
            }
            WriteError::TooLarge => "the literal is too large for its kind",
            WriteError::Negative => "no literal has the sign '-'",
            WriteError::Fraction => "literals are integers, and the number is not whole",
            WriteError::Special => "no literal is NaN or infinity, and no spelling is read back as it",
            WriteError::Buffer(length) => return write!(f, "the text has {length} bytes"),
            WriteError::ReadBack => "the text is read as another number",
        })
    }
}
