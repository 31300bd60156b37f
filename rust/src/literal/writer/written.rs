//! The text of a number that is written.

use core::fmt::{self, Write};
use core::str;

use crate::literal::value::number::float::Float;
use crate::literal::value::number::integer::Integer;
use crate::literal::writer::float;
use crate::literal::writer::float_digits::FloatDigits;
use crate::literal::writer::integer::WrittenInteger;
use crate::literal::writer::layout::{Amount, Layout, Style, WriteError};
use crate::literal::writer::literal;
use crate::literal::writer::scaled;
use crate::literal::writer::sink::{Sink, Window};
use crate::literal::{Literal, Opening, Syntax};

/// A number as a literal of a syntax, or NaN or infinity, which prints the text. Nothing is allocated.
#[derive(Clone, Copy)]
pub struct Written<'a> {
    pub(super) text: Text<'a>,
    /// The opening before the literal.
    pub(super) opening: Opening,
    /// A word behind this.
    pub(super) word: Option<&'static &'static [u8]>,
}

/// What is printed.
#[derive(Clone, Copy)]
pub(super) enum Text<'a> {
    Number(Layout<'a>),
    Integer(WrittenInteger),
    Kept(Kept<'a>),
    Special(Option<u8>, &'a str),
}

/// A number that is laid out.
#[derive(Clone, Copy)]
pub(super) enum Source<'a> {
    /// The value of a type, by its sign and by an integer that is its size, or the bits of it, and how it is laid out. A program has
    /// only those calls for the types that it writes.
    Value {
        negative: bool,
        size: u128,
        lay_out: for<'b> fn(bool, u128, &Syntax, Style, &'b mut FloatDigits) -> Option<Layout<'b>>,
    },
    Literal(Literal<'a>),
}

impl Source<'static> {
    /// Returns an integer.
    pub(super) fn of_integer<T: Integer>(value: T) -> Self {
        let (negative, size) = value.sign_and_size();
        let lay_out = |negative, size, syntax: &Syntax, style, _: &mut FloatDigits| {
            Amount::of_size(negative, size).lay_out(syntax, style).ok()
        };
        Source::Value { negative, size, lay_out }
    }

    /// Returns an integer over 10 to the power of the decimals of the style.
    pub(super) fn of_scaled<T: Integer>(value: T) -> Self {
        let (negative, size) = value.sign_and_size();
        Source::Value { negative, size, lay_out: lay_out_scaled }
    }

    /// Returns a float.
    pub(super) fn of_float<T: Float>(value: T) -> Self {
        let sign = if T::DOUBLE { 1 << 63 } else { 1 << 31 };
        let bits = value.bits().unwrap_or(0);
        Source::Value { negative: bits >= sign, size: (bits % sign).into(), lay_out: lay_out::<T> }
    }
}

/// Returns the layout of the float of a type with this sign, and with these bits but for that of the sign.
fn lay_out<'b, T: Float>(
    negative: bool,
    bits: u128,
    syntax: &Syntax,
    style: Style,
    digits: &'b mut FloatDigits,
) -> Option<Layout<'b>> {
    let size = T::from_magnitude(bits as u64);
    let value = if negative { size.negated() } else { size };
    float::format_float(syntax, value, style, digits).ok()
}

/// Returns the layout of an integer over 10 to the power of the decimals of the style.
fn lay_out_scaled<'b>(
    negative: bool,
    size: u128,
    syntax: &Syntax,
    style: Style,
    digits: &'b mut FloatDigits,
) -> Option<Layout<'b>> {
    let literal = scaled((negative, size), style.decimals?, digits.long.insert([0; 800]))?;
    literal::format_literal(&literal, syntax, style).ok()
}

/// A number and how it is laid out, and the text, if it is short, with its length.
#[derive(Clone, Copy)]
pub(super) struct Kept<'a> {
    pub(super) source: Source<'a>,
    pub(super) syntax: Syntax,
    pub(super) style: Style,
    pub(super) text: [u8; 40],
    pub(super) length: usize,
}

impl Kept<'_> {
    /// Returns the layout. The digits of a float are those of `digits`.
    fn layout<'b>(&'b self, digits: &'b mut FloatDigits) -> Option<Layout<'b>> {
        match &self.source {
            Source::Value { negative, size, lay_out } => lay_out(*negative, *size, &self.syntax, self.style, digits),
            Source::Literal(literal) => literal::format_literal(literal, &self.syntax, self.style).ok(),
        }
    }
}

impl Text<'_> {
    /// Returns the layout of a number. The digits of a float are those of `digits`.
    fn layout<'b>(&'b self, digits: &'b mut FloatDigits) -> Option<Layout<'b>> {
        match self {
            Text::Number(layout) => Some(*layout),
            Text::Integer(integer) => Some(integer.lay_out()),
            Text::Kept(kept) => kept.layout(digits),
            Text::Special(..) => None,
        }
    }

    /// Returns the text of a number that keeps it, with what stands around it, if it is short.
    fn short(&self) -> Option<&[u8]> {
        match self {
            Text::Kept(Kept { text, length, .. }) => text.get(..*length),
            _ => None,
        }
    }

    /// Writes the text, without what stands around it, to the beginning of a buffer, and returns its length.
    fn write(&self, buffer: &mut [u8]) -> usize {
        match self {
            Text::Number(layout) => layout.write(buffer),
            Text::Integer(integer) => integer.write(buffer),
            Text::Kept(_) => self.layout(&mut FloatDigits::new()).map_or(0, |layout| layout.write(buffer)),
            Text::Special(sign, word) => {
                let mut window = Window { bytes: buffer, length: 0 };
                sign.iter().for_each(|sign| window.put(*sign));
                window.put_all(word.as_bytes());
                window.length
            }
        }
    }
}

impl<'a> Written<'a> {
    /// Returns a text that nothing stands around.
    pub(super) const fn of(text: Text<'a>) -> Written<'a> {
        Written { text, opening: Opening::NONE, word: None }
    }

    /// Returns the word, which is empty if there is none.
    fn word(&self) -> &'static [u8] {
        self.word.copied().unwrap_or_default()
    }

    /// Writes the text to the beginning of a buffer, as far as it has room, and returns its length.
    #[inline]
    pub(super) fn write(&self, buffer: &mut [u8]) -> usize {
        match &self.text {
            Text::Integer(integer) if self.is_bare() => integer.write(buffer),
            _ => self.write_all(buffer),
        }
    }

    /// Returns whether nothing stands around the text.
    fn is_bare(&self) -> bool {
        self.opening.is_empty() && self.word.is_none()
    }

    /// Writes the text with what stands around it, as [`write`][Self::write] does.
    fn write_all(&self, buffer: &mut [u8]) -> usize {
        if let Some(text) = self.short().filter(|text| text.len() <= buffer.len()) {
            buffer[..text.len()].copy_from_slice(text);
            return text.len();
        }
        let mut window = Window { bytes: buffer, length: 0 };
        if !self.opening.is_empty() {
            window.put_all(self.opening.as_bytes());
        }
        let start = window.length.min(window.bytes.len());
        window.length = window.length.saturating_add(self.text.write(&mut window.bytes[start..]));
        if self.word.is_some() {
            window.put_all(self.word());
        }
        window.length
    }

    /// Writes the text to the beginning of a buffer, and returns it.
    ///
    /// ```
    /// use peltzivar::literal::{Style, Syntax, WriteError};
    /// use peltzivar::{format::STANDARD, Format};
    ///
    /// let text = Syntax::integers(Format::of::<STANDARD>()).format_integer(u128::MAX, Style::PLAIN)?;
    /// assert_eq!(text.write_into(&mut [0; 39])?, u128::MAX.to_string());
    /// assert_eq!(text.write_into(&mut [0; 38]), Err(WriteError::Buffer(39)));
    /// # Ok::<(), WriteError>(())
    /// ```
    ///
    /// # Errors
    ///
    /// [`WriteError::Buffer`] with the length of the text if it does not fit. The content of the buffer is then
    /// unspecified.
    pub fn write_into<'b>(&self, buffer: &'b mut [u8]) -> Result<&'b str, WriteError> {
        let length = self.write(buffer);
        let text = buffer.get(..length).and_then(|text| str::from_utf8(text).ok());
        text.ok_or(WriteError::Buffer(length))
    }

    /// Returns the text if it is short, and known.
    #[doc(hidden)]
    #[must_use]
    pub fn short(&self) -> Option<&[u8]> {
        self.text.short()
    }

    /// Prints the text to a writer that is no formatter, which takes 3 kB less of a program.
    ///
    /// # Errors
    ///
    /// If the writer returns an error, returns it.
    #[doc(hidden)]
    pub fn write_to(&self, to: &mut impl Write) -> fmt::Result {
        if let Text::Special(sign, word) = self.text {
            sign.iter().try_for_each(|sign| to.write_char(char::from(*sign)))?;
            return to.write_str(word);
        }
        let mut printer = Printer { f: to, skip: 0, result: Ok(()) };
        printer.put_all(self.opening.as_bytes());
        if let Some(layout) = self.text.layout(&mut FloatDigits::new()) {
            layout.put(&mut printer);
        }
        printer.put_all(self.word());
        printer.result
    }

    /// Prints the text, of which the length is known, with what the formatter adds.
    #[cold]
    fn pad(&self, f: &mut fmt::Formatter<'_>, length: usize) -> fmt::Result {
        let mut digits = FloatDigits::new();
        let layout = self.text.layout(&mut digits);
        let (own, prefix) = match (layout, self.text) {
            (Some(layout), _) => (layout.sign, layout.prefix),
            (None, Text::Special(sign, _)) => (sign, None),
            _ => (None, None),
        };
        let sign = own.or(if f.sign_plus() { Some(b'+') } else { None });
        let front = usize::from(own.is_some()) + 2 * usize::from(prefix.is_some());
        let added = usize::from(sign != own);
        let length = match self.text {
            Text::Special(_, word) => front + word.chars().count(),
            _ => length,
        };
        let missing = f.width().unwrap_or(0).saturating_sub(length.saturating_add(added));
        let (before, zeros) = match f.align() {
            _ if f.sign_aware_zero_pad() && layout.is_some() => (0, missing),
            Some(fmt::Alignment::Left) => (0, 0),
            Some(fmt::Alignment::Center) => (missing / 2, 0),
            _ => (missing, 0),
        };
        let fill = f.fill();
        (0..before).try_for_each(|_| f.write_char(fill))?;
        let bytes = [sign, prefix.map(|_| b'0'), prefix].into_iter().flatten();
        self.opening.as_bytes().iter().copied().chain(bytes).try_for_each(|byte| f.write_char(byte.into()))?;
        (0..zeros).try_for_each(|_| f.write_char('0'))?;
        if let Text::Special(_, word) = self.text {
            f.write_str(word)?;
        }
        if let Some(layout) = layout {
            let mut printer = Printer { f, skip: front, result: Ok(()) };
            layout.put(&mut printer);
            printer.put_all(self.word());
            printer.result?;
        }
        (before + zeros..missing).try_for_each(|_| f.write_char(fill))
    }
}

/// Prints the text as std prints numbers: with the width and the fill of the formatter, to the right if it has no alignment,
/// for `+` with a sign, and for `0` with zeros behind the sign and the prefix. With these two, it may not be a literal. A
/// precision is ignored.
impl fmt::Display for Written<'_> {
    fn fmt(&self, f: &mut fmt::Formatter<'_>) -> fmt::Result {
        let mut text = [0; 40];
        let length = self.write(&mut text);
        let text = text.get(..length).and_then(|text| str::from_utf8(text).ok());
        match text {
            Some(text) if f.width().is_none() && !f.sign_plus() => f.write_str(text),
            _ => self.pad(f, length),
        }
    }
}

/// Prints the text in quotes, with the escapes of a `str`.
impl fmt::Debug for Written<'_> {
    fn fmt(&self, f: &mut fmt::Formatter<'_>) -> fmt::Result {
        f.write_char('"')?;
        write!(Escaper(f), "{self}")?;
        f.write_char('"')
    }
}

/// A formatter that takes a text and escapes it as `Debug` of a `str` does.
struct Escaper<'a, 'b>(&'a mut fmt::Formatter<'b>);

impl Write for Escaper<'_, '_> {
    fn write_str(&mut self, text: &str) -> fmt::Result {
        text.chars().try_for_each(|it| match it {
            '\'' => self.0.write_char(it),
            _ => write!(self.0, "{}", it.escape_debug()),
        })
    }
}

/// A writer that takes a text byte by byte, without the first ones.
struct Printer<'a, W> {
    f: &'a mut W,
    skip: usize,
    result: fmt::Result,
}

impl<W: Write> Sink for Printer<'_, W> {
    fn put(&mut self, byte: u8) {
        if self.skip > 0 {
            self.skip -= 1;
        } else if self.result.is_ok() {
            self.result = self.f.write_char(byte.into());
        }
    }

    fn put_all(&mut self, bytes: &[u8]) {
        bytes.iter().for_each(|byte| self.put(*byte));
    }
}
