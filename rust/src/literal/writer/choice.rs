// Made by rust/tools/erase.py from crates/lexical_writer/src/choice.rt: change that file.

//! A list of forms writes numbers: in the first form whose text the list reads as the number.

use crate::literal::form::Form;
use crate::literal::kind::{FloatKind, FloatLimits, IntegerKind, Kind};
use crate::literal::list::{Forms, Number};
use crate::literal::literal::Literal;
use crate::literal::syntax::Syntax;
use crate::literal::token::Token;
use crate::literal::value::float::{supports_floats, to_float};
use crate::literal::value::integer::own_numeral;
use crate::literal::value::number::float::Float;
use crate::literal::value::number::integer::Integer;
use crate::literal::value::number::numeral::Magnitude;
use crate::literal::writer::float::{format_float, is_integer};
use crate::literal::writer::float_digits::FloatDigits;
use crate::literal::writer::integer::WrittenInteger;
use crate::literal::writer::layout::{is_whole, Layout, Style, WriteError};
use crate::literal::writer::literal::format_literal;

/// Which forms of a list a number asks first.
#[derive(Clone, Copy)]
pub struct Own {
    /// The radix of these forms.
    pub radix: u32,
    /// Whether the number is an integer. If it is none, they have floats.
    pub integer: bool,
    /// Whether the number is a float that is rounded. They alone write it.
    pub rounded: bool,
}

/// A number that a list of forms is asked to write.
pub trait Writable {
    /// Returns the token that `text` begins with. Only integers are written with words.
    fn token<'t>(&self, _: &Forms, _: &'t [u8]) -> Option<Token<'t>> {
        None
    }

    /// Returns which forms are asked first.
    fn own(&self, style: Style) -> Own;

    /// Writes the number as a literal of `syntax` to the beginning of a buffer, as far as it has room, and returns the length of
    /// the text, and whether it has a decimal point or an exponent.
    ///
    /// # Errors
    ///
    /// If no literal has the number, returns why.
    fn write(&self, syntax: &Syntax, style: Style, buffer: &mut [u8]) -> Result<(usize, bool), WriteError>;

    /// Returns whether a literal of a syntax and a kind, with a decimal point or an exponent or without, is the number if it is
    /// written for it in a style.
    fn is_plain(&self, syntax: &Syntax, kind: Kind, style: Style, float: bool) -> bool;

    /// Returns whether a literal is worth the number in a style, of which `own` is what its form alone reads.
    fn is_read_as(&self, style: Style, own: &Literal, literal: &Literal) -> bool;

    /// Returns whether a literal is worth the number in a style, whatever is written for it. A number that is rounded is not.
    fn is_worth(&self, style: Style, literal: &Literal) -> bool;
}

/// The value of an integer type, by its sign and its size.
#[derive(Clone, Copy)]
pub struct Whole {
    negative: bool,
    size: u128,
}

impl Whole {
    /// Returns the value.
    #[inline(always)]
    pub fn of<T: Integer>(value: T) -> Whole {
        let (negative, size) = value.sign_and_size();
        Whole { negative, size }
    }
}

impl Writable for Whole {
    fn token<'t>(&self, forms: &Forms, text: &'t [u8]) -> Option<Token<'t>> {
        forms.token(text).ok()
    }

    fn own(&self, _: Style) -> Own {
        Own { radix: 10, integer: true, rounded: false }
    }

    fn write(&self, syntax: &Syntax, style: Style, buffer: &mut [u8]) -> Result<(usize, bool), WriteError> {
        let integer = WrittenInteger::of_size(self.negative, self.size, syntax, style)?;
        Ok((integer.write(buffer), integer.is_float()))
    }

    fn is_plain(&self, _syntax: &Syntax, kind: Kind, _: Style, float: bool) -> bool {
        !float && is_kept(kind.integers(), self.negative, self.size)
    }

    fn is_read_as(&self, _: Style, _: &Literal, literal: &Literal) -> bool {
        is_worth(literal, self.negative, self.size)
    }

    fn is_worth(&self, _: Style, literal: &Literal) -> bool {
        is_worth(literal, self.negative, self.size)
    }
}

/// The value of a float type.
#[derive(Clone, Copy)]
pub struct Real<F> {
    /// The value.
    pub value: F,
}

impl<F: Float> Writable for Real<F> {
    fn own(&self, style: Style) -> Own {
        Own { radix: 10, integer: false, rounded: style.decimals.is_some() }
    }

    fn write(&self, syntax: &Syntax, style: Style, buffer: &mut [u8]) -> Result<(usize, bool), WriteError> {
        let mut digits = FloatDigits::new();
        Ok(put(&format_float(syntax, self.value, style, &mut digits)?, buffer))
    }

    fn is_plain(&self, syntax: &Syntax, kind: Kind, style: Style, float: bool) -> bool {
        if !supports_floats(syntax.format().view()) {
            return false;
        }
        is_nearest(kind, float) && is_within(self.value, style.decimals, kind.limits())
    }

    fn is_read_as(&self, _: Style, own: &Literal, literal: &Literal) -> bool {
        is_same::<F>(own, literal)
    }

    fn is_worth(&self, style: Style, literal: &Literal) -> bool {
        style.decimals.is_none() && is_float::<F>(literal, self.value)
    }
}

// Returns what a literal is worth as a float, if it is one. Programs have one copy of this for a type.
#[inline(never)]
fn float_of<F: Float>(literal: &Literal) -> Option<F> {
    match to_float::<F>(literal) {
        Ok(value) => Some(value),
        Err(_) => None,
    }
}

// Returns the bits of what a literal is worth as a float, if it is one.
fn bits_in<F: Float>(literal: &Literal) -> Option<u64> {
    float_of::<F>(literal)?.bits()
}

// Returns whether a literal is worth a float, with the same bits.
fn is_float<F: Float>(literal: &Literal, value: F) -> bool {
    match (bits_in::<F>(literal), value.bits()) {
        (Some(bits), Some(own)) => bits == own,
        _ => false,
    }
}

// Returns whether two literals are worth the same float.
fn is_same<F: Float>(own: &Literal, literal: &Literal) -> bool {
    match (bits_in::<F>(own), bits_in::<F>(literal)) {
        (Some(own), Some(bits)) => own == bits,
        _ => false,
    }
}

impl Writable for Literal<'_> {
    fn token<'t>(&self, forms: &Forms, text: &'t [u8]) -> Option<Token<'t>> {
        forms.token(text).ok()
    }

    fn own(&self, _: Style) -> Own {
        Own { radix: self.format().mantissa_radix(), integer: !self.is_float(), rounded: false }
    }

    fn write(&self, syntax: &Syntax, style: Style, buffer: &mut [u8]) -> Result<(usize, bool), WriteError> {
        Ok(put(&format_literal(self, syntax, style)?, buffer))
    }

    fn is_plain(&self, _syntax: &Syntax, kind: Kind, _: Style, float: bool) -> bool {
        is_exact(self.kind()) && is_exact(kind) && (self.is_float() || !float)
    }

    fn is_read_as(&self, style: Style, _: &Literal, literal: &Literal) -> bool {
        self.is_worth(style, literal)
    }

    fn is_worth(&self, _: Style, literal: &Literal) -> bool {
        if is_same_whole(self, literal) {
            return true;
        }
        self.is_float() && is_same::<f64>(self, literal)
    }
}

// Returns whether two literals are worth the same integer.
fn is_same_whole(own: &Literal, literal: &Literal) -> bool {
    match whole_worth(own) {
        Some((negative, size)) => is_worth(literal, negative, size),
        None => is_same_integer(own, literal),
    }
}

// Returns whether two literals are worth the same integer, by the same digits.
fn is_same_integer(own: &Literal, literal: &Literal) -> bool {
    let (Ok(own), Ok(numeral)) = (own_numeral(own), own_numeral(literal)) else {
        return false;
    };
    match (own.magnitude, numeral.magnitude) {
        (Magnitude::Digits(bytes, radix), Magnitude::Digits(digits, base)) => {
            own.negative == numeral.negative && radix == base && bytes == digits
        }
        _ => false,
    }
}

// Writes a literal to the beginning of a buffer, as far as it has room, and returns the length of the text, and whether it has a
// decimal point or an exponent.
fn put(layout: &Layout, buffer: &mut [u8]) -> (usize, bool) {
    let float = layout.point.is_some() | layout.exponent_character.is_some();
    (layout.write(buffer), float)
}

// Returns whether literals of a kind, with a decimal point or an exponent or without, are worth the nearest float.
const fn is_nearest(kind: Kind, float: bool) -> bool {
    match (kind.floats(), kind.integers()) {
        (FloatKind::Nearest, IntegerKind::Exact) => true,
        (FloatKind::Nearest, _) => float,
        (FloatKind::Single, _) => false,
    }
}

// Returns whether the float that is nearest to what is written for a float is known to be within limits. Without a number of decimals, it is
// the same float.
fn is_within<F: Float>(value: F, decimals: Option<u8>, limits: FloatLimits) -> bool {
    match limits {
        FloatLimits::None => true,
        FloatLimits::Largest => decimals.is_none() && !value.is_infinite(),
        FloatLimits::Both => decimals.is_none() && !value.is_infinite() && !value.is_zero(),
    }
}

// Returns whether an integer of this sign and size is known to be worth itself by a kind: one that has fewer bits than the kind is.
const fn is_kept(kind: IntegerKind, negative: bool, size: u128) -> bool {
    match kind {
        IntegerKind::Exact => true,
        IntegerKind::Signed(bits) => is_low(bits, size),
        IntegerKind::Unsigned(_) if negative => false,
        IntegerKind::Unsigned(bits) => is_low(bits, size),
        IntegerKind::Wraps(_) | IntegerKind::WrapsModulo(_) => false,
    }
}

// Returns whether a number has fewer than `bits` bits. No kind has more than 64.
const fn is_low(bits: u8, size: u128) -> bool {
    let width = if bits < 64 { bits } else { 64 };
    size < 1 << width.saturating_sub(1)
}

// Returns whether a literal is worth an integer: as an integer, or as a float that is exactly this integer.
#[inline(never)]
fn is_worth(literal: &Literal, negative: bool, size: u128) -> bool {
    if literal.is_float() {
        return match float_of::<f64>(literal) {
            Some(value) => is_integer(value, negative, size),
            None => false,
        };
    }
    match whole_worth(literal) {
        Some((sign, own)) => sign == negative && own == size,
        None => false,
    }
}

// Returns the sign and the size of what an integer literal is worth, if it has at most 128 bits.
fn whole_worth(literal: &Literal) -> Option<(bool, u128)> {
    match own_numeral(literal) {
        Ok(numeral) => match numeral.wide_size(u128::MAX, u128::MAX) {
            Some(size) => Some((numeral.negative, size)),
            None => None,
        },
        Err(_) => None,
    }
}

// Returns whether literals of a kind are the number that their digits represent.
const fn is_exact(kind: Kind) -> bool {
    matches!(
        (kind.integers(), kind.floats(), kind.limits()),
        (IntegerKind::Exact, FloatKind::Nearest, FloatLimits::None)
    )
}

// The longest text that is read back.
pub(crate) const LONGEST: usize = 4096;

/// How a list writes a number.
#[derive(Clone, Copy)]
pub struct Chosen {
    /// The index of the form.
    pub form: usize,
    /// The word behind the literal, if there is one.
    pub word: Option<&'static &'static [u8]>,
    /// The length of the text, with the word.
    pub length: usize,
}

/// Writes a number by the first form whose text the list reads as this number, to the beginning of a buffer. The number's own forms
/// are asked first: those of its radix which, if it is no integer, have floats. No other form writes a float that is rounded. A form
/// writes an integer with the first of its [words][Suffixes::written] with which its token is the number, if it does not without one.
///
/// # Errors
///
/// If there is no such form, returns the error of the form that is asked first. It is [`WriteError::ReadBack`] if the text is read as
/// another number, and [`WriteError::TooLarge`] if it is too large for its kind. If no form is asked, it is
/// [`WriteError::Fraction`] of a float that is rounded, and else `ReadBack`. If a text does not fit the buffer, the search ends with
/// [`WriteError::Buffer`].
pub fn choose<N: Writable + ?Sized>(
    forms: &Forms,
    number: &N,
    style: Style,
    buffer: &mut [u8],
) -> Result<Chosen, WriteError> {
    let list = forms.as_slice();
    let own = number.own(style);
    let end = steps(own);
    let mut error = None;
    let mut step = 0;
    while step < end {
        let mut index = 0;
        while index < list.len() {
            let it = &list[index];
            if is_asked(own, step, it) {
                match write_form(forms, index, it, number, style, buffer) {
                    Ok(chosen) => return Ok(chosen),
                    Err(other) if is_short(other) => return Err(other),
                    Err(other) => error = Some(error.unwrap_or(other)),
                }
            }
            index += 1;
        }
        step += 1;
    }
    Err(error.unwrap_or(unasked(own)))
}

// Returns how many steps there are: in the first one, a number's own forms are asked, and in the second one the others.
const fn steps(own: Own) -> u8 {
    if own.rounded {
        1
    } else {
        2
    }
}

// Returns the error if no form is asked.
const fn unasked(own: Own) -> WriteError {
    if own.rounded {
        WriteError::Fraction
    } else {
        WriteError::ReadBack
    }
}

// Returns whether a form is asked in a step.
#[inline(always)]
fn is_asked(own: Own, step: u8, form: &Form) -> bool {
    let here = is_own(own, &form.syntax());
    (if step == 0 { here } else { !here }) & !form.is_only_read()
}

// Returns whether a form with a syntax is one of a number's own.
#[inline(always)]
fn is_own(own: Own, syntax: &Syntax) -> bool {
    (syntax.format().view().mantissa_radix() == own.radix) & (own.integer | !is_whole(syntax))
}

/// Returns how the first form of a list writes an integer, if this form is asked first, and its text is known to be read back.
#[inline(always)]
pub fn lay_out_first(forms: &Forms, number: &Whole, style: Style) -> Option<WrittenInteger> {
    let form = &forms.as_slice()[0];
    let syntax = form.syntax();
    if form.is_only_read() || form.has_opening() || !is_own(number.own(style), &syntax) {
        return None;
    }
    let Ok(integer) = WrittenInteger::of_size(number.negative, number.size, &syntax, style) else {
        return None;
    };
    if integer.is_float() || !number.is_plain(&syntax, form.kind(), style, false) {
        return None;
    }
    Some(integer)
}

// Writes a number by one form, without a word or else, if it is an integer, with the first of the form's words that makes its token this
// integer, or returns why the form is not used.
fn write_form<N: Writable + ?Sized>(
    forms: &Forms,
    index: usize,
    form: &Form,
    number: &N,
    style: Style,
    buffer: &mut [u8],
) -> Result<Chosen, WriteError> {
    let error = match write_by(forms, index, form, number, style, None, buffer) {
        Ok(length) => return Ok(Chosen { form: index, word: None, length }),
        Err(error) => error,
    };
    if is_short(error) {
        return Err(error);
    }
    let words = words_in(number.own(style).integer, form);
    for word in words {
        match write_by(forms, index, form, number, style, Some(word), buffer) {
            Ok(length) => return Ok(Chosen { form: index, word: Some(word), length }),
            Err(other) if is_short(other) => return Err(other),
            Err(_) => {}
        }
    }
    Err(error)
}

// Returns the words with which a form writes a number.
#[cold]
const fn words_in(integer: bool, form: &Form) -> &'static [&'static [u8]] {
    match form.suffixes() {
        Some(suffixes) if integer => suffixes.written(),
        _ => &[],
    }
}

// Writes a number by one form with its opening, and a word behind it if there is one, and returns the length of the text, or
// why it is not used.
fn write_by<N: Writable + ?Sized>(
    forms: &Forms,
    index: usize,
    form: &Form,
    number: &N,
    style: Style,
    word: Option<&'static &'static [u8]>,
    buffer: &mut [u8],
) -> Result<usize, WriteError> {
    let (end, float) = put_text(form, number, style, word, buffer)?;
    // A text that is longer than a `usize` has the size `usize::MAX`.
    if end == usize::MAX || end > buffer.len() {
        return Err(WriteError::Buffer(end));
    }
    let text = &buffer[..end];
    match word {
        None => read_alone(forms, index, form, number, style, float, text)?,
        Some(word) => read_token(forms, number, style, word, text)?,
    }
    Ok(end)
}

// Writes a number by one form with its opening, and a word behind it if there is one, to the beginning of a buffer, as far as
// it has room, and returns the length of the text, and whether the literal has a decimal point or an exponent, or why there is none.
fn put_text<N: Writable + ?Sized>(
    form: &Form,
    number: &N,
    style: Style,
    word: Option<&'static &'static [u8]>,
    buffer: &mut [u8],
) -> Result<(usize, bool), WriteError> {
    let opening = form.opening();
    let start = put_at(buffer, 0, opening.as_bytes());
    let (end, float) = put_number(&form.syntax(), number, style, start, buffer)?;
    let word: &[u8] = match word {
        Some(word) => word,
        None => &[],
    };
    Ok((put_at(buffer, end, word), float))
}

// Writes a number as a literal of a syntax to a buffer from an index on, as far as it has room, and returns the index behind it,
// and whether it has a decimal point or an exponent, or why there is none.
fn put_number<N: Writable + ?Sized>(
    syntax: &Syntax,
    number: &N,
    style: Style,
    start: usize,
    buffer: &mut [u8],
) -> Result<(usize, bool), WriteError> {
    let least = start.min(buffer.len());
    let (size, float) = number.write(syntax, style, &mut buffer[least..])?;
    Ok((start.saturating_add(size), float))
}

// Writes bytes to a buffer from an index on, as far as it has room, and returns the index behind them.
#[inline(always)]
fn put_at(buffer: &mut [u8], index: usize, bytes: &[u8]) -> usize {
    let end = index.saturating_add(bytes.len());
    if end <= buffer.len() {
        buffer[index..end].copy_from_slice(bytes);
    }
    end
}

// Returns nothing if all of a text is a token with this suffix, which is the number, or why it is not used.
fn read_token<N: Writable + ?Sized>(
    forms: &Forms,
    number: &N,
    style: Style,
    word: &[u8],
    text: &[u8],
) -> Result<(), WriteError> {
    let Some(token) = number.token(forms, text) else {
        return Err(WriteError::ReadBack);
    };
    if !token.rest.is_empty() {
        return Err(WriteError::ReadBack);
    }
    let same = token.suffix == word;
    if !same {
        return Err(WriteError::ReadBack);
    }
    if number.is_worth(style, &token.literal) {
        return Ok(());
    }
    Err(WriteError::ReadBack)
}

// Returns whether a text needs a longer buffer.
const fn is_short(error: WriteError) -> bool {
    matches!(error, WriteError::Buffer(_))
}

// Returns nothing if the list reads a text, which is written for a number by one form without a word, as the number, or why it is not
// used.
#[inline(always)]
fn read_alone<N: Writable + ?Sized>(
    forms: &Forms,
    index: usize,
    form: &Form,
    number: &N,
    style: Style,
    float: bool,
    text: &[u8],
) -> Result<(), WriteError> {
    if !form.has_opening() {
        return match read_written(forms, index, form, number, style, float, text) {
            Ok(()) => Ok(()),
            Err(error) => Err(error),
        };
    }
    let Some((_, literal)) = read_literal(forms, text) else {
        return Err(WriteError::ReadBack);
    };
    if number.is_worth(style, &literal) {
        return Ok(());
    }
    Err(mismatch(&literal))
}

// Returns nothing if the list reads a text, which is a literal of one form without an opening, as the number, or why it is not used.
#[inline(always)]
fn read_written<N: Writable + ?Sized>(
    forms: &Forms,
    index: usize,
    form: &Form,
    number: &N,
    style: Style,
    float: bool,
    text: &[u8],
) -> Result<(), WriteError> {
    let syntax = form.syntax();
    let plain = number.is_plain(&syntax, form.kind(), style, float);
    // A list reads what the first form reads as this form does.
    if plain && index == 0 {
        return Ok(());
    }
    let Some((form, literal)) = read_literal(forms, text) else {
        return Err(WriteError::ReadBack);
    };
    if plain & (form == index) {
        return Ok(());
    }
    let Some(own) = own_literal(&syntax, text) else {
        return Err(WriteError::ReadBack);
    };
    if number.is_read_as(style, &own, &literal) {
        return Ok(());
    }
    Err(mismatch(&literal))
}

// Returns why a text is not used that is read as this literal.
fn mismatch(literal: &Literal) -> WriteError {
    if has_worth(literal) {
        WriteError::ReadBack
    } else {
        WriteError::TooLarge
    }
}

// Returns whether a literal is worth an integer or, with a decimal point or an exponent, an `f64`, or if its radix has no floats.
fn has_worth(literal: &Literal) -> bool {
    if literal.is_float() {
        !supports_floats(literal.format()) || to_float::<f64>(literal).is_ok()
    } else {
        own_numeral(literal).is_ok()
    }
}

// Returns the literal of a syntax that a text is, by the calls that lists share.
fn own_literal<'a>(syntax: &Syntax, text: &'a [u8]) -> Option<Literal<'a>> {
    let alone = [Form::new("", *syntax)];
    let list = Forms::new(&alone)?;
    match read_literal(&list, text) {
        Some((_, literal)) => Some(literal),
        None => None,
    }
}

// Returns the index of the form of a list that a text is a literal of, and the literal, or `None` if there is none.
#[inline(always)]
fn read_literal<'t>(forms: &Forms, text: &'t [u8]) -> Option<(usize, Literal<'t>)> {
    match forms.read(text) {
        Ok(Number::Literal { literal, form }) => Some((form, literal)),
        Ok(Number::Special(_)) => None,
        Err(_) => None,
    }
}
