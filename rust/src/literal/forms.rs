//! What is written by hand around the proved calls of [`Forms`].

use core::{fmt, ops, ops::Range, slice, str};

use crate::literal::list::{Furthest, Unopened};
use crate::literal::sentence::first_character;
use crate::literal::stop::Stopped;
use crate::literal::value::Decimal;
use crate::literal::{
    Form, FormError, Forms, FromLiteral, IntegerKind, Literal, Number, ParseError, ReadError, ReadErrorKind, Special,
    Specials, Syntax, TokenError, ValueError,
};

impl<'a> Forms<'a> {
    /// Returns the list of `forms`, for a constant.
    ///
    /// ```
    /// use peltzivar::literal::{Form, Forms, Language};
    ///
    /// const FORMS: [Form; 2] = [Language::JSON.forms().as_slice()[0], Language::RUST.forms().as_slice()[1]];
    /// const LIST: Forms = Forms::new_or_panic(&FORMS);
    /// assert!(LIST.read("1.5").is_ok());
    /// ```
    ///
    /// # Panics
    ///
    /// If there are no forms.
    #[must_use]
    #[track_caller]
    pub const fn new_or_panic(forms: &'a [Form]) -> Forms<'a> {
        match Forms::new(forms) {
            Some(list) => list,
            None => panic!("there must be at least one form"),
        }
    }

    /// Returns the number that `text` is: a literal of one of the forms, or a special value. [`read_bytes`][Self::read_bytes]
    /// does so in a constant.
    ///
    /// # Errors
    ///
    /// If `text` is neither a literal nor a special value, returns why it is not a literal.
    pub fn read<'t>(&self, text: &'t (impl AsRef<[u8]> + ?Sized)) -> Result<Number<'t>, FormError> {
        let text = text.as_ref();
        let first = if self.asks_first(text) { self.first_decimal(text) } else { Err(None) };
        match first {
            Ok(literal) => Ok(Number::Literal { literal, form: 0 }),
            Err(stop) => self.read_behind(text, stop),
        }
    }

    // Returns why `text`, up to `end`, is not a token, as the library for C reads all texts.
    #[cold]
    pub(crate) const fn fault(&self, text: &[u8], end: usize) -> TokenError {
        let specials = Specials { nan: None, inf: None, infinity: None };
        let (word, rest) = text.split_at(end);
        match self.with_specials(specials).read_behind(word, None) {
            Err(error) => TokenError::Literal(error.before(!rest.is_empty())),
            Ok(_) => TokenError::NotAToken { end },
        }
    }

    // Returns whether the first form is tried before the list is asked: unless it has an opening, or the text begins with a letter, or with a
    // zero and a letter.
    #[inline(always)]
    fn may_be_first(&self, text: &[u8]) -> bool {
        let is_decimal = match text {
            [b'0', byte, ..] | [byte, ..] => *byte <= b'9',
            [] => true,
        };
        is_decimal && self.forms[0].opening.size == 0
    }

    // Returns whether it is tried where one number is read. The library for C and the explorer, which set
    // `peltzivar_small`, have no second copy of the reader for this.
    #[inline(always)]
    fn asks_first(&self, text: &[u8]) -> bool {
        !cfg!(peltzivar_small) && self.may_be_first(text)
    }

    // Returns the literal of the first form that `text` is, if this is known at once, as of most decimal ones, or where the
    // form stops, if it refuses `text`.
    #[inline(always)]
    fn first_decimal<'t>(&self, text: &'t [u8]) -> Result<Literal<'t>, Option<Stopped>> {
        let Form { syntax, kind, .. } = self.forms[0];
        if !syntax.is_decimal() {
            return Err(None);
        }
        let begun = syntax.begin(true, text, false);
        if begun.covers(text) {
            return Ok(syntax.usual_grammar().literal(text, begun.counts, begun.sums, kind));
        }
        let is_refused = begun.refused || begun.at.is_refused(&syntax, text);
        Err(is_refused.then_some(begun.at))
    }

    /// Returns the number that `text` is, as [`read`][Self::read] does, without why it is none.
    #[doc(hidden)]
    #[must_use]
    pub fn find<'t>(&self, text: &'t [u8]) -> Option<Number<'t>> {
        let first = if self.may_be_first(text) { self.first_decimal(text) } else { Err(None) };
        let stop = match first {
            Ok(literal) => return Some(Number::Literal { literal, form: 0 }),
            Err(stop) => stop,
        };
        match self.find_literal(text, stop) {
            Ok((form, literal)) => Some(Number::Literal { literal, form }),
            Err(_) => self.special(text).map(Number::Special),
        }
    }

    /// Returns the longest literal of any form that `text` begins with, and the rest of `text`, which may be anything.
    /// [`token`][Self::token] finds where a number ends in source text.
    ///
    /// # Errors
    ///
    /// If `text` does not begin with a literal, returns why it is not one.
    pub fn read_prefix<'t>(&self, text: &'t str) -> Result<(Number<'t>, &'t str), FormError> {
        let (number, rest) = self.read_prefix_bytes(text.as_bytes())?;
        Ok((number, rest_of(text, rest)))
    }

    /// Returns the value of the number `text`.
    ///
    /// # Errors
    ///
    /// If `text` is not a number, or if its value is not one of the type, returns why.
    pub fn parse<T: FromLiteral>(&self, text: impl AsRef<[u8]>) -> Result<T, ParseError> {
        let text = text.as_ref();
        if self.asks_first(text) {
            let Form { syntax, kind, .. } = self.forms[0];
            match syntax.parse_decimal(kind, text) {
                Decimal::Value(value) => return Ok(value),
                Decimal::Stopped(at) => return self.parse_behind(text, Some(at)),
                Decimal::Unknown => {}
            }
        }
        self.parse_behind(text, None)
    }

    // Returns what `parse` returns, where the first form stops at `stop`, if it has been asked.
    #[inline(never)]
    fn parse_behind<T: FromLiteral>(&self, text: &[u8], stop: Option<Stopped>) -> Result<T, ParseError> {
        let (value, kind) = match self.find_behind(text, stop) {
            Ok((_, literal)) => match T::from_literal(literal) {
                Ok(value) => return Ok(value),
                Err(error) => (Err(error), literal.integer_kind()),
            },
            Err(furthest) => match self.special(text) {
                Some(special) => (T::from_special(special), IntegerKind::Exact),
                None => return Err(self.parse_error(text, furthest)),
            },
        };
        value.map_err(|error| ParseError::Value(ValueError::of::<T>(error, text.len(), kind)))
    }

    // Returns what `find_literal` returns. All types share this code.
    #[inline(never)]
    fn find_behind<'t>(&self, text: &'t [u8], stop: Option<Stopped>) -> Result<(usize, Literal<'t>), Furthest> {
        self.find_literal(text, stop)
    }

    // Returns the error of the form that goes furthest, made in its place.
    #[cold]
    #[inline(never)]
    fn parse_error(&self, text: &[u8], furthest: Furthest) -> ParseError {
        let Furthest { form, stop, .. } = furthest;
        let Form { name, ref syntax, ref opening, .. } = self.forms[form];
        if cfg!(peltzivar_small) || !opening.is_empty() {
            return ParseError::Read(self.error_at(text, furthest));
        }
        let suffix = self.suffix_at(text, form, stop);
        ParseError::Read(FormError { form, name, opened: 0, suffix, error: Ok(stop.error(syntax, text)) })
    }

    /// Returns the value of the longest literal of any form that `text` begins with, and the rest of `text`, as
    /// [`read_prefix`][Self::read_prefix] finds them. [`token`][Self::token] finds where a number ends in source text.
    ///
    /// # Errors
    ///
    /// If `text` does not begin with a literal, or if its value is not one of the type, returns why.
    pub fn parse_prefix<'t, T: FromLiteral>(&self, text: &'t str) -> Result<(T, &'t str), ParseError> {
        let (value, rest) = self.parse_prefix_bytes(text.as_bytes())?;
        Ok((value, rest_of(text, rest)))
    }

    /// Returns what [`parse_prefix`][Self::parse_prefix] returns, of bytes.
    ///
    /// # Errors
    ///
    /// Those of this call.
    pub fn parse_prefix_bytes<'t, T: FromLiteral>(&self, text: &'t [u8]) -> Result<(T, &'t [u8]), ParseError> {
        let (number, rest) = self.read_prefix_bytes(text)?;
        Ok((number.value()?, rest))
    }
}

/// Returns the rest of a text behind a literal, of which each byte is ASCII.
pub(crate) fn rest_of<'t>(text: &'t str, rest: &[u8]) -> &'t str {
    text.get(text.len() - rest.len()..).unwrap_or_default()
}

impl Specials<'_> {
    /// Returns the special value that `text` is in `syntax`, or `None`, as [`read_bytes`][Self::read_bytes] does.
    #[must_use]
    pub fn read(&self, syntax: &Syntax, text: &(impl AsRef<[u8]> + ?Sized)) -> Option<Special> {
        self.read_bytes(syntax, text.as_ref())
    }
}

/// Returns the form with an index. Those of [`Tokens`][crate::literal::Tokens] that need a suffix follow the others.
impl ops::Index<usize> for Forms<'_> {
    type Output = Form;

    fn index(&self, index: usize) -> &Form {
        let behind = self.tokens.map_or(&[][..], |tokens| tokens.forms);
        self.forms.get(index).unwrap_or_else(|| &behind[index - self.forms.len()])
    }
}

impl<'a> IntoIterator for &Forms<'a> {
    type Item = &'a Form;
    type IntoIter = slice::Iter<'a, Form>;

    fn into_iter(self) -> slice::Iter<'a, Form> {
        self.forms.iter()
    }
}

impl<'a> Number<'a> {
    /// Returns the literal, or `None` for NaN and infinity.
    ///
    /// ```
    /// use peltzivar::literal::Language;
    ///
    /// let literal = Language::TOML.read("0x1F")?.literal().unwrap();
    /// assert_eq!((literal.prefix(), literal.to_u64()), (&b"0x"[..], Ok(31)));
    /// assert!(Language::TOML.read("nan")?.literal().is_none());
    /// # Ok::<(), peltzivar::literal::FormError>(())
    /// ```
    #[must_use]
    pub const fn literal(&self) -> Option<Literal<'a>> {
        match self {
            Number::Literal { literal, .. } => Some(*literal),
            Number::Special(_) => None,
        }
    }

    /// Returns the index of the form, or `None` for NaN and infinity, which have none.
    #[must_use]
    pub const fn form(&self) -> Option<usize> {
        match self {
            Number::Literal { form, .. } => Some(*form),
            Number::Special(_) => None,
        }
    }
}

/// Prints the text of the literal, or what std prints for NaN and infinity.
impl fmt::Display for Number<'_> {
    fn fmt(&self, f: &mut fmt::Formatter<'_>) -> fmt::Result {
        match self {
            Number::Literal { literal, .. } => literal.fmt(f),
            Number::Special(special) => special.fmt(f),
        }
    }
}

/// Prints what std prints for the float: `NaN`, `inf` or `-inf`.
impl fmt::Display for Special {
    fn fmt(&self, f: &mut fmt::Formatter<'_>) -> fmt::Result {
        self.to_f64().fmt(f)
    }
}

// The bit of an error's opening which says that it is of a part of a text, and that more follows.
const MORE: u8 = 1 << 7;

impl FormError {
    /// Returns the error of a single syntax.
    #[doc(hidden)]
    #[must_use]
    pub const fn alone(error: ReadError) -> FormError {
        FormError { form: 0, name: "", opened: 0, suffix: [0; 7], error: Ok(error) }
    }

    // Returns the same error, of a part of a text, where more of the text follows if `more` is true.
    pub(crate) const fn before(mut self, more: bool) -> FormError {
        if more {
            self.opened |= MORE;
        }
        self
    }

    // Returns the number of bytes of the opening, or of those that are right where it is not there.
    const fn opened(&self) -> usize {
        (self.opened & !MORE) as usize
    }

    /// Returns why what is behind the [opening][Form::with_opening] is not a literal of the syntax, or `None` if the opening
    /// is not there. All indexes count from the beginning of the text.
    #[must_use]
    pub const fn error(&self) -> Option<ReadError> {
        match &self.error {
            Ok(error) => Some(error.behind(self.opened())),
            Err(_) => None,
        }
    }

    /// Returns the range of the bytes to show, as [`ReadError::span`] does: where the opening is not there, the wrong
    /// character.
    #[must_use]
    pub const fn span(&self) -> Range<usize> {
        let Range { start, end } = match &self.error {
            Ok(error) => error.span(),
            Err(Unopened { byte: None, .. }) => 0..0,
            Err(Unopened { byte: Some(byte), tail, .. }) => {
                0..first_character(&[*byte, tail[0], tail[1], tail[2]]).len()
            }
        };
        let opened = self.opened();
        opened + start..opened + end
    }

    /// Returns the kind, as [`ReadError::kind`] does, or `None` if the opening is not there.
    #[must_use]
    pub const fn kind(&self) -> Option<ReadErrorKind> {
        match &self.error {
            Ok(error) => Some(error.kind()),
            Err(_) => None,
        }
    }

    /// Returns whether bytes are missing, as [`ReadError::is_incomplete`] does. An error of a [`token`][Forms::token] is
    /// complete if more of the text follows.
    ///
    /// ```
    /// use peltzivar::literal::{Language, TokenError};
    ///
    /// let is_incomplete = |text| matches!(Language::RUST.token(text), Err(TokenError::Literal(it)) if it.is_incomplete());
    /// assert!(is_incomplete("0x") && !is_incomplete("0x;") && !is_incomplete("-1"));
    /// ```
    #[must_use]
    pub const fn is_incomplete(&self) -> bool {
        self.opened & MORE == 0 && self.byte().is_none()
    }

    /// Returns the byte that cannot follow, or `None` if bytes are missing, as [`ReadError::byte`] does.
    #[must_use]
    pub const fn byte(&self) -> Option<u8> {
        match &self.error {
            Ok(error) => error.byte(),
            Err(it) => it.byte,
        }
    }

    /// Returns the mask of the flags to blame, as [`ReadError::mask`] does, or 0 if the opening is not there.
    #[must_use]
    pub const fn mask(&self) -> u128 {
        match &self.error {
            Ok(error) => error.mask(),
            Err(_) => 0,
        }
    }

    /// Returns the number of bytes at the beginning of the text that are right, as [`ReadError::valid_up_to`] does.
    #[must_use]
    pub const fn valid_up_to(&self) -> usize {
        match &self.error {
            Ok(error) => self.opened() + error.valid_up_to(),
            Err(_) => self.opened(),
        }
    }
}

/// Prints the error of the form, or that the opening is not there. If a suffix is behind the number, with which
/// [`token`][Forms::token] reads it, prints that, too.
impl fmt::Display for FormError {
    fn fmt(&self, f: &mut fmt::Formatter<'_>) -> fmt::Result {
        match &self.error {
            Ok(error) if self.suffix[0] != 0 => match str::from_utf8(&self.suffix) {
                Ok(suffix) => {
                    let text = if f.alternate() { error.full_text() } else { error.text() };
                    let suffix = suffix.trim_end_matches('\0');
                    f.pad(text.and("; `").and(suffix).and("` is a suffix, which `token` reads").as_str())
                }
                Err(_) => error.fmt(f),
            },
            Ok(error) => error.fmt(f),
            Err(Unopened { opening, .. }) => {
                write!(f, "expected the opening `{}`", str::from_utf8(opening.as_bytes()).unwrap_or_default())
            }
        }
    }
}
