//! What is written by hand around the proved call for tokens.

use core::{fmt, ops::Range, str};

use crate::literal::list::PointsBack;
use crate::literal::step::part_of;
use crate::literal::stop::Stopped;
use crate::literal::suffix::{begins, has_byte, is_word_byte, word_size};
use crate::literal::{FormError, Forms, Kind, Stop, Suffixes, Token, TokenError, Tokens};
use crate::short_text::ShortText;
use crate::Part;

impl Forms<'_> {
    /// Returns the number that `text` begins with as a token, with its suffix, and the rest, as
    /// [`token_bytes`][Self::token_bytes] does.
    ///
    /// # Errors
    ///
    /// If `text` does not begin with a token, returns why.
    pub fn token<'t>(&self, text: &'t (impl AsRef<[u8]> + ?Sized)) -> Result<Token<'t>, TokenError> {
        self.token_bytes(text.as_ref())
    }

    /// Returns the token that the whole of `text` is, such as `10ms` of a list whose form has this suffix.
    ///
    /// # Errors
    ///
    /// If `text` is not a token, returns why. Behind a token without a suffix, this is the error of [`read`][Self::read],
    /// and behind a suffix, [`TokenError::Stopped`].
    pub fn read_token<'t>(&self, text: &'t (impl AsRef<[u8]> + ?Sized)) -> Result<Token<'t>, TokenError> {
        let text = text.as_ref();
        let token = self.token_bytes(text)?;
        match self.read(text) {
            _ if token.rest.is_empty() => Ok(token),
            Err(error) if token.suffix.is_empty() => Err(TokenError::Literal(error)),
            _ => Err(TokenError::Stopped { form: token.form, start: token.end(), end: text.len() }),
        }
    }

    /// Returns an error of `text` with the suffix behind the part that is right.
    #[inline(always)]
    pub(crate) const fn with_suffix(&self, text: &[u8], mut error: FormError) -> FormError {
        if let Ok(it) = &error.error {
            error.suffix = self.suffix_at(text, error.form, Stopped { size: error.valid_up_to(), read: it.spot.read });
        }
        error
    }

    /// Returns the suffix that is all of `text` from where a form stops, if [`token`][Self::token] reads it and it is
    /// short, with zeros behind it. The library for C has another call for tokens.
    #[cold]
    #[cfg_attr(not(peltzivar_small), inline(never))]
    pub(crate) const fn suffix_at(&self, text: &[u8], form: usize, stop: Stopped) -> [u8; 7] {
        let mut suffix = [0; 7];
        let it = &self.forms[form];
        let (Some(tokens), Some(suffixes), rest) = (self.tokens, it.suffixes, text.split_at(stop.size).1) else {
            return suffix;
        };
        let is_float = !matches!(part_of(stop.read.stage), Part::Integer);
        if cfg!(peltzivar_small) || rest.len() > suffix.len() || !suffixes.has(is_float, rest) {
            return suffix;
        }
        let (opened, inside) = text.split_at(it.opening.size());
        match it.syntax.longest(inside) {
            Some(found) if opened.len() + found.size == stop.size => {}
            _ => return suffix,
        }
        let mut index = rest.len();
        while index > 0 && !it.gives_back(tokens.gives_points_back, text, stop.size) {
            index -= 1;
            suffix[index] = rest[index];
        }
        suffix
    }
}

impl Tokens {
    /// Returns whether points are given back, to letters alone, and any word may follow, for the library for C.
    #[doc(hidden)]
    #[must_use]
    pub const fn flags(&self) -> [bool; 3] {
        let back = self.gives_points_back;
        [matches!(back, PointsBack::ToWords), matches!(back, PointsBack::ToLetters), self.any_word_follows]
    }
}

impl Suffixes {
    /// Returns whether `text` is a suffix.
    const fn has(&self, is_float: bool, text: &[u8]) -> bool {
        let mut words = if is_float { self.floats } else { self.integers };
        let mut is_one = match text {
            [] => false,
            [first, ..] => has_byte(self.any, *first),
        };
        while let ([word, rest @ ..], false) = (words, is_one) {
            is_one = word.len() == text.len() && begins(self.either_case, word, text);
            words = rest;
        }
        is_one && word_size(self.word_bytes(), text) == text.len()
    }

    /// Returns whether a suffix is a whole word, the kinds, and the stops, for the library for C.
    #[doc(hidden)]
    #[must_use]
    #[allow(clippy::type_complexity, reason = "it is for the library for C alone")]
    pub const fn rules(&self) -> (bool, &'static [(&'static [u8], Kind)], &'static [Stop]) {
        (self.whole_words, self.kinds, self.stops)
    }
}

impl Stop {
    #[doc(hidden)]
    #[must_use]
    pub const fn bytes(&self) -> [&'static [u8]; 3] {
        [self.last, self.next, self.second]
    }
}

impl<'a> Token<'a> {
    /// Returns the index behind the suffix, in the text that the token begins.
    ///
    /// ```
    /// use peltzivar::literal::Language;
    ///
    /// let token = Language::RUST.token("0xFFu8..").unwrap();
    /// assert_eq!((token.literal.end(), token.end(), token.suffix_str()), (4, 6, Some("u8")));
    /// ```
    #[must_use]
    pub const fn end(&self) -> usize {
        self.literal.end() + self.suffix.len()
    }

    /// Returns the suffix as text, or `None` if it is not UTF-8.
    #[must_use]
    pub const fn suffix_str(&self) -> Option<&'a str> {
        match str::from_utf8(self.suffix) {
            Ok(suffix) => Some(suffix),
            Err(_) => None,
        }
    }
}

impl TokenError {
    /// Returns the index where a lexer goes on in `text`, of which this is the error: behind the word in which the
    /// [`span`][Self::span] ends, at least one byte on, and on a boundary of a character.
    ///
    /// ```
    /// use peltzivar::literal::Language;
    ///
    /// let text = "1__0;";
    /// assert_eq!(Language::PYTHON.token(text).unwrap_err().resume(text), 4);
    /// ```
    #[must_use]
    pub fn resume(&self, text: &(impl AsRef<[u8]> + ?Sized)) -> usize {
        let text = text.as_ref();
        let end = self.span().end.max(1).min(text.len());
        let is_in_word = text[..end].last().is_some_and(|it| is_word_byte(*it));
        end + text[end..].iter().take_while(|it| is_in_word && is_word_byte(**it)).count()
    }

    /// Returns the range of the bytes to show.
    #[must_use]
    pub const fn span(&self) -> Range<usize> {
        match self {
            TokenError::NoTokens => 0..0,
            TokenError::Literal(error) => error.span(),
            TokenError::NotAToken { end } => *end..*end,
            TokenError::UnknownSuffix { start, end, .. } | TokenError::Stopped { start, end, .. } => *start..*end,
        }
    }
}

/// Returns the sentence with up to six of the suffixes that a form has.
fn unknown(suffixes: &[&[u8]]) -> ShortText {
    let mut text = ShortText::of("unknown suffix");
    let mut before = "; known are ";
    for suffix in suffixes.iter().take(6) {
        text = text.and(before).and(str::from_utf8(suffix).unwrap_or("\u{FFFD}"));
        before = ", ";
    }
    if suffixes.len() > 6 {
        text = text.and(", ..");
    }
    text
}

/// Prints why, as in `unknown suffix; known are f32, f64` or `expected a digit after the exponent character`.
impl fmt::Display for TokenError {
    fn fmt(&self, f: &mut fmt::Formatter<'_>) -> fmt::Result {
        match self {
            TokenError::NoTokens => f.pad("these forms have no tokens"),
            TokenError::Literal(error) => error.fmt(f),
            TokenError::NotAToken { .. } => f.pad("the decimal point belongs to what follows"),
            TokenError::UnknownSuffix { suffixes, .. } => f.pad(unknown(suffixes).as_str()),
            TokenError::Stopped { .. } => f.pad("the number cannot end here"),
        }
    }
}
