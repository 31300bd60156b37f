// Made by rust/tools/erase.py from crates/lexical_forms/src/token.rt: change that file.

//! Tokens: numbers in the middle of a text, each with its suffix.

use crate::literal::exclude::{has_letter_behind_zero, sign_size};
use crate::literal::form::Form;
use crate::literal::list::{FormError, Forms, PointsBack, Tokens};
use crate::literal::literal::Literal;
use crate::literal::step::is_point;
use crate::literal::stop::{byte_at, Begun};
use crate::literal::suffix::{byte_before, has_byte, is_word_byte, more_of};
use crate::literal::syntax::Syntax;

/// A number that a text begins with, and what follows it.
///
/// ```
/// use peltzivar::literal::Language;
///
/// let token = Language::C.token("10ul+1").unwrap();
/// assert_eq!((token.literal.to_u64(), token.suffix, token.rest), (Ok(10), &b"ul"[..], &b"+1"[..]));
/// ```
#[derive(Debug, Clone, Copy, PartialEq, Eq, Hash)]
#[non_exhaustive]
pub struct Token<'a> {
    /// The literal, with the kind that its form and its suffix give it.
    pub literal: Literal<'a>,
    /// The index of its form. Those of forms that need a suffix are behind the others.
    pub form: usize,
    /// The suffix, which is empty if there is none.
    pub suffix: &'a [u8],
    /// What follows.
    pub rest: &'a [u8],
}

/// Why a text does not begin with a token.
///
/// ```
/// use peltzivar::literal::Language;
///
/// let text = "10ux;";
/// let error = Language::C.token(text).unwrap_err();
/// assert_eq!(&text[error.span()], "ux");
/// assert_eq!(error.to_string(), "unknown suffix; known are u, U, l, L, ll, LL, ..");
/// ```
#[derive(Debug, Clone, Copy, PartialEq, Eq, Hash)]
#[non_exhaustive]
pub enum TokenError {
    /// The list has no rules for tokens.
    NoTokens,
    /// The text, up to the end of the word where reading stops, is not a literal.
    Literal(FormError),
    /// The text up to `end` is a literal, but its point belongs to what follows, and without the point it is not one.
    NotAToken {
        /// The index behind the number.
        end: usize,
    },
    /// The word behind a number is not a suffix of its form.
    UnknownSuffix {
        /// The index of the form.
        form: usize,
        /// The index where the word begins, which is the end of the literal.
        start: usize,
        /// The index behind the word.
        end: usize,
        /// The words that the form names as suffixes behind such a literal, an integer or a float.
        suffixes: &'static [&'static [u8]],
    },
    /// A `Stop` of the form refuses what follows the number.
    Stopped {
        /// The index of the form.
        form: usize,
        /// The index behind the number, with its suffix.
        start: usize,
        /// The index behind the byte that follows, and the word behind this byte.
        end: usize,
    },
}

impl<'a> Forms<'a> {
    /// Returns the number that `text` begins with as a token: the longest literal of a form with the longest of its suffixes, if
    /// nothing follows that belongs to it or may not follow it. It does not find special values.
    ///
    /// # Errors
    ///
    /// If the list has no rules for tokens, if a form goes on behind the number without an end, or if there is no number,
    /// or if the word behind the number is not a suffix of its form, returns why.
    pub const fn token_bytes<'t>(&self, text: &'t [u8]) -> Result<Token<'t>, TokenError> {
        let Some(tokens) = self.tokens else {
            return Err(TokenError::NoTokens);
        };
        if !self.may_end(text) {
            return self.token_behind(tokens, text, None);
        }
        let begun = self.first(text);
        let Some(candidate) = self.ended(text, begun) else {
            return self.token_behind(tokens, text, Some(begun));
        };
        let it = &self.forms[0];
        if it.is_stopped(tokens, text, candidate.end) {
            self.token_behind(tokens, text, None)
        } else {
            Ok(it.made(text, 0, candidate))
        }
    }

    // Returns the same by all forms, where `first` has been read of the first one.
    #[inline(never)]
    const fn token_behind<'t>(
        &self,
        tokens: &Tokens,
        text: &'t [u8],
        first: Option<Begun>,
    ) -> Result<Token<'t>, TokenError> {
        let least = if has_letter_behind_zero(text) { sign_size(text) + 1 } else { 0 };
        let found = self.longest(tokens, text, least, self.asked(tokens, text, first));
        if found.clear || least == 0 {
            self.end_of(tokens, text, found)
        } else {
            self.token_of(tokens, text)
        }
    }

    // Returns whether `byte` is one that words of one of the forms, of the list or of the tokens, have besides.
    #[cfg_attr(not(peltzivar_small), inline(always))]
    pub(crate) const fn go_on_with(&self, tokens: &Tokens, byte: Option<u8>) -> bool {
        match byte {
            None => false,
            Some(byte) => (self.wide && have_byte(self.forms, byte)) || have_byte(tokens.forms, byte),
        }
    }
}

// Returns whether `byte` is one that words of one of the forms have besides.
const fn have_byte(forms: &[Form], byte: u8) -> bool {
    match forms {
        [] => false,
        [form, rest @ ..] => has_more(form, byte) || have_byte(rest, byte),
    }
}

// Returns whether `byte` is one that words of the form have besides.
const fn has_more(form: &Form, byte: u8) -> bool {
    has_byte(more_of(form.suffixes), byte)
}

// Returns the larger of two sizes.
#[cfg_attr(not(peltzivar_small), inline(always))]
pub(crate) const fn larger(one: usize, other: usize) -> usize {
    if one < other {
        other
    } else {
        one
    }
}

impl Form {
    // Returns whether the first `size` bytes of `text` end in a point that is given back.
    #[cfg_attr(not(peltzivar_small), inline(always))]
    pub(crate) const fn gives_back(&self, back: PointsBack, text: &[u8], size: usize) -> bool {
        is_decimal_point(self.syntax, byte_before(text, size))
            && matches!(byte_at(text, size), Some(byte) if takes_point(back, byte))
    }
}

// Returns whether a point before `byte` is given back.
#[cfg_attr(not(peltzivar_small), inline(always))]
const fn takes_point(back: PointsBack, byte: u8) -> bool {
    match back {
        PointsBack::Never => false,
        PointsBack::ToWords => byte == b'.' || is_word_byte(byte),
        PointsBack::ToLetters => byte.is_ascii_alphabetic(),
    }
}

// Returns whether `byte` is the decimal point.
#[cfg_attr(not(peltzivar_small), inline(always))]
pub(crate) const fn is_decimal_point(syntax: Syntax, byte: Option<u8>) -> bool {
    matches!(byte, Some(byte) if is_point(syntax.as_grammar(), byte))
}

// Returns whether a literal with these parts is a float.
#[cfg_attr(not(peltzivar_small), inline(always))]
pub(crate) const fn is_float(counts: [usize; 9]) -> bool {
    counts[3] != 0 || counts[5] != 0
}
