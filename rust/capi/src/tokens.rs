//! Calls that read tokens.

use crate::arguments::{input, write_text, Out, ValueStatus, REFUSED};
use crate::lists::Forms;
use crate::literals::{Literal, ReadError, Refusal, Span, NO_FORMS, TOO_LONG};
use peltzivar::literal::{self, TokenError};

/// A token: its literal, where its suffix is, its length, and what follows.
#[repr(C)]
pub struct Token<'a> {
    literal: Literal<'a>,
    suffix: Span,
    size: usize,
    rest: *const u8,
    reserved: [u64; 2],
}

// The size and the alignment in the header.
const _: () = assert!(size_of::<Token>() == 400 && align_of::<Token>() <= 16);

impl<'a> Token<'a> {
    #[inline(always)]
    fn of(token: literal::Token<'a>, len: usize) -> Token<'a> {
        let size = len - token.rest.len();
        let suffix = Span { start: size - token.suffix.len(), end: size };
        let literal = Literal::of(token.literal, token.form);
        Token { literal, suffix, size, rest: token.rest.as_ptr(), reserved: [0; 2] }
    }
}

/// Returns the error that C gets. An error of a suffix has words of the caller, which it does not keep.
#[cold]
#[inline(never)]
fn error_of(mut why: TokenError) -> ReadError {
    let (at, form) = match why {
        TokenError::Literal(why) => return ReadError::of(why),
        TokenError::UnknownSuffix { form, start, ref mut suffixes, .. } => {
            *suffixes = &[];
            (start, form)
        }
        TokenError::Stopped { form, start, .. } => (start, form),
        TokenError::NotAToken { end } => (end, 0),
        _ => (0, 0),
    };
    ReadError::at(at, form, Refusal::Library(why))
}

/// Returns the token that a text begins with. It is called in two places, and is large.
#[inline(never)]
unsafe fn token<'a>(
    forms: Option<&Forms>,
    (text, len): (*const u8, usize),
) -> Result<literal::Token<'a>, Refusal<TokenError>> {
    let text = input(text, len).ok_or(Refusal::Argument(TOO_LONG))?;
    forms.ok_or(Refusal::Argument(NO_FORMS))?.token_bytes(text).map_err(Refusal::Library)
}

calls! {
    fn peltzivar_forms_token(
        forms: Option<&Forms>, text: *const u8, len: usize, out: Out<Token>, error: Out<ReadError>
    ) -> ValueStatus {
        match token(forms, (text, len)) {
            Ok(token) => return out.write_some(Some(Token::of(token, len))),
            Err(Refusal::Library(why)) => error.write(error_of(why)),
            Err(Refusal::Argument(sentence)) => error.write(ReadError::at(0, 0, Refusal::Argument(sentence))),
        }
        REFUSED
    }

    fn peltzivar_token_error_text(
        forms: Option<&Forms>, text: *const u8, len: usize, to: *mut u8, to_len: usize
    ) -> usize {
        write_text(to, to_len, token(forms, (text, len)).err())
    }
}
