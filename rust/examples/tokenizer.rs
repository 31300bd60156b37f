//! Prints the tokens of a line of a small language, each with its span: names, operators, and numbers such as `1_000`,
//! `1.5e-3` and `0xFF`. If a number is refused, prints the span to blame and the reason, goes on behind it, and ends with
//! status 1.
//!
//!     cargo run --example tokenizer -- 'x1 = 0xFF + 1_000'

use core::num::NonZeroU8;
use peltzivar::literal::{Conditions, Form, Forms, Syntax, TokenError, Tokens};
use peltzivar::NumberFormatBuilder;

const PLAIN: NumberFormatBuilder = NumberFormatBuilder::new()
    .required_digits(true)
    .no_integer_leading_zeros(true)
    .no_float_leading_zeros(true)
    .digit_separator(NonZeroU8::new(b'_'))
    .internal_digit_separator(true);
const DECIMAL: Syntax = Syntax::new_or_panic(PLAIN.build_format_or_panic(), b'e', b'.');
const PREFIXED: NumberFormatBuilder = PLAIN.mantissa_radix(16).base_prefix(NonZeroU8::new(b'x'));
const HEXADECIMAL: Syntax = Syntax::integers(PREFIXED.build_format_or_panic())
    .with_conditions_or_panic(Conditions::NONE.required_base_prefix(true));

static NUMBERS: Forms = Forms::new_or_panic(&[Form::new("number", DECIMAL), Form::new("integer", HEXADECIMAL)])
    .with_tokens(const { &Tokens::new(&[], &[]) });

/// Returns the kind and the length of the token that `text` begins with.
fn token(text: &str) -> Result<(&str, usize), TokenError> {
    let name = text.find(|it: char| !it.is_alphanumeric() && it != '_');
    if text.starts_with(|it: char| it.is_ascii_digit()) {
        let number = NUMBERS.token(text)?;
        Ok((NUMBERS[number.form].name(), number.end()))
    } else if name == Some(0) {
        Ok(("operator", text.chars().map(char::len_utf8).next().unwrap()))
    } else {
        Ok(("name", name.unwrap_or(text.len())))
    }
}

fn main() {
    let line = std::env::args().nth(1).unwrap_or_default();
    let (mut start, mut status) = (0, 0);
    while let Some(skipped) = line[start..].find(|it: char| !it.is_whitespace()) {
        start += skipped;
        match token(&line[start..]) {
            Ok((kind, size)) => {
                let end = start + size;
                println!("{start}..{end}: {kind} {}", &line[start..end]);
                start = end;
            }
            Err(error) => {
                let (first, end) = (start + error.span().start, start + error.span().end);
                println!("{first}..{end}: {error}");
                start += error.resume(&line[start..]);
                status = 1;
            }
        }
    }
    std::process::exit(status);
}
