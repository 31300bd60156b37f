//! The judge of the library. Reads texts of a language on standard input, and prints `-` and the form of the error, with
//! `large` for a number that is too large for the form; or `+`, the form, `i` or `f` for an integer or a float, the exact value or
//! `none` if no type has it, and the bits of `f64` and `f32`, NaN where no float has the radix. With the argument `tokens`, the
//! length of the token that a text begins with is in the place of `+`; with `written`, a text that is refused is a number if its
//! token has all of it.

use peltzivar::literal::{Language, Number, ValueError, ValueErrorKind};
use std::io::{self, BufRead, Write};

/// Returns what is printed of a number.
fn shown(mark: &str, number: Number<'_>) -> String {
    let form = number.form().unwrap_or(0);
    let is_large = |it: ValueError| it.kind() != ValueErrorKind::UnsupportedRadix;
    if f64::try_from(number).is_err_and(is_large) {
        return format!("{} {form} large", if mark == "+" { "-" } else { mark });
    }
    let kind = if number.literal().is_some_and(|it| !it.is_float()) { 'i' } else { 'f' };
    let exact = i128::try_from(number).map(|it| it.to_string());
    let exact = exact.or_else(|_| u128::try_from(number).map(|it| it.to_string())).unwrap_or("none".into());
    let single = f32::try_from(number).map_or(0, f32::to_bits);
    format!("{mark} {form} {kind} {exact} {:016x} {single:08x}", number.to_f64().to_bits())
}

fn main() -> io::Result<()> {
    let arguments = Vec::from_iter(std::env::args().skip(1));
    let language = Language::from_name(&arguments[0]).expect("the name of a language");
    let has = |word| arguments.get(1).is_some_and(|it| it == word);
    let (is_token, is_written) = (has("tokens"), has("written"));
    let mut out = io::BufWriter::new(io::stdout().lock());
    for text in io::stdin().lock().split(b'\n') {
        let text = text?;
        let answer = if is_token {
            let token = language.token(&text).map(|it| {
                let number = Number::Literal { literal: it.literal, form: it.form };
                shown(&(text.len() - it.rest.len()).to_string(), number)
            });
            token.unwrap_or("-".into())
        } else if let Some(token) = language.token(&text).ok().filter(|it| is_written && !it.suffix.is_empty() && it.rest.is_empty()) {
            shown("+", Number::Literal { literal: token.literal, form: token.form })
        } else {
            language.read(&text).map_or_else(|error| format!("- {}", error.form), |it| shown("+", it))
        };
        writeln!(out, "{answer}")?;
    }
    out.flush()
}
