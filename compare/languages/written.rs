//! The writer of the library. Reads numbers on standard input, one a line: a language and a literal of it, `integer` and its
//! digits, or `f64`, `f32`, or `amount`, which has two decimals, and bits. Prints each in another language: `+` and the text, or
//! `!` if it is read as another number, the number as it was given, and its exact value if it is an integer; or `-` and why it
//! is not written, which tests of the library hold.

use peltzivar::literal::{FloatKind, Language, Literal, Number, Style};
use peltzivar::Part;
use std::io::{self, BufRead, Write};

/// A number that is to be written.
enum Given<'a> {
    Float(f64),
    Single(f32),
    Literal(Literal<'a>),
}

/// Returns the integer that a literal is worth, as an integer or a float: its decimal digits, or those of its radix, with
/// `:` and the radix behind, if no type has it.
fn integer(literal: &Literal<'_>) -> Option<String> {
    if literal.is_float() {
        let value = literal.to_f64().ok().filter(|it| it.fract() == 0.0 && it.abs() < 2_f64.powi(128));
        return value.map(|it| format!("{it:.0}"));
    }
    let signed = i128::try_from(*literal).map(|it| it.to_string());
    let value = signed.or_else(|_| u128::try_from(*literal).map(|it| it.to_string()));
    let digits = literal.digits(Part::Integer).skip_while(|it| *it == 0);
    let digits: String = digits.filter_map(|it| char::from_digit(it.into(), 36)).collect();
    let sign = if literal.is_negative() { "-" } else { "" };
    Some(value.unwrap_or_else(|_| format!("{sign}{digits}:{}", literal.radix(Part::Integer))))
}

/// Returns the bits of the float that a literal is worth.
fn bits(literal: &Literal<'_>) -> Option<u64> {
    literal.to_f64().ok().map(f64::to_bits)
}

impl Given<'_> {
    /// Returns whether a literal, which may be a float, is exactly the same integer or, if a float was given, the same
    /// float, or its single in a list of singles. An `f32` has digits of its own.
    fn is(&self, literal: &Literal<'_>, has_singles: bool) -> bool {
        match self {
            Given::Float(value) if has_singles => bits(literal) == Some(f64::from(*value as f32).to_bits()),
            Given::Float(value) => bits(literal) == Some(value.to_bits()),
            Given::Single(value) => f32::try_from(*literal).is_ok_and(|it| it.to_bits() == value.to_bits()),
            Given::Literal(own) if own.is_float() => {
                let value = |it: &Literal<'_>| if has_singles { it.to_f32().map(f64::from) } else { it.to_f64() };
                value(own).is_ok_and(|it| Some(it.to_bits()) == bits(literal))
            }
            // No float may have the radix.
            Given::Literal(own) => {
                integer(own) == integer(literal) && bits(own).is_none_or(|it| bits(literal) == Some(it))
            }
        }
    }

    /// Returns the exact value of a literal without a fraction and an exponent.
    fn integer(&self) -> Option<String> {
        match self {
            Given::Literal(own) if !own.is_float() => integer(own),
            _ => None,
        }
    }
}

fn main() -> io::Result<()> {
    let language = |name: &str| Language::from_name(name).expect("the name of a language");
    let forms = language(&std::env::args().nth(1).unwrap_or_default()).forms();
    let mut floats = forms.into_iter().filter(|it| it.syntax().point().is_some());
    let has_singles = floats.clone().next().is_some() && floats.all(|it| it.kind().floats() == FloatKind::Single);
    let mut out = io::BufWriter::new(io::stdout().lock());
    for line in io::stdin().lock().lines() {
        let line = line?;
        let (source, text) = line.split_once(' ').expect("a language and a text");
        let (bits, style) = (u64::from_str_radix(text, 16), if source == "amount" { Style::PLAIN.decimals(2) } else { Style::PLAIN });
        let given = match source {
            "f64" | "amount" => Given::Float(f64::from_bits(bits.expect("bits"))),
            "f32" => Given::Single(f32::from_bits(bits.expect("bits") as u32)),
            _ => match language(if source == "integer" { "CLOJURE" } else { source }).read(text).expect("a literal") {
                Number::Literal { literal, .. } => Given::Literal(literal),
                _ => continue,
            },
        };
        let written = match &given {
            Given::Float(value) => forms.format_float(*value, style).map(|it| it.to_string()),
            Given::Single(value) => forms.format_float(*value, style).map(|it| it.to_string()),
            Given::Literal(literal) => forms.format_literal(literal, style).map(|it| it.to_string()),
        };
        match written {
            Ok(written) => {
                let read = forms.read(&written).ok().and_then(|it| it.literal());
                let token = || forms.token(written.as_bytes()).ok().filter(|it| it.rest.is_empty()).map(|it| it.literal);
                let read = read.or_else(token).expect(&line);
                let mark = if given.is(&read, has_singles) { '+' } else { '!' };
                writeln!(out, "{mark} {written} {source} {text} {}", given.integer().unwrap_or_default())?;
            }
            Err(error) => writeln!(out, "- {error}")?,
        }
    }
    out.flush()
}
