//! Prints the values of its arguments, which are numbers of TOML, or why they have none.
//!
//!     cargo run --example values -- 1_000 -2.5e-3 1__0

use peltzivar::literal::{Language, ParseError};

fn value(text: &str) -> Result<String, ParseError> {
    let number = Language::TOML.read(text)?;
    Ok(match number.literal() {
        Some(literal) if !literal.is_float() => format!("the integer {}", i64::try_from(literal)?),
        _ => format!("the float {}", f64::try_from(number)?),
    })
}

fn main() {
    for text in std::env::args().skip(1) {
        match value(&text) {
            Ok(value) => println!("{text} is {value}"),
            Err(error) => println!("{text}: {error}"),
        }
    }
}
