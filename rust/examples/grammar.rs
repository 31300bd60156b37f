//! Prints the sentence, the grammar and the regular expression of each form of a language, or of a syntax.
//!
//!     cargo run --example grammar -- JSON
//!     cargo run --example grammar -- 0x000A10007800005F000000010000000C 112 46 required_base_prefix=true
//!
//! A syntax is a format word, an exponent character and a decimal point as in settings, such as 112 and 46, unless its
//! literals are integers, and conditions. The status is 2 if the arguments are neither a language nor a syntax.

use peltzivar::literal::{Language, Syntax};
use std::process::ExitCode;

fn print(name: &str, syntax: Syntax) {
    print!("{name}: {}\n{}{}\n", syntax.sentence(), syntax.grammar(), syntax.regex());
}

fn main() -> ExitCode {
    let text = Vec::from_iter(std::env::args().skip(1)).join(" ");
    if let Some(language) = Language::from_name(&text) {
        language.forms().as_slice().iter().for_each(|form| print(form.name(), form.syntax()));
        return ExitCode::SUCCESS;
    }
    match text.parse() {
        Ok(syntax) => print("syntax", syntax),
        Err(error) => {
            eprintln!("LANGUAGE, or WORD E P CONDITIONS: {error}");
            return ExitCode::from(2);
        }
    }
    ExitCode::SUCCESS
}
