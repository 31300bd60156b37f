//! Literals of one language as literals of another one: `cargo run --example convert -- C PYTHON` reads literals of C on
//! standard input, one on each line, and prints them as Python writes them, or says why it cannot.

use peltzivar::literal::{Language, Number, Style, WriteError};
use std::io::{self, BufRead, Write};

/// Returns a number as the first form of a language that can have it, or as one of the spellings of NaN and infinity.
fn convert(number: Number<'_>, target: Language) -> Result<String, WriteError> {
    let forms = target.forms();
    let text = match number {
        Number::Literal { literal, .. } => forms.format_literal(&literal, Style::PLAIN)?,
        Number::Special(special) => forms.specials().format(&forms[0].syntax(), special)?,
    };
    Ok(text.to_string())
}

fn main() -> io::Result<()> {
    let language = |name: Option<String>| Language::from_name(&name?);
    let mut names = std::env::args().skip(1);
    let (Some(source), Some(target)) = (language(names.next()), language(names.next())) else {
        eprintln!("usage: convert SOURCE TARGET, two of {:?}", Language::ALL);
        std::process::exit(2);
    };
    let mut output = io::stdout().lock();
    for line in io::stdin().lock().lines() {
        let line = line?;
        match source.read(&line) {
            Ok(number) => match convert(number, target) {
                Ok(text) => writeln!(output, "{text}")?,
                Err(error) => writeln!(output, "{line}: not in {target}: {error}")?,
            },
            Err(error) => writeln!(output, "{line}: not in {source}: {error}")?,
        }
    }
    Ok(())
}
