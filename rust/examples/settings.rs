//! Reads a file with one setting a line, such as `examples/settings.txt`. Prints the syntax, and each problem and note
//! with the lines that cause it: `cargo run --example settings -- FILE`.

use peltzivar::{literal::Syntax, Settings};
use std::process::ExitCode;

/// Returns a text with the numbers of the lines that cause it. The index of line 1 is 0.
fn located(indexes: &[usize], text: impl ToString) -> String {
    let lines: Vec<_> = indexes.iter().map(|it| (it + 1).to_string()).collect();
    let noun = if lines.len() == 1 { "line" } else { "lines" };
    format!("{noun} {}: {}", lines.join(", "), text.to_string())
}

/// Returns the syntax of a file if it has no problems, and its problems and notes.
#[must_use]
pub fn load(file: &[u8]) -> (Option<Syntax>, Vec<String>) {
    let (mut settings, mut found) = (Settings::new(), Vec::new());
    for line in file.split(|byte| *byte == b'\n') {
        if let Err(error) = settings.add(line) {
            found.push(located(&[error.index()], error));
        }
    }
    found.extend(settings.reasons().map(|it| located(it.indexes(), it)));
    let syntax = settings.build_syntax().ok().filter(|_| found.is_empty());
    found.extend(settings.notes().map(|it| located(it.indexes(), it)));
    (syntax, found)
}

fn main() -> ExitCode {
    let path = std::env::args_os().nth(1).unwrap_or_default();
    let (syntax, found) = match std::fs::read(&path) {
        Ok(file) => load(&file),
        Err(error) => (None, vec![format!("{path:?}: {error}")]),
    };
    found.iter().for_each(|it| println!("{it}"));
    syntax.iter().for_each(|it| println!("{it}"));
    ExitCode::from(u8::from(syntax.is_none()))
}
