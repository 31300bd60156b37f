//! Prints the parts of a literal, one a line, or where a text stops being one, and why.
//!
//!     cargo run --example literal -- WORD E P TEXT
//!
//! WORD is a format word. E and P are the exponent character and the decimal point as in settings, such as 101 and 46, or
//! both are `none` if literals are integers. The status is 1 if TEXT is not a literal, and 2 if the others make no syntax.

use peltzivar::literal::Syntax;
use std::ffi::{OsStr, OsString};
use std::io::{self, Write};
use std::process::ExitCode;

fn main() -> io::Result<ExitCode> {
    let mut arguments: Vec<OsString> = std::env::args_os().skip(1).collect();
    let text = arguments.pop().unwrap_or_default();
    let syntax: Syntax = match arguments.join(OsStr::new(" ")).to_string_lossy().parse() {
        Ok(syntax) => syntax,
        Err(error) => {
            eprintln!("WORD E P: {error}");
            return Ok(ExitCode::from(2));
        }
    };
    let mut out = io::stdout().lock();
    match syntax.read(text.as_encoded_bytes()) {
        Ok(literal) => {
            for (name, bytes) in literal.parts() {
                out.write_all(&[name.as_bytes(), b" ", bytes, b"\n"].concat())?;
            }
            Ok(ExitCode::SUCCESS)
        }
        Err(error) => {
            writeln!(out, "{}: {error:#}", error.valid_up_to())?;
            Ok(ExitCode::FAILURE)
        }
    }
}
