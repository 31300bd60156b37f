//! `numfmt` shows, edits, compares, checks, explains and migrates number formats, and prints them as Rust code. This
//! file is written by hand. `rust/tools/erase.py` generates the other files from `crates/numfmt`, whose `src/main.rt`
//! describes the commands.
//!
//! In two cases, std makes the exit status differ from the proved program's. If memory runs out, this program aborts.
//! Standard output that is closed or read-only is treated as `/dev/null`.

#[allow(clippy::manual_flatten, reason = "as it is proved")]
mod answer;
#[allow(clippy::ptr_arg, reason = "as it is proved")]
mod program;
mod word;

use std::env;
use std::ffi::OsString;
use std::io::{self, Write};
use std::process::ExitCode;

fn main() -> ExitCode {
    // An argument that is not UTF-8 is an error.
    let args = env::args_os().skip(1).map(OsString::into_string);
    let Ok(args) = args.collect::<Result<Vec<String>, OsString>>() else {
        return ExitCode::from(3);
    };
    let mut text = Vec::new();
    let status = program::run(&args, &mut text);
    // All lines are written at once, so that `Stdout` buffers nothing that it could write after a failed write.
    match io::stdout().write_all(&text) {
        Ok(()) => ExitCode::from(status),
        Err(_) => ExitCode::from(3),
    }
}
