//! Runs the built program. The environment variable NUMFMT can name another program than cargo's, such as the proved
//! one: `NUMFMT=$PWD/crates/numfmt/out/numfmt cargo test --test program`.
#![cfg(unix)]

mod rows;

use rows::{ANSWERS, EDITS, REFUSALS};
use std::ffi::{OsStr, OsString};
use std::fs::File;
use std::os::unix::ffi::OsStrExt;
use std::process::Command;

fn numfmt() -> Command {
    let built = OsString::from(env!("CARGO_BIN_EXE_numfmt"));
    Command::new(std::env::var_os("NUMFMT").unwrap_or(built))
}

/// Returns the exit status of the program, and all that it prints.
fn run<A: AsRef<OsStr>>(args: &[A]) -> (Option<i32>, String) {
    let output = numfmt().args(args).output().unwrap();
    let printed = [output.stdout, output.stderr].concat();
    (output.status.code(), String::from_utf8(printed).unwrap())
}

#[test]
fn prints_the_text_of_each_row_and_ends_with_its_status() {
    for (args, text, status) in ANSWERS.into_iter().chain(REFUSALS) {
        assert_eq!(run(args), (Some(status.into()), text.into()), "{args:?}");
    }
    for (setting, bits) in EDITS {
        let printed = (Some(0), format!("{:#034X}\n", 1 << 44 | bits));
        assert_eq!(run(&["edit", "0x100000000000", setting]), printed, "{setting}");
    }
}

#[test]
fn ends_with_status_3_if_an_argument_is_not_utf_8() {
    for bytes in [&b"\xff"[..], b"0x1\xc3"] {
        let arg = OsStr::from_bytes(bytes);
        assert_eq!(run(&[arg]), (Some(3), String::new()), "{arg:?}");
        let args = [OsStr::new("show"), arg];
        assert_eq!(run(&args), (Some(3), String::new()), "{args:?}");
    }
}

#[test]
fn ends_with_status_3_if_a_write_fails() {
    for args in [&[][..], &["same", "0x0", "0xC"], &["show", "0xG"]] {
        let full = File::options().write(true).open("/dev/full").unwrap();
        let output = numfmt().args(args).stdout(full).output().unwrap();
        assert_eq!(output.status.code(), Some(3), "{args:?}");
        assert!(output.stderr.is_empty(), "{args:?}");
    }
}
