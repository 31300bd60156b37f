//! The commands in the pages of the repository print what the pages show. `c/tests/test_python.py` tests the tables of
//! FORMAT and EXPLANATIONS.

use std::path::Path;
use std::process::{Command, Output};

/// Runs `cargo run` in the top folder, and returns its status, its standard output and its standard error.
fn cargo_run(arguments: &[&str]) -> (Option<i32>, [String; 2]) {
    let mut command = Command::new(env!("CARGO"));
    let command = command.current_dir(Path::new(env!("CARGO_MANIFEST_DIR")).parent().unwrap());
    let command = command.args(["run", "--quiet", "--offline"]).args(arguments);
    let Output { status, stdout, stderr } = command.output().expect("cargo");
    (status.code(), [stdout, stderr].map(|it| String::from_utf8(it).unwrap()))
}

/// Returns the words of a command.
fn words(command: &str) -> Vec<&str> {
    command.split(' ').collect()
}

/// The commands `$ cargo run ..` and `$ numfmt ..` of a page, with the lines below them.
#[test]
fn commands_print_what_pages_show() {
    for name in ["README", "docs/FORMAT", "docs/EXPLANATIONS", "docs/SETTINGS", "docs/DIFFERENCES", "docs/RUST"] {
        let page = std::fs::read_to_string(format!("{}/../{name}.md", env!("CARGO_MANIFEST_DIR"))).unwrap();
        let mut lines = page.lines().peekable();
        while let Some(line) = lines.next() {
            let command = line.replace("    $ numfmt ", "    $ cargo run -- ");
            let Some(arguments) = command.strip_prefix("    $ cargo run ") else { continue };
            let is_shown = |line: &&str| line.starts_with("    ") && !line.starts_with("    $");
            let shown: Vec<&str> = std::iter::from_fn(|| lines.next_if(is_shown)).map(|line| &line[4..]).collect();
            // The standard error may have a warning of the compiler.
            let (_, [printed, _]) = cargo_run(&words(arguments));
            assert_eq!(printed, shown.join("\n") + "\n", "{name}: {line}");
        }
    }
}

#[test]
fn examples_end_as_their_comments_state() {
    #[rustfmt::skip]
    let rows = [
        ("languages -- 0x1'F.8p1", 0, "\nC_PLUS_PLUS: 63.0, hexadecimal float\n"),
        ("languages -- -12", 0, "\nC_PLUS_PLUS: none: unexpected minus sign, decimal\n"),
        ("tokenizer -- x=0xFF*1_0.5", 0, "0..1: name x\n1..2: operator =\n2..6: integer 0xFF\n6..7: operator *\n7..12: number 1_0.5\n"),
        ("tokenizer -- x+12ab", 1, "0..1: name x\n1..2: operator +\n4..6: unknown suffix\n"),
        ("tokenizer -- 2*1e+", 1, "\n4..5: expected a digit after the exponent character\n"),
        ("tokenizer -- 0x1__F", 1, "4..5: unexpected digit separator in the integer after another\n"),
        ("literal -- 0x00000A0000000000000000000000000C none none 12", 0, "integer 12\n"),
        ("literal -- 0x00000A0000000000000000000000000C 101 46 1e", 1, "2: expected a digit after the exponent character, which required_exponent_digits requires\n"),
        ("literal -- 0x000A10007800005F000000010000000C 101 46 1", 2, "WORD E P: the exponent character 'e' is a digit in "),
        ("literal -- 12 101 46 1", 2, "WORD E P: a format word begins with `0x`\n"),
        ("settings -- rust/examples/settings.txt", 0, "0x100A10007800005F000000010000000C 112 46\n"),
        ("convert -- C", 2, "usage: convert SOURCE TARGET, two of [ADA, BASH, C, "),
        ("grammar -- 0x00000A00780000000000000000000000 required_base_prefix=true", 0, "\n[+-]?[0][Xx][0-9]+\n"),
        ("grammar -- 12", 2, "LANGUAGE, or WORD E P CONDITIONS: a format word begins with `0x`\n"),
        ("settings", 1, "\"\": No such file or directory (os error 2)\n"),
    ];
    for (example, wanted, part) in rows {
        let (status, printed) = cargo_run(&[&["--example"], &words(example)[..]].concat());
        assert!(status == Some(wanted) && printed.concat().contains(part), "{example}: {printed:?}");
    }
}

/// The modules for serde in RUST compile and run, if the packages are here.
#[test]
fn modules_for_serde_keep_values() {
    let sources = "/usr/share/cargo/registry";
    let needed = ["serde-1.0.152", "serde_derive-1.0.152", "serde_json-1.0.87"];
    if let Some(name) = needed.into_iter().find(|name| !Path::new(sources).join(name).is_dir()) {
        return eprintln!("skipped: {name} is not installed");
    }
    let (folder, top) = (Path::new(env!("CARGO_TARGET_TMPDIR")).join("serde"), env!("CARGO_MANIFEST_DIR"));
    std::fs::create_dir_all(&folder).unwrap();
    let manifest = format!(
        "[package]\nname = \"with-serde\"\nedition = \"2024\"\n[[bin]]\nname = \"with-serde\"\npath = {:?}\n[workspace]\n\
         [dependencies]\npeltzivar.path = {top:?}\nserde = {{ version = \"1\", features = [\"derive\"] }}\nserde_json = \"1\"\n",
        format!("{top}/tests/serde/program.rs")
    );
    std::fs::write(folder.join("Cargo.toml"), manifest).unwrap();
    let mut command = Command::new(env!("CARGO"));
    command.current_dir(folder).args(["run", "--quiet", "--offline"]);
    command.args(["--config", "source.crates-io.replace-with='debian'"]);
    let output = command.args(["--config", &format!("source.debian.directory='{sources}'")]).output().expect("cargo");
    assert!(output.status.success(), "{}", String::from_utf8_lossy(&output.stderr));
}
