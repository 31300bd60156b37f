"""The lexer of rustc. Macros of `rust.rs` see the tokens. Those of wrong numbers, too, which the compiler reports in a source with
each text.
"""
import json
import pathlib
import subprocess
import sys
import tempfile

RUST = pathlib.Path(__file__).resolve().with_suffix(".rs")
RUSTC = ["rustc", "--edition", "2021"]


def compiled(work, name, source):
    """Compiles a source, and returns the errors."""
    (work / name).write_text(source)
    command = [*RUSTC, "--error-format=json", "--emit=metadata", "--extern", "rust=librust.so", name]
    run = subprocess.run(command, cwd=work, capture_output=True, text=True)
    return map(json.loads, run.stderr.splitlines())


def numbers(work, path):
    """Returns the lengths of the numbers of a file, with the lines from there."""
    (work / "sizes").write_text(f"- {path}\n")
    compiled(work, "main.rs", f"rust::numbers! {{\n{pathlib.Path(path).read_text()}\n}}\nfn main() {{}}\n")
    return (work / "sizes").read_bytes()


def sizes(work, texts):
    """Returns the lengths of the numbers that texts begin with."""
    (work / "texts").write_text("".join(f"{text}\n" for text in texts))
    compiled(work, "main.rs", "rust::sizes!();\nfn main() {}\n")
    found = (work / "sizes").read_text().split()
    lines = "".join(f"{text * (size != '-')}\n" for text, size in zip(texts, found, strict=True))
    for error in compiled(work, "lines.rs", f"macro_rules! all {{ ($($it:tt)*) => {{}} }}\nall! {{\n{lines}}}\nfn main() {{}}\n"):
        for span in error["spans"]:
            index = span["line_start"] - 3
            if index < len(found) and found[index] != "-" and span["column_start"] <= int(found[index]) + 1:
                found[index] = "-"
    return "".join(f"{size}\n" for size in found).encode()


given = sys.stdin.read().split("\n")[:-1]
with tempfile.TemporaryDirectory() as folder:
    folder = pathlib.Path(folder)
    subprocess.run([*RUSTC, "-A", "warnings", "--crate-type", "proc-macro", "--crate-name", "rust", RUST, "-o", "librust.so"], cwd=folder, check=True)
    sys.stdout.buffer.write(b"".join(numbers(folder, path) for path in given) if sys.argv[1:] else sizes(folder, given))
