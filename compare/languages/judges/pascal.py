"""The judge of Pascal: fpc, which a syntax error ends, and which then begins again behind it."""
import concurrent.futures
import pathlib
import re
import subprocess
import sys
import tempfile

PRINTING = """uses math;
procedure show(it: int64); begin writeln(it) end;
procedure show(it: qword); begin writeln(it) end;
procedure show(it: extended); var value: double; begin value := it; writeln('d', hexstr(pint64(@value)^, 16)) end;
begin
SetExceptionMask([exOverflow, exUnderflow, exPrecision, exDenormalized]);
"""


def compile(folder, source, *options):
    """Compiles a program, and returns the lines of errors, and whether the last one ended the compiler."""
    (folder / "a.pas").write_text(source)
    run = subprocess.run(["fpc", "-vr", "-Se1000000", *options, "a.pas"], cwd=folder, stdout=subprocess.PIPE, stderr=subprocess.STDOUT, text=True)
    lines = [int(it) for it in re.findall(r"^a\.pas:(\d+):\d+: error", run.stdout, re.M)]
    assert (run.returncode == 0) == (not lines), run.stdout
    return lines, bool(lines) and "errors compiling module" not in run.stdout


def accepted_of(texts):
    """Returns the texts that are the value of a constant. An error may be found at the next token, `const`."""
    found, start = set(), 0
    with tempfile.TemporaryDirectory() as folder:
        while rest := texts[start : start + 100]:
            units = "".join(f"const\nx{i} =\n{text}\n;\n" for i, text in enumerate(rest))
            lines, is_ended = compile(pathlib.Path(folder), f"{units}begin end.\n", "-s")
            wrong = [min((line - 2) // 4, len(rest) - 1) for line in lines]
            end = wrong[-1] + 1 if is_ended else len(rest)
            found.update(rest[i] for i in {*range(end)}.difference(wrong))
            start += end
    return found


def accepted(texts):
    """Returns the same, by four compilers at once."""
    with concurrent.futures.ThreadPoolExecutor() as pool:
        return set().union(*pool.map(accepted_of, (texts[it::4] for it in range(4))))


def blanks(text):
    """Returns the text with a blank behind one of its signs: if it is a value, the sign is an operator, and the text more than one token."""
    return {f"{text[: it.end()]} {text[it.end() :]}" for it in re.finditer("[+-]", text)}


texts = sys.stdin.read().split("\n")[:-1]
left = accepted(texts)
phrases = accepted(sorted({it for text in left for it in blanks(text)}))
left = [text for text in texts if text in left and phrases.isdisjoint(blanks(text))]
with tempfile.TemporaryDirectory() as folder:
    folder = pathlib.Path(folder)
    compile(folder, PRINTING + "".join(f"show(\n{text}\n);\n" for text in left) + "end.\n", "-oout")
    values = dict(zip(left, subprocess.run([folder / "out"], capture_output=True, text=True, check=True).stdout.splitlines(), strict=True))
print("\n".join(f"+ {values[text]}" if text in values else "-" for text in texts))
