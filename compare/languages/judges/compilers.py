"""Judges that are whole compilers: a number is what they take as the value of a variable."""
import collections
import pathlib
import re
import struct
import subprocess
import sys
import tempfile

# A compiler: its command and source; the text before all units, the unit of a number, in three lines, and the text after all;
# the same of a program that prints each number in a line, the type of numbers of an output without a program, which `run` makes,
# or a command that prints the values of constants. A sign belongs to the number if `signed` is true. A scanner prints how
# long the token is that a text begins with; without one, a text is one token if it is none with a blank, or if it is not `several`,
# a pattern. An error is a line with the source, the line, and `error`, a pattern. The program is run by `run`.
Compiler = collections.namedtuple("Compiler", "command source head unit tail printing signed scanner several error run",
                                  defaults=[None, False, None, None, "(?:fatal )?error", "./out"])
GCC = "-pedantic-errors -fmax-errors=0 -fno-diagnostics-show-caret -fdiagnostics-column-unit=byte -o out"
SCANNERS = "../scanners"
C = "", '_Static_assert(sizeof(\n{text}\n), "");\n', "int main(void) {}\n"
CC = "using namespace std::literals;\n", *C[1:]
SHOW = "show(\n{text}\n);\n"
PRINT_C = """#include <stdio.h>
static void integer(unsigned long long it) { printf("%llu\\n", it); }
static void floating(double it) { printf("%a\\n", it); }
#define show(it) _Generic((it), float: floating, double: floating, long double: floating, \\
    _Decimal32: floating, _Decimal64: floating, _Decimal128: floating, default: integer)(it)
int main(void) {
""", SHOW, "}\n"
PRINT_CC = """#include <stdio.h>
using namespace std::literals;
template<class T> static void show(T it) { T(0.5) ? printf("%a\\n", (double)it) : printf("%llu\\n", (unsigned long long)it); }
template<class T, class P> static void show(std::chrono::duration<T, P> it) { show(it.count()); }
template<class T> static void show(std::complex<T> it) { show(it.imag()); }
static void show(std::chrono::day it) { show(unsigned(it)); }
static void show(std::chrono::year it) { show(int(it)); }
int main(void) {
""", SHOW, "}\n"
ADA = "procedure A is\n", "Number{i} : constant :=\n{text}\n;\n", "begin\nnull;\nend A;\n"
PRINT_ADA = """with Ada.Text_IO, Ada.Unchecked_Conversion, Interfaces;
procedure A is
function Bits is new Ada.Unchecked_Conversion (Long_Float, Interfaces.Unsigned_64);
package Bits_IO is new Ada.Text_IO.Modular_IO (Interfaces.Unsigned_64);
procedure Show (It : Long_Long_Long_Integer) is begin Ada.Text_IO.Put_Line (It'Image); end Show;
procedure Show (It : Long_Float) is begin Bits_IO.Put (Bits (It), Base => 16); Ada.Text_IO.New_Line; end Show;
begin
""", "begin Show (\n{text}\n); exception when others => Ada.Text_IO.New_Line; end;\n", "end A;\n"
# An error takes one semicolon.
D = "", "auto number{i} =\n{text}\n;;\n", "void main() {}\n"
PRINT_D = """import core.stdc.stdio;
void show(T)(T it) {
static if (is(T : ireal)) show(it.im);
else static if (is(T : ulong)) printf("%llu\\n", cast(ulong) it);
else printf(is(T == float) ? "%.9gf\\n" : "%a\\n", cast(double) it);
}
void main() {
""", SHOW, "}\n"
FORTRAN = "implicit double precision (v)\n", "data value{i} / &\n{text} &\n/\n", "end\n"
# The value, with the digits that its kind has, and the kind: 4 is that of integers and singles.
PRINT_FORTRAN = "", "print '(G0, 1X, I0)', {text}, kind( &\n{text} &\n)\n", "end\n"
# Constants without a type are the bits of an integer.
BITS = "implicit integer(16) (v)\n", *FORTRAN[1:]
PRINT_BITS = "", "print '(\"Z\", Z0)', int( &\n{text} &\n, 16)\n", "end\n"
# The type of an integer is inferred, so its value may wrap here, and a float is to be finite.
RUST = "#![allow(overflowing_literals)]\n", "const _: () = assert!((\n{text}\n) as f64 <= f64::MAX);\n", "fn main() {}\n"
PRINT_RUST = """trait Show { fn show(it: Self); }
impl Show for u128 { fn show(it: u128) { println!("{it}") } }
impl Show for f32 { fn show(it: f32) { println!("{it:?}f") } }
impl Show for f64 { fn show(it: f64) { println!("d{:016x}", it.to_bits()) } }
fn main() {
""", "Show::show(\n{text}\n);\n", "}\n"
GAS = "as --fatal-warnings -o a.o"
VERILOG = "module numbers;\ninitial begin\n", "$display(\n{text}\n);\n", "end\nendmodule\n"
# A real has a half, and bits.
PRINT_VERILOG = VERILOG[0], "$display(\"%g %h %0d\", (({text}) * 0 + 3) / 2, $realtobits({text}),\n{text}\n);\n", VERILOG[2]
# Integers of 64 bits are physical. Reals, which have a point, are in a second program.
VHDL = """use std.textio.all;
entity a is end;
architecture b of a is
begin process
procedure show(it: time) is begin write(output, time'image(it) & LF); end;
procedure show(it: real) is begin write(output, to_string(it, "%a") & LF); end;
begin
""", "show(\n{text}\nfs);\n", "wait; end process;\nend;\n"
REALS = VHDL[0], SHOW, VHDL[2]
SIGN = r"(?<![eE])[+-]"
COMPILERS = {
    "gcc": [Compiler(f"gcc -std=c2x {GCC}", "a.c", *C, PRINT_C, scanner=[sys.executable, f"{SCANNERS}/gcc.py", "gcc -x c -std=c2x"])],
    "g++": [Compiler(f"g++ -std=c++20 -include chrono -include complex -D_Static_assert=static_assert {GCC}", "a.cc", *CC, PRINT_CC,
                     scanner=[sys.executable, f"{SCANNERS}/gcc.py", "g++ -x c++ -std=c++20"],
                     error="(?:(?:fatal )?error|  required from here)")],  # An error may be in a template.
    "gdc": [Compiler("gdc -fmax-errors=0 -fno-diagnostics-show-caret -o out", "a.d", *D, PRINT_D)],
    "gnat": [Compiler("gnatmake -f -q -o out -gnatf -gnatm999999 -gnatws", "a.adb", *ADA, PRINT_ADA)],
    "gfortran": [Compiler(f"gfortran -std=f2018 {GCC}", "a.f90", *FORTRAN, PRINT_FORTRAN, signed=True),
                 Compiler(f"gfortran -std=f2018 {GCC}", "a.f90", *BITS, PRINT_BITS, several="^[^bozBOZ]")],
    "ghdl": [Compiler("ghdl -a --std=08 -Werror=runtime-error", "a.vhd", *it, it, several=rf"{SIGN}|^\D{other}",
                      error="(?!warning|note)", run="ghdl -r --std=08 a") for it, other in ((VHDL, r"|\."), (REALS, ""))],
    "iverilog": [Compiler("iverilog -g2005 -o out", "a.v", *VERILOG, PRINT_VERILOG, several=f"{SIGN}|'.*[+-]|.'")],
    "nasm": [Compiler("nasm -f bin -o out", "a.asm", "bits 64\n", "mov rax, {text}\n\n\n", "", "q", run="true"),
             Compiler("nasm -f bin -o out", "a.asm", "bits 64\n", "mov rax, __float64__({text})\n\n\n", "", "d", run="true")],
    "as": [Compiler(GAS, "a.s", "", ".octa {text}\n\n\n", "", "16s", several=r"[+-]|^\d+[fb]$", error="(?:Error|Warning)", run="objcopy -O binary -j .text a.o out"),
           Compiler(GAS, "a.s", "", ".double {text}\n\n\n", "", "d", several="^[+-]", error="(?:Error|Warning)", run="objcopy -O binary -j .text a.o out")],
    "rustc": [Compiler("rustc --error-format=short -o out", "a.rs", *RUST, PRINT_RUST,
                       scanner=[sys.executable, f"{SCANNERS}/rust.py"])],
    "kotlinc": [Compiler("kotlinc -d out", "a.kt", "", "const val number{i} =\n{text}\n\n", "", "javap -constants out/AKt.class",
                         scanner=["java", "-cp", "/usr/share/kotlin/kotlinc/lib/*", "KotlinTokens.java"])],
}


def compile(it, folder, source):
    """Compiles a source, and returns the lines of errors, of which there is none if and only if the compiler succeeds."""
    (folder / it.source).write_text(source)
    command = [*it.command.split(), it.source]
    run = subprocess.run(command, cwd=folder, capture_output=True, text=True, errors="replace")
    lines = re.findall(rf"^{it.source}:(\d+):(?:\d+:)? {it.error}", run.stderr, re.M | re.I)
    assert (run.returncode == 0) == (not lines), f"{run.returncode} {run.stderr[-2000:]}"
    return [int(line) for line in lines]


def accepted(it, folder, texts, program=None):
    """Returns the indexes of the texts that a compiler takes. An error hides others, so the rest is compiled again."""
    head, unit, tail = program or it[2:5]
    left, lines = list(range(len(texts))), [0]
    while lines and left:
        units = "".join(unit.format(i=i, text=texts[i]) for i in left)
        lines = compile(it, folder, head + units + tail)
        refused = {(line - 1 - head.count("\n")) // 3 for line in lines}
        left = [text for place, text in enumerate(left) if place not in refused]
    return left


def values(it, folder, texts):
    """Returns the values of the texts that the compiler has a type for."""
    if it.printing in ("q", "d", "16s"):
        compile(it, folder, "".join(it.unit.format(text=text) if it.unit[0] == "." else f"dq {text}\n" for text in texts))
        subprocess.run(it.run.split(), cwd=folder, check=True)
        found = [value for value, in struct.iter_unpack(it.printing, (folder / "out").read_bytes())]
        return [int.from_bytes(value, "little") if it.printing == "16s" else value for value in found]
    if isinstance(it.printing, str):
        left = accepted(it, folder, texts)
        lines = subprocess.run(it.printing.split(), cwd=folder, capture_output=True, text=True).stdout
        found = re.findall(r"number(\d+) = (\S+?)([dl]?);", lines)
        # An unsigned constant is shown as a signed one.
        unsigned = {str(i) for i in left if re.search("[uU]L?$", texts[i])}
        found = [(i, int(value) % 2 ** (64 if size else 32) if i in unsigned else value) for i, value, size in found]
    else:
        left = accepted(it, folder, texts, it.printing)
        lines = subprocess.run(it.run.split(), cwd=folder, capture_output=True, text=True, check=True).stdout.splitlines() if left else []
        lines = [re.sub("16#(.*)#", lambda it: f"d{it[1]:>016}", line.strip().removesuffix(" fs")) for line in lines]  # of Ada and VHDL
        lines = [re.sub(" [48]$", "", re.sub(r"(\..*) 4$", r"\1f", line)) for line in lines]  # of Fortran
        lines = [re.sub("^Z(.*)", lambda it: str(int(it[1], 16)), line) for line in lines]
        lines = [re.sub("^[01] [0-9a-f]+ (.*)|^.* ([0-9a-f]{16}) .*", lambda it: it[1] or f"d{it[2]}", line) for line in lines]  # of Verilog
        found = zip(left, lines, strict=True)
    found = {int(i): value for i, value in found}
    return [found.get(i, "") for i in range(len(texts))]


def tokens(it, folder, texts):
    """Returns the indexes of the texts that are one token: with a blank, most others are something else at the first place."""
    if it.scanner:
        given = "".join(f"{text}\n" for text in texts)
        sizes = subprocess.run(it.scanner, input=given, capture_output=True, text=True, check=True).stdout.split()
        left = [i for i, (text, size) in enumerate(zip(texts, sizes, strict=True)) if size == str(len(text))]
        return [left[i] for i in accepted(it, folder, [texts[i] for i in left])]
    if it.several:
        left = [i for i, text in enumerate(texts) if not re.search(it.several, text)]
        return [left[i] for i in accepted(it, folder, [texts[i] for i in left])]
    left = accepted(it, folder, texts)
    # gfortran takes blanks around the `_` of a kind.
    is_kind = lambda i, at: it.signed and "_" in texts[i][at - 1 : at + 1]
    first = {i: 2 if it.signed and texts[i][0] in "+-" else 1 for i in left}
    for is_first in (True, False):
        split = [(i, at) for i in left for at in range(first[i], len(texts[i])) if (at == first[i]) == is_first and not is_kind(i, at)]
        phrases = accepted(it, folder, [f"{texts[i][:at]} {texts[i][at:]}" for i, at in split])
        found = {split[phrase][0] for phrase in phrases}
        left = [i for i in left if i not in found]
    return left


# The status of iverilog is the number of its errors, of which a text has two or three, modulo 256.
SIZE = {"kotlinc": 20000, "iverilog": 80}.get(sys.argv[1], 4000)
texts = sys.stdin.read().split("\n")[:-1]
for start in range(0, len(texts), SIZE):
    chunk, found = texts[start : start + SIZE], {}
    for compiler in COMPILERS[sys.argv[1]]:
        with tempfile.TemporaryDirectory() as folder:
            folder = pathlib.Path(folder)
            left = tokens(compiler, folder, chunk)
            found = dict(zip(left, values(compiler, folder, [chunk[i] for i in left]), strict=True)) | found
    print("\n".join(f"+ {found[i]}" if i in found else "-" for i in range(len(chunk))))
