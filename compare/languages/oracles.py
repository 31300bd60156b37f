"""The languages, each with its tool, and the differences from it that are announced."""
import collections
import fractions
import math
import os
import re
import struct
import sys

# A tool: its packages in Debian, the programs that it needs, commands that print its version and build its judge, and the
# judge.
Tool = collections.namedtuple("Tool", "package programs version build judge")
PYTHON, DEBIAN, NODE, MCS = sys.executable, "/usr/bin/python3", "/usr/share/nodejs", "/usr/lib/mono/4.5/mcs.exe"
PACKAGES = "/usr/lib/python3/dist-packages"
JAVAC = " ".join(f"--add-exports jdk.compiler/com.sun.tools.javac.{it}=ALL-UNNAMED" for it in ("file", "parser", "tree", "util"))
SCALA = "/usr/share/java/scala-compiler.jar:/usr/share/java/scala-library.jar:/usr/share/java/scala-reflect.jar"
LIBGHDL = f"/usr/lib/{os.uname().machine}-linux-gnu/libghdl-2_0_0.so"
OCAMLC = "ocamlc -w -a -I +compiler-libs ocamlcommon.cma"
TOOLS = {
    "ast": Tool("python3", [PYTHON], f"{PYTHON} --version", "", f"{PYTHON} python.py"),
    "as": Tool("binutils", ["as", "objcopy"], "as --version", "", f"{PYTHON} compilers.py as"),
    "bash": Tool("bash", ["bash"], "bash --version", "", "./bash.sh"),
    "calc": Tool("libreoffice-calc-nogui python3-xlrd", ["soffice", f"{PACKAGES}/xlrd"], "soffice --version", "", f"{DEBIAN} calc.py"),
    "clojure": Tool("clojure", ["clojure"], "clojure -e '(print \"Clojure\" (clojure-version))'", "", "clojure clojure.clj"),
    "csv": Tool("python3", [PYTHON], f"echo csv of $({PYTHON} --version)", "", f"{PYTHON} libraries.py csv"),
    "elixir": Tool("elixir", ["elixir"], "elixir --version | tail -1", "", "elixir elixir.exs"),
    "erlang": Tool("erlang-base", ["escript"], "echo Erlang/OTP $(erl -noshell -eval 'io:put_chars(erlang:system_info(otp_release)),halt().')", "",
                   "escript erlang.escript"),
    "fpc": Tool("fp-compiler fp-units-math", ["fpc"], "echo Free Pascal $(fpc -iV)", "", f"{PYTHON} pascal.py"),
    "g++": Tool("g++", ["g++"], "g++ --version", "", f"{PYTHON} compilers.py g++"),
    "gcc": Tool("gcc", ["gcc"], "gcc --version", "", f"{PYTHON} compilers.py gcc"),
    "gfortran": Tool("gfortran", ["gfortran"], "gfortran --version", "", f"{PYTHON} compilers.py gfortran"),
    "gdc": Tool("gdc", ["gdc"], "gdc --version", "", f"{PYTHON} compilers.py gdc"),
    "ghc": Tool("ghc", ["ghc"], "ghc --version", "ghc -v0 -package ghc -outputdir {work} -o {work}/ghc haskell.hs", "{work}/ghc"),
    "ghdl": Tool("ghdl libghdl-2-0-0", ["ghdl", LIBGHDL], "ghdl --version", "", f"{PYTHON} compilers.py ghdl"),
    "ghostscript": Tool("ghostscript", ["gs"], "echo Ghostscript $(gs --version)", "", "gs -q -dNODISPLAY -dBATCH -dNOPAUSE postscript.ps"),
    "gnat": Tool("gnat", ["gnatmake"], "gnatmake --version", "", f"{PYTHON} compilers.py gnat"),
    "go": Tool("golang-go", ["go"], "go version", "go build -o {work}/go scanner.go", "{work}/go"),
    "guile": Tool("guile-3.0", ["guile"], "guile --version", "", "guile --no-auto-compile scheme.scm"),
    "iverilog": Tool("iverilog", ["iverilog"], "iverilog -V", "", f"{PYTHON} compilers.py iverilog"),
    "javac": Tool("openjdk-17-jdk", ["javac"], "javac --version", f"javac {JAVAC} -d {{work}} Scanner.java", f"java {JAVAC} -cp {{work}} Scanner"),
    "json": Tool("nodejs", ["node"], "echo JSON.parse of node $(node --version)", "", "node node.js json"),
    "json5": Tool("nodejs node-json5", ["node", f"{NODE}/json5"], f"node -p '`json5 ${{require(\"{NODE}/json5/package.json\").version}}`'",
                  "", "node node.js json5"),
    "kotlinc": Tool("kotlin openjdk-17-jdk", ["kotlinc", "javap"], "kotlinc -version 2>&1 | grep info", "", f"{PYTHON} compilers.py kotlinc"),
    "lua": Tool("lua5.4", ["lua5.4"], "lua5.4 -v", "", "lua5.4 lua.lua"),
    "mcs": Tool("mono-mcs", ["mcs", MCS], "mcs --version", f"mcs -r:{MCS} -out:{{work}}/cs.exe mcs.cs",
                "env MONO_PATH=/usr/lib/mono/4.5 mono {work}/cs.exe"),
    "nasm": Tool("nasm", ["nasm"], "nasm --version", "", f"{PYTHON} compilers.py nasm"),
    "nim": Tool("nim", ["nim"], "nim --version", "", "nim e --hints:off --maxLoopIterationsVM:1000000000 nim.nims"),
    "ocaml": Tool("ocaml-nox ocaml-compiler-libs", ["ocamlc"], "echo OCaml $(ocamlc -version)", f"cp ocaml.ml {{work}} && cd {{work}} && {OCAMLC} -o judge ocaml.ml",
                  "{work}/judge"),
    "octave": Tool("octave", ["octave-cli"], "octave-cli --version", "", "octave-cli -q --no-history octave.m"),
    "perl": Tool("perl", ["perl"], "perl -e 'print \"Perl $^V\"'", "", "perl perl.pl"),
    "php": Tool("php-cli", ["php"], "php --version", "", "php php.php"),
    "postgres": Tool("postgresql libpq-dev", ["pg_config"], "pg_config --version", "", "./postgres.sh"),
    "prolog": Tool("swi-prolog-nox", ["swipl"], "swipl --version", "", "swipl -q prolog.pl"),
    "pyyaml": Tool("python3-yaml", [DEBIAN, f"{PACKAGES}/yaml"],
                   f"{DEBIAN} -c 'import yaml; print(\"PyYAML\", yaml.__version__)'", "", f"{DEBIAN} libraries.py yaml"),
    "r": Tool("r-base-core", ["Rscript"], "Rscript --version 2>&1", "", "Rscript --vanilla r.R"),
    "ruby": Tool("ruby", ["ruby"], "ruby --version", "", "ruby ruby.rb"),
    "rakudo": Tool("rakudo", ["raku"], "raku --version", "", "raku raku.raku"),
    "rustc": Tool("rustc", ["rustc"], "rustc --version", "", f"{PYTHON} compilers.py rustc"),
    "scala": Tool("scala openjdk-17-jdk", ["scalac", "java"], "scala -version 2>&1", f"scalac -d {{work}} -cp {SCALA} scanner.scala",
                  f"java -cp {{work}}:{SCALA} Scan"),
    "sbcl": Tool("sbcl", ["sbcl"], "sbcl --version", "", "sbcl --script lisp.lisp"),
    "sqlite": Tool("python3", [PYTHON], f"{PYTHON} -c 'import sqlite3; print(\"SQLite\", sqlite3.sqlite_version)'", "",
                   f"{PYTHON} libraries.py sqlite"),
    "tcl": Tool("tcl", ["tclsh"], "echo 'puts Tcl\\ [info patchlevel]' | tclsh", "", "tclsh tcl.tcl"),
    "tinycss2": Tool("python3-tinycss2", [DEBIAN, f"{PACKAGES}/tinycss2"],
                     f"{DEBIAN} -c 'import tinycss2; print(\"tinycss2\", tinycss2.__version__)'", "", f"{DEBIAN} libraries.py css"),
    "tomllib": Tool("python3", [PYTHON], f"echo tomllib of $({PYTHON} --version)", "", f"{PYTHON} libraries.py toml"),
    "v8": Tool("nodejs", ["node"], "echo V8 of node $(node --version)", "", "node node.js javascript"),
    "xmllint": Tool("libxml2-utils", ["xmllint"], "xmllint --version 2>&1", "", "./xmllint.sh"),
    "yaml": Tool("nodejs node-yaml", ["node", f"{NODE}/yaml"], f"node -p '`yaml ${{require(\"{NODE}/yaml/package.json\").version}}`'", "", "node node.js yaml"),
}

# A difference: the mark `+` if the tool alone takes the texts, `-` if the library alone does, `=` if they differ in value, and
# a pattern of the texts. docs/LANGUAGES.md prints the reason, with a text that is recorded. If it has a group `number`, that is a number of the library. What the library and the tool read pass
# the test.
Cause = collections.namedtuple("Cause", "mark pattern reason test", defaults=[lambda ours, theirs: True])


# The reason of what has a suffix, which a token has here.
SUFFIX = "a suffix of a type"


def suffix(pattern):
    return Cause("+", f"(?P<number>.+?)({pattern})", SUFFIX)


def number(text):
    """Returns the number that a text represents, without what the library reads; none if it is not one of C, Python or Fortran."""
    text = re.sub("[_']", "", text.lower())
    suffix = "[lu]+$" if "x" in text and "p" not in text else r"(?<=[\d.])[lfdu]+$"
    text = re.sub(suffix, "", text if "x" in text else text.replace("d", "e"))
    if match := re.fullmatch(r"([+-]?)0x([\da-f]*)\.?([\da-f]*)p([+-]?\d+)", text):
        sign, whole, part, power = match.groups()
        return int(f"{sign}{whole}{part}", 16) * fractions.Fraction(2) ** (int(power) - 4 * len(part))
    try:
        return int(text, 8 if re.fullmatch("0[0-7]+", text) else 0)
    except ValueError:
        match = re.fullmatch(r"([+-]?(?:\d+\.?\d*|\.\d+))(e[+-]?\d+)?", text)
        # The power of a zero may be one that no machine has room for.
        return match and fractions.Fraction(text if fractions.Fraction(match[1]) else match[1])


def out_of_range(most):
    """The tool refuses integers from `most` on, and floats that become infinite or zero."""
    def test(ours, _):
        exact = number(ours.text)
        if exact is None or not ours.is_float:
            return exact is not None and abs(exact) >= most and ours.exact in (None, exact)
        return exact != 0 and abs(ours.double) in (0, math.inf)

    return Cause("-", ".*", "a number out of range", test)


def doubles(least):
    """The tool makes doubles of integers from `least` on. Only those that are written have to be exact."""
    return Cause("=", ".*", f"an integer from 2^{least.bit_length() - 1} on",
                 lambda ours, theirs: not ours.is_float and isinstance(theirs, float) and least <= abs(theirs) == abs(ours.double))


ZERO = Cause("=", r"-[0.,]+([eE].*)?", "a negative zero", lambda _, theirs: theirs == 0)

def is_next(ours, theirs):
    """Returns whether the float or the single of the library is nearer to the number of the text than that of the tool, which is the next one."""
    exact, is_single = number(ours.text), isinstance(theirs, tuple)
    if exact is None or not is_single and not isinstance(theirs, float):
        return False
    floats, shape, most = ((ours.single, theirs.value), ">fi", 2**128) if is_single else ((ours.double, theirs), ">dq", 2**1024)
    bits = [struct.unpack(shape[0] + shape[2], struct.pack(shape[:2], it))[0] for it in floats]
    own, other = (fractions.Fraction(it) if math.isfinite(it) else most if it > 0 else -most for it in floats)
    return abs(bits[0] - bits[1]) == 1 and abs(own - exact) <= abs(other - exact)


ROUNDED = Cause("=", ".*", "rounded to the next float", is_next)
RADIX = Cause("=", r".*\..*", "a fraction in a radix without floats", lambda ours, _: math.isnan(ours.double))
BASED = [
    Cause("+", r"[\d_]+#[\da-fA-F_.]+#[eE][+-]?[\d_]+", "an exponent after a based literal"),
    Cause("+", r"(0[\d_]*|\d_[\d_]*)[#:].*", "a zero or a separator in a base"), Cause("+", r"[\d_]+:.*", "a colon for a number sign"),
    Cause("-", r"[\d_]+[eE]-[\d_]+", "a negative exponent of an integer"), RADIX]
CELLS = [
    Cause("+", pattern, what)
    for pattern, what in (
        (r"\+[\d.,]+([eE][+-]?\d+)?", "a plus sign"),
        (r"-?[\d.,]+[eE][+-]?\d+", "an exponent"),
        (r"-?0[\d.,]+", "a leading zero"),
        (r"-?([.,][\d.,]+|[\d.,]+[.,])", "a point without digits"),
        (r"-?\d{4,}[.,]\d{3}[\d.,]*", "a first group of four digits"),
    )
] + [ZERO, Cause("-", ".*", "a subnormal or infinite number",
                lambda ours, _: ours.exact != 0 and not 2**-1022 <= abs(ours.double) < math.inf),
     doubles(2**53)]

# A language: its name, its tool, the alphabet of the short texts, the separator of the seeds, and what other random texts are
# near to.
Language = collections.namedtuple("Language", "name tool alphabet separator seeds announced")
QUESTIONS = ["007", "0x1F", "1_000", "1'000", ".5e3", "0b12", "1.5e"]
LANGUAGES = [
    Language("ADA", "gnat", "019._eEF+-#", "_", "16#FF# 2#1.1# 2#1.1#e3 1E-3 16#F.8#E1 16#F_F# 16:FF: 016#FF# 1_6#FF# 3#1.1# 17#1# 2#12# 16#F", [
        *BASED, ROUNDED]),
    Language("BASH", "bash", "0189#xaZ", "", "16#ff 16#FF 2#101 36#Zz 8#17 3#12 37#a 64#_ 16# 65#1 1#0 02#1", [
        Cause("+", "0[xX]", "no digits after a prefix"), Cause("+", r"(3[7-9]|[45]\d|6[0-4])#[\w@]+", "a radix above 36")]),
    Language("C", "gcc", "018.'exp-b", "'", "1u 1UL 1.0f 0x1p3L 10wb", [
        suffix("([uU]|ll?|LL?|wb|WB)+|[fFlL]|[dD][fFdDlL]")]),
    Language("CLOJURE", "clojure", "018.rexN-", "", "16rFF -16rFF 2r101 36rZz 1N 1M 1.5M 08M 017N 0xFFN 1/2 3r12 1r0 37r1 02r1", [
        suffix("[NM]"), Cause("+", r"[+-]?\d+M", "a decimal by its suffix alone"), Cause("+", r"[+-]\d+[rR]\w+", "a sign before a radix"),
        Cause("+", r"[+-]?\d+/\d+", "a ratio")]),
    Language("COMMON_LISP", "sbcl", "01.e-#xrd", "", "#xFF #x-FF #X+ff #o17 #b101 #16rFF #36RzZ #8r-17 1.e5 -1.d5 1d3 1.5d0 1f0 1s0 1l0 1.5d300 1/2 #x1/2 +.5", [
        Cause("+", r"(#([xXoObB]|\d+[rR]))?[+-]?\w+/\w+", "a ratio"), Cause("+", r"(#[xX])?[+-]?[\d.]+[rR][+-]?\d+", "an exponent of a ratio"),
        Cause("+", r"#\d+[xXoObB].+", "a radix that is ignored"), Cause("+", r"#([xXoObB]|\d+[rR])[+-]?\d+\.", "a point, by which digits are decimal"),
        Cause("+", r"#0\d*[rR].+", "zeros in a radix"), Cause("+", "#.+#.+", "a number after an opening"),
        ROUNDED._replace(test=lambda ours, theirs: is_next(ours._replace(text=re.sub("[sfl]", "e", ours.text.lower())), theirs))]),
    Language("CSS", "tinycss2", "0189.eE+-x", "_", "1e3px 10%", []),
    Language("CSV", "csv", "019.,eE+-iN", "_", "1.23E+05 +5 NaN nan Inf -inf Infinity infinity 1,234", [
        Cause("+", "[^_]*_.*", "a separator, which no program writes"), doubles(2**53)]),
    Language("CSV_DE", "calc 1031", "0125.,-e", ".", "1.234,50 1.234.567,25 12.34 0,50 1.2345,0", CELLS),
    Language("CSV_EN", "calc 1033", "0125.,-e", ",", "1,234.50 1,234,567.25 12,34 0.50 1,2345.0", CELLS),
    Language("C_PLUS_PLUS", "g++", "018.'exp-b", "'", "1u 1UL 1.0f 0x1p3L", [
        suffix("([uU]|ll?|LL?)+|[fFlL]|[dhy]|min|[mun]?s|i[fl]?")]),
    # mcs has faults with separators, so it gets none.
    Language("C_SHARP", "mcs", "0189.exf-+b", "", "1m 1f 1UL", [
        suffix("[uUlL]+|[fFdDmM]"), ROUNDED,
        *(Cause(mark, ".*[mM]", "a number that is not a decimal of 28 digits", lambda ours, _: not 1e-28 < abs(ours.double) < 2**96)
          for mark in "-=")]),
    Language("D", "gdc", "018._exp-b", "_", "1L 1uL 1.5f 1i 0x1p3L 0x.8p3 1e_5 0x_1p_3", [
        suffix("[uU]?L?[uU]?|[fFL]?i?"), Cause("+", "0[0-7_]+([uU]?L?[uU]?)", "an octal number below 8"),
        Cause("+", "0[0-9_]*([fF]i?|L?i)", "a float of leading zeros"),
        Cause("+", r"0[\d_]+\._*([eE][+-]?[\d_]+|_[\d_]*([eE][+-]?[\d_]+)?)?[fFL]?i?", "no digit after a point and leading zeros"),
        Cause("+", r"0[xX]_*(\.[\da-fA-F_]*)?[pP][+-]?[\d_]+[fFL]?i?", "no digits after a prefix"),
        ROUNDED]),
    Language("ELIXIR", "elixir", "018._exo-+", "_", "1.0e10 1.5e-3", []),
    Language("ERLANG", "erlang", "018._#eF-", "_", "16#FF 16#F_f 2#101 36#Zz 3#12 016#FF 1_6#F 37#1 1#0 16#F.8 16#_F $a 1.0e10 1.5e-3", [
        Cause("+", r"(0[\d_]*|\d+_[\d_]*)#\w+", "zeros or separators in a radix")]),
    Language("FORTRAN", "gfortran", "019.edD-+_'Z", "_", "1.0_8 1d3 1.5d300 Z'FF' z\"fF\" O'17' b\"101\" B'12' Z'F Z'F\" Z'' Z'-1' z'FFFFFFFFFFFFFFFFFFFFFFFFFFFFFFFF'", [
        Cause("+", r"[bBoOzZ](['\"])\w{33,}\1", "more than 128 bits"),
        suffix("_0*(1|2|4|8|10|16)"), Cause("-", "-(2147483648|9223372036854775808_8)", "the least integer"),
        Cause("=", ".*", "a subnormal number, 0 there",
              lambda ours, theirs: theirs == (0.0,) and abs(ours.single) < 2**-126), ROUNDED]),
    Language("GNU_ASSEMBLER", "as", "018.xebf-d", "", "0e5 0e-1.5 0E+1 0f1.5 0f-1.5e3 0d.5 0D5. 1f 1b 0f 08.5 017.5 1e400 1e-400 0e1e400 1u 0b1e", [
        Cause("+", "0[a-zA-Z].*", "a letter after a zero that the manual does not name"),
        Cause("+", r"[\d.]+[eE][+-]?", "an exponent without digits"), Cause("+", r"0\d+", "a float with a leading zero"),
        Cause("+", r"\.?([eE].*)?", "no digits before an exponent"),
        Cause("+", "(?i)nan|inf|infinity", "a name"), Cause("+", ".*'.*", "a character"), suffix("[uUlL]+"),
        Cause("+", r"\d{39,}", "an integer of more than 128 bits"),
        Cause("-", ".*[eE]-.*", "a float that vanishes", lambda ours, _: ours.double == 0), ROUNDED]),
    Language("GO", "go", "018._exp-+b", "_", "1i 0x1p3i", [
        suffix("i"), Cause("+", "0[oObB]?[0-9_]+i", "digits of an imaginary number")]),
    Language("HASKELL", "ghc", "018._exo-+", "_", "0o17 0xFF 1e5", []),
    Language("HASKELL_GHC2021", "ghc NumericUnderscores BinaryLiterals HexFloatLiterals", "018._exp-b", "_", "1_e5 0x1_p3 0o_17", [
        Cause("+", r"(0[xX])?[\da-fA-F_]+(\.[\da-fA-F_]+)?_[eEpP][+-]?\d[\d_]*", "a separator before an exponent"),
        Cause("+", r"_+(?P<number>\d.*)", "a separator before a float")]),
    Language("JAVA", "javac", "018._exp-+b", "_", "1L 1f 08f 0x1p3d", [
        suffix("[lLfFdD]"), Cause("+", r"[0-9_]*[fFdD]", "a float by its suffix alone")]),
    Language("JAVASCRIPT", "v8", "018._exn-+b", "_", "1n 0b1n", [suffix("n"), Cause("+", "NaN|Infinity", "a name"), doubles(2**53)]),
    Language("JSON", "json", "012.eE+-x_", "_", "", [doubles(2**53)]),
    Language("JSON5", "json5", "018.eE+-x", "", "NaN Infinity -Infinity +NaN nan -0x1F", [doubles(2**53)]),
    Language("KOTLIN", "kotlinc", "01._exL-", "_", "1L 1f 1u 1uL", [
        suffix("[uU]?L|[uU]|[fF]"), Cause("+", r"\d[\d_]*[fF]", "a float by its suffix alone"),
        Cause("+", r"[\da-fA-FxXbB_]+_[uU]L?", "a separator before a suffix")]),
    Language("LUA", "lua", "018.aexp-+", "_", "0x.8 0x1.8 0x1p3", [doubles(2**63)]),
    Language("MATLAB", "octave", "018.xebds-i", "_", "1d3 1D-3 1i 1e3j 0xFFu8 0xFFs8 0xFFFu8 0b1s64 0xFu64 0x80s8 0x00000000000000001 1. 1.e5", [
        suffix("[iIjJ]|[us](8|16|32|64)"), Cause("+", ".*_.*", "a separator, of Octave alone"),
        Cause("+", r"\d+\.([eEdD][+-]?\d+)?[iIjJ]?", "a point without digits"),
        Cause("-", r"0[xXbB]0\w{16,}", "leading zeros beyond 64 bits"), doubles(2**53)]),
    Language("NASM", "nasm", "01a._hxebd$", "_", "0c8h 0c8x 17q 17o 10d 10t 101b 101y 0h1F 0y1 0q7 0t9 $0c8 1h. 1x. 7q. 7o. 9d. 9t. 1b. 1y. $0FF $0f_f $9 $0 $0x1 $ff $0_", [
        Cause("+", r"\$(\D[\w$.]*|\w+\..*)?", "two prefixes, or an address"),
        Cause("+", r"0[a-zA-Z][_.]*([eEpP][+-]?[0-9_]*)?", "no digits after a prefix"),
        Cause("+", r"0[a-zA-Z][\w.]*[pP][+-]_*", "a sign without an exponent"),
        Cause("+", r"[\w.]+(\._+([eEpP][+-]?[\d_]*)?|[eEpP][+-]?_+)|0[a-zA-Z]_+\.[\w.]*([pP][+-]?[\d_]*)?", "a part of separators alone"),
        Cause("=", ".*", "an infinite value, NaN there", lambda ours, theirs: ours.double == math.inf and math.isnan(theirs)), ROUNDED]),
    Language("NIM", "nim", "018._exo-b", "_", "1'i8 1'u64 1i8 1u 1.5f32 1d -1.5e3 0xFF'u8 1'x 0c17 0e1000 -9223372036854775808", [
        suffix("'?([iI](8|16|32|64)|[uU](8|16|32|64)?|[fF](32|64)?|[dD])"), Cause("+", r"-?0[cC][0-7_]+\w*", "the prefix `0c`"),
        Cause("=", r"-?[0_.]+[eE]\+?[\d_]{4,}", "a zero with a large exponent, infinite there", lambda _, theirs: math.isinf(theirs))]),
    Language("OCAML", "ocaml", "018._exp-+b", "_", "1l 1n 1L 1z", [
        suffix("[lLn]"), Cause("+", r"\w+\._+([eEpP][+-]?\d[\d_]*)?", "a fraction of separators alone"),
        Cause("+", r"[\d_]+", "the least integer without its sign", lambda _, theirs: theirs == -2**62)]),
    Language("PASCAL", "fpc", "018.$%&eF+-", "", "$FF $ff $-F -$F %101 &17 $FFFFFFFFFFFFFFFF $10000000000000000 %2 &8 1.5e300", [
        Cause("+", r"(\d+|\$[\da-fA-F]+|&[0-7]+|%[01]+)\.(&?[eE][+-]?\d+)?", "no digits after a point"), doubles(2**64), ROUNDED]),
    Language("PERL", "perl", "018._exp-o", "_", "01.4p0 0o1.4p0 0b1.1p0 07_7 1.2.3", [
        Cause("-", "0_[0-7_]+(\\.[0-7_]*)?([pP][+-]?[\\d_]+)?", "a separator after the first zero"),
        Cause("-", r"0(\.[0-7_]*)?[pP][+-]?[\d_]+", "an octal float with one digit before its point"),
        Cause("=", "0.*[pP].*", "a fraction of more than 52 bits", lambda ours, theirs: theirs < ours.double),
        doubles(2**63)]),
    Language("PHP", "php", "018._exo-b", "_", "0o17 0O17 0b1", [doubles(2**63)]),
    Language("POSTSCRIPT", "ghostscript", "0169.#eFz+-", "", "16#FF 16#FFFFFFFFFFFFFFFF 16#FFFFFFFFFFFFFFFFF 36#zZ 2#101 2#12 37#1 016#FF 16# 16#-F "
             "16#F.8 7#1e1 0e1000 -.5", [
        Cause("+", r"0*(3[0-6]|[12]\d|[1-9])#", "a radix without digits"), Cause("+", r"0\d+#[\da-zA-Z]+", "a zero before a radix"),
        Cause("=", "-.*", "a negative zero", lambda _, theirs: theirs == (0,)),
        Cause("-", r"[+-]?[0.]+[eE][+-]?\d{4,}", "a zero with an exponent of four digits"), out_of_range(2**127),
        Cause("+", r"[+-]?\d{19,}", "an integer from 2^63 on, which is a real"),
        *(Cause(mark, r"\d+#\w{13,}", "an integer of more than 64 bits") for mark in "+-")]),
    Language("PROLOG", "prolog", "0168._e'Fxz", "_", "16'FF 36'zZ 2'101 2'12 37'1 016'FF 16'F_F 16' 0'a 1r3 1.5Inf 1.5NaN 1_0.5 1_0e5 16'F.8 7'1e1", [
        Cause("+", "0'.+", "a character"), Cause("+", r"0\d+'\w+", "a zero before a radix"), Cause("+", r"[\d_]+r[\d_]+", "a rational number"),
        Cause("+", r"\d+\.\d+(Inf|NaN)", "a float without a value")]),
    Language("PYTHON", "ast", "018._exj-+b", "_", "1j 0j", [
        suffix("[jJ]"), Cause("+", "0[0_]*", "an integer of zeros alone"), Cause("+", "[0-9_]+[jJ]", "digits of an imaginary number")]),
    Language("R", "r", "018.aexp-L", "_", "1L 1i 0x1.8p3", [
        suffix("[Li]"), Cause("+", "NaN|Inf", "a name"), ROUNDED, Cause("+", r"0[xX]\.[pP][+-]?\d+[Li]?", "no digits after a prefix"),
        doubles(2**53)]),
    Language("RAKU", "rakudo", "018._ex:<F>", "_", ":16<FF> :16<F.8> :16<F_F> :36<zZ> :2<101> :2<12> :37<1> :016<F> 0_0e0 :16<0xF> :16<0b1> "
             ":16<0bF> :16<F.8*16**2> :3<1.1> 1i :16<F", [
        Cause("+", "Inf|NaN", "a name"), *(Cause(mark, ":.*<0[bdox].*>", "a prefix after a radix") for mark in "+-="),
        Cause("+", ":0.*", "a zero before a radix"),
        Cause("+", r":.*\*.*", "a power of a radix"), RADIX,
        Cause("-", r"0_[\d_]*(\.[\d_]+)?[eE][+-]?[\d_]+", "a separator after the first zero of a float")]),
    Language("RUBY", "ruby", "018._exr-+b", "_", "1r 1i 1ri 0d10", [suffix("ri?|i")]),
    Language("RUST", "rustc", "018._exo-u", "_", "1u8 1.5f32 1_i64 0x1z", [
        suffix("([ui](8|16|32|64|128|size)|f32|f64)")]),
    # Debian's compiler, 2.11, has no separators, so it gets none.
    Language("SCALA", "scala", "0189.exf-+", "", "1L 1f 08f 08.5 1d", [
        suffix("[lLfFdD]"), Cause("+", "[0-9]*[fFdD]", "a float by its suffix alone")]),
    Language("SCHEME", "guile", "01.e-#xd/", "", "#xFF #x-FF #X+ff #o17 #b101 #d1.5 #D-.5e3 #e1.5 #i1 1e-3100 1# 1/2 #x1/2 1+2i 1@2 +i +inf.0 -nan.0 1d3 1s3", [
        Cause("+", ".*/.*", "a ratio"), Cause("+", ".*[iI@].*", "a complex or an inexact number"), Cause("+", "#([eE].*|.#[eE].*)", "an exact number"),
        Cause("+", r"(#[bBdDoOxX])?[\w.+-]+#.*", "a digit that is not known"), Cause("+", r"(#[dD])?[+-]?[\d.]+[sSfFdDlL][+-]?\d+", "the size of a float"),
        Cause("+", "[+-](inf|nan).0", "a special value"),
        Cause("-", r".*[eE][+-]?0*(309|3[1-9]\d|[4-9]\d\d|\d{4,})", "an exponent above 308"),
        Cause("=", r".*[eE]-\d{4,}", "an exponent of four digits", lambda ours, _: ours.double == 0)]),
    Language("SQL", "postgres", "019.eE+-x_", "_", "", [ZERO]),
    Language("SQL", "sqlite", "019.eE+-x_", "_", "", [Cause("+", r"[+-]?0[xX][\da-fA-F]+", "hexadecimal, beyond the standard"), ROUNDED, doubles(2**63)]),
    Language("TCL", "tcl", "018.exo-bI", "", "Inf inf Infinity -Inf 1eq1 017.5", []),
    Language("TOML", "tomllib", "018._exo-+b", "_", "inf nan +inf", []),
    Language("VERILOG", "iverilog", "0189._e'hF-", "_", "'hFF 'HfF 'd19 'o17 'o18 'B101 'b12 8'hFF 'shFF 'hxz 'dz 'hF_ 'h_F 'hF.8 'hFFFFFFFFFFFFFFFFFFFFFFFFFFFFFFFF", [
        Cause("+", r"'[sS]?[hHoObBdD][\da-fA-FxXzZ?_]+", "a sign, or digits without a value"), Cause("+", "'[01xzXZ]", "all bits of a size")]),
    Language("VHDL", "ghdl", "0169._eF#+-", "_", "16#FF# 2#1.1# 2#1.1#e3 1E-3 16#F.8#E1 16#F_F# 16:FF: 016#FF# 1_6#FF# 3#1.1# 17#1# 2#12# 16#F", [
        *BASED, Cause("-", r"[\d_]+[eE]\+?[\d_]+", "an integer of more than 63 bits", lambda ours, _: not 0 < abs(ours.double) < 2**63),
        Cause("-", r"21474836[0-4]\d+", "an integer near to 2^31"),
        Cause("=", ".*", "a subnormal number", lambda ours, _: abs(ours.double) < 2**-1022),
        out_of_range(2**63), ROUNDED]),
    Language("XML_SCHEMA", "xmllint", "0189.eE+-x", "_", "+1.5 -.5", [
        Cause("-", r"[+-]?[\d.]{25,}", "more than the 24 digits of the tool")]),
    Language("XML_SCHEMA_DOUBLE", "xmllint double", "0189.eE+-x", "_", "+1.5 -.5 INF -INF +INF NaN -NaN +NaN inf nan", [
        Cause("-", "[+-]NaN", "a sign of NaN"),
        Cause("-", r"\+INF", "a plus sign of version 1.1"), Cause("+", ".*[eE][+-]?", "an exponent without digits")]),
    Language("YAML", "yaml", "018.exo-+inf", "_", ".inf -.Inf .NaN .iNF -.nan", [
        Cause("-", r"[+-]?\.(?i:inf|nan)", "another case, or a sign of NaN"), doubles(2**53)]),
    Language("YAML_1_1", "pyyaml", "018._ex-+:", "_", ".inf -.Inf .NaN .iNF -.nan 1:30 1:30.5 1.5e+3 0b1_ ._5", [
        Cause("-", r"[+-]?\.(?i:inf|nan)", "another case, or a sign of NaN"),
        Cause("-", r"([+-]\.|\._)[\d_]+(e[+-]\d+)?", "a string for PyYAML"),
        Cause("+", r"[+-]?\d[\d_]*(:[0-5]?\d)+(\.[\d_]*)?", "a number of the base 60"),
        Cause("+", r"[+-]?[\d_]+\._+(e[+-]\d+)?", "a fraction of separators alone")]),
]

# Languages that no package of Debian has a tool for, and what only its faulty one judges.
TABLES = {"DART": "no tool", "JULIA": "no tool", "SWIFT": "no tool", "VISUAL_BASIC": "no tool", "C_SHARP": "separators have no tool", "SCALA": "separators have no tool"}

# Languages without suffixes that begin with a letter, and suffixes that the tools or the library alone take.
DATA = """ADA BASH COMMON_LISP CSV CSV_DE CSV_EN DART ERLANG FORTRAN GNU_ASSEMBLER JSON JSON5 NASM PASCAL POSTSCRIPT PROLOG RAKU SCHEME SQL TOML VERILOG VHDL
XML_SCHEMA XML_SCHEMA_DOUBLE YAML YAML_1_1""".split()
SUFFIXES = {
    "C": [Cause("-", ".*([uU]?(wb|WB)|(wb|WB)[uU])", "an integer of so many bits, of C23, which the tool lacks")],
    "C_PLUS_PLUS": [Cause("+", ".*([uU]?[zZ]|[zZ][uU])", "a size of C++23")],
    "D": [Cause("+", "0[0-9]+([fF]i?|L?i)", "a float of leading zeros")],
    "MATLAB": [Cause("+", r"1\..*", "a point without digits")],
    "NIM": [Cause("+", "0([ob].*|x.*'.*)", "a float of which the digits are the bits")],
    "C_SHARP": [Cause("+", "[^lLuU]*(?i:[ul]*(u[ul]*u|l[ul]*l)[ul]*)", "a letter that is repeated, beside the standard")],
}
