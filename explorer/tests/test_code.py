"""Tests of the page: code."""
import ctypes
import os
import pathlib
import re
import shutil
import sys
import tempfile
import unittest

from test_base import Walk, Keys, PAGE, TOP, MIXED, MIXED_FORM, STATES, TEXTS, has, run

# Where the library of C is built.
BUILD = TOP / "rust/target/make"
# Programs that print what the code reads: of each text its value, `none` if it has none, or `refused`.
RUST = """#![deny(warnings)]
use peltzivar::literal::{FormError, Forms, Number};
fn value(it: Number<'_>) -> String {
    let integer = i128::try_from(it).map(|it| it.to_string()).or_else(|_| u128::try_from(it).map(|it| it.to_string()));
    integer.or_else(|_| f64::try_from(it).map(|it| it.to_string())).unwrap_or("none".into())
}
fn show(forms: &Forms<'_>, read: fn(&str) -> Result<Number<'_>, FormError>) {
    let names: Vec<_> = forms.into_iter().map(|form| form.name()).collect();
    println!("{}\\n{}", forms[0].syntax().format().normal_form(), names.join("|"));
    include_str!("texts").lines().for_each(|text| println!("{}", read(text).map_or("refused".into(), value)));
}
"""
C = r"""
#include <stdio.h>
typedef bool read(const char *, peltzivar_literal *, peltzivar_special *);
static void print(uint64_t low, uint64_t high) { printf("0x%016llX%016llX\n", (long long)high, (long long)low); }
static void show(bool (*make_forms)(void), const peltzivar_list *forms, read *read_number, bool (*test)(void)) {
    peltzivar_literal literal; peltzivar_special special; peltzivar_i128 it; double value;
    FILE *file = fopen("texts", "r");
    const peltzivar_word *word = &forms->forms->syntax.format;
    if (make_forms() && test()) print(word->low, word->high);
    for (size_t it = 0; it < forms->count; it++) printf("%s%s", it ? "|" : "", forms->forms[it].name);
    puts("");
    for (char text[256]; fgets(text, sizeof text, file);) {
        text[strcspn(text, "\n")] = 0;
        if (!read_number(text, &literal, &special)) puts("refused");
        else if (special.spelling) printf("%c%s\n", special.sign ? special.sign : '+', special.spelling == 1 ? "nan" : "inf");
        else if (!peltzivar_to_i128(&literal, &it)) print(it.low, it.high);
        else if (!peltzivar_to_f64(&literal, &value)) printf("%.17e\n", value);
        else puts("none");
    }
}
"""
PYTHON = """from peltzivar import LiteralError
def show(forms, read):
    print(next(iter(forms.values())).format, "|".join(forms), sep="\\n")
    for text in open("texts").read().split("\\n"):
        try:
            print(repr(read(text).value))
        except ValueError as error:
            print("refused" if isinstance(error, LiteralError) else "none")
"""


def is_same(told, is_single, printed, is_c):
    """Returns whether a program prints what the page tells of a text: its value, a number without one, or a refusal.

    Rust has no type for integers of more than 128 bits, and C for those from 2^127 on. They are floats there, single or not, or none."""
    value = told.partition(" = ")[2].partition(",")[0]
    if re.fullmatch(r"-?\d+", value) and not -(2**127) <= int(value) < 2 ** (128 - is_c):
        number = ctypes.c_float(float(value)).value if is_single else float(value)
        return printed == "none" or float(printed) in (number, float(value))
    if not value or printed in ("none", "refused"):
        return not value and told.startswith("accepted") == (printed != "refused")
    if re.fullmatch(r"-?\d+ (-?\d+|0x\w+)", f"{value} {printed}"):
        return (int(value) - int(printed, 0)) % 2**128 == 0
    return repr(float(printed)) == repr(float(value))


class Code(Walk):
    @unittest.skipUnless(has("cargo", "cc"), "no cargo, or no C compiler")
    def test_code_reads_what_the_page_tells(self):
        tried, states = self.call("shown", TEXTS, [(word, ord(exponent), ord(point)) for word, exponent, point in STATES])
        self.addCleanup(shutil.rmtree, folder := pathlib.Path(tempfile.mkdtemp()))
        (folder / "texts").write_text("\n".join(tried))
        run("make", "--silent", "-C", TOP / "c", f"BUILD={BUILD}")
        for language, program in enumerate((self.rust, self.c, self.python)):
            lines = iter(program(folder, [codes[language] for *_, codes, _ in states]).splitlines())
            for link, again, word, names, _, told in states:
                self.assertEqual((again, next(lines), next(lines)), (link, word, names))
                for text, (wanted, kind), value in zip(tried, told, lines):
                    self.assertTrue(is_same(wanted, kind, value, program == self.c), (program, link, text, wanted, kind, value))

    def test_each_tab_shows_what_it_names(self):
        self.load(f"#forms={MIXED_FORM}&compare=JSON&tab=rust")
        heads = {"rust": "use peltzivar::", "c": '#include "peltzivar.h"', "python": "from peltzivar import", "settings": f"# {MIXED}"}
        words = {"sentence": "Numbers are", "grammar": "Literal  ::=", "regex": "(?:"}
        panes = {it: it for it in ("languages", "code", "compare", "edit", "words")}
        for group, tabs in (("tabs", heads), ("notations", words), ("panes", panes)):
            names = [*tabs]
            self.open(f"#{group}")
            clicks = [(f"#tab-{name}", Keys.ENTER, name) for name in names]
            arrows = [(None, Keys.ARROW_RIGHT, name) for name in names]
            arrows += [(None, Keys.ARROW_LEFT, name) for name in names[-2::-1] + names[-1:]]
            for selector, key, name in clicks + arrows:
                self.find(selector or f"#{group} [aria-selected=true]").send_keys(key)
                *shown, text = self.call("shownTab", group)
                self.assertEqual(shown, 4 * [f"tab-{name}"])
                self.assertIn(tabs[name], text)

    def rust(self, folder, codes):
        codes = [code.replace("#[test]\nfn", "pub fn") for code in codes]
        modules = "".join(f"mod m{index} {{\n{code}}}\n" for index, code in enumerate(codes))
        calls = " ".join(f"show(&m{it}::FORMS, m{it}::read); m{it}::numbers();" for it in range(len(codes)))
        (folder / "main.rs").write_text(f"{RUST}{modules}fn main() {{ {calls} }}\n")
        (folder / "Cargo.toml").write_text(
            '[package]\nname = "code"\nedition = "2021"\n[[bin]]\nname = "code"\npath = "main.rs"\n[workspace]\n'
            f'[dependencies]\npeltzivar = {{ path = "{TOP / "rust"}" }}\n')
        return run("cargo", "run", "--quiet", "--offline", "--target-dir", folder, cwd=folder)

    def c(self, folder, codes):
        names = r"\b(SETTINGS|SPECIALS|LIST|MEMBERS|MEMORY|FORMS|make_forms|read_number|test_numbers)\b"
        parts = [re.sub(names, rf"\1_{index}", code) for index, code in enumerate(codes)]
        calls = " ".join(f"show(make_forms_{it}, &MEMBERS_{it}, read_number_{it}, test_numbers_{it});" for it in range(len(codes)))
        names = set(re.findall(r"\bpeltzivar_\w+", "".join(codes)))
        self.assertLessEqual(names, set(re.findall(r"\bpeltzivar_\w+", (TOP / "c/peltzivar.h").read_text())))
        (folder / "main.c").write_text("".join([*parts, C, f"int main(void) {{ {calls} }}\n"]))
        run("cc", "-Wall", "-Wextra", "-Werror", "-I", TOP / "c", "-o", folder / "main", folder / "main.c", BUILD / "release/libpeltzivar_c.a")
        return run(folder / "main", cwd=folder)

    def python(self, folder, codes):
        (folder / "main.py").write_text(PYTHON + "".join(f"{code}show(forms, read)\ntest_numbers()\n" for code in codes))
        variables = {"PYTHONPATH": str(TOP / "c"), "PYTHONDONTWRITEBYTECODE": "1"}
        return run(sys.executable, "main.py", cwd=folder, env={**os.environ, **variables})


class Sources(unittest.TestCase):
    def test_index_is_up_to_date(self):
        run(sys.executable, PAGE.parent / "build", "--check")
