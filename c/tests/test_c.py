"""Tests both headers and the library from C and C++: `make -C c check`."""
import ctypes
import os
import pathlib
import re
import shutil
import subprocess
import sys
import tempfile
import unittest

TESTS = pathlib.Path(__file__).resolve().parent
C, TOP = TESTS.parent, TESTS.parent.parent
SHARED = pathlib.Path(os.environ["PELTZIVAR_LIBRARY"]).absolute()
ARCHIVE = SHARED.with_suffix(".a")
HEADER = "".join((C / it).read_text() for it in ("peltzivar.h", "peltzivar_words.h"))
CODE = " ".join(re.sub(r"/\*.*?\*/|^#.*?$", "", HEADER, flags=re.S | re.M).split())
PAGE = (TOP / "docs/C.md").read_text()
STRICT = ["-Wall", "-Wextra", "-Wpedantic", "-Wconversion", "-Wshadow", "-Werror", "-pthread", "-I", C]
SANITIZERS = ["-g", "-fsanitize=address,undefined", "-fno-sanitize-recover=all"]
COMPILERS = {"gcc": "c99 c11 c17 c2x", "clang": "c99 c11 c17 c2x", "g++": "c++11 c++14 c++17 c++20"}
COMPILERS |= {"clang++": "c++11 c++14 c++17 c++20"}
# The types in Rust that do not have the name of C in another case.
TYPES = {"size_t": "usize", "bool": "bool", "char": "u8", "uint8_t": "u8", "uint32_t": "u32", "int64_t": "i64"}
TYPES |= {"uint64_t": "u64", "double": "f64", "float": "f32"}
TYPES |= {"peltzivar_edit": "NumberedEdit", "peltzivar_special": "NumberedSpecial", "peltzivar_error": "ErrorNumber"}
TYPES |= {"peltzivar_part": "u8", "peltzivar_role": "u8", "void": "u8"}
# What the calls of stack.c pass, by the names of their arguments. Output goes to `out`, and other numbers are 2.
VALUES = {"forms": "forms", "list": "list", "syntax": "&list->forms->syntax", "style": "&style"}
VALUES |= {"fields": "&fields", "edits": "edits", "edit": "*edits", "literal": "&literal", "error": "&error"}
VALUES |= {"offsets": "offsets", "valid": "NULL", "count": "1", "value": "INT64_MAX", "format": "list->forms->syntax.format"}
ERRORS = r"((?!SET_|RULE_|PART_|ROLE_|KIND_|SPELLING_|VALUE_|CONDITION_|WRITE_|STYLE_)\w+)"
LIBRARY = ctypes.CDLL(str(SHARED))
LIBRARY.peltzivar_language_name.restype = LIBRARY.peltzivar_language_title.restype = ctypes.c_char_p


def run(*command, **options):
    """Runs a command, and returns what it prints and its status."""
    ran = subprocess.run(command, stdout=subprocess.PIPE, stderr=subprocess.STDOUT, text=True, **options)
    return ran.stdout, ran.returncode


def in_rust(kind):
    """Returns a type of C as in Rust."""
    if pointer := re.fullmatch(r"const (\w+) \*", kind):
        return f"*const {in_rust(pointer[1])}" if pointer[1] == "char" else f"Option<&'static {in_rust(pointer[1])}>"
    return TYPES.get(kind) or kind.removeprefix("peltzivar").title().replace("_", "")


class Programs(unittest.TestCase):
    def setUp(self):
        self.folder = pathlib.Path(tempfile.mkdtemp())
        self.addCleanup(shutil.rmtree, self.folder)

    def made(self, *command, name="program"):
        """Compiles a program without a warning, and returns its path."""
        self.assertEqual(run(*command, "-o", self.folder / name), ("", 0), command)
        return self.folder / name

    def test_the_calls_compile_in_each_language_without_a_warning(self):
        for compiler, standards in COMPILERS.items():
            for standard in standards.split():
                with self.subTest(compiler, standard=standard):
                    if not shutil.which(compiler):
                        self.skipTest(compiler)
                    language = ["-x", "c++"] if "++" in compiler else []
                    self.made(compiler, f"-std={standard}", *STRICT, *language, "-c", TESTS / "calls.c", name="calls.o")
                    self.assertEqual(run(self.made(compiler, "-pthread", self.folder / "calls.o", ARCHIVE)), ("", 0))

    def test_the_calls_are_sound_with_the_checks_of_rust(self):
        build = self.folder / "checked"
        target = re.search("host: (.*)", run("rustc", "-vV")[0])[1]
        on = {f"CARGO_PROFILE_RELEASE_{it}": "true" for it in ("DEBUG_ASSERTIONS", "OVERFLOW_CHECKS")}
        on["CARGO_BUILD_TARGET"] = target
        command = ["make", "-s", "--no-print-directory", "-C", C, f"BUILD={build}", "build"]
        self.assertEqual(run(*command, env={**os.environ, **on}), ("", 0))
        for name, *arguments in (["calls"], ["fuzz", "20000"]):
            program = self.made("cc", *STRICT, *SANITIZERS, TESTS / f"{name}.c", build / target / "release" / ARCHIVE.name)
            self.assertEqual(run(program, *arguments), ("", 0))

    def test_the_whole_archive_is_linked_and_none_of_it_is_exported(self):
        options = ["-Wl,--whole-archive", ARCHIVE, "-Wl,--no-whole-archive"]
        self.assertEqual(run(self.made("cc", "-I", C, C / "example.c", *options), "radix=8", input="17\n"), ("15\n", 0))
        library = self.made("cc", "-shared", *options, "-Wl,--exclude-libs,ALL", "-Wl,--no-undefined")
        self.assertEqual(run("nm", "-gD", "--defined-only", library), ("", 0))

    def size(self, code):
        """Returns the size of a stripped program with the code that it needs of the library."""
        self.folder.joinpath("one.c").write_text(f'#include "peltzivar.h"\nint main(void) {{ {code} }}\n')
        program = self.made("cc", *STRICT, self.folder / "one.c", ARCHIVE, "-Wl,--gc-sections", "-s")
        self.assertEqual(run(program), ("", 0))
        return program.stat().st_size

    def test_the_library_is_small_and_programs_have_at_most_the_sizes_of_the_page(self):
        self.assertLessEqual(SHARED.stat().st_size, 390_000, "a new language may add 500 bytes, and each of its forms 400")
        calls = {
            "forms_read": 'peltzivar_literal it; return peltzivar_forms_read(FORMS, "1.5", 3, &it, NULL);',
            "parse_f64": 'double it; return peltzivar_parse_f64(FORMS, "1.5", 3, &it, NULL) || it != 1.5;',
            "forms_token": 'peltzivar_token it; return peltzivar_forms_token(FORMS, "1.5;", 4, &it, NULL);',
            "forms_format_f64": "char it[9]; return peltzivar_forms_format_f64(FORMS, 1.5, NULL, it, sizeof it, NULL);",
        }
        rows = re.findall(r"^\| [^|]+: `peltzivar_(\w+)` \| `(peltzivar_language.*?)`[^|]* \| (\d+) \| \d+ \|$", PAGE, re.M)
        self.assertEqual({call for call, *_ in rows}, {*calls})
        for call, forms, size in rows:
            with self.subTest(call, forms=forms):
                code = calls[call].replace("FORMS", forms)
                self.assertLessEqual(self.size(code) - self.size("return 0;"), 1000 * int(size))

    def test_no_call_writes_memory_of_the_library(self):
        """The start files of the compiler of C add a few bytes to the shared library."""
        for library, most in ((ARCHIVE, 0), (SHARED, 16)):
            own = [it for it in run("size", "-A", library)[0].split("\n\n") if re.match(r"\s*\S*peltzivar", it)]
            sizes = re.findall(r"^\.(?:t?bss|t?data(?!\.rel\.ro))\S*\s+(\d+)", "\n".join(own), re.M)
            self.assertLessEqual(sum(map(int, sizes)), most)

    def test_threads_with_small_stacks_can_call_all(self):
        """8 kB are enough for a call that reads, and 16 for any other. The page has those of small programs."""
        calls = re.findall(r"\w[ *](peltzivar_\w+)\( ?([^()]*)\);", CODE)
        lines = [f"static void call_{name}(void) {{ (void){name}({', '.join(self.passed(of))}); }}" for name, of in calls]
        rows = ", ".join(f'{{"{name}", call_{name}}}' for name, _ in calls)
        lines.append(f"static const struct {{ const char *name; void (*call)(void); }} calls[] = {{{rows}}};\n")
        self.folder.joinpath("calls.h").write_text("\n".join(lines))
        options = ["-Wno-unused-result", f'-DCALLS="{self.folder}/calls.h"', "-pthread", "-I", C, "-Wl,-z,now"]
        printed, status = run(self.made("cc", *options, TESTS / "stack.c", ARCHIVE))
        self.assertEqual(status, 0)
        told = {call: int(size) for call, size in re.findall(r"^\| [^|]+: `(\w+)` \|.*\| (\d+) \|$", PAGE, re.M)}
        for call, size in (line.split() for line in printed.splitlines()):
            is_reading = re.search("_parse_(?!edit|word|error)|_read$|_read_(?!settings)|_token", call)
            with self.subTest(call):
                self.assertLessEqual(int(size), 1000 * told.get(call, 8 if is_reading else 16))

    def passed(self, arguments):
        """Returns what a function is passed."""
        given = [it.rsplit(" ", 1) for it in arguments.split(", ") if it != "void"]
        for (before, _), (kind, name) in zip([("", ""), *given], given):
            word = name.lstrip("*")
            if kind == "const char":
                yield "text"
            elif kind == "size_t" and word.endswith("len"):
                yield {"const char": "strlen(text)", "const peltzivar_edit": "1"}.get(before, "sizeof out")
            elif word in VALUES and (word == name or kind.startswith("const ") or word == "fields"):
                yield VALUES[word]
            else:
                yield "2" if word == name else "(void *)out"

    def test_numbers_are_read_with_four_functions_of_libc(self):
        own = "void *memcpy(void *to, const void *from, size_t n) { while (n--) ((char *)to)[n] = ((const char *)from)[n]; return to; }\n"
        own += "void *memset(void *to, int byte, size_t n) { while (n--) ((char *)to)[n] = (char)byte; return to; }\n"
        own += "size_t strlen(const char *text) { size_t n = 0; while (text[n]) n++; return n; }\n_Noreturn void abort(void) { for (;;); }\n"
        start = 'double it;\nvoid _start(void) { if (peltzivar_parse_f64(peltzivar_language_json(), "1.5", 3, &it, NULL)) abort(); }\n'
        self.folder.joinpath("bare.c").write_text(f'#include "peltzivar.h"\n{own}{start}')
        self.made("cc", "-ffreestanding", "-nostdlib", "-static", "-Wl,--gc-sections", "-I", C, self.folder / "bare.c", ARCHIVE)
        self.assertIn("`memcpy`, `memset`, `strlen` and `abort`", PAGE)

    def test_the_examples_of_the_headers_and_the_page(self):
        """Comments show what an example prints."""
        self.folder.joinpath("second.c").write_text('#include "peltzivar_words.h"\n')
        shown = re.findall(r"(?:^ \*     .*\n)+", HEADER, re.M) + re.findall(r"^    #include.*?^    }\n", PAGE, re.M | re.S)
        for code in shown:
            code = re.sub(r"^ \*     ", "", code, flags=re.M)
            if "main(" not in code:
                code = f"#include <peltzivar.h>\n#include <stdio.h>\n#include <string.h>\nint main(void) {{\n{code}return 0;\n}}\n"
            with self.subTest(code):
                self.folder.joinpath("first.c").write_text(code)
                program = self.made("cc", *STRICT, self.folder / "first.c", self.folder / "second.c", ARCHIVE)
                self.assertEqual(run(program), ("".join(f"{it}\n" for it in re.findall("// (.*)", code)), 0))

    def test_the_example(self):
        program = self.made("cc", *STRICT, *SANITIZERS, C / "example.c", ARCHIVE)
        rows = [
            ("", "-9223372036854775808\r\n9223372036854775808\n0.1", 0, "-9223372036854775808\nabove the largest value of the type\n0.10000000000000001\n"),
            ("digit_separator=95", "1_0\n", 0, "no flag allows the digit separator '_'\nline 1, column 2: unexpected character '_'\n"),
            ("digit_separator=95\ninternal_digit_separator=true", "1_0\n", 0, "10\n"),
            ("no_special=1", "", 1, "no_special takes `true` or `false`, not `1`\n"),
            ("radix=3", "0.1\n", 0, "the mantissa radix and the exponent base are not both 10 or both powers of two\n"),
            # What the buffers hold, and a byte more.
            (f"{'#':4094}", f"{'0' * 4094}\n", 0, "0\n"),
            (f"{'#':4095}", "", 2, "the settings are too long\n"),
            ("", "0" * 4095, 2, "line 1 is too long\n"),
        ]
        for settings, lines, status, printed in rows:
            self.assertEqual(run(program, settings, input=lines), (printed, status))

    def test_the_examples_print_what_the_page_shows(self):
        self.made("cc", C / "example.c", ARCHIVE, name="example")
        shutil.copy(C / "example.py", self.folder)
        page = "".join((TOP / "docs" / it).read_text() for it in ("C.md", "PYTHON.md"))
        shown = re.findall(r"^    \$ (.*example.*)\n((?:    (?!\$).*\n)+)", page, re.M)
        environment = {**os.environ, "PYTHONPATH": str(C)}
        for command, printed in shown:
            wanted = re.sub("^    ", "", printed, flags=re.M)
            self.assertEqual(run("bash", "-c", command, cwd=self.folder, env=environment)[0], wanted)


class Header(unittest.TestCase):
    def numbers(self, pattern):
        return {name: int(number) for name, number in re.findall(rf"\bPELTZIVAR_{pattern} = (\d+)", HEADER)}

    def test_each_number_has_the_name_of_the_header_or_a_sentence_of_its_own(self):
        names = {"setter_name": r"SET_(\w+)"}
        sentences = {"value_description": r"VALUE_((?!OK)\w+)", "write_description": r"WRITE_((?!OK)\w+)"}
        for call, pattern in {**names, **sentences, "description": ERRORS}.items():
            function = getattr(LIBRARY, f"peltzivar_{call}")
            function.restype = ctypes.c_char_p
            texts = {number: text.decode() for number in range(256) if (text := function(number))}
            named = {number: name.lower() if call in names else texts.get(number) for name, number in self.numbers(pattern).items()}
            self.assertEqual(texts, named)
            self.assertEqual(len({*texts.values()}), len(texts))

    def test_declarations_are_those_of_the_library(self):
        sources = " ".join("".join(path.read_text() for path in sorted((TOP / "rust/capi/src").glob("*.rs"))).split())
        exported = re.findall(r"\bfn (peltzivar_\w+)\( ?(.*?) ?\) -> ([^{}]+?) \{", sources)
        languages = re.findall(r"^    (\w+): \"", (TOP / "rust/src/literal/language/tables.rs").read_text(), re.M)
        exported += [(f"peltzivar_language_{it.lower()}", "", "Option<&'static Forms>") for it in languages]
        types = re.findall(r"\b(\w+): (peltzivar_to_\w+) (\w+) (\w+),", sources)
        calls = re.findall(r"extern \"C\" fn \$\w+\( ?([^()]+?) ?\) -> (\w+) \{", sources)
        exported += [(name, of.replace("$T", kind), result) for kind, *names in types for name, (of, result) in zip(names, calls, strict=True)]
        wanted = {
            (name, tuple(it.split(": ")[1] for it in re.split(r", (?=\w+: )", of) if it), result)
            for name, of, result in exported
        }
        declared = re.findall(r"(\w+ |const \w+ \*)(peltzivar_\w+)\( ?([^()]*)\);", CODE)
        found = {
            (name, tuple(self.argument(it, of) for it in of.split(", ") if it != "void"), in_rust(result.strip()))
            for result, name, of in declared
        }
        self.assertEqual(found, wanted)
        printed, _ = run("nm", "-gD", "--defined-only", SHARED)
        self.assertEqual({line.split()[2] for line in printed.splitlines()}, {name for name, *_ in wanted})

    def argument(self, text, others):
        """Returns the type in Rust of an argument in C. A pointer before a length is a raw pointer."""
        const, kind, pointer, name = re.fullmatch(r"(const )?(\w+) (\*?)(\w+)", text).groups()
        if not pointer:
            return in_rust(kind)
        if re.search(rf"\*{name}, size_t (to_)?len\b", others):
            return f"*{'const' if const else 'mut'} {in_rust(kind)}"
        if name in ("list", "bytes", "offsets", "valid"):
            return f"*const {in_rust(kind)}"
        if const and (name in ("forms", "syntax", "style") or re.search(r"_status status|literal, const", others)):
            return f"Option<&{in_rust(kind)}>"
        if const or name == "fields":
            return f"&{'' if const else 'mut '}{in_rust(kind)}"
        return f"Out<{in_rust(kind)}>"

    def test_each_language_has_the_call_with_its_name(self):
        names, titles = ([it for number in range(99) if (it := call(number))] for call in (LIBRARY.peltzivar_language_name, LIBRARY.peltzivar_language_title))
        calls = [getattr(LIBRARY, f"peltzivar_language_{it.decode().lower()}")() for it in names]
        for all_names in (names, titles, map(bytes.lower, titles)):
            self.assertEqual(calls, [LIBRARY.peltzivar_language(it, len(it)) for it in all_names])
        self.assertEqual(len({*calls}), len(re.findall(r"peltzivar_language_\w+\(void\)", HEADER)))

    def test_all_versions_are_the_same(self):
        number = LIBRARY.peltzivar_version()  # That of cargo.
        version = ".".join(map(str, number.to_bytes(3, "big")))
        self.assertIn(f'#define PELTZIVAR_VERSION "{version}"\n#define PELTZIVAR_VERSION_NUMBER 0x{number:06x}\n', HEADER)
        self.assertIn(f'version = "{version}"\n', (C / "pyproject.toml").read_text())
        self.assertEqual(run(sys.executable, "-c", "import peltzivar; print(peltzivar.__version__)", cwd=C), (f"{version}\n", 0))
        self.assertIn(f"libpeltzivar_c.so.{number >> 16}]", run("readelf", "-d", SHARED)[0])
        self.assertRegex((TOP / "CHANGELOG.md").read_text(), rf"\A# Changelog\n\n(## Unreleased\n\n(?:[- ] .*\n)+\n)?## {re.escape(version)}\b")


if __name__ == "__main__":
    unittest.main()
