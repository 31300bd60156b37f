"""Tests the Python module: `make -C c check`. The expected values are the tables of docs/FORMAT.md and
docs/EXPLANATIONS.md, and known words and sentences."""
import concurrent.futures
import contextlib
import copy
import doctest
import functools
import gc
import importlib.util
import inspect
import itertools
import math
import os
import pathlib
import pickle
import pydoc
import re
import runpy
import shutil
import struct
import subprocess
import sys
import sysconfig
import tempfile
import threading
import time
import tracemalloc
import typing
import unittest
import weakref
from array import array
from decimal import Decimal
from enum import Enum
from fractions import Fraction
from unittest import mock

TESTS = pathlib.Path(__file__).resolve().parent
TOP = TESTS.parent.parent
sys.path.insert(0, os.environ.get("PELTZIVAR_PACKAGE", str(TESTS.parent)))
import peltzivar
from peltzivar import Edit, Error, Format, FormatError, FormatView, Forms, Kind, Language, Literal, LiteralError, Opening, OptionsError, Part, ReadErrorKind
from peltzivar import Role, Rule, Setter, SettingsError, Special, Specials, Spelling, Suffixes, Syntax, Tokens, languages, notes_of

numpy = importlib.import_module("numpy") if importlib.util.find_spec("numpy") else None

PAGE = (TOP / "docs/FORMAT.md").read_text()
ANALYSTS = (TOP / "docs/PYTHON.md").read_text()
EXPLANATIONS = "".join((TOP / it).read_text() for it in ("docs/EXPLANATIONS.md", "rust/tests/causes.txt"))
FLAGS = re.findall(r"^\| (\d+) \| `(\w+)` \| (?:true|false) \|", PAGE, re.M)
GROUPS = re.findall(r"^\| `(\w+)` \| (\d[\d ]*) \|", PAGE, re.M)
BYTES = re.findall(r"^\| (\d+) to \d+ \| `(\w+)` \|", PAGE, re.M)
CAUSES = re.findall(r"^\| (?:`(.*)` )?\| `(.*)` \| (\w+) ?(.*?) \| (\d+) \| (\d+)\.\.(\d+) \|$", EXPLANATIONS, re.M)
OLDEST = re.search(r'requires-python = ">=(.*)"', (TESTS.parent / "pyproject.toml").read_text())[1]


class Words(unittest.TestCase):
    HEXADECIMAL = 0x000010007800005F000000010000000C

    def test_a_format_is_had_in_each_way(self):
        settings = ["mantissa_radix=16", "base_prefix='x'", "digit_separator=95", "integer_internal_digit_separator=true"]
        fields = {"base_prefix": "x", "digit_separator": 95, "integer_internal_digit_separator": True}
        formats = [
            Format(self.HEXADECIMAL),
            FormatView(self.HEXADECIMAL).check(),
            Format.parse("0x10007800005f000000010000000c"),
            Format.of(*settings),
            Format.of(*map(Edit, settings)),
            Format.of("mantissa_radix=16", **fields),
            Format.of(**fields, radix=0x10),
            Format().edit(*settings, exponent_base=None, exponent_radix=None),
            pickle.loads(pickle.dumps(Format(self.HEXADECIMAL))),
            copy.deepcopy(Format(self.HEXADECIMAL)),
        ]
        for it in formats:
            self.assertEqual((int(it), type(it)), (self.HEXADECIMAL, Format))
        self.assertEqual(len({*formats, FormatView(self.HEXADECIMAL)}), 1)
        self.assertNotEqual(self.HEXADECIMAL, formats[0])
        self.assertEqual(int(Format()), 0x00000A0000000000000000000000000C)

    def test_a_text_that_is_not_a_word_is_refused(self):
        for text in ("", "0x", "C", " 0x0", "0x" + 33 * "0", "0x\0", "0x\u0660", "0x\udc80"):
            self.assertRaisesRegex(ValueError, "is not a format word", FormatView.parse, text)

    def test_a_format_refuses_to_drop_a_separator(self):
        separated = Format.of(digit_separator="_", internal_digit_separator=True)
        for call in (Format.of, Format().edit, separated.edit):
            fields = {"digit_separator": ",", "internal_digit_separator": False}
            self.assertRaisesRegex(ValueError, "^no flag allows the digit separator ','$", call, **fields)
        self.assertIsNone(separated.edit(internal_digit_separator=False).digit_separator)
        self.assertEqual(FormatView.of(digit_separator="_"), FormatView())

    def test_an_unlawful_format_is_refused_with_all_reasons(self):
        fields = {"mantissa_radix": 16, "base_prefix": "b", "no_special": True, "special_digit_separator": True}
        sentences = ["the base prefix 'b' is a digit in radix 16", "no_special and special_digit_separator cannot both be set"]
        rules = [Rule.BASE_PREFIX_IS_PUNCTUATION, Rule.SPECIAL_SEPARATOR_FLAGS_AGREE]
        view = FormatView.of(**fields)
        for call in (lambda: Format.of(**fields), view.check, lambda: Format(int(view)), lambda: Format().edit(**fields)):
            with self.assertRaises(FormatError) as caught:
                call()
            error = pickle.loads(pickle.dumps(caught.exception))
            self.assertEqual(str(error), "; ".join(sentences))
            self.assertEqual([it.rules for it in error.reasons], [(rule,) for rule in rules])
            self.assertEqual(error.error, Error.INVALID_BASE_PREFIX)
        self.assertEqual([it.mask for it in view.reasons()], [0xFF << 120 | 0xFF << 104 | 0xFF << 88, 1 << 10 | 1 << 44])

    def test_notes(self):
        self.assertEqual([it.mask for it in notes_of("digit_separator=95")], [0x1FFF << 32 | 0xFF << 64])
        self.assertIn("digit separator '_'", str(notes_of(digit_separator="_")[0]))
        self.assertEqual(FormatView.of(digit_separator="_").notes(), ())
        notes = Format(0x00000A0000000000000000000003000C).notes()
        self.assertEqual([it.mask for it in notes], [1 << 16 | 0xFF << 88, 1 << 17 | 0xFF << 96])

    def test_edits(self):
        edited = Format().edit(mantissa_radix=16, digit_separator="_", internal_digit_separator=True)
        self.assertEqual(int(edited), 0x0A0A10000000005F000000070000000C)
        self.assertEqual([it.value for it in edited.edits()], [True, True, True, "_", 16, 10, 10])
        self.assertEqual(Edit.of("base_prefix", "x"), Edit("base_prefix=0x78"))
        self.assertEqual((Edit("radix=8"), Edit.of("radix", 8)), 2 * (Edit.of(Setter.MANTISSA_RADIX, 8),))
        self.assertEqual(len({Edit("no_special=true"), Edit.of("no_special", True), Edit("no_special=false")}), 2)
        self.assertEqual((Edit("required_digits=true").mask, Edit("exponent_radix=none").mask), (0xF, 0xFF << 120))
        self.assertEqual([Edit(f"{name}=none").value for name in ("exponent_base", "base_suffix")], [None, None])

    def test_other_calls(self):
        self.assertEqual(int(Format().normal_form()), 0x0A0A0A0000000000000000000000000C)
        self.assertNotEqual(Format().normal_form(), Format())
        self.assertEqual([format(Format(), it) for it in "bdoxX"], [format(int(Format()), it) for it in "bdoxX"])
        self.assertRaisesRegex(AttributeError, "no_special=True", setattr, Format(), "no_special", True)
        self.assertEqual((f"{Format():>36}", f"{Format():#034x}"), (f"  {Format()}", "0x00000a0000000000000000000000000c"))
        self.assertEqual((repr(Format.no_special), f"{Rule(7)}"), ("<field no_special>", "PUNCTUATION_DIFFERS"))
        self.assertEqual([doctest.testmod(it).failed for it in (peltzivar, peltzivar.words)], [0, 0])
        self.assertEqual(sum(doctest.testfile(str(TOP / "docs" / it), module_relative=False).failed for it in ("C.md", "PYTHON.md")), 0)

    def test_options(self):
        sentence = "the exponent character 'e' is a digit in radix 16"
        with self.assertRaisesRegex(OptionsError, f"^{sentence}; the decimal point '1' is") as caught:
            Syntax(Format.of(radix=16, exponent_radix=2), "e", "1")
        reasons = pickle.loads(pickle.dumps(caught.exception)).reasons
        self.assertEqual([it.options for it in reasons], [(Role.EXPONENT,), (Role.POINT,)])
        self.assertEqual((str(reasons[0]), reasons[0].mask, reasons[0].rules), (sentence, 0xFF << 104, ()))

    def test_bytes_are_numbers_or_characters(self):
        view = FormatView.of(radix=16, exponent_radix=10, base_prefix="x", base_suffix="H", case_sensitive_base_prefix=True,
                             digit_separator="_", fraction_internal_digit_separator=True)  # fmt: skip
        for role, characters in ((Role.PREFIX, "x"), (Role.SUFFIX, "Hh"), (Role.SEPARATOR, "_")):
            self.assertEqual("".join(it for it in map(chr, range(128)) if view.role_of(it) is role), characters)
            both = [it for it in range(256) if view.role_of(it) is view.role_of(bytes([it])) is role]
            self.assertEqual(both, [ord(it) for it in characters])
        self.assertEqual([view.mantissa_digit(it) for it in ("0", "9", b"a", "f", "A", b"F", "g", "G", 66)], [0, 9, 10, 15, 10, 15, None, None, 11])
        self.assertEqual([view.exponent_digit(it) for it in "09a"], [0, 9, None])
        for byte in range(256):
            wanted = None if byte == 0 else chr(byte) if byte < 128 else byte
            self.assertEqual((Edit(f"base_prefix={byte}").value, FormatView.of(base_prefix=byte).base_prefix), (wanted, wanted))

    def test_roles(self):
        view = Format.of(radix=16, base_prefix="x", base_suffix="H", digit_separator="_", internal_digit_separator=True)
        names = "DIGIT DIGIT SIGN SEPARATOR PREFIX SUFFIX EXPONENT POINT".split()
        self.assertEqual([view.role_of(byte, exponent="p", point=".") for byte in "0f+_XhP."], [Role[name] for name in names])
        self.assertEqual([view.role_of(byte, exponent=112) for byte in (112, ".", 0, 233, "g")], [Role.EXPONENT] + 4 * [None])

    def test_setters_have_the_bits_and_defaults_of_the_tables(self):
        masks = {name: 1 << int(bit) for bit, name in FLAGS} | {name: sum(1 << int(bit) for bit in bits.split()) for name, bits in GROUPS}
        self.assertEqual({name: Edit.of(name, True).mask for name in masks}, masks)
        for low, high, name, default in re.findall(r"^\| (\d+)(?: to (\d+))? \| `(\w+)` \| (\w+) \|", PAGE, re.M):
            mask = (2 << int(high or low)) - (1 << int(low))
            self.assertEqual(Edit.of(name, 2 if high else True).mask, mask)
            self.assertEqual((int(Format()) & mask) >> int(low), int({"true": 1, "false": 0}.get(default, default)), name)

    def test_getters_read_their_bits(self):
        for bit in range(128):
            view = FormatView(1 << bit)
            for number, name in FLAGS:
                self.assertIs(getattr(view, name), bit == int(number), (name, bit))
            for name, bits in GROUPS:
                self.assertIs(getattr(view, name), str(bit) in bits.split(), (name, bit))
        self.assertEqual([getattr(FormatView(0), name) for _, name in BYTES], [None, None, None, 0, 0, 0])
        self.assertEqual({it.name.lower() for it in Setter}, {name for _, name in FLAGS + BYTES} | {name for name, _ in GROUPS})


class Literals(unittest.TestCase):
    def test_parts(self):
        fields = {"digit_separator": "_", "internal_digit_separator": True, "base_prefix": "x", "base_suffix": "H"}
        syntax = Syntax(Format.of(mantissa_radix=16, exponent_base=2, exponent_radix=10, **fields), exponent="p")
        text = "-0x1_F.8_0p+1_2h"
        parts = ["-", "0x", "1_F", ".", "8_0", "p", "+", "1_2", "h"]
        for literal, in_type in ((syntax.read(text), str), (syntax.read(text.encode()), str.encode)):
            self.assertEqual((str(literal), [*vars(literal.parts).values()]), (text, [*map(in_type, parts)]))
            self.assertEqual([*map(literal.digits, Part)], [*map(in_type, ["1F", "80", "12"])])
        self.assertEqual([syntax.read(it).is_float for it in ("-F_F", "1.", "1p0")], [False, True, True])
        literal, rest = syntax.read_prefix("1.8p+\u00e9")
        self.assertEqual((literal.text, literal.parts.fraction, rest), ("1.8", "8", "p+\u00e9"))

    def test_values(self):
        rows = [
            (Language.TOML, "-9_223_372_036_854_775_809", -(2**63) - 1, "-9223372036854775809", -(2**63) - 1),
            (Language.JSON, "-0", 0, "-0", 0),
            (Language.PYTHON, "1" + 14 * "_000", 10**42, str(10**42), 10**42),
            *((Language.JSON, it, float(it), str(Decimal(it)), Fraction(it)) for it in (f"1.{10**500}e3", f"-{10**500}.5E-2")),
            (Language.JSON, "1.50e-1", 0.15, "0.150", Fraction(3, 20)),
            (Language.JSON, "1e400", math.inf, "1E+400", 10**400),
            (Language.CSV_EN, "1,234.50", 1234.5, "1234.50", Fraction(2469, 2)),
            (Language.RUST, "0x1_F", 31, "31", 31),
            (Language.SWIFT, "-0x1.8p-1", -0.75, "-0.75", Fraction(-3, 4)),
            (Language.SWIFT, "-0x0.0p-99999999", -0.0, "-0", 0),
            *((Language.JSON, zero, float(zero), str(Decimal(zero)), 0) for zero in ("0e5", "0.00e1", "-0e-5", "0e99999999")),
        ]
        for language, text, value, decimal, fraction in rows:
            for given in (text, text.encode()):
                it = language.read(given)
                self.assertEqual((repr(it.value), str(it.decimal()), it.fraction()), (repr(value), decimal, fraction))
                self.assertEqual((repr(float(it)), it.decimal()), (repr(float(decimal)), Decimal(decimal)))
                for same in (eval(repr(it)), pickle.loads(pickle.dumps(it)), copy.deepcopy(it)):
                    self.assertEqual((same, hash(same), same.value), (it, hash(it), it.value))
                self.assertEqual(repr(language.read(text)), f"languages.{language.name}.read({text!r})")
        found = [(str(it.decimal()), it.fraction()) for it in map(Syntax(Format.of(required_digits=False)).read, ("1e+", "-.5", "-.", "2.e-"))]
        self.assertEqual(found, [("1", 1), ("-0.5", Fraction(-1, 2)), ("-0", 0), ("2", 2)])
        self.assertEqual(Syntax(Format.of(exponent_radix=16), "^").read("1^10").decimal(), 10**16)
        self.assertRaisesRegex(ValueError, "^'1.0' is a float$", int, Language.JSON.read("1.0"))
        self.assertEqual([repr(Language.TOML.read("-inf").value), str(Language.TOML.read("-inf").decimal())], ["-inf", "-Infinity"])
        # Literals are equal if their formats and parts are equal.
        self.assertEqual(Syntax(Format()).read("1"), Syntax.integers(Format()).read("1"))
        self.assertNotEqual(Syntax(Format()).read("1"), Syntax(Format.of(no_special=True)).read("1"))
        self.assertNotEqual(Syntax(Format()).read("1.5"), Syntax(Format(), "e", ",").read("1,5"))
        self.assertNotEqual(Syntax(Format()).read("1.5"), Syntax(Format(), ".", ",").read("1.5"))

    def test_each_radix(self):
        for radix in range(2, 37):
            syntax, exact = Syntax(Format.of(radix=radix), "^"), Fraction(-radix - 1, radix**2)
            for value in [sign * it for it in (0, 1, radix, 2**127 - 1, 2**127, 2**128 - 1, 10**40, 10**600) for sign in (1, -1)]:
                it = syntax.read(syntax.format_number(value))
                self.assertEqual({type(it.value), int(it.text, radix), it.value, it.decimal(), it.fraction()}, {int, value})
            it, floats = syntax.read("-1.1^-1"), (2, 4, 8, 10, 16, 32)
            self.assertEqual((it.fraction(), str(syntax.read("-0").decimal())), (exact, "-0"))
            decimals = it.decimal, (*floats, 5, 20, 25), exact, "products of 2 and 5"
            for call, radixes, value, sentence in (decimals, (it.__float__, floats, float(exact), "powers of two")):
                with contextlib.nullcontext() if radix in radixes else self.assertRaisesRegex(ValueError, sentence):
                    self.assertEqual(call(), value)

    def test_values_that_are_refused(self):
        decimal, binary = Language.JSON, Language.C
        self.assertRaisesRegex(ValueError, "mantissa radix and the exponent base", float, Syntax(Format.of(radix=3)).read("12"))
        self.assertRaisesRegex(ValueError, r"\(4300", int, decimal.read("9" * 4301))
        self.assertEqual(int(Language.PYTHON.read("0x" + "F" * 5000)), 16**5000 - 1)
        self.assertEqual(len(decimal.read("9" * 10**6).decimal().as_tuple().digits), 10**6)
        self.assertEqual(decimal.read("1e999999").fraction(), 10**999999)
        self.assertEqual(binary.read("0x1p-1430676").decimal().adjusted(), -430677)
        large = [decimal.read("9" * (10**6 + 1)).decimal, decimal.read("1e1000000").fraction, decimal.read("1e-1000000").fraction]
        large += [decimal.read("1e" + "9" * 5000).decimal, binary.read("0x1p-1430677").decimal, binary.read("0x1p3321929").decimal]
        for call in [*large, binary.read("0x1p99999999999999999999").fraction]:
            self.assertRaisesRegex(OverflowError, "more than 10\\^6 digits", call)

    def test_conditions(self):
        fields = {"base_prefix": "x", "base_suffix": "h", "digit_separator": ",", "internal_digit_separator": True}
        conditions = {"required_base_prefix": "1h", "required_base_suffix": "0x1", "no_negative_mantissa_sign": "-0x1h", "integer_group_size": "0x12,34h"}
        first = {"required_leading_zero": "17", "decimal_first_digit": ".5"}
        settings = {name: 3 if "group" in name else True for name in peltzivar._CONDITIONS if name not in first}
        syntax = Syntax.of(**fields, **settings)
        for it in (syntax, eval(repr(syntax)), pickle.loads(pickle.dumps(syntax)), Syntax(Format.of(**fields), **settings)):
            self.assertEqual((it, it.read("0x1,234.5e-1h").value), (syntax, 123.45))
            self.assertNotEqual(it, Syntax.of(**fields))
        bits = re.findall(r"\bPELTZIVAR_CONDITION_(\w+) = (\d+)", (TESTS.parent / "peltzivar.h").read_text())
        self.assertEqual([(name.lower(), int(bit)) for name, bit in bits], [(name, 1 << at) for at, name in enumerate(peltzivar._CONDITIONS)])
        for name, text, syntax in [*((*it, syntax) for it in conditions.items()), *((*it, Syntax.of(**{it[0]: True})) for it in first.items())]:
            with self.assertRaises(LiteralError) as caught:
                syntax.read(text)
            error = pickle.loads(pickle.dumps(caught.exception))
            self.assertEqual((error.kind, error.conditions, error.mask, error.edits), (ReadErrorKind.REQUIREMENT, (name,), 0, ()))
        with self.assertRaises(SettingsError) as caught:
            Syntax.of(required_base_prefix=True, required_base_suffix=True, integer_group_size=3)
        self.assertEqual([it.indexes for it in caught.exception.reasons], [(0,), (1,), (2,)])
        self.assertRaisesRegex(SettingsError, "^integer_group_size takes a number from 2 to 8, or `none`, not `9`$", Syntax.of, integer_group_size=9)
        for error, call in ((OptionsError, lambda: Syntax(Format(), required_base_prefix=True)), (SettingsError, lambda: Syntax.of("required_base_prefix=true"))):
            self.assertRaisesRegex(error, "^required_base_prefix is set, and the format has no base prefix$", call)

    def test_numbers_are_written(self):
        german, hexadecimal = Syntax.of(digit_separator=".", internal_digit_separator=True, point=","), Syntax.of(radix=16, base_prefix="x", exponent="p")
        grouped = Syntax.of(digit_separator="_", internal_digit_separator=True, integer_group_size=3)
        for value, text in ((0, "0"), (10**40, "10" + ".000" * 13), (-1e300, "-1e300"), (Decimal("1E+3"), "1.000"), (Decimal("1E-500"), "1e-500")):
            self.assertEqual(german.format_number(value, group=3), text)
            self.assertEqual(german.read(text).decimal(), Decimal(repr(value)) if isinstance(value, float) else value)
        for number in (-(10**20), Decimal("1234.505"), Decimal("-0.004"), 2.675, 1e22):
            self.assertEqual(Syntax.of().format_number(number, decimals=2), format(number, ".2f"))
        self.assertEqual([grouped.format_number(it, decimals=2) for it in (Fraction(-1, 300), Language.C.read("0x10"))], ["-0.00", "16.00"])
        self.assertEqual(Syntax.integers(Format()).format_number(Decimal("1.0")), "1")
        self.assertEqual(Language.JSON.format_number(Language.C.read("0x1p-3")), "0.125")
        self.assertEqual([languages.JAVA.format_number(it) for it in (2**31 - 1, 2**31, 2**53 + 1)], ["2147483647", "2147483648L", "9007199254740993L"])
        self.assertEqual([hexadecimal.format_number(it) for it in (2**128 // 3, 1.5, -(2.0**-70))], ["0x" + "5" * 32, "0x1.8", "-0x4p-12"])
        wrong = [(german, math.inf, "NaN or infinity"), (german, Decimal("NaN"), "NaN or infinity"), (hexadecimal, Decimal("1.5"), "radix")]
        wrong += [(Language.JSON, Language.C.read("0x1.23456789abcdefp-60"), "radix"), (Syntax.integers(Format()), 1.5, "not whole"), (Language.C, -1, "'-'")]
        for syntax, value, sentence in wrong:
            self.assertRaisesRegex(ValueError, sentence, syntax.format_number, value)

    def test_tokens_are_those_of_the_rows(self):
        rows = (TOP / "rust/tests/tokens.txt").read_text(encoding="utf-8")
        back = re.search("^# BACK = (.*)$", rows, re.M)[1]
        for line in rows.splitlines():
            if not line or line.startswith("# "):
                continue
            text, names, wanted = line.split(" ; ")
            for name in (back if names == "BACK" else names).split():
                # The forms of a language, and the same as forms of one's own.
                for forms in (Language[name], pickle.loads(pickle.dumps(Language[name].forms))):
                    with self.subTest(line, name=name):
                        try:
                            token = forms.token(text.encode())
                            taken = text.encode()
                            self.assertIn(token.literal.text, taken)
                            self.assertTrue(taken.endswith(token.suffix + token.rest))
                            self.assertEqual(token.end, len(taken) - len(token.rest))
                            stated = f"{token.literal}|{token.suffix.decode()}"
                            self.assertEqual(pickle.loads(pickle.dumps(token.literal)), token.literal)
                            self.assertEqual(forms.token(text).rest.encode(), token.rest)
                        except LiteralError as error:
                            # Known suffixes are behind a semicolon.
                            stated = f"{error.span[0]}..{error.span[1]} {str(error).split(';')[0]}"
                            if error.kind in (ReadErrorKind.SUFFIX, ReadErrorKind.POINT, ReadErrorKind.STOP):
                                self.assertEqual(error.valid_up_to, error.span[0])
                        self.assertEqual(stated, wanted)

    def test_a_list_has_at_most_256_words(self):
        for most in (256, 257):
            with contextlib.nullcontext() if most == 256 else self.assertRaisesRegex(ValueError, "more than 256 words, kinds of suffixes, or stops"):
                self.assertEqual(Forms({"": SYNTAX}, suffixes={"": Suffixes("a " * most)}, tokens=Tokens()).token("1a").suffix, "a")

    def test_a_literal_is_what_is_behind_its_opening(self):
        of = functools.partial(Syntax.of, radix=16, exponent=None, point=None)
        forms = {"": Syntax.of(), "cased": of(), "boz": of(base_suffix="'", required_base_suffix=True)}
        forms["both"] = of(base_suffix="H", case_sensitive_base_suffix=True, required_base_suffix=True)
        openings = {"cased": Opening("16r", True), "boz": Opening("Z'"), "both": Opening("#x")}
        own = Forms(forms, openings=openings, only_read=["boz"], tokens=Tokens(), suffixes={"both": Suffixes("u8")})
        for forms in (own, eval(repr(own)), pickle.loads(pickle.dumps(own)), Forms(own), *Language):
            named = forms.forms if isinstance(forms, Language) else forms
            for name, it in named.openings.items():
                for inside, suffix in itertools.product(map(named[name].format_number, (0, 31, 2**31)), ("", "u8")):
                    with self.subTest(forms=forms, name=name, inside=inside):
                        texts = [it.text + inside] + [it.text.swapcase() + inside] * (not it.case_sensitive)
                        for text in (*texts, *map(str.encode, texts)):
                            literal, stop = forms.read(text), text[:0] + (b";" if isinstance(text, bytes) else ";")
                            self.assertEqual((str(literal), literal.form, literal.parts), (inside, name, named[name].read(literal.text).parts))
                            for same in (pickle.loads(pickle.dumps(literal)), copy.deepcopy(literal), forms.read_prefix(text + stop)[0]):
                                self.assertEqual((same, same.value, same.fraction()), (literal, literal.value, literal.fraction()))
                            self.assertEqual(forms.read_prefix(text + stop)[1], stop)
                            if forms is own and (name == "both" or not suffix):
                                behind = suffix if isinstance(text, str) else suffix.encode()
                                token = forms.token(stop + text + behind + stop, 1)
                                self.assertEqual((token.literal, token.suffix, token.rest), (literal, behind, stop))
                                self.assertEqual(pickle.loads(pickle.dumps(token)), token)
        rows = [("16RF", "", "unexpected character 'R'", (2, 3)), ("#y", "both", "expected the opening `#x`", (1, 2))]
        for text, form, sentence, span in rows:
            with self.assertRaises(LiteralError) as caught:
                own.read(text)
            error = pickle.loads(pickle.dumps(caught.exception))
            self.assertEqual((error.form, str(error), error.span, error.valid_up_to), (form, sentence, span, span[0]))
            self.assertEqual(error.kind, ReadErrorKind.OPENING if form else ReadErrorKind.BYTE)
        # A token is read from a window, which goes on behind each byte of an opening.
        for text in ("#x-FH", "#x" + "0" * 40 + "FHu8", "Z'" + "0" * 30 + "F'"):
            self.assertEqual([own.token(text + rest).end for rest in ("", " - 1", ", x" * 40)], [len(text)] * 3)
        for wrong in ("123456789", "\u00e9"):
            self.assertRaises(ValueError, Opening, wrong)
        self.assertRaisesRegex(ValueError, "no form", Forms, {"": Syntax.of()}, only_read=["x"])

    def test_causes_of_format(self):
        for text, settings, cause, blamed, *numbers in CAUSES:
            for given in (text, text.encode()):
                with self.assertRaises(LiteralError) as caught:
                    Syntax.of(*settings.split()).read(given)
                error = pickle.loads(pickle.dumps(caught.exception))
                got = error.text, error.kind, [error.valid_up_to, *error.span]
                self.assertEqual(got, (given, ReadErrorKind[cause.upper()], [*map(int, numbers)]), settings)
                if cause == "missing":
                    self.assertEqual((error.part, error.edits), (Part[blamed.upper()], ()))
                else:
                    flags = [Setter(int(it)) for it in blamed.split() if it.isdecimal()]
                    edits = tuple(Edit.of(flag, cause == "separator") for flag in flags)
                    self.assertEqual((error.edits, error.conditions), (edits, tuple(blamed.split()[len(flags) :])), (text, settings))
                    self.assertEqual(error.part is None, cause != "separator", (text, settings))

    def test_indexes_are_those_of_characters(self):
        for text, index in (("12\u00e9", 2), ("\u20ac", 0), ("1.5\U0001F600e", 3), ("1e\ud800", 2), ("1x\u00e9", 1)):
            with self.assertRaises(LiteralError) as caught:
                Syntax(Format()).read(text)
            error, sentence = caught.exception, f"unexpected character {text[index]!r}"
            self.assertEqual((error.valid_up_to, error.kind, str(error)), (index, ReadErrorKind.BYTE, sentence))
        with self.assertRaisesRegex(LiteralError, "unexpected character '\u20ac'"):
            Syntax(Format()).read("7\u20ac".encode())

    def test_syntaxes(self):
        syntaxes = [Syntax(Format()), Syntax(Format(), b"e", 46), Syntax(Format().normal_form(), integer_group_size=0), Syntax.integers(Format())]
        got = [(it.exponent, it.point, it.role_of("e")) for it in syntaxes]
        self.assertEqual(got, 3 * [("e", ".", Role.EXPONENT)] + [(None, None, None)])
        self.assertEqual({*syntaxes}, {syntaxes[0], syntaxes[3]})

    def test_languages_have_titles(self):
        self.assertTrue(all(it is Language(it.title) is Language(it.name.lower()) for it in Language))
        self.assertEqual(Language.C_SHARP.title, "C#")

    def test_forms_of_ones_own(self):
        names = Syntax.of(radix=36, exponent=None, point=None)
        own = Forms([("decimal", Language.TOML.forms["decimal"]), ("", names)], nan="none", inf="in f")
        for forms in (own, eval(repr(own)), pickle.loads(pickle.dumps(own)), copy.deepcopy(own), Forms(dict(own), **vars(own.specials))):
            self.assertEqual((forms, hash(forms), {**forms}, len(forms)), (own, hash(own), {"decimal": own["decimal"], "": names}, 2))
            # A literal comes before a special value.
            read = [(it.value, getattr(it, "form", None)) for it in map(forms.read, ("1e1", "none", b"-in f"))]
            self.assertEqual(read, [(10.0, "decimal"), (1105034, ""), (-math.inf, None)])
            self.assertEqual((forms.parse("none", int), forms.parse("in f"), forms.column(["1", "in f"]).values.tolist()), (1105034, math.inf, [1, math.inf]))
            self.assertEqual((forms.read_prefix("1z.")[0].syntax, forms.read("z"), forms.read("1")), (names, names.read("z"), own["decimal"].read("1")))
            for text, form, index in (("1e+", "decimal", 3), ("a_", "", 1)):
                with self.assertRaises(LiteralError) as caught:
                    forms.read(text)
                error = pickle.loads(pickle.dumps(caught.exception))
                self.assertEqual((error.form, error.valid_up_to), (form, index))
        self.assertNotEqual(own, Forms(own))
        self.assertNotEqual(Forms(own), Forms([*own.items()][::-1], nan="none", inf="in f"))
        for language in Language:
            copied = Forms(language.forms, **vars(language.specials))
            self.assertEqual((copied, copied.specials), (language.forms, language.specials))
            for given in (15, -1, 3000000000, 2**63 - 1, 0.5, 1e39, languages.C.read("0x1.8p1"), *"0x1G 0b2 1e 1.5.5 017 1_0 nan -INF 1e-46 0xFFFFFFFF".split()):
                self.assertEqual(*(repr(outcome(it.parse if isinstance(given, str) else it.format_number, given)) for it in (language, copied)))

    def test_a_literal_has_the_value_of_its_kind(self):
        java, syntax = languages.JAVA, Syntax(Format())
        literal = java.read("0xffffffff")
        self.assertEqual((literal.digits(Part.INTEGER), literal.decimal(), literal.fraction()), ("ffffffff", 2**32 - 1, 2**32 - 1))
        self.assertEqual(languages.RUBY.forms["decimal"].format_number(literal), "-1")
        self.assertRaisesRegex(ValueError, "too large", languages.RUBY.forms["decimal"].format_number, java.read("3000000000"))
        self.assertNotEqual(Forms({"": syntax}, kinds={"": Kind(8)}).read("1"), syntax.read("1"))
        for text, sentence in (("1e400", "above"), ("1e-400", "too near to 0")):
            self.assertRaisesRegex(ValueError, sentence, float, java.read(text))
            self.assertRaisesRegex(ValueError, sentence, java.parse, text)
        for wrong in ({"signed": 0}, {"unsigned": 129}, {"wraps": 65}, {"signed": 8, "wraps": 8}, {"modulo": True}, {"limits": "least"}):
            self.assertRaises(ValueError, Kind, **wrong)
        self.assertRaises(ValueError, Forms, {"": syntax}, kinds={"x": Kind(8)})

    def test_special_values(self):
        for text, wanted in (("+inf", "+INF"), (b"-nan", "-NAN"), ("inf", "INF")):
            special = Language.TOML.read(text)
            self.assertEqual((str(special), repr(float(str(special)))), (wanted, repr(float(text))))
        forms = Forms({"": Syntax(Format())}, nan="n\u00e4n", infinity="\u221e")
        self.assertEqual((forms.read("-\u221e"), Language.TOML.specials), (Special("-", Spelling.INFINITY), Specials("nan", "inf")))
        self.assertRaises(LiteralError, forms.read, "")

    def test_settings_make_a_syntax(self):
        lines = ["# hexadecimal\r\n", "radix = 16\n", "base_prefix='x'", "", "exponent = 'p'"]
        self.assertEqual(Syntax.of(*lines), Syntax(Format.of(radix=16, base_prefix="x"), "p"))
        self.assertEqual(Syntax.of("radix=2", radix=16, base_prefix="x", exponent=b"p"), Syntax.of(*lines))
        for integers in (Syntax.of(Edit("radix=16"), "exponent=none", "point=none"), Syntax.of(radix=16, exponent=None, point=None)):
            self.assertEqual(integers, Syntax.integers(Format.of(radix=16)))
        lines += "digit_separator = '_'", "radix = 16"
        notes = [(str(it), it.indexes) for it in Syntax.notes_of(*lines)]
        self.assertEqual(notes, [("a later setting overrides radix", (1, 6)), ("no flag allows the digit separator '_'", (5,))])
        noted, allowed = Syntax.of(*lines), Syntax.of(*lines[:-1], internal_digit_separator=True)
        for it in (noted, pickle.loads(pickle.dumps(noted)), copy.deepcopy(noted)):
            self.assertEqual((it, hash(it), it.notes()), (Syntax.of(*lines[:5]), hash(noted), Syntax.notes_of(*lines)))
        self.assertEqual((allowed.notes(), allowed.format.digit_separator, Syntax(allowed.format, "p").notes()), ((), "_", ()))
        (note,) = Syntax(Format(0x00000A000000005F000000000000000C)).notes()
        self.assertEqual(str(note), "no flag allows the digit separator '_'")
        with self.assertRaises(SettingsError) as caught:
            Syntax.of("base_suffx='h'", "radix=16", "base_prefix='b'", "exponent_base='9'")
        error = pickle.loads(pickle.dumps(caught.exception))
        sentences = [
            ("unknown setting `base_suffx`; did you mean `base_suffix`?", (0,)),
            ("exponent_base takes a number, 2 to 36 in a lawful format, or `none`, not `'9'`", (3,)),
            ("the base prefix 'b' is a digit in radix 16", (1, 2)),
        ]
        self.assertEqual([(str(it), it.indexes) for it in error.reasons], sentences)
        # A reason has as many indexes as it has settings: one, two, three and four.
        with self.assertRaises(SettingsError) as caught:
            settings = {f"integer_{it}_digit_separator": False for it in ("internal", "leading", "trailing")}
            Syntax.of("radix=40", "base_prefix='('", "base_suffix='('", **settings, integer_consecutive_digit_separator=True)
        self.assertEqual([it.indexes for it in caught.exception.reasons], [(0,), (1, 2), (3, 4, 5, 6)])


# The classes that are documented.
KINDS_OF_OBJECTS = [it for of in (peltzivar, peltzivar.words) for it in map(vars(of).get, of.__all__) if isinstance(it, type)]
BYTE = "one ASCII character or a number from 0 to 255"
SUGGESTION = "unknown setting `digit_seperator`; did you mean `digit_separator`?"
ONE_OPTION = "only one of the exponent character and the decimal point is absent: for numbers without an exponent, keep both, and set no_exponent_notation"
COLUMN = "must be a sequence, such as one column of a table, not"
WRONG = [
    ("Format(-1)", ValueError, "a format word must be a number of at most 128 bits, not -1"),
    ("Format.of(no_special=1)", TypeError, "no_special must be a bool, not int"),
    ("Format().edit(mantissa_radix=None)", TypeError, "mantissa_radix must be a number from 0 to 255, not NoneType"),
    ("Format.of(base_prefix='\u00e9')", ValueError, f"base_prefix must be {BYTE}, not '\u00e9'"),
    ("Format().edit(colour=7)", TypeError, "edit() got an unexpected keyword argument 'colour': unknown setting `colour`"),
    ("Syntax.of(digit_seperator='_')", TypeError, "of() got an unexpected keyword argument 'digit_seperator': unknown setting `digit_seperator`; did you mean `digit_separator`?"),
    ("Syntax.of(required_base_prefix=1)", TypeError, "required_base_prefix must be a bool, not int"),
    ("Syntax(Format()).format_number('1')", TypeError, "value must be a number or a Literal, not str"),
    ("Syntax(Format()).format_number(True)", TypeError, "value must be a number or a Literal, not bool"),
    ("peltzivar.Literal('1')", TypeError, "`read` of a Syntax or a Language makes a Literal"),
    ("Syntax.of(point='')", ValueError, f"point must be {BYTE}, not ''"),
    ("Edit.of('digit_seperator', '_')", ValueError, f"setter 'digit_seperator': {SUGGESTION}"),
    ("Format.of(\"digit_seperator='_'\")", ValueError, f"digit_seperator='_': {SUGGESTION}"),
    ("Edit(\"radix='x'\")", ValueError, "radix='x': radix takes a number, 2 to 36 in a lawful format"),
    ("Syntax(Format(), exponent=None)", ValueError, ONE_OPTION),
    ("Syntax.of('radix=16\\nradix=2')", ValueError, "a setting is one line: 'radix=16\\nradix=2'"),
    ("Language.JSON.column('12')", TypeError, f"cells {COLUMN} str"),
    ("Language.JSON.column({'1': 2})", TypeError, f"cells {COLUMN} dict"),
    ("Language.JSON.column(memoryview(b'1234').cast('B', (2, 2)))", TypeError, f"cells {COLUMN} memoryview"),
    ("Language.JSON.format_column({'1': 2})", TypeError, f"numbers {COLUMN} dict"),
    ("Language.JSON.column((b'12', [0, 1, 2]))", TypeError, "offsets must be an array, such as array('q', [0, 3]), not list"),
    ("Language.JSON.column(['1'], out=[0.5])", TypeError, "out must be a buffer, such as an array, not list"),
    ("Language.JSON.column(('1', array('q', [0, 1])))", TypeError, "data must be a buffer, such as an array, not str"),
    ("Language.JSON.column(5)", TypeError, f"cells {COLUMN} int"),
    ("Language.JSON.column(['1'], [])", TypeError, "type must be float, int, or one of the formats d, f, q and Q, not []"),
    ("Language.JSON.column(['1'], missing='NA')", TypeError, "missing must be a sequence of texts, not str"),
    ("Language.JSON.column(['1'], missing=[5])", TypeError, "a text of `missing` must be a str or bytes, not int"),
    ("Language.JSON.column(['1'], fill='0')", TypeError, "fill must be a number of the column, not str"),
    ("Forms({'a': Syntax(Format())}, suffixes={'a': Suffixes('k 5k')})", ValueError, "a suffix begins with a digit, with which the number goes on: '5k'"),
    ("Language.JSON.column([1])", TypeError, "cell 0 must be a str, not int"),
    ("Language.JSON.column([], complex)", TypeError, "type must be float, int, or one of the formats d, f, q and Q, not <class 'complex'>"),
    ("Language.JSON.column(['1'], out=bytearray(8))", TypeError, "out must have the format d or f, not 'B'"),
    ("Language.JSON.column(['1'], out=array('d'))", ValueError, "out has the shape (0,), and there are 1 cells"),
    ("Language.JSON.column(['1'], errors='ignore')", ValueError, "errors must be 'raise' or 'coerce', not 'ignore'"),
    ("Language.JSON.column([None], int)", ValueError, "integers have no NaN: pass `fill`, the value of cells that are missing or wrong"),
    ("Language.JSON.column((b'12', array('q', [0, 3])))", ValueError, "offsets are not within the data, which has 2 bytes"),
    ("Forms([])", ValueError, "there are 1 to 64 forms, no two with the same name: []"),
    ("Forms([('a', Syntax(Format())), ('a', Syntax(Format()))])", ValueError, "there are 1 to 64 forms, no two with the same name: ['a', 'a']"),
    ("Forms({str(it): Syntax(Format()) for it in range(65)})", ValueError, "there are 1 to 64 forms, no two with the same name: ['0', '1', '2', '3', '4', '5', ...]"),
    ("Forms({'a': Format()})", TypeError, "a form must be a Syntax, not Format"),
    ("Forms({1: Syntax(Format())})", TypeError, "a name must be a str, not int"),
    ("Forms({'a': Syntax(Format())}, nan='a\\0')", ValueError, "a spelling has a null character: Specials(nan='a\\x00', inf=None, infinity=None)"),
    ("Language.JSON.parse('1', bool)", TypeError, "type must be float or int, not <class 'bool'>"),
    ("Kind(True)", TypeError, "a number of bits must be a number from 0 to 255, not bool"),
    ("Tokens(forms=5)", TypeError, "forms must be a Forms, not int"),
    ("Special('x', Spelling.NAN)", ValueError, "sign must be '+', '-' or empty, not 'x'"),
    ("Special('', 'nan')", TypeError, "spelling must be a Spelling, not str"),
    ("Language.JSON.column(['1'], int, fill=2**63)", ValueError, "fill is not a value of the column: 9223372036854775808"),
    ("Language.JSON.column(['1'], 'f', fill=1e300)", ValueError, "fill is not a value of the column: 1e+300"),
    ("Language.JSON.column(['1'], fill=Decimal('-1e400'))", ValueError, "fill is not a value of the column: Decimal('-1E+400')"),
    ("Language.C.token('1', -1)", ValueError, "start must be an index of the text"),
    ("Language.JSON.token('1')", ValueError, "these forms have no tokens"),
    ("Language.CSV_DE.format_column([1], colour=7)", TypeError, "format_column() got an unexpected keyword argument 'colour'"),
    ("Syntax(Format()).format_number(1, decimals=300)", ValueError, "decimals must be a number from 0 to 255, not 300"),
    ("Suffixes('a\\0b')", ValueError, "a string has a null character: 'a\\x00b'"),
    ("Suffixes('u a-b')", ValueError, "a suffix has letters, digits, `_` and characters that are not ASCII: 'a-b'"),
]


class Wrong(unittest.TestCase):
    def test_wrong_arguments_are_named(self):
        for code, error, sentence in WRONG:
            with self.subTest(code), self.assertRaisesRegex(error, f"^{re.escape(sentence)}$"):
                eval(code)

    def test_other_objects_are_refused_by_name(self):
        view, syntax = FormatView((1 << 128) - 1), Syntax(Format())
        calls = {
            "a byte": [view.mantissa_digit, view.role_of, syntax.role_of],
            "a format word": [FormatView, Format, Format.parse],
            "a setting|=|unknown|takes": [Edit, Format().edit, Syntax.of, Syntax.notes_of],
            "a text|here$|expected": [syntax.read, syntax.read_prefix, Language.JSON.read],
            "part must be": [syntax.read("1").digits],
            "format must be": [Syntax, Syntax.integers],
            "base_prefix must be": [lambda it: notes_of(base_prefix=it), lambda it: Format.of(base_prefix=it)],
            "setter|radix": [lambda it: Edit.of(it, 8), lambda it: Edit.of("radix", it)],
            "exponent|point": [lambda it: Syntax(Format(), it), lambda it: Syntax(Format(), "e", it)],
            "spelling": [lambda it: Forms({"": syntax}, nan=it).specials and None],
        }
        for names, call in [(names, call) for names, some in calls.items() for call in some]:
            for it in (1.5, -1, 1 << 128, 10**5000, "\u00e9\u00e9", "\ud800\ud800", "a\0b", b"\xff\xff", [], {}, object(), print, Error.EMPTY):
                with self.subTest(call=call, kind=type(it)):
                    try:
                        self.assertIn(call(it), (None, ()))
                    except (TypeError, ValueError) as error:
                        self.assertRegex(str(error), names)

    @unittest.skipUnless(shutil.which("mypy"), "mypy")
    def test_a_type_checker_accepts_right_arguments_and_refuses_wrong_ones(self):
        program = """from decimal import Decimal; import peltzivar.words; from peltzivar import Format, Syntax, languages
Format.of(mantissa_radix=16, base_prefx=3)
print(Format().no_special + "", Format().check(5))
Syntax(Format()).format_number(1, exponent="often")
languages.JSON.column(["1"], errors="ignore")
languages.JSN.read("1")
languages.C.read("1").txt
"""
        page = re.findall(r"^    (?:>>>|\.\.\.) (.*)$", ANALYSTS, re.M)
        program += "\n".join(it if it.startswith(("import", "from", " ")) else it for it in page) + "\n"
        first = program.count("\n") + 1
        # Each argument of each call of each class refuses an object.
        for kind in KINDS_OF_OBJECTS:
            for name, call in [("", kind), *inspect.getmembers(kind, inspect.isroutine)]:
                of = getattr(call, "__objclass__", call).__module__ if name else kind.__module__
                if name[:1] == "_" or not of.startswith("peltzivar") or not name and issubclass(kind, (Enum, ValueError, Literal)):
                    continue
                # inspect does not know the signature of `parse` of texts, since its default is a class.
                is_known = not hasattr(call, "__objclass__") or name != "parse"
                for it in inspect.signature(call if is_known else lambda text, type: 0).parameters.values():
                    given = "" if it.kind is it.VAR_POSITIONAL else 'text="1", type=' if it.name == "type" else f"{it.name}="
                    if it.name not in ("self", "values") and it.kind is not it.VAR_KEYWORD:
                        of = f"{kind.__module__}.{kind.__name__}"
                        program += f"def _(it: {of}) -> None: {f'it.{name}' if name else of}({given}object())\n"
        path = TESTS / "typed.py"
        command = ["mypy", "--strict", f"--python-version={OLDEST}", "--cache-dir=/dev/null", peltzivar.__file__, path, "/dev/stdin"]
        ran = subprocess.run(command, env={**os.environ, "MYPYPATH": str(TESTS.parent)}, input=program, capture_output=True, text=True)
        errors = re.findall(r"^(.*):(\d+): error: .*\[(.*)\]", ran.stdout, re.M)
        wrong = [int(line) for file, line, _ in errors if file == "/dev/stdin" or self.fail(ran)]
        self.assertEqual([it for it in wrong if it < first], [2, 3, 3, 4, 5, 6, 7], ran)
        refused = {int(line) for _, line, code in errors if code in ("arg-type", "type-var", "call-overload")}
        lines = program.splitlines()
        self.assertEqual([lines[it - 1] for it in {*range(first, len(lines) + 1)} - refused], [])

    def test_values_have_the_types_of_a_typed_program(self):
        def fits(value, kind):
            origin, arguments = typing.get_origin(kind) or kind, typing.get_args(kind)
            if origin in (typing.Union, typing.Any):
                return origin is typing.Any or any(fits(value, it) for it in arguments)
            if origin is not tuple:
                return isinstance(value, origin)
            each = arguments[:1] * len(value) if arguments[1:] == (...,) else arguments
            return len(each) == len(value) and all(map(fits, value, each))

        def typed(value, kind):
            self.assertTrue(fits(value, kind), (kind, value))
            return value

        path = TESTS / "typed.py"
        with mock.patch("typing.assert_type", typed):
            runpy.run_path(str(path))
        names = {name for kind in KINDS_OF_OBJECTS for name in (*vars(kind), *vars(kind).get("__annotations__", ())) if name[0] != "_" and not name.isupper()}
        self.assertEqual(names - {*re.findall(r"\w+", path.read_text())} - {it.name.lower() for it in Setter}, set())

    def test_help_begins_with_what_people_need_and_has_no_private_names(self):
        text, words = (pydoc.plain(pydoc.render_doc(it)) for it in (peltzivar, peltzivar.words))
        for it in (text, words):
            self.assertEqual(re.findall(r"^ +\|  (_[a-z]\w*)", it, re.M), [])
            self.assertNotRegex(it, r"builtins\.int|ctypes|Ellipsis|libpeltzivar|'_[A-Z][a-z]")
        first = re.findall(r"^ {8}(\w+) {2,}", text[: text.index(">>>")], re.M)
        self.assertEqual((len(first), {*first} - {*peltzivar.__all__}), (10, set()))
        self.assertEqual([it for it in peltzivar.words.__all__ if getattr(peltzivar, it) is not getattr(peltzivar.words, it)], [])


BITS = 1, 8, 32, 64
KINDS = [
    Kind(),
    *(Kind(**{of: it}) for of in ("signed", "unsigned") for it in (*BITS, 65, 127, 128)),
    *(Kind(wraps=it, modulo=by) for it in BITS for by in (False, True)),
]
LIMITS = {sign * (2**it + more) for it in (*BITS, 7, 31, 63, 127, 128) for more in (-1, 0, 1) for sign in (1, -1)}
# These are values of each argument of format_number.
WISHES = {"group": (3, 0, 254), "min_digits": (8, 255), "decimals": (0, 1, 255)}
WISHES |= {"exponent": ("never", "always"), "without_base": (True,), "lowercase": (True,)}
SYNTAX = Syntax.of(base_prefix="x", base_suffix="h", digit_separator="_", internal_digit_separator=True, exponent="^")
# With a value in CHANGES, and with those in NEEDS, an object is another one than with those in FIRST alone.
FIRST = {Forms: {"forms": {"a": SYNTAX}}, Syntax: {"format": SYNTAX.format}}
NEEDS = {"modulo": {"wraps": 8}, "higher_group_size": {"integer_group_size": 4}}
SPELLED = dict.fromkeys(("nan", "inf", "infinity"), "x")
WORDS = dict.fromkeys(("integers", "floats", "any", "written", "word_bytes"), "x")
CHANGES = {
    Kind: {"signed": 8, "unsigned": 8, "wraps": 8, "modulo": True, "single": True, "limits": "both"},
    Specials: SPELLED,
    Suffixes: {**WORDS, "kinds": {"x": Kind(8)}, "stops": [("", "x", "")], "either_case": True, "whole_words": True},
    Tokens: {"forms": Forms({"": SYNTAX}), "following": "x", "gives_points_back": True, "gives_points_to_letters": True, "any_word_follows": True},
    Opening: {"text": "o", "case_sensitive": True},
    Forms: {
        **SPELLED, "forms": {"b": SYNTAX}, "kinds": {"a": Kind(8)}, "suffixes": {"a": Suffixes("u")}, "tokens": Tokens(),
        "openings": {"a": Opening("o")}, "only_read": ("a",),
    },
    Syntax: {"format": Format(), "exponent": "^", "point": ",", **{it: "size" not in it or 3 for it in peltzivar._CONDITIONS}},
}


def digits(number, radix):
    """Returns an integer in a radix."""
    rest, text = abs(number), ""
    while rest or not text:
        rest, text = rest // radix, "0123456789ABCDEFGHIJKLMNOPQRSTUVWXYZ"[rest % radix] + text
    return "-" * (number < 0) + text


def valued(kind, number):
    """Returns the value of an integer of a kind, or None if it is too large."""
    if not kind.wraps:
        least = -(2 ** (kind.signed - 1)) if kind.signed else 0
        bits = kind.signed or kind.unsigned
        return number if not bits or least <= number < least + 2**bits else None
    if abs(number) >> kind.wraps and not kind.modulo:
        return None
    half = 2 ** (kind.wraps - 1)
    return (number + half) % (2 * half) - half


def outcome(call, *arguments):
    """Returns what a call returns, or None if it raises a ValueError."""
    with contextlib.suppress(ValueError):
        return call(*arguments)


def written(wishes, number, exponent):
    """Returns how a literal of SYNTAX is written: digits, maybe with a fraction and an exponent."""
    style, places, size = wishes.get("exponent"), wishes.get("decimals"), wishes.get("group") or 999
    if places is not None:
        exact = Decimal(number) if number.isdigit() and exponent is None else float(f"{number}e{exponent or 0}")
        number, exponent = f"{exact:.{places}f}", None
    elif exponent is not None and style == "never" and abs(exponent) < 20:
        number, exponent = f"{Decimal(f'{number}e{exponent}'):f}", None
        number += ".0" * ("." not in number)
    integer, point, fraction = number.partition(".")
    integer = integer.rjust(wishes.get("min_digits", 0), "0")
    integer = re.sub(rf"(?<=\w)(?=(\w{{{size}}})+$)", "_", integer)
    text = integer + point + fraction + ("" if exponent is None else f"^{exponent}")
    text = text.lower() if "lowercase" in wishes else text
    return text if "without_base" in wishes else f"0x{text}h"


class Lists(unittest.TestCase):
    """Loops over what the module lists. Their models are integers of Python and the definitions of docs/FORMS.md."""

    def test_integers_have_the_values_of_their_kinds_in_each_radix_however_they_are_asked_for(self):
        for radix, base, kind in itertools.product(range(2, 37), (None, 3), KINDS):
            floats = {"exponent": "^"} if base else {"exponent": None, "point": None}
            syntax, texts = Syntax.of(radix=radix, exponent_base=base, **floats), [digits(it, radix) for it in LIMITS]
            forms, has_floats = Forms({"": syntax}, kinds={"": kind}, tokens=Tokens()), not base and radix in (2, 4, 8, 10, 16, 32)
            read, wanted = [*map(forms.read, texts)], [valued(kind, it) for it in LIMITS]
            token_of = lambda it: forms.token(it.text).literal.value
            for call in (int, lambda it: it.value, lambda it: forms.parse(it.text, int), token_of):
                self.assertEqual([outcome(call, it) for it in read], wanted, (syntax, kind))
            reals = [float(it) if has_floats and it is not None else None for it in wanted]
            self.assertEqual([outcome(float, it) for it in read], reals, (syntax, kind))
            for code, least, most in (("q", -(2**63), 2**63 - 1), ("Q", 0, 2**64 - 1)):
                fits = [it if it is not None and least <= it <= most else 7 for it in wanted]
                values, wrong, _ = forms.column(texts, code, errors="coerce", fill=7)
                self.assertEqual(([*values], len(wrong)), (fits, fits.count(7)), (syntax, kind))

    def test_offsets_of_other_formats_are_refused(self):
        given = [memoryview(struct.pack(f"3{it}", 0, 1, 2)).cast("B").cast(it) for it in "bBhHiIlLqQnNfd?"]
        given += [array(it, [0, 1, 2]) for it in "bBhHiIlLqQfd"] + [bytearray(3), memoryview(b"\0\1\2").cast("c")]
        kinds = "<i2 >i2 <u2 <i4 >i4 <u4 >u4 <i8 >i8 <u8 >u8 f2 f4 f8 >f8 c8 S1 U1 O" if numpy else ""
        for offsets in [*given, *(numpy.array([0, 1, 2], it) for it in kinds.split())]:
            for data, errors in itertools.product((b"12", bytearray(b"12")), ("raise", "coerce")):
                call = lambda: [*Language.CSV_DE.column((data, offsets), errors=errors).values]
                if memoryview(offsets).format in [*"iIlLqQ"]:
                    self.assertEqual(call(), [1, 2])
                else:
                    self.assertRaisesRegex(TypeError, "^offsets must have one of the formats", call)
            self.assertRaises((TypeError, ValueError), Language.CSV_DE.column, [b"12", offsets], errors="coerce")
        for cells in [("1", "2"), (b"1", b"2"), *([(numpy.str_("1"), numpy.str_("2")), numpy.array([b"1", b"2"])] if numpy else [])]:
            self.assertEqual([*Language.CSV_DE.column(cells).values], [1, 2])
        self.assertEqual(Language.CSV_DE.column((b"1", numpy.float64("nan") if numpy else math.nan)).missing, (1,))

    def test_special_values_are_written_by_each_list_that_reads_them(self):
        base36 = Forms({"": Syntax.of(radix=36, exponent=None, point=None)}, nan="nan", inf="inf", infinity="\u221e")
        kinds = [numpy.float16, numpy.float32, numpy.float64, numpy.longdouble] if numpy else []
        own = [base36, Forms({"": SYNTAX}, nan="inf", inf="inf", infinity="Infinity")]
        for forms, sign, text in itertools.product((*Language, *own), ("", "-"), ("nan", "inf", "infinity")):
            special = Special(sign, Spelling[text.upper()])
            for it in (special, special.decimal(), special.value, *(it(special.value) for it in kinds)):
                shown, names = sign * (isinstance(it, (Special, Decimal)) or text != "nan"), ["inf", "infinity"]
                spelled = [getattr(forms.specials, name) for name in (["nan"] if text == "nan" else names)]
                read = {shown + it: outcome(forms.read, shown + it) for it in spelled if it}
                fit = [it for it, of in read.items() if isinstance(of, Special) and str(of.value) == str(special.value)]
                self.assertEqual(outcome(forms.format_number, it), fit[0] if fit else None, (forms, it))

    def test_each_wish_alone_and_with_each_other_for_each_kind_of_number(self):
        self.assertEqual({*WISHES}, {*inspect.signature(Syntax.format_number).parameters} - {"self", "value"})
        other = lambda name, number: type("Other", (), {name: lambda self: number})()
        hexadecimal = Syntax(SYNTAX.format.edit(mantissa_radix=16, exponent_base=2, exponent_radix=10), "^")
        sized = Syntax(SYNTAX.format, "^", integer_group_size=4)
        whole, part = 2**53 + 1, 1234567.25
        wholes = [whole, Decimal(whole), Fraction(whole), other("__index__", whole), FormatView(whole)]
        parts, reals = [Decimal(str(part)), Fraction(part)], [part, other("__float__", part)]
        if numpy:
            self.assertRaisesRegex(TypeError, "not bool", SYNTAX.format_number, numpy.bool_(True))
            wholes += [numpy.int64(whole), numpy.uint64(whole)]
            reals += [numpy.float32(part), numpy.float64(part), numpy.longdouble(part)]
        rows = [(hexadecimal, "ABCDEF12", None, [0xABCDEF12, SYNTAX.read(str(0xABCDEF12))], [])]
        for by in (SYNTAX, sized):
            rows += [(by, str(whole), None, [*wholes, hexadecimal.read(f"{whole:x}")], []), (by, str(part), None, parts, reals)]
        for by, numbers in ((SYNTAX, "1234567 1234567.25 1.50 12.5^3 12.5^-4 12^280"), (sized, "1234567.12345"), (hexadecimal, "ABCDE AB.CDE")):
            for number, mark, power in (it.partition("^") for it in numbers.split()):
                literals = [*map(by.read, (f"00{number}{mark}{power}", f"00{number}{mark}{power}".encode()))]
                rows.append((by, number, int(power) if mark else None, literals, []))
        each = [{name: value} for name, values in WISHES.items() for value in values]
        pairs = [one | more for one, more in itertools.combinations_with_replacement(each, 2)]
        for wishes, (syntax, *literal, given, floats) in itertools.product(pairs, rows):
            own = {"group": syntax.integer_group_size} if syntax.integer_group_size and wishes.get("group") != 0 else {}
            for by in (syntax, Forms({"": syntax})):
                # Nothing is rounded in radix 16, and only floats have one digit before the point with an exponent.
                rounded = {it: wishes[it] for it in wishes if it != "decimals" or syntax is not hexadecimal}
                if not {"decimals", "exponent"} <= {*rounded}:
                    text = written(rounded | own, *literal)
                    for it in given + floats * ("exponent" not in wishes):
                        self.assertEqual(by.format_number(it, **wishes), text, (it, wishes))
                for it in floats:
                    shown, is_kept = by.format_number(it, **wishes), "decimals" not in wishes
                    self.assertEqual(shown, by.format_number(part, **wishes), (it, wishes))
                    self.assertTrue(not is_kept or by.read(shown).value == part, (it, wishes))

    def test_each_argument_changes_what_is_equal_and_its_hash(self):
        for kind, changes in CHANGES.items():
            self.assertEqual({*changes}, {*inspect.signature(kind).parameters})
            given = [{}, *(NEEDS.get(name, {}) | {name: it} for name, it in changes.items())]
            made, again = ([kind(**FIRST.get(kind, {}) | it) for it in given] for _ in range(2))
            for (at, one), (to, other) in itertools.product(enumerate(made), enumerate(again)):
                self.assertEqual((one == other, one != other, hash(one) == hash(other)), (at == to, at != to, at == to))
            for it in made:
                for same in (pickle.loads(pickle.dumps(it)), copy.deepcopy(it), eval(repr(it))):
                    self.assertEqual((same, hash(same), repr(same)), (it, hash(it), repr(it)))

    def test_suffixes_spans_and_kinds_of_texts_beyond_ascii(self):
        words = ["\u00e9", "\u00e9\u00e9", "k", "k\u00e9", "\u00e9k", "\u65e5\u672c", "_\U0001F600", "u8", "U8", "Qq"]
        kinds = {it: Kind(signed=at, single=at % 2 == 0) for at, it in enumerate(words, 1)}
        suffixes = [Suffixes(" ".join(words), " ".join(words), kinds=kinds, either_case=it) for it in (False, True)]
        rests = ("", ";", " \u00e9", "-\U0001F600;")
        for own, number, rest, encode in itertools.product(suffixes, ("7", "12.5"), rests, (str, str.encode)):
            forms = Forms({"a": SYNTAX}, suffixes={"a": own}, tokens=Tokens(following="if"))
            for word in {*words, *(it.swapcase() for it in words if own.either_case and it.isascii())}:
                token = forms.token(encode(number + word + rest))
                self.assertEqual([token.literal.text, token.suffix, token.rest], [*map(encode, (number, word, rest))])
                first = next(it for it in words if it == word or own.either_case and it.lower() == word.lower())
                for it in (token, pickle.loads(pickle.dumps(token))):
                    self.assertEqual((it, it.literal.kind, it.literal.form), (token, kinds[first], "a"), word)
                literal, left = forms.read_prefix(encode(number + rest))
                self.assertEqual((literal.text, left), (encode(number), encode(rest)))
                with self.assertRaises(LiteralError) as caught:
                    forms.token(encode(number + word + "x" + rest))
                error, span = caught.exception, (len(number), len(encode(number + word + "x")))
                self.assertEqual((error.span, error.valid_up_to, error.kind), (span, len(number), ReadErrorKind.SUFFIX))

        forms = Forms({"": Syntax.of("required_mantissa_digits=false")}, tokens=Tokens(gives_points_back=True))
        with self.assertRaisesRegex(LiteralError, "^the decimal point belongs to what follows$") as caught:
            forms.token("..\u00e9")
        self.assertEqual((caught.exception.kind, caught.exception.span), (ReadErrorKind.POINT, (1, 1)))
        with self.assertRaisesRegex(LiteralError, "^the number cannot end here$") as caught:
            Forms({"": SYNTAX}, suffixes={"": Suffixes(stops=[("7", "-", "")])}, tokens=Tokens()).token("\u00e97-", 1)
        self.assertEqual((caught.exception.kind, caught.exception.valid_up_to, caught.exception.span[0]), (ReadErrorKind.STOP, 2, 2))
        literal = languages.RUST.token("7u8;").literal
        self.assertEqual((eval(repr(literal)), pickle.loads(pickle.dumps(literal))), (literal, literal))


def halved(part):
    """Returns what a pool of processes computes of a part of a column."""
    column = Language.CSV_DE.column(part, errors="coerce")
    own = Forms({"": SYNTAX}).column(("".join(part).encode(), array("q", [0, *itertools.accumulate(map(len, part))])), errors="coerce")
    return column, own, Language.CSV_DE.column(part, Decimal, errors="coerce", fill=Decimal(0))


# The kinds of columns.
COLUMNS = [(float, {}), ("f", {}), ("q", {}), ("Q", {}), (int, {"scale": 1}), (Decimal, {})]


def each_call():
    """Returns calls of each part of the module, with values and errors."""
    forms = Forms({"a": SYNTAX}, nan="x", kinds={"a": Kind(8)}, suffixes={"a": Suffixes("u8", stops=[("", ".", "0")])}, tokens=Tokens())
    text, number, prices = type("Text", (str,), {"__len__": None})("7x"), Language.C.read("0x1F"), [1.5, None, Decimal("2.50")]
    calls = [lambda: forms.token("7u8;\u00e9"), lambda: forms.token("7u9", FormatView(0)), lambda: forms.read(text), lambda: forms.parse("9" * 99, int)]
    calls += [lambda: Language.CSV_DE.column(["1,5", None, "x", "\ud800"], errors="coerce").wrong[0].error.span, lambda: Language.C.column([1.5])]
    calls += [lambda: Language.CSV_DE.format_column(prices, fill="", decimals=2), number.decimal, number.fraction, lambda: number.parts, lambda: forms.read("x")]
    calls += [lambda: Language.CSV_DE.column((b" 1NA", array("i", [0, 2, 4]), b"\3"), fill=Fraction(1, 2), missing=["NA", "-"], strip=True)]
    calls += [lambda: SYNTAX.format_number(10**50, group=3), lambda: SYNTAX.format_number(1.5, decimals=300), lambda: Syntax.of("radix=40"), lambda: repr(SYNTAX)]
    calls += [lambda: forms.format_number(1.5, min_digits=255, group=1), FormatView(-1 & 2**128 - 1).reasons, SYNTAX.format.edits, SYNTAX.format.notes]
    calls += [Language.C._members, SYNTAX.grammar, lambda: Syntax(Format(), "1", "2"), lambda: Syntax.notes_of("radix=2", "radix=3")]
    return [*calls, each_call]


class Extension(unittest.TestCase):
    """What is new with an extension module: memory, threads, processes and interpreters."""

    def test_columns_and_their_errors_come_back_from_a_pool_of_processes(self):
        parts = [["1,5", "x", "2"], ["3", "4,5", "-7x"]]
        with concurrent.futures.ProcessPoolExecutor(2) as pool:
            found = [*pool.map(halved, parts)]
            with self.assertRaises(peltzivar.ColumnError) as caught:
                pool.submit(Language.CSV_DE.column, parts[1]).result()
        self.assertEqual([[str(it) for it in column.values] for column, *_ in found], [["1.5", "nan", "2.0"], ["3.0", "4.5", "nan"]])
        self.assertEqual([(it.index, it.text, str(it)) for column, *_ in found for it in column.wrong],
                         [(1, "x", "unexpected character 'x'"), (2, "-7x", "unexpected character 'x'")])  # fmt: skip
        self.assertEqual([[it.text for it in own.wrong] for _, own, _ in found], [[b"1,5", b"x"], [b"4,5", b"-7x"]])
        self.assertEqual([exact.values for *_, exact in found], [[Decimal("1.5"), 0, 2], [3, Decimal("4.5"), 0]])
        self.assertEqual(str(caught.exception), "cell 2, '-7x': unexpected character 'x'")

    def test_no_call_keeps_memory(self):
        def calls():
            for call in each_call():
                with contextlib.suppress(ValueError, TypeError):
                    call()

        tracemalloc.start()
        self.addCleanup(tracemalloc.stop)
        used = []
        for _ in range(4):
            for _ in range(200):
                calls()
            gc.collect()
            used.append(tracemalloc.get_traced_memory()[0])
        self.assertLess(used[3] - used[1], 20_000, used)

    def test_long_columns_of_each_kind_keep_no_memory(self):
        cells = [None, "x", " 1,5 ", "-", "2"] * 200
        texts = [(it or "").encode() for it in cells]
        buffers = b"".join(texts), array("i", itertools.accumulate(map(len, texts), initial=0)), b"\xbd" * 125
        ways = [*itertools.product((cells, buffers[:2], buffers), ({}, {"missing": ["-"], "strip": True}))]
        for kind, more in (*COLUMNS, ("d", {"out": array("d", bytes(8000))})):
            read = lambda: [len(Language.CSV_DE.column(it, kind, errors="coerce", fill=7, **way, **more).wrong) for it, way in ways]
            read(), gc.collect()
            used = sys.getallocatedblocks()
            for _ in range(500):
                read()
            gc.collect()
            self.assertLess(sys.getallocatedblocks() - used, 99, (kind, more))

    def test_another_thread_runs_while_a_column_of_data_with_offsets_is_read(self):
        data, offsets, valid, turns = b"12" * 50_000, array("q", range(0, 100_001, 2)), b"\xff" * 6250, [0]

        def count():
            while turns[0] >= 0:
                turns[0] += 1
                time.sleep(0)

        # In so many seconds, no thread loses the lock unless it releases it.
        self.addCleanup(sys.setswitchinterval, sys.getswitchinterval())
        sys.setswitchinterval(99)
        thread = threading.Thread(target=count)
        thread.start()
        self.addCleanup(thread.join)
        self.addCleanup(turns.__setitem__, 0, -sys.maxsize)
        ways = [{}, {"missing": ["-"], "strip": True}]
        for (kind, more), way, cells in itertools.product(COLUMNS, ways, ((data, offsets), (data, offsets, valid))):
            for _ in range(99):
                time.sleep(0.001)
                before = turns[0]
                Language.JSON.column(cells, kind, fill=0, **way, **more)
                if turns[0] > before:
                    break
            else:
                self.fail(f"the lock is kept: {kind}, {way}, {more}")

    # Later Pythons crash by themselves if they have no memory for a lambda.
    @unittest.skipUnless(importlib.util.find_spec("_testcapi") and sys.version_info < (3, 12), "_testcapi of Python 3.11")
    def test_an_allocation_that_fails_is_an_error_of_memory(self):
        from _testcapi import remove_mem_hooks, set_nomemory

        self.enterContext(mock.patch("sys.unraisablehook"))

        def found(call):
            try:
                return call()
            except (ValueError, TypeError) as error:
                return str(error)

        for call in each_call()[:-1]:
            wanted, goods, at = found(call), 0, 0
            # Python does without some allocations, and forgets an error if it has no memory for its traceback. Old ones
            # forget a sentence.
            while goods < 99:
                set_nomemory(at, at + 1)
                try:
                    it, goods = found(call), goods + 1
                except (MemoryError, SystemError) as error:
                    of_python = isinstance(error, MemoryError) or re.search(" without .*exception", str(error))
                    it, goods = wanted if of_python else error, 0
                finally:
                    remove_mem_hooks()
                self.assertEqual(repr(it), repr("" if it == "" else wanted), at)
                at += 1

    def test_cycles_through_a_literal_are_collected(self):
        text, forms = type("Text", (str,), {})("1.5"), Forms({"": SYNTAX})
        text.literal, forms.literal = Language.JSON.read(text), forms.read("1")
        alive = [*map(weakref.ref, (text, forms))]
        del text, forms
        gc.collect()
        self.assertEqual([it() for it in alive], [None, None])

    def test_eight_threads_share_what_reads(self):
        cells, data = ["1,5", "x", None] * 1000, b"12" * 3000

        def work(_):
            values, wrong, missing = Language.CSV_DE.column(cells, errors="coerce")
            whole = Language.JSON.column((data, array("i", range(0, 6001, 2))), int, fill=0).values
            return values[0], len(wrong), len(missing), sum(whole), SYNTAX.read("12").value, Language.C.token("\u00e912;"[1:]).end

        with concurrent.futures.ThreadPoolExecutor(8) as threads:
            self.assertEqual({*threads.map(work, range(64))}, {(1.5, 1000, 1000, 36000, 12, 2)})

    def test_an_object_that_nothing_has_made_is_refused(self):
        calls = [Language.C.parse, Language.C.format_number, Language.C.read, Language.C.read_prefix, Language.C.token]
        for kind, call in itertools.product((Syntax, Forms, peltzivar._Reader), calls):
            self.assertRaises((TypeError, AttributeError), lambda: getattr(kind.__new__(kind), call.__name__)("1"))
        literal = peltzivar.Literal.__new__(peltzivar.Literal)
        for call in (float, int, lambda it: it.value, lambda it: it.decimal(), lambda it: it.kind, hash):
            self.assertRaises((TypeError, AttributeError, ValueError), call, literal)

    def test_a_lexer_takes_time_for_its_tokens_alone(self):
        def seconds(first, count):
            text, start = first + count * "12345;", time.process_time()
            # From the last token on: no call goes on from the place of that before.
            for at in range(6 * count - 5, 0, -6):
                Language.C.token(text, at)
            return time.process_time() - start

        for first in " \u00e9\ud800":
            ratios = (seconds(first, 40_000) / seconds(first, 10_000) for _ in range(9))
            self.assertTrue(any(it < 8 for it in ratios), first)
        # What is read of a window of a str is what is read of bytes.
        tails = ("", ";", "..2", ".max", "else 0", "e+x", "_u8", "x", "+1", "-", "\u00e9-1")
        for size, tail, name in itertools.product((1, *range(28, 36), 62), tails, ("C", "RUST", "PYTHON", "RUBY", "CSS")):
            text, places = size * "1" + tail, []
            for given, start in ((f"\u00e9{text}", 1), (text.encode(), 0)):
                try:
                    found = (Language[name].token(given, start).end,)
                except LiteralError as error:
                    found = error.span
                places.append([len(text[: it - start].encode()) if start else it for it in found])
            self.assertEqual(*places, (name, text))
        token = Language.C.token("\u00e9 0x1FuL;\u00e9", 2)
        self.assertEqual((token.literal.text, token.suffix, token.end, token.rest), ("0x1F", "uL", 8, ";\u00e9"))
        with self.assertRaisesRegex(LiteralError, "unknown suffix") as caught:
            Language.C.token("\u00e9\ud800 12xy", 3)
        self.assertEqual((caught.exception.span, caught.exception.valid_up_to), ((5, 7), 5))

    def test_each_python_from_the_oldest_that_is_promised_on(self):
        program = "import peltzivar as it; print(it.languages.C.read('0x1F').value, it.Syntax.of().format_number(1.5), it.languages.CSV_DE.column(['1,5']).values)"
        installed = pathlib.Path(os.environ.get("PYENV_ROOT", os.path.expanduser("~/.pyenv")), "versions").glob("3.*/bin/python3")
        minor = int(OLDEST.split(".")[1])
        for python in [sys.executable, *(it for it in installed if int(it.parent.parent.name.split(".")[1]) >= minor)]:
            ran = subprocess.run([python, "-B", "-W", "error", "-c", program], cwd=TESTS.parent, capture_output=True, text=True)
            self.assertEqual((ran.stdout, ran.stderr), ("31 1.5 array('d', [1.5])\n", ""), python)

    def test_other_interpreters_of_a_process_load_it_or_refuse_to(self):
        interpreters = importlib.import_module("_interpreters" if sys.version_info >= (3, 13) else "_xxsubinterpreters")
        code = f"import sys; sys.path.insert(0, {str(TESTS.parent)!r}); import peltzivar; assert peltzivar.languages.C.parse('0x1F') == 31"
        for _ in range(2):
            other, refused = interpreters.create(), ""
            try:
                refused = str(interpreters.run_string(other, code) or "")
            except RuntimeError as error:
                refused = str(error)
            interpreters.destroy(other)
            # From 3.12 on, an interpreter with a lock of its own takes no module of the stable ABI of 3.11.
            self.assertRegex(refused, "does not support loading in subinterpreters" if sys.version_info >= (3, 12) else "^$")

    @unittest.skipIf("PELTZIVAR_PACKAGE" in os.environ, "an address sanitizer runs")
    def test_the_module_is_sound_with_an_address_sanitizer(self):
        folder = pathlib.Path(tempfile.mkdtemp())
        self.addCleanup(shutil.rmtree, folder)
        shutil.copytree(TESTS.parent / "peltzivar", folder / "peltzivar", ignore=shutil.ignore_patterns("*.so", "__pycache__"))
        archive = pathlib.Path(os.environ["PELTZIVAR_LIBRARY"]).with_suffix(".a")
        command = ["cc", "-std=c11", "-g", "-O1", "-fPIC", "-shared", "-fsanitize=address,undefined", "-I", TESTS.parent, "-I", sysconfig.get_path("include")]
        subprocess.run([*command, TESTS.parent / "peltzivar/_peltzivar.c", archive, "-o", folder / "peltzivar/_peltzivar.abi3.so"], check=True)
        sanitizer = subprocess.run(["cc", "-print-file-name=libasan.so"], capture_output=True, text=True, check=True).stdout.strip()
        variables = {"PELTZIVAR_PACKAGE": str(folder), "LD_PRELOAD": sanitizer, "PYTHONMALLOC": "malloc", "ASAN_OPTIONS": "detect_leaks=0", "PATH": os.environ["PATH"]}
        tests = ["Words", "Literals", "Extension.test_no_call_keeps_memory", "Extension.test_eight_threads_share_what_reads"]
        tests += ["Extension.test_an_object_that_nothing_has_made_is_refused", "Extension.test_a_lexer_takes_time_for_its_tokens_alone"]
        tests += ["Extension.test_cycles_through_a_literal_are_collected"]
        ran = subprocess.run([sys.executable, "-B", __file__, *tests], env=variables, capture_output=True, text=True)
        self.assertEqual((ran.returncode, re.findall("AddressSanitizer|runtime error", ran.stderr)), (0, []), ran.stderr[-3000:])


if __name__ == "__main__":
    unittest.main()
