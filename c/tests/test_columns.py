"""Tests the calls of the Python module that return values: `make -C c check`."""
import contextlib
import importlib.util
import io
import itertools
import math
import operator
import pathlib
import re
import sys
import textwrap
import timeit
import unittest
from array import array
from decimal import Decimal
from unittest import mock

TESTS = pathlib.Path(__file__).resolve().parent
sys.path.insert(0, str(TESTS.parent))
import peltzivar
from peltzivar import Format, Language, LiteralError, Syntax

PAGE = (TESTS.parent.parent / "docs/PYTHON.md").read_text()


class Columns(unittest.TestCase):
    def test_cells_of_each_kind(self):
        texts, german = ["1.234,5", "-7", "10"], Language.CSV_DE
        data, offsets = "".join(texts).encode(), [0, 7, 9, 11]
        cells = [texts, tuple(texts), iter(texts), [*map(type("Text", (str,), {}), texts)], [*map(str.encode, texts)], {it: 0 for it in texts}.keys()]
        cells += [(bytearray(data), array(it, offsets)) for it in "iIlLqQ"] + [(memoryview(data), memoryview(array("i", [5, *offsets]))[1:])]
        for it in cells:
            values, wrong, missing = german.column(it)
            self.assertEqual((values, len(wrong), [*wrong], missing), (array("d", [1234.5, -7, 10]), 0, [], ()))
        for syntax in (german, german.forms["decimal"]):
            for kind, given in (("d", float), ("f", float), ("q", int), ("Q", int), ("l", int), ("L", "Q"), ("f", "f")):
                out = array(kind, [7, 7])
                self.assertIs(syntax.column(["5", "6"], given, out=out).values, out)
                self.assertEqual(out, array(kind, [5, 6]))
        self.assertEqual([german.column(it).values for it in ([], (b"", array("i")), (b"", array("q", [0])))], 3 * [array("d")])
        self.assertEqual(german.column(["5"], int).values, array("q", [5]))
        self.assertEqual(Language.JSON.column([str(2**64 - 1)], "Q").values, array("Q", [2**64 - 1]))

    def test_wrong_and_missing_cells(self):
        na = type("NA", (), {"__ne__": lambda self, other: self, "__bool__": None})()
        cells = ["1,5", None, "x", "\u00e9", "2", math.nan, na, "", "5\ud800"]
        encoded = [it.encode("utf-8", "surrogatepass") if isinstance(it, str) else it for it in cells]
        for given, out in itertools.product((cells, encoded), (None, array("d", 9 * [7]))):
            with mock.patch.dict(sys.modules, pandas=mock.Mock(NA=na)):
                values, wrong, missing = Language.CSV_DE.column(given, errors="coerce", out=out)
                filled = Language.CSV_DE.column(given, fill=0, errors="coerce").values
                self.assertEqual([str(it) for it in filled], "1.5 0.0 0.0 0.0 2.0 0.0 0.0 0.0 0.0".split())
                self.assertEqual(Language.CSV_DE.format_column([na, Decimal("sNaN"), 1.5], fill="-"), ["-", "-", "1,5"])
                with self.assertRaises(peltzivar.ColumnError) as caught:
                    Language.CSV_DE.column(given)
            self.assertEqual(([*map(str, values)], missing), ("1.5 nan nan nan 2.0 nan nan nan nan".split(), (1, 5, 6)))
            self.assertEqual([(it.index, it.text) for it in wrong], [(it, given[it]) for it in (2, 3, 7, 8)])
            self.assertEqual((wrong.index(wrong[1]), {wrong[1], wrong[1]}), (1, {wrong[1]}))
            self.assertEqual([it.error.span for it in wrong[:2]] + [wrong[-1].index], [(0, 1), (0, 1 if given is cells else 2), 8])
            self.assertEqual(str(caught.exception), f"cell 2, {given[2]!r}: unexpected character 'x', the first of 4 wrong cells")
            self.assertEqual((caught.exception.column.missing, str(caught.exception.column.wrong[1])), (missing, "unexpected character '\u00e9'"))
        values, wrong, _ = Language.TOML.column(["1", "1.5", "inf", "99999999999999999999", None], int, errors="coerce", fill=-1)
        self.assertEqual((values.tolist(), [str(it)[:5] for it in wrong]), ([1, -1, -1, -1, -1], ["a flo", "NaN o", "above"]))
        self.assertRaisesRegex(TypeError, "^cell 1 must be a str, not float$", Language.CSV_DE.column, ["1,5", 1.5])
        self.assertRaisesRegex(TypeError, "^fill must be a str", Language.CSV_DE.format_column, [None], fill=0)
        for out in (memoryview(bytes(16)).cast("d"), memoryview(array("d", 4 * [0]))[::2]):
            self.assertRaisesRegex(TypeError, "^out must be writable", Language.CSV_DE.column, ["1", "2"], out=out)
        for offsets in itertools.product(range(5), repeat=4):
            wrong = Language.JSON.column((b"1111", array("q", offsets)), errors="coerce").wrong
            outside = [not offsets[0] <= start < end <= offsets[-1] for start, end in zip(offsets, offsets[1:])]
            self.assertEqual([it.index for it in wrong], [index for index, it in enumerate(outside) if it], offsets)
            empty = [offsets[0] <= offsets[it.index] == offsets[it.index + 1] <= offsets[-1] for it in wrong]
            self.assertEqual([str(it)[:12] for it in wrong], ["expected a d" if it else "the offsets " for it in empty])

    def test_blank_null_and_missing_texts_of_each_kind_of_column(self):
        numbers, names, blanks = {"1": 1, "12": 12, "-7": -7}, ["", "-", "NA", "\u00e9"], ["", " ", "\t\r\n", "\v \f"]
        cells = [before + it + after for it in (*numbers, *names, "x", "1 2") for before, after in itertools.product(blanks, repeat=2)]
        encoded, bits = [*map(str.encode, cells)], bytearray(len(cells) // 8 + 1)
        for at in range(0, len(cells), 3):
            bits[at // 8] |= 1 << at % 8
        ends = array("i", itertools.accumulate(map(len, encoded), initial=0))
        data, kinds = b"".join(encoded), [float, Decimal, "f", "q", "Q", "q"]
        rows = itertools.product(enumerate(kinds), (False, True), ((), names, ("-", b"x")), (cells, encoded, (data, ends), (data, ends, bits)))
        for (at, kind), strip, missing, given in rows:
            read = [it.strip(" \t\n\v\f\r") if strip else it for it in cells]
            known = [it if isinstance(it, str) else it.decode() for it in missing]
            absent = [of for of, it in enumerate(read) if it in known or len(given) == 3 and of % 3]
            wrong = [of for of, it in enumerate(read) if of not in absent and (it not in numbers or kind == "Q" and it == "-7")]
            more = {"scale": 2} if at == 5 else {}
            column = Language.CSV_DE.column(given, kind, errors="coerce", fill=99, missing=missing, strip=strip, **more)
            values = [99 if of in absent + wrong else numbers[it] * 10 ** more.get("scale", 0) for of, it in enumerate(read)]
            self.assertEqual(([*column.values], column.missing, [it.index for it in column.wrong]), (values, (*absent,), wrong))
            self.assertEqual([it.text for it in column.wrong], [(cells if given is cells else encoded)[it] for it in wrong])
            for it in column.wrong:
                self.assertIn(getattr(it.error, "text", "-7"), (read[it.index], read[it.index].encode()))
        for wrong, sentence in ((bits[:-2], "fewer bits"), (array("h", [1] * 99), "^validity must be bytes")):
            self.assertRaisesRegex((ValueError, TypeError), sentence, Language.CSV_DE.column, (data, ends, wrong))

    def test_one_text(self):
        rows = [("1.5", float, 1.5), (b"15", int, 15), ("-inf", float, -math.inf)]
        for text, kind, value in [*rows, ("9" * 30, int, int("9" * 30)), ("1" * 99, float, float("1" * 99))]:
            self.assertEqual((type(Language.TOML.parse(text, kind)), Language.TOML.parse(text, kind)), (kind, value))
        for text in ("x", "\u00e9", "\ud800", "", b"\xff", "9" * 99 + "x"):
            self.assertRaises(LiteralError, Language.TOML.parse, text)
        for text, sentence in (("1.5", "is a float"), ("inf", "^NaN or infinity, where an integer")):
            self.assertRaisesRegex(ValueError, sentence, Language.TOML.parse, text, int)
        self.assertRaisesRegex(ValueError, "mantissa radix", Syntax(Format.of(radix=3)).parse, "12")

    def test_integers_with_a_scale(self):
        cells, german = ["1.234,5", "-0,07", None, "1,999", "x", "NaN", "9" * 17, "-92233720368547758,08"], Language.CSV_DE
        values, wrong, missing = german.column(cells, int, errors="coerce", fill=-1, scale=2)
        self.assertEqual((values.typecode, values.tolist(), missing), ("q", [123450, -7, -1, -1, -1, -1, -1, -(2**63)], (2,)))
        self.assertEqual([str(it)[:10] for it in wrong], ["not whole ", "unexpected", "unexpected", "above the "])
        self.assertRegex(str(Language.TOML.column(["inf"], int, errors="coerce", fill=0, scale=2).wrong[0]), "^NaN or infinity")
        long = ["9" * digits + ",5" for digits in range(1, 28)]
        self.assertEqual({str(it)[:9] for it in german.column(long, int, errors="coerce", fill=0, scale=0).wrong}, {"not whole"})
        data, offsets = b"1,5-7x9", array("i", [0, 3, 5, 6, 99, 6, 7])
        self.assertEqual(german.column((data, offsets), int, errors="coerce", fill=0, scale=1).values.tolist(), [15, -70, 0, 0, 0, 90])
        self.assertEqual(german.forms["decimal"].column(["1,5"], "q", scale=3, out=array("l", [0])).values, array("l", [1500]))
        for kind in (float, Decimal, "Q"):
            self.assertRaisesRegex(TypeError, "with a scale", german.column, ["1"], kind, scale=2)
        self.assertRaisesRegex(ValueError, "^scale must be", german.column, ["1"], int, scale=256)
        for text, places, value in (("19,99", 2, 1999), ("9" * 40 + ",5", 3, int("9" * 40 + "500")), ("-0,0", 0, 0), ("12", 30, 12 * 10**30)):
            self.assertEqual(german.read(text).scaled(places), value)
        self.assertEqual((Language.JAVA.read("0xffffffff").scaled(2), Syntax.of(radix=6).read("0.3").scaled(1)), (-100, 5))
        for text, places in (("0,001", 2), ("9" * 40 + ",5", 0)):
            self.assertRaisesRegex(ValueError, "^not whole after scaling", german.read(text).scaled, places)

    def test_columns_of_decimals_and_of_texts(self):
        self.assertEqual(Language.CSV_DE.column(["1.234,50", b"2"[:0].decode() or "7"], Decimal).values, [Decimal("1234.50"), Decimal(7)])
        cells = ["0,10", None, "x", "1,5"]
        values, wrong, missing = Language.CSV_DE.column(cells, Decimal, errors="coerce")
        self.assertEqual((str(values), [it.index for it in wrong], missing), ("[Decimal('0.10'), Decimal('NaN'), Decimal('NaN'), Decimal('1.5')]", [2], (1,)))
        values, wrong, _ = Language.JSON.column([f"1e{10**20}", "1"], Decimal, errors="coerce", fill=0)
        self.assertEqual((values, [*map(str, wrong)]), ([0, 1], ["the exact value has more than 10^6 digits"]))
        self.assertEqual(Syntax.of(radix=5, exponent="^").column(["1.3"], Decimal).values, [Decimal("1.6")])
        offsets = Language.CSV_DE.column((b"1,5-7", array("i", [0, 3, 5])), Decimal).values
        self.assertEqual(offsets, [Decimal("1.5"), Decimal(-7)])
        numbers = [1234.5, 7, Decimal("-0.125"), 10**30], [1e16, -0.0]
        for wishes, values in itertools.product(({}, {"group": 3}, {"decimals": 2}, {"exponent": "always"}), numbers):
            self.assertEqual(Language.JSON.format_column(values, **wishes), [Language.JSON.format_number(it, **wishes) for it in values])
        amounts = [sign * Decimal(it).scaleb(-at) for it in (0, 1, 5, 15, 25, 2**63, 10**30) for at in (0, 1, 2, 9) for sign in (1, -1)]
        for places, given in itertools.product((0, 1, 8), (amounts, [*map(int, amounts)])):
            texts = [f"{Decimal(it):.{places}f}" for it in given]
            self.assertEqual(Language.JSON.format_column(given, decimals=places), texts)
        self.assertEqual(Language.CSV_DE.format_column([math.nan, None, 1.5], fill="-"), ["-", "-", "1,5"])
        self.assertRaisesRegex(ValueError, "NaN or infinity", Language.CSV_DE.format_column, [math.nan])

    @unittest.skipUnless(importlib.util.find_spec("pandas"), "pandas")
    def test_the_german_column_of_the_page(self):
        (code,) = re.findall(r"^(    import pandas.*\n(?:    .*\n)+)", PAGE, re.M)
        names = {"file": io.StringIO("name;price\na;1.234,50\nb;\nc;12,3x\n")}
        with contextlib.redirect_stdout(io.StringIO()) as printed:
            exec(textwrap.dedent(code), names)
        self.assertEqual([*map(str, names["frame"]["price"])], ["1234.5", "nan", "nan"])
        table = ";name;price\n0;a;1.234,50\n1;b;\n2;c;\n"
        self.assertEqual(printed.getvalue(), f"row 2: 12,3x: unexpected character 'x'\n{table}\n")

    def test_times_of_a_cell_are_these_multiples_of_that_of_float(self):
        json, texts = Language.JSON, ["1", "-17", "1000", "3.25", "-12345.678e-9", "0.5", "1000.5e-3", "9007199254740993"] * 100
        data, offsets = "".join(texts).encode(), array("q", [0, *itertools.accumulate(map(len, texts))])
        literals, wrong, gaps = [json.read(it) for it in texts], [it + "x" for it in texts], [None if at % 10 == 0 else it for at, it in enumerate(texts)]

        def refuse(text):
            try:
                json.read(text)
            except LiteralError:
                pass

        # An array of numpy.float64 has objects of a class of its own.
        floats, german, reals = [*map(float, texts)], Language.CSV_DE, [*map(type("Real", (float,), {}), texts)]
        exact, wishes = [*map(Decimal, texts)], {"decimals": 2, "group": 3}
        rows = {
            "parse": (2.5, lambda: [json.parse(it) for it in texts]),
            "value": (5, lambda: [json.read(it).value for it in texts]),
            "refused alone": (8, lambda: [refuse(it) for it in wrong]),
            "decimal": (8, lambda: [it.decimal() for it in literals]),
            "fraction": (12, lambda: [it.fraction() for it in literals]),
            "written": (6, lambda: [german.format_number(it, decimals=2) for it in floats]),
            "column written": (6, lambda: german.format_column(floats, decimals=2)),
            "column written of another class": (6, lambda: german.format_column(reals, decimals=2)),
            "column written of Decimals": (13, lambda: german.format_column(exact, **wishes)),
            "column written of ints": (13, lambda: german.format_column([*map(int, exact)], **wishes)),
            "column": (0.9, lambda: json.column(texts)),
            "missing": (0.9, lambda: json.column(gaps)),
            "other characters": (1.5, lambda: json.column([it or "1\u00e9" for it in gaps], errors="coerce")),
            "offsets": (0.9, lambda: json.column((data, offsets))),
            "refused": (1.5, lambda: json.column(wrong, errors="coerce")),
        }
        plain, buffers, how = lambda: [float(it) for it in texts], (data, offsets), {"missing": ("", "-", "NA"), "strip": True}
        rows = {name: (*row, plain) for name, row in rows.items()}
        rows["missing= and strip="] = 1.2, lambda: json.column(texts, **how), rows["column"][1]
        rows["missing= and strip=, offsets"] = 1.2, lambda: json.column(buffers, **how), rows["offsets"][1]
        rows["validity"] = 1.2, lambda: json.column((*buffers, b"\xff" * 100)), rows["offsets"][1]
        for name, (limit, call, other) in rows.items():
            ratios = []
            while min(ratios, default=math.inf) > limit:
                times = (min(timeit.repeat(it, number=1, repeat=9)) for it in (call, other))
                ratios.append(operator.truediv(*times))
                self.assertLess(len(ratios), 99, f"{name}: {min(ratios):.1f} times that of float or without, above {limit}. Is the machine busy?")


if __name__ == "__main__":
    unittest.main()
