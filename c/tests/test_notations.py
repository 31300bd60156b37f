"""Tests the regular expressions and the grammars of syntaxes: they have the texts that the library reads, and no others.

`make -C c check` compares a tenth of the texts. This compares all of them, in some five minutes:

    EVERY=1 python3 c/tests/test_notations.py
"""
import itertools
import json
import os
import pathlib
import random
import re
import shutil
import subprocess
import sys
import time
import unittest

TESTS = pathlib.Path(__file__).resolve().parent
TOP = TESTS.parent.parent
sys.path.insert(0, str(TESTS.parent))
import peltzivar
from peltzivar import Language, LiteralError, Syntax

EVERY = "EVERY" in os.environ
FLAGS = re.findall(r"^\| \d+ \| `(\w+)` \| (true|false) \|", (TOP / "docs/FORMAT.md").read_text(), re.M)
ROWS = re.findall(r"^\w+ [+-] +(\S+)", (TOP / "rust/tests/literals.txt").read_text(), re.M)
FORMS = [form for language in Language for form in language.forms.values()]
# What a regular expression may have, and the words of a grammar.
PIECES = r"(?:\[(?:\\[tnvfr\\\]\[^]|[^\\\]\[^])+\]|\(\?:|\)|[?*+|]|\{\d(?:,\d)?\})*"
WORD = r"\[.*?\]|\"[^\"]*\"|'[^']*'|#x\w+|\w+|."
# All kinds of a byte, of which the last are not visible or have to be escaped.
BYTES = "_',.~eExXhHpPzZ#&-\"`/ \\[]^\t\n\v\f\r"


def changes():
    """Yields settings that change a flag, or add a condition. A separator in a row needs a place."""
    for name, default in FLAGS:
        part = name.partition("_consecutive_digit_separator")[0]
        yield {name: default == "false"} if part == name else {f"{part}_digit_separator_flags": True}
    for name in peltzivar._CONDITIONS:
        part = name.partition("_group_size")[0].replace("higher", "integer")
        sizes = {"integer_group_size": 2} if name.startswith("higher") else {}
        for size in (2, 3):
            yield {**sizes, name: size, f"{part}_internal_digit_separator": True} if "size" in name else {name: True}


def syntax_of(**fields):
    """Returns a syntax with all bytes, or None if it would not be lawful."""
    if any("separator" in name for name in fields):
        fields.setdefault("digit_separator", "_")
    try:
        return Syntax.of(**{"base_prefix": "x", "base_suffix": "h", **fields})
    except ValueError:
        return None


def grammar_regex(grammar):
    """Returns a regular expression for the first rule of a grammar in the notation of W3C."""
    rows = [re.fullmatch(r"(\w+) +::= (.*)", line).groups() for line in grammar.splitlines()]
    rules = dict(rows)
    used = {"Literal"}

    def translated(word):
        if word in rules:
            used.add(word)
            return f"(?:{expression(word)})"
        text = chr(int(word[2:], 16)) if word.startswith("#x") else word[1:-1] if word[0] in "\"'" else None
        return word.strip() if text is None else re.escape(text)

    def expression(name):
        return "".join(map(translated, re.findall(WORD, rules[name])))

    found = expression("Literal")
    assert sorted(used) == sorted(name for name, _ in rows) and rows[0][0] == "Literal", grammar
    return found


class Texts:
    """The ways to decide whether a text is a literal of a syntax."""

    def __init__(self, syntax, has_grammar=True):
        regex, self.syntax = syntax.regex(), syntax
        assert re.fullmatch(PIECES, regex) and len(regex) <= 500, regex
        self.notations = [regex, grammar_regex(syntax.grammar())][: 1 + has_grammar]
        self.matches = [re.compile(it.encode()).fullmatch for it in self.notations]

    def reads(self, text):
        try:
            return self.syntax.read(text) is not None
        except LiteralError:
            return False

    def compare(self, texts):
        for text in texts:
            is_literal = self.reads(text)
            for matches_all in self.matches:
                if (matches_all(text) is not None) != is_literal:
                    raise AssertionError(f"{text} {is_literal} {self.syntax} {self.notations}")


def all_texts(alphabet, size):
    return (bytes(it) for length in range(size + 1) for it in itertools.product(alphabet, repeat=length))


def random_syntax(at):
    """Returns a lawful syntax whose fields are chosen by chance."""
    while True:
        fields = {name: at.random() < 0.2 for name, _ in FLAGS if not name.startswith("no_special")}
        parts = ("integer", "fraction", "exponent")
        fields.update({f"{it}_digit_separator_flags": True for it in parts if at.random() < 0.3})
        fields.update(dict(zip(("digit_separator", "base_prefix", "base_suffix", "exponent", "point"), at.sample(BYTES, 5))))
        fields["mantissa_radix"], fields["exponent_radix"] = at.choice([2, 8, 10, 10, 11, 16, 36]), at.choice([0, 10, 16])
        fields["exponent_base"] = at.choice([0, 0, 2, 10])
        for change in at.sample(CONDITIONS, at.choice([0, 0, 1, 2])):
            fields.update({name: it if it is True else at.choice([2, 3, 4]) for name, it in change.items()})
        syntax = syntax_of(**fields)
        if syntax:
            return syntax


def random_text(syntax, at):
    """Returns a text like a literal, with one change or none."""
    format, sizes = syntax.format, [getattr(syntax, it) for it in peltzivar._CONDITIONS if "size" in it]
    separator = format.digit_separator or ""

    def run(radix):
        digits = "".join(at.choice("0001" + "123456789abcdefghijklmnopqrstuvwxyzABCDEF"[: radix - 1]) for _ in range(at.choice([0, 1, 1, 2, 3, 4, 8])))
        kind, size = at.random(), at.choice([*filter(None, sizes), 3])
        if kind < 0.3:
            return separator.join(digits[max(0, end - size) : end] for end in range(len(digits) % size or size, len(digits) + size, size))
        if kind < 0.4:
            return separator.join(digits[start : start + size] for start in range(0, len(digits), size))
        return "".join(it + separator * (at.random() < 0.1) for it in ["", *digits]) if kind < 0.7 else digits

    def maybe(*pieces):
        return "".join(pieces) * (at.random() < 0.6)

    sign, prefix, mark = at.choice(["", "", "+", "-"]), format.base_prefix or "", syntax.exponent or ""
    prefix = maybe("0", at.choice([prefix.lower(), prefix.upper(), prefix])) if prefix else ""
    exponent = maybe(at.choice([mark, mark, mark.swapcase()]), at.choice(["", "+", "-"]), run(format.exponent_radix))
    suffix = maybe(at.choice([format.base_suffix or "", (format.base_suffix or "").swapcase()]))
    text = sign + prefix + run(format.mantissa_radix) + maybe(syntax.point or "", run(format.mantissa_radix)) + exponent + suffix
    place, other = at.randrange(len(text) + 1), at.choice(["", "0", "1", "+", "-", separator, prefix[1:], syntax.point or "", mark, "\0"])
    return (text if at.random() < 0.5 else text[:place] + other + text[place + at.choice([0, 1]) :]).encode()


ALPHABETS = b"01+.e_xh", b"01-.E_XH"
CHANGES = [*changes()]
CONDITIONS = CHANGES[len(FLAGS) :]


class Notations(unittest.TestCase):
    def test_all_texts_of_up_to_six_bytes_for_each_flag_and_condition(self):
        for change in CHANGES:
            texts = Texts(syntax_of(**change), False)
            texts.compare(itertools.chain(*(all_texts(it, 6 if EVERY else 5) for it in ALPHABETS)))
            if syntax := syntax_of(**change, exponent=None, point=None):
                Texts(syntax).compare(all_texts(b"012+-_xh", 5 if EVERY else 4))

    def test_all_texts_of_up_to_four_bytes_for_pairs(self):
        for one, other in itertools.combinations(CHANGES, 2):
            if syntax := syntax_of(**one | other):
                Texts(syntax).compare(itertools.chain(*(all_texts(it, 4 if EVERY else 3) for it in ALPHABETS)))

    def test_changed_literals_a_third_of_which_is_accepted(self):
        at = random.Random(1)
        for _ in range(1500 if EVERY else 150):
            texts = Texts(random_syntax(at))
            found = [random_text(texts.syntax, at) for _ in range(300)]
            literals = [it for it in found if texts.reads(it)]
            texts.compare(literals + [it for it in found if not texts.reads(it)][: 2 * len(literals)])

    def test_forms_of_languages(self):
        at = random.Random(2)
        for syntax in FORMS:
            texts = [it.encode() for it in ROWS] + [random_text(syntax, at) for _ in range(1000 if EVERY else 100)]
            Texts(syntax).compare(texts)

    @unittest.skipUnless(shutil.which("node"), "node is missing")
    def test_javascript_matches_the_same_texts(self):
        at = random.Random(3)
        syntaxes = FORMS + [random_syntax(at) for _ in range(1000 if EVERY else 100)]
        rows = [(it, [random_text(it, at) for _ in range(100)]) for it in syntaxes]
        code = "console.log(JSON.stringify(JSON.parse(require('fs').readFileSync(0)).map(([it, texts]) => texts.map("
        code += "text => +new RegExp(`^(?:${it})$`).test(text)))))"
        text = json.dumps([(it.regex(), [text.decode() for text in texts]) for it, texts in rows])
        found = json.loads(subprocess.run(["node", "-e", code], input=text, capture_output=True, text=True, check=True).stdout)
        for (syntax, texts), answers in zip(rows, found):
            self.assertEqual(answers, [*map(Texts(syntax, False).reads, texts)], syntax)

    def test_no_regular_expression_has_more_than_500_characters(self):
        places = ("digit_separator_flags", "internal_digit_separator")
        flags = [it for it, _ in FLAGS if "separator" not in it and "special" not in it and "case" not in it]
        sizes = {it: 8 - ("higher" in it) for it in peltzivar._CONDITIONS if "size" in it}
        for values in itertools.product((False, True), repeat=len(flags)):
            if not EVERY and sum(values) > 3:
                continue
            fields = dict(zip(flags, values))
            for bytes, radix in ((("\\", "]", "[", "^", "\t"), 36), (("\\", "x", "h", "p", "^"), 33 - 9)):
                names = ("digit_separator", "base_prefix", "base_suffix", "exponent", "point")
                for more in ({}, sizes):
                    syntax = syntax_of(**fields, **dict(zip(names, bytes)), digit_separator_flags=True, mantissa_radix=radix, **more)
                    self.assertLessEqual(len(syntax.regex()) if syntax else 0, 500)

    def test_time_grows_with_the_length_alone(self):
        def seconds(match, text):
            start = time.process_time()
            self.assertIsNone(match(text))
            return time.process_time() - start

        for syntax in {*FORMS[:: 1 if EVERY else 5], *map(lambda it: syntax_of(**it), CHANGES)}:
            match, separator = re.compile(syntax.regex().encode()).fullmatch, (syntax.format.digit_separator or "").encode()
            for digits in (b"1", b"0", b"1" + separator, b"111" + separator):
                short, long = (digits * (count // len(digits)) + b"\0" for count in (50_000, 100_000))
                times = (seconds(match, long) <= 3 * seconds(match, short) for _ in range(9))
                self.assertTrue(any(times), syntax.regex())


if __name__ == "__main__":
    unittest.main(verbosity=2)
