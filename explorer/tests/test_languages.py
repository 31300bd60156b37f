"""Tests of the page: languages."""
import sys

from test_base import Walk, TOP

sys.path.append(str(TOP / "docs"))
import languages  # noqa: E402


class Languages(Walk):
    def test_languages_are_shown_for_each_number(self):
        self.load("#numbers=0x1F%0A1_0%0A!010")
        self.click("#readers p:first-child button")
        shown = self.text("#count"), self.value("#literal"), self.text("#panes [aria-selected=true]")
        self.assertEqual(shown, ("3 of 3 as expected", "0x1F\n1_0\n!010", "Code"))
        self.run_script("page.change({ numbers: ['1'.repeat(1000), '1'.repeat(1001)].join('\\n') })")
        self.assertEqual(len(self.texts("#readers h3")), 1)
        self.click("#clear")
        self.assertEqual(len(self.texts("#readers button")), self.run_script("return page.data.languages.length"))

    def test_languages_are_shown_as_they_are_documented(self):
        rows = [it.split() for it in (TOP / "rust/tests/literals.txt").read_text().splitlines() if it[:1].isalpha()]
        all_shown, all_forms = dict(self.call("shownLanguages")), languages.forms()
        self.assertEqual([*all_shown], [*all_forms])
        for name, (title, about) in languages.documented().items():
            # A form with a suffix that is required is one of tokens alone. Radixes in front are one row.
            forms = [*dict.fromkeys(form for form, *_, words in all_forms[name] if not words.endswith("required"))]
            numbers = [("!" if mark == "-" else "") + text for language, mark, text, *_ in rows if language == name]
            codes, *shown = all_shown[name]
            self.assertEqual(shown, [" ".join(about.replace("`", "").split()), forms, numbers, [], title])
            for code, reader in zip(codes, (f"Language::{name}.", f" peltzivar_language_{name.lower()}().", f"languages.{name}.")):
                self.assertIn(reader, code)

    def test_two_formats_are_compared(self):
        for selector, value, told in (("#compare", "", ""), ("#compare", "standard", "Same format."), ("#add", "copy", "None of the texts that were tried tells them apart.")):
            self.select(selector, value)
            self.assertEqual(self.text("#same"), told)

    def test_texts_tell_two_languages_apart(self):
        for here, there, rows in (
                ("JSON", "C", {"Accepted by JSON and refused by C": "-1 unexpected minus sign, which no_negative_mantissa_sign forbids",
                               "Refused by JSON and accepted by C": "0x1 unexpected character 'x'"}),
                ("CSV_EN", "CSV_DE", {"With another value": "1,000 is 1000 in CSV (English), and 1 in CSV (German)"})):
            self.select("#language", here)
            self.select("#compare", there)
            for title, row in rows.items():
                index = next(it for it, head in enumerate(self.texts("#texts h3")) if head.startswith(title))
                self.assertIn(row, self.texts("#texts > ul")[index].split("\n"))
