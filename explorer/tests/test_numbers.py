"""Tests of the page: numbers."""
from test_base import Walk, MIXED_FORM


class Numbers(Walk):
    def test_numbers_are_tried(self):
        self.load("#forms=0x00000A000000005F000000020000000C")
        self.type("#literal", "-0.1_2e-5\n-1_000\n1\u00e95\n!1\n!.x")
        parts = self.run_script("return [...find('read').firstChild.querySelectorAll('.written span')].map((it) => [it.title, it.textContent])")
        self.assertEqual(parts, [
            ["sign", "-"], ["integer", "0"], ["point", "."], ["fraction", "1"], ["digit separator", "_"], ["fraction", "2"],
            ["exponent character", "e"], ["exponent sign", "-"], ["exponent", "5"]])
        self.assertEqual((self.texts("#read > li:nth-child(2) .written"), self.texts("#read mark")), (["-1_000"], ["_", "\u00e9"]))
        self.assertEqual(self.texts("#read p, #read .row"), [
            "accepted: float = -0.0000012",
            "at index 2: unexpected digit separator in the integer after a digit, which requires "
            "integer_internal_digit_separator or integer_trailing_digit_separator",
            "at index 1: unexpected character '\u00e9'",
            "accepted as integer = 1, but it must be refused",
            ".x refused: at index 1: unexpected character 'x'"])
        self.assertEqual(self.text("#count"), "2 of 5 as expected")
        self.load("#forms=0x00000A0000000000000000000000101E&numbers=001%0A%2BInfinity%0A1.%0A1\U0001f6002")
        self.assertEqual((self.texts("#read mark"), self.texts("#read mark span")), (["001", "+", " ", "\U0001f600"], ["0"]))
        self.assertEqual(self.texts("#read .use"), ["allow 01", "allow +1", "allow 5.", "try 1"])

    def test_numbers_are_shown_as_they_are_typed(self):
        shown = "page.change({ numbers: arguments[0] }); return find('read').querySelector('.written').innerText"
        for text in (" 1", "1 ", "1  0", "  ", 1010 * "1"):
            self.assertEqual(self.run_script(shown, text), text.replace(1010 * "1", 1000 * "1" + "\u2026"))

    def test_an_example_is_replaced_by_what_is_typed(self):
        self.assertEqual((self.texts("#read > li"), self.find("#clear").is_displayed()), ([], False))
        self.click("#example")
        self.assertEqual((len(self.texts("#read > li")), self.focused()), (4, "literal"))
        self.select("#language", "JSON")
        self.assertNotIn("1__0", self.value("#literal"))
        self.click("#clear")
        self.assertEqual((self.value("#literal"), self.focused()), ("", "literal"))

    def test_parts_differ_by_more_than_colour(self):
        self.load(f"#forms={MIXED_FORM}&numbers=-0x1_0%2C8p%2B1h%0ANaN".replace("441F", "401F"))
        self.assertEqual(" ".join(self.texts(".legend")).replace("\n", " "), "- sign 0x prefix 1_0 integer , point 8 fraction p exponent character "
            "+ exponent sign 1 exponent h suffix _ digit separator")
        self.load()
        self.type("#literal", "12\u05d03")
        before, mark = (self.run_script(f"return document.querySelector('#read {it}').getBoundingClientRect().toJSON()") for it in (".integer", "mark"))
        self.assertAlmostEqual(before["right"], mark["left"], delta=3)

    def test_a_value_that_is_too_large_is_refused(self):
        self.load("#language=JAVA&numbers=2147483648%0A1%0A!2147483648")
        self.assertEqual((self.text("#count"), self.texts("#read > li:first-child .use")), ("2 of 3 as expected", []))
        self.assertIn("above 2147483647", self.text("#summary"))
