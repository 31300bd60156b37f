"""Tests of the page: settings."""
from test_base import Walk, Keys, STANDARD, UNLAWFUL


class Settings(Walk):
    def test_bytes_and_options_are_typed(self):
        self.type("#base_prefix", "x")
        self.type("#mantissa_radix", "16")
        self.assertEqual(self.value(), "0x0000100078000000000000000000000C")
        self.assertEqual(self.texts("#bytes .other"), ["", "", "", "", "means 16", "means 16", *3 * [""]])
        self.assertEqual(self.texts(".reason > span"), ["the exponent character 'e' is a digit in radix 16"])
        fields = {"exponent character": "exponent", "mantissa_radix": "mantissa_radix", "exponent_radix": "exponent_radix"}
        self.assertEqual(self.texts(".reason .link"), [*fields])
        for name, field in fields.items():
            self.click(".reason .link", name)
            self.assertEqual(self.focused(), field)
        self.type("#exponent", "p")
        self.assertEqual((self.text("#verdict"), self.texts(".reason > span")), ("", []))
        self.type("#point", "space" + Keys.TAB)
        self.assertEqual((self.run_script("return page.form.point"), self.value("#point")), (32, "SPACE"))
        self.type("#base_prefix", "xyz")
        self.assertIn("the base prefix", self.text("#base_prefix-problem"))
        self.load("#forms=0x0A0A0A000000002C000000000000000C point=44&numbers=1,5")
        self.assertEqual((self.text("#verdict"), self.text("#count")), ("", "1 of 1 as expected"))
        self.assertIn("Numbers are read, since no flag allows the separator, but is_valid_options_punctuation refuses this", self.text("#notes"))

    def test_reasons_lead_to_the_controls_that_they_blame(self):
        self.load(f"#forms={UNLAWFUL} exponent=98 point=98&numbers=1&tab=edit")
        reasons = self.texts(".reason > span")
        self.assertEqual((len(reasons) > 1, self.text("#summary")), (True, f"Nothing is read: {reasons[0]}."))

    def test_words_are_typed_and_refused(self):
        self.type("#word", "0xC" + Keys.ENTER)
        self.assertEqual(self.texts(".reason > span"), ["the mantissa radix 0 is not between 2 and 36"])
        for text in ("<img src=x onerror=alert(1)>", "0x", "0x" + 33 * "0", "\u00e9"):
            self.type("#word", text + Keys.ENTER)
            self.assertEqual(self.find("#word").get_attribute("aria-invalid"), "true")
            self.assertNotEqual(self.text("#word-problem"), "")
        self.type("#literal", "1")
        self.assertEqual(self.value(), "\u00e9")
        rows = {
            "0XA00_0000_0000_0000_0000_0000_000c": STANDARD,
            "12": "0x0000000000000000000000000000000C",
            "radix=16, base_prefix='x'": "0x0000100078000000000000000000000C",
            str(2**128 - 1): "0x" + 32 * "F",
        }
        for text, wanted in rows.items():
            self.type("#word", text + Keys.ENTER + Keys.TAB)
            self.assertEqual(self.value(), wanted)

    def test_an_offer_changes_all_forms_that_read_a_number(self):
        self.load("#language=RUST&numbers=!1_000")
        self.click("#read .use", "refuse _ between digits in all forms")
        self.assertEqual(self.text("#count"), "1 of 1 as expected")
