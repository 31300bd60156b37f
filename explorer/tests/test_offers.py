"""Tests of the page: offers."""
from test_base import Walk


# What single numbers mean: the value that the first offer gives, or words of the advice.
SAMPLES = {
    "1 234,56": 1234.56, "17q": 15, "FFh": 255, "1D5": 100000, "0x1.8p3": 12, "1F": 1, "0h1F": 31, "0d10": 10, "0y101": 5,
    "1.2.3": "several numbers", "1.1.1.1": "several numbers", "2^10": "not one number", "3+4i": "not one number",
    "1.5x10^5": "not one number", ".inf": "YAML and YAML 1.1", "1:30": "a ratio", "1/2": "a ratio",
    "$FF": 255, "&HFF": 255, "16#FF#": 255, "16#FF": 255, "16rFF": 255, "#xFF": 255, "#b101": 5, "X'FF'": 255, "8'hFF": 255, "'hFF": 255,
    "#FF00AA": 16711850, "#FF": 255, ":16<FF>": 255, "%101": 5, "36rZZ": 1295, "16#FF#E2": "a suffix", "-$FF": "an opening",
    "1,234": 1234, "1.234.567": 1234567, "1'000": 1000, "0b101": 5, "0o17": 15, "0X1F": 31, "1.5f": 1.5, "10L": 10, "0xFFul": "ul is a suffix in C, C++ and",
    "$5": "a currency sign", "1,5": 1.5, "1 000 000,5": 1000000.5, "12,34,567.89": 1234567.89, "1.234,56": 1234.56,
    "101b": 5, "0q17": 15, "0t10": 10, "17o": 15, "101y": 5, "1.5E3L": 1500,
    "1__0": 10, "1_000_": 1000, "6.02D+23": 6.02e23, "deadbeef": 3735928559, "1,000.50": 1000.5, "1e": None, "_1": 1}


class Offers(Walk):
    def test_the_first_offers_are_right(self):
        for text, meant in SAMPLES.items():
            offer, told = self.call("offeredFor", text)
            if isinstance(meant, str):
                self.assertIn(meant, told, text)
            elif meant:
                self.assertEqual(float(offer.partition(" = ")[2]), meant, text)

    def test_a_language_is_changed_in_the_form_that_goes_furthest(self):
        self.type("#literal", "\n0x1_000.5")
        self.select("#language", "JAVA")
        self.click("#read p .link", "hexadecimal float")
        self.assertEqual(self.focused(), "required_exponent_notation")
        self.assertEqual(self.text("#forms [aria-pressed=true]"), "hexadecimal float")
        self.click("#read .use", "allow 1 in hexadecimal float")
        self.assertEqual((self.text("#count"), self.value("#language")), ("1 of 1 as expected", "own"))
