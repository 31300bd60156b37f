"""Tests that numbers are written with their values in any syntax, or refused for a reason: `make -C c check`."""
import dataclasses
import math
import pathlib
import random
import struct
import sys
import unittest
from decimal import ROUND_HALF_UP, Context
from fractions import Fraction

sys.path.insert(0, str(pathlib.Path(__file__).resolve().parent.parent))
from peltzivar import Part, Syntax
from test_notations import random_syntax

# These are values of the arguments of format_number that leave the value as it is.
WISHES = {"group": range(5), "min_digits": range(12), "exponent": ("never", "always")}
WISHES |= {it: (True,) for it in ("without_base", "lowercase")}
RADIX = "in this radix or without an exponent, the number has too many digits, or none that are known"
NEGATIVE = "no literal has the sign '-'"
FRACTION = "literals are integers, and the number is not whole"
POWERS = {2, 4, 8, 16, 32}
SPECIAL = "no literal is NaN or infinity, and no spelling is read back as it"


def drawn(at, count):
    """Yields a syntax and wishes, each syntax with some of them."""
    for index in range(count):
        if index % 120 == 0:
            target = random_syntax(at)
            target = dataclasses.replace(target, exponent=None, point=None) if at.random() < 0.25 else target
        yield target, {name: at.choice(values) for name, values in WISHES.items() if at.random() < 0.3}


def random_literal(at, target):
    """Returns a literal of a syntax that requires no digits, often of the radix of the target."""
    radix = target.format.mantissa_radix if at.random() < 0.9 else 10
    base = at.choice([2, 10, radix])
    source = Syntax.of(required_digits=False, radix=radix, exponent_base=base, exponent_radix=10, exponent="^")

    def run(radix, most):
        digits = "0000123456789ABCDEFGHIJKLMNOPQRSTUVWXYZ"[: radix + 3]
        return "".join(at.choice(digits) for _ in range(at.randrange(most)))

    integer, fraction, exponent = run(radix, 7), run(radix, 7), run(10, 4)
    mark, power = "." * bool(fraction), at.choice(["^", "^-"]) * bool(exponent)
    return source.read(at.choice(["", "-"]) + (integer or "0" * (not fraction)) + mark + fraction + power + exponent)


def random_float(at):
    """Returns a float: of any bits, a decimal, or one of any size."""
    (any_bits,) = struct.unpack("d", at.randbytes(8))
    decimal = at.randrange(-(10**9), 10**9) / 10 ** at.randrange(12)
    return at.choice([any_bits, decimal, math.ldexp(-at.random(), at.randrange(-1080, 1024))])


def exact(literal):
    """Returns the value of a literal, and whether its sign is `-`."""
    of, parts, (integer, fraction, exponent) = literal.syntax.format, literal.parts, map(literal.digits, Part)
    number = Fraction(int(integer + fraction or "0", of.mantissa_radix), of.mantissa_radix ** len(fraction))
    power = int(parts.exponent_sign + (exponent or "0"), of.exponent_radix)
    return number * Fraction(of.exponent_base) ** power, parts.sign == "-"


def is_kept(literal, target):
    """Returns whether a literal is written by its own digits and its exponent."""
    of, to, parts = literal.syntax.format, target.format, literal.parts
    has_exponents = target.exponent is not None and not to.no_exponent_notation
    same = [of.exponent_base, of.exponent_radix] == [to.exponent_base, to.exponent_radix]
    is_shown = not parts.point or target.point is not None
    return of.mantissa_radix == to.mantissa_radix and is_shown and (not parts.exponent_character or has_exponents and same)


def is_known(literal, value, target):
    """Returns whether a value surely is known, in units of the last digit behind the point."""
    if not literal.parts.point and not literal.parts.exponent_character:
        return value < 2**128
    radixes = {literal.syntax.format.mantissa_radix, literal.syntax.format.exponent_base}
    most = 255 if target.point is not None and target.format.mantissa_radix == 10 else 0
    units = next((value * 10**n for n in range(most + 1) if (value * 10**n).denominator == 1), 2**90)
    return (radixes == {10} or radixes <= POWERS) and units < 2**90


class Writing(unittest.TestCase):
    def test_numbers_are_read_back_or_refused_in_any_syntax(self):
        at = random.Random(1)
        for index, (target, wishes) in enumerate(drawn(at, 24_000)):
            whole = at.randrange(-(2**63), 2**63) >> at.randrange(64)
            given = whole if index % 4 == 0 else random_literal(at, target)
            value, is_negative = (Fraction(abs(whole)), whole < 0) if given is whole else exact(given)
            reasons = {
                NEGATIVE: is_negative and target.no_negative_mantissa_sign,
                FRACTION: target.point is None and value.denominator != 1,
                RADIX: given is not whole and not is_kept(given, target) and not is_known(given, value, target),
            }
            try:
                found = exact(target.read(target.format_number(given, **wishes)))
            except ValueError as error:
                self.assertTrue(reasons[str(error)], (error, given, target, wishes))
            else:
                self.assertEqual(found, (value, is_negative), (given, target, wishes))

    def test_floats_are_read_back_or_refused_in_any_syntax(self):
        at = random.Random(2)
        for target, wishes in drawn(at, 12_000):
            value, of = random_float(at), target.format
            radixes = {of.mantissa_radix, of.exponent_base}
            reasons = {
                SPECIAL: not math.isfinite(value),
                RADIX: radixes != {10} and not radixes <= POWERS,
                NEGATIVE: math.copysign(1, value) < 0 and target.no_negative_mantissa_sign,
                FRACTION: target.point is None,
            }
            try:
                literal = target.read(target.format_number(value, **wishes))
            except ValueError as error:
                self.assertTrue(reasons[str(error)], (error, value, target, wishes))
                continue
            size, is_negative = exact(literal)
            self.assertEqual(math.copysign(float(size), -is_negative), value, (literal, target, wishes))
            # In radix 10, the digits are the fewest that are read as the value, the nearest of these, or the upper one of two.
            if of.mantissa_radix == 10:
                fewest = len(repr(abs(value)).partition("e")[0].replace(".", "").strip("0"))
                nearest = Context(fewest or 1, ROUND_HALF_UP).create_decimal_from_float(abs(value))
                found = literal.digits(Part.INTEGER) + literal.digits(Part.FRACTION)
                self.assertEqual(found.strip("0"), "".join(map(str, nearest.as_tuple().digits)).strip("0"), (literal, target))


if __name__ == "__main__":
    unittest.main()
