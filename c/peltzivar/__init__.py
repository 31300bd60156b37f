"""Reads numbers in the notation of a language, a file or your own, with their values, and says why a text is not one.

    languages       the notations of languages and files, such as `languages.CSV_DE`, each a `Language`
    Syntax          a notation of your own, which `Syntax.of` makes of settings
    Forms           several syntaxes, such as decimal and hexadecimal numbers
    Literal         a number that `read` has found in a text: its value, also exact, and its parts
    LiteralError    why a text is not a number, and where
    Column          the values of many texts, which `column` reads several times as fast
    ColumnError     which of them are wrong
    Token           a number that `token` has found in source text, with its suffix
    Special         NaN or infinity
    SettingsError   why settings make no syntax

    >>> from peltzivar import Syntax, languages
    >>> languages.TOML.read("1_000.5").value, languages.RUST.parse("0x1F", int)
    (1000.5, 31)
    >>> languages.CSV_DE.column(["1.234,50", "-7", None]).values
    array('d', [1234.5, -7.0, nan])
    >>> prices = Syntax.of(
    ...     digit_separator=".", integer_internal_digit_separator=True, integer_group_size=3, point=","
    ... )
    >>> prices.read("1.234,50").decimal(), prices.format_number(1234.5, group=3, decimals=2)
    (Decimal('1234.50'), '1.234,50')
    >>> prices.read("12.34")
    Traceback (most recent call last):
    peltzivar.LiteralError: expected groups of 3 digits

A value of a wrong type raises a TypeError, and another wrong value a ValueError. `peltzivar.words` has the format of a
syntax, a 128-bit word, with its fields and rules. In the repository, docs/PYTHON.md shows tasks, and docs/FORMS.md
describes literals.
"""

from __future__ import annotations

import contextlib
import functools
import inspect
import math
import operator
import reprlib
import sys
import typing
from array import array
from dataclasses import dataclass, field
from decimal import MAX_EMAX, MIN_EMIN, ROUND_05UP, ROUND_HALF_EVEN, Context, Decimal, DecimalException
from decimal import InvalidOperation, Overflow, Rounded, Subnormal
from fractions import Fraction
from itertools import count
from typing import Any, AnyStr, Dict, Generic, Iterable, Iterator, List, Mapping, Optional, Sequence, SupportsFloat
from typing import SupportsIndex, Tuple, Type, Union, cast

from . import _peltzivar
from .words import *
from .words import _CONDITIONS, _SETTING, Byte, Typed, Value, _byte, _c, _Class, _condition, _encoded, _joined, _Keyed
from .words import _members, _Named, _number, _of, _takes, _typed
from ._peltzivar import ReadErrorKind, Spelling

__all__ = ["Column", "ColumnError", "Forms", "Kind", "Literal", "LiteralError", "Opening", "Parts"]
__all__ += ["ReadErrorKind", "SettingsError", "Special", "Specials", "Spelling", "Suffixes", "Syntax", "Token"]
__all__ += ["Tokens", "WrongCell", "languages"]

__version__: str = _c.VERSION


class SettingsError(ReasonsError):
    """Raised if settings make no syntax. Of more than 100 reasons, it has the first 100."""


class LiteralError(ValueError, metaclass=_Class):
    """Raised if a text is not a literal. `str` returns the cause as a sentence, and `full_sentence` names the flags and
    conditions to blame, too. If the cause is mended, another may follow.

    `text` is what was to be read. `valid_up_to` is the length of the longest beginning of it that some literal begins
    with. If it is the length of the text, characters are missing. `span` is the first index and the end of the
    characters to show, maybe none, as in `text[slice(*span)]`. `kind` is the kind of the cause, and `part` the part of
    a separator or of missing digits. `mask` has the flags to blame as bits of a word, and `conditions` the names of
    conditions. A wrong byte and missing digits blame none. `form` is the name of the form of a language for which most
    of the text is right, or empty.
    """

    sentence: str
    full_sentence: str
    text: Union[str, bytes]
    valid_up_to: int
    span: Tuple[int, int]
    kind: ReadErrorKind
    part: Optional[Part]
    mask: int
    form: str
    conditions: Tuple[str, ...]

    def __getattr__(self, name: str) -> Any:
        """Makes all attributes when the first is asked for."""
        if name not in LiteralError.__annotations__:
            raise AttributeError(name)
        owner, text, *start = self.args
        at, found = start[0] if start else 0, owner._explain(text, start[0] if start else -1)
        self.sentence, self.full_sentence, valid, begin, end, kind, part, mask, form, bits = found
        self.text, self.valid_up_to, self.span = text, at + valid, (at + begin, at + end)
        # Python shows each character, also one that a terminal does not.
        wrong = "" if isinstance(text, bytes) else text[self.valid_up_to : self.valid_up_to + 1]
        if not wrong.isascii() and kind == ReadErrorKind.BYTE.value:
            self.sentence = self.full_sentence = f"unexpected character {wrong!r}"
        self.kind, self.mask = ReadErrorKind(kind), _joined(mask)
        self.part = next(iter(_members(Part, 1 << part)), None)
        self.conditions = tuple(it for bit, it in enumerate(_CONDITIONS) if bits >> bit & 1)
        self.form = owner._listed[form][0]
        return vars(self)[name]

    def __repr__(self) -> str:
        return f"LiteralError({self.sentence!r})"

    @property
    def edits(self) -> Tuple[Edit, ...]:
        """The edits of the format that end the cause: each alone for a separator, and otherwise all together.
        Conditions are not part of a format."""
        return tuple(Edit.of(it, self.kind is ReadErrorKind.SEPARATOR) for it in _members(Setter, self.mask))

    def __str__(self) -> str:
        return self.sentence


@dataclass(frozen=True)
class Parts(Generic[AnyStr], metaclass=_Class):
    """The parts of a literal, in the order of the text. An absent part is empty. The prefix includes the zero before
    it, and a part with digits includes digit separators."""

    sign: AnyStr
    prefix: AnyStr
    integer: AnyStr
    point: AnyStr
    fraction: AnyStr
    exponent_character: AnyStr
    exponent_sign: AnyStr
    exponent: AnyStr
    suffix: AnyStr


class Literal(_Keyed, _peltzivar.Found, Generic[AnyStr]):
    """A text that is a literal of a syntax. `str(literal)` is the text, and `read` makes a literal. If its form has an
    opening, it is what is after it.

    `int(literal)` is the value of an integer, and raises a ValueError for a float and, as for each text, for more than
    4300 digits, unless the radix is a power of two. `float(literal)` is the float that is nearest to the value, or
    `inf` if that is too large. It raises a ValueError if the mantissa radix and the exponent base are neither both 10
    nor both powers of two. These and `value` are those of the `kind` of the form. The others are those of the text.

    Literals are equal if their formats, their parts and their kinds are equal, as in Rust.
    """

    __slots__ = ()
    __match_args__ = ("syntax", "text")
    text: AnyStr
    is_float: bool
    value: Union[int, float]

    def __init__(self, *arguments: object) -> None:
        raise TypeError("`read` of a Syntax or a Language makes a Literal")

    @property
    def syntax(self) -> Syntax:
        """The syntax, which is that of a form of a language if `Language.read` has read the text."""
        return cast(Syntax, self._owner._listed[self._form][1])

    @property
    def form(self) -> str:
        """The name of the form of a language, such as `hexadecimal`. It is empty if `Syntax.read` has read the text."""
        return str(self._owner._listed[self._form][0])

    @property
    def kind(self) -> Kind:
        """The kind of the form or, of a token, of its suffix if that has one."""
        kind, own = self._owner._listed[self._form][2:4]
        word, kinds = _shown(_encoded("a suffix", self._suffix or "")), own.kinds if own else ()
        found = (of for it, of in kinds if word and (it == word or own.either_case and it.lower() == word.lower()))
        return cast(Kind, next(found, kind))

    @property
    def parts(self) -> Parts[AnyStr]:
        """The parts of the text."""
        ends: Tuple[int, ...] = self._ends()
        return Parts(*(self.text[start:end] for start, end in zip((0, *ends), ends)))

    def __int__(self) -> int:
        if (found := self._int()) is not None:
            return found if isinstance(found, int) else cast(int, found[0] << 64 | found[1])
        if self.is_float:
            raise ValueError(f"{reprlib.repr(self.text)} is a float")
        sign, integer, *_ = self._written()
        value, of = int(sign + integer, self.syntax.format.mantissa_radix), self.kind
        if of.signed or of.wraps or of.unsigned and not 0 <= value < 2**of.unsigned:
            raise ValueError(f"{reprlib.repr(self.text)} is too large for its kind")
        return value

    def decimal(self) -> Decimal:
        """Returns the exact value, with the digits and exponent of the text if all radixes are 10. Raises OverflowError
        if it has more than 10^6 digits, and ValueError if a float has a radix with other prime factors than 2 and 5."""
        try:
            return _EXACT.create_decimal(self._plain() or "")
        except DecimalException:
            pass
        digits, places, exponent = self._scaled()
        radix, base = self.syntax.format.mantissa_radix, self.syntax.format.exponent_base
        if self.is_float and not (radix in _FACTORS and base in _FACTORS):
            raise ValueError("a float has an exact decimal value only if its radixes are products of 2 and 5")
        of_radix, of_base = _FACTORS.get(radix, (0, 0)), _FACTORS.get(base, (0, 0))
        twos, fives = (more * exponent - less * places for less, more in zip(of_radix, of_base))
        try:
            if radix == base == 10:
                return _EXACT.create_decimal(f"{digits}E{exponent - places}")
            whole = int(Decimal(digits)) if radix == 10 else int(digits, radix)
            if not whole:
                return Decimal(digits)
            shift = (whole & -whole).bit_length() - 1
            number, twos = Decimal(whole >> shift), twos + shift
            tens = min(twos, fives)
            if max(twos, fives) - tens > 4 * _MOST_DIGITS:
                raise OverflowError
            power = _EXACT.power(2, twos - tens) if twos > fives else _EXACT.power(5, fives - tens)
            return _EXACT.scaleb(_EXACT.multiply(number, power), tens)
        except (DecimalException, OverflowError):
            raise OverflowError(_TOO_LONG) from None

    def scaled(self, places: int) -> int:
        """Returns the value times 10 to the power of `places`, from 0 to 255, as an int: with 2, a price in cents.
        Raises ValueError if it is not whole. All digits of a float count, and an integer has the value of its `kind`.

            >>> languages.CSV_DE.read("1.234,5").scaled(2)
            123450
        """
        if (found := self._times(places := _number("places", places))) is not None:
            return cast(int, found)
        product = (self.fraction() if self.is_float else int(self)) * 10**places
        if product.denominator != 1:
            raise ValueError(_c.describe("value", _c.NOT_WHOLE))
        return int(product)

    def fraction(self) -> Fraction:
        """Returns the exact value. Raises OverflowError if its numerator or denominator has more than 10^6 digits
        before the fraction is reduced."""
        try:
            fraction: Any = object.__new__(Fraction)
            # The two have no common factor, and Fraction would look for one.
            fraction._numerator, fraction._denominator = _NEAR.create_decimal(self._plain() or "").as_integer_ratio()
            return cast(Fraction, fraction)
        except DecimalException:
            pass
        digits, places, exponent = self._scaled()
        radix, base = self.syntax.format.mantissa_radix, self.syntax.format.exponent_base
        number = int(digits, radix)
        up, down = (max(it, 0) if number else 0 for it in (exponent, -exponent))
        above = math.log10(abs(number) or 1) + up * math.log10(base)
        if max(above, places * math.log10(radix) + down * math.log10(base)) >= _MOST_DIGITS:
            raise OverflowError(_TOO_LONG)
        return Fraction(number * base**up, radix**places * base**down)

    def _scaled(self) -> Tuple[str, int, int]:
        """Returns the sign with the digits of the integer and the fraction, the number of the latter, and the
        exponent."""
        sign, integer, fraction, exponent_sign, exponent = self._written()
        digits, of = (integer + fraction).lstrip("0"), self.syntax.format
        if (len(digits) - 1) * math.log10(of.mantissa_radix) >= _MOST_DIGITS:
            raise OverflowError(_TOO_LONG)
        # Of a longer exponent, 64 digits are too many.
        power = int(f"{exponent_sign}{exponent.lstrip('0')[:64] or 0}", of.exponent_radix)
        return f"{sign}{digits or 0}", len(fraction), power

    def _written(self) -> List[str]:
        """Returns the sign, the digits of the integer and of the fraction, the sign of the exponent, and its digits."""
        text, ends, separator = str(self), (0, *self._ends()), self.syntax.format.digit_separator
        return [text[ends[it] : ends[it + 1]].replace(str(separator or ""), "") for it in (0, 2, 4, 6, 7)]

    def digits(self, part: Part) -> AnyStr:
        """Returns the digits of a part without digit separators."""
        _, integer, fraction, _, exponent = self._written()
        digits: Any = (integer, fraction, exponent)[_typed("part", part, Part).value]
        return cast(AnyStr, digits.encode() if isinstance(self.text, bytes) else digits)

    def __str__(self) -> str:
        text: Union[str, bytes] = self.text
        return text.decode() if isinstance(text, bytes) else text

    def _whole(self) -> AnyStr:
        """Returns the text with its opening and its suffix."""
        of_form, suffix = self._owner._listed[self._form][4], self._suffix or self.text[:0]
        opening = of_form.text if of_form else ""
        return cast(AnyStr, (opening.encode() if isinstance(self.text, bytes) else opening) + self.text + suffix)

    def __repr__(self) -> str:
        whole = self._whole()
        owner = repr(self._owner) if isinstance(self._owner, Language) else f"<{type(self._owner).__name__}>"
        return f"{owner}." + (f"read({whole!r})" if self._suffix is None else f"token({whole!r}).literal")

    def _key(self) -> Tuple[Any, ...]:
        return self.syntax.format, self.text, self._ends(), self.kind

    def __reduce__(self) -> Tuple[Any, ...]:
        call = type(self._owner).read if self._suffix is None else _Several._literal_of
        return call, (self._owner, self._whole())


@dataclass(frozen=True)
class WrongCell(metaclass=_Class):
    """A cell of a column that has no value. `str` returns the cause as a sentence. `error` is a LiteralError if the
    text is not a number, and otherwise a ValueError."""

    index: int
    text: Union[str, bytes]
    error: ValueError = field(compare=False)

    def __str__(self) -> str:
        return str(self.error)


@dataclass(frozen=True, eq=False)
class Column(metaclass=_Class):
    """The values of cells. `values` is the `array.array` or the buffer that has them. `wrong` is a sequence of the
    cells that have no value, each of which is made when it is asked for. `missing` has the indexes of missing cells."""

    values: Any
    wrong: Sequence[WrongCell]
    missing: Tuple[int, ...]

    def __iter__(self) -> Iterator[Any]:
        return iter((self.values, self.wrong, self.missing))


@dataclass(eq=False)
class ColumnError(ValueError, metaclass=_Class):
    """Raised if a cell is wrong. `column` has the values of the others, and all wrong cells. `str` shows the first."""

    column: Column

    def __str__(self) -> str:
        first, *others = self.column.wrong[:2]
        shown = f"cell {first.index}, {reprlib.repr(first.text)}: {first}"
        return shown + f", the first of {len(self.column.wrong)} wrong cells" * len(others)


class _Wrong(Sequence[WrongCell]):
    """Wrong cells of texts by their indexes or, if there are none, of data with offsets."""

    def __init__(self, owner: _Reader, texts: Any, data: Any, offsets: Any, strips: bool, status: bytearray) -> None:
        self._owner, self._texts, self._data, self._offsets, self._strips = owner, texts, data, offsets, strips
        self._status = status

    def __reduce__(self) -> Tuple[Any, ...]:
        """Returns what makes the same of the wrong cells alone."""
        texts = {it: self._text(it) for it in self.indexes}
        return _Wrong, (self._owner, texts, b"", None, self._strips, self._status)

    def _text(self, index: int) -> Any:
        """Returns a text, or None if its offsets do not ascend, or are not between the first and the last."""
        if self._texts:
            return self._texts[index]
        start, end = self._offsets[index : index + 2]
        return bytes(self._data[start:end]) if self._offsets[0] <= start <= end <= self._offsets[-1] else None

    def _read_text(self, index: int) -> Any:
        """Returns what is read of a text, which has a place."""
        text = self._text(index)
        return text.strip(_BLANKS if isinstance(text, str) else _BLANKS.encode()) if self._strips else text

    def __len__(self) -> int:
        return len(self._status) - self._status.count(0)

    @functools.cached_property
    def indexes(self) -> List[int]:
        return [index for index, status in enumerate(self._status) if status]

    def __getitem__(self, at: Any) -> Any:
        if isinstance(at, slice):
            return [self[it] for it in range(len(self))[at]]
        text, status = self._text(index := self.indexes[at]), self._status[index]
        if text is None:
            return WrongCell(index, b"", ValueError("the offsets do not ascend here"))
        if status == _c.REFUSED:
            return WrongCell(index, text, LiteralError(self._owner, self._read_text(index)))
        return WrongCell(index, text, ValueError(_TOO_LONG if status == _LONG else _c.describe("value", status)))

    def __repr__(self) -> str:
        return f"<{len(self)} wrong cells>"


class _Writable(typing.Protocol):
    def __len__(self) -> int: ...
    def __setitem__(self, index: int, value: Any, /) -> None: ...


class _Reader(_peltzivar.Reader):
    """What reads texts by forms."""

    _named: Any  # The syntaxes of the forms, by their names.
    # The name, syntax, kind, suffixes and opening of each form, and whether it is only read, and then of those that
    # need a suffix.
    _listed: Any
    read: Any

    def read_prefix(self, text: AnyStr) -> Tuple[Literal[AnyStr], AnyStr]:
        """Returns the longest literal that a text begins with, and the rest. Raises LiteralError if there is none.

            >>> literal, rest = Syntax(Format()).read_prefix("1.25.3")
            >>> literal.text, rest
            ('1.25', '.3')
        """
        literal: Literal[AnyStr] = self._read(text, True)
        return literal, text[len(literal._whole()) :]

    def format_number(
        self, value: Union[SupportsIndex, SupportsFloat, Special], *, group: Optional[int] = None,
        without_base: bool = False, lowercase: bool = False, min_digits: int = 0,
        exponent: Optional[typing.Literal["never", "always"]] = None, decimals: Optional[int] = None
    ) -> str:
        """Returns a number as a literal, or as NaN or infinity of several forms. Reading the text returns the same
        value.

            >>> prices = Syntax.of(digit_separator=".", internal_digit_separator=True, point=",")
            >>> prices.format_number(Decimal("1234567.50"), group=3), prices.format_number(7, decimals=2)
            ('1.234.567,50', '7,00')

        Takes an int, a float, a Decimal, a Fraction, a `Literal`, a `Special`, or an object with `__index__` or
        `__float__`, as numpy has, but no bool. Without `decimals`, the digits of a float are those of `repr` or, if two
        texts are as near to it, those of the upper one. A `Literal` keeps its digits and its exponent, and a Decimal has
        one from 1E+401 on and below 1E-400. Where no exponent is allowed, and in another radix or base, a `Literal` is
        written by its value.

        The other arguments are wishes: what the syntax forbids is not done, and what it requires is. `group` (0 to 254)
        is how many digits a group of the integer has, from the right. 0 is no groups, and None those of the size of the
        syntax, if it has one. `without_base` leaves out the base prefix and suffix. `lowercase` writes digits in
        lowercase, and `min_digits` (0 to 255) at least so many integer digits. `exponent` is "never", for a value
        without one, or "always", for floats. `decimals` (0 to 255) rounds each number, a `Literal` by its `value`, to
        so many digits after the point, as `format(value, ".2f")` does: to the nearest, or to the even one if two are
        as near. In integers alone, and in another radix than 10, it has no effect.

        Of several forms, as those of a Language, the first is taken whose text all of them read as the same integer, as
        a float that is equal to it, or as the same float or, if their floats are all singles, the nearest one. Forms of
        the radix of a `Literal`, or else decimal ones, are asked first, those of a float only if they have floats, and
        then the others. `decimals` leaves out the others. If none is taken, the error is that of the first. An int that
        a form has only with a word is written with one, which `token` reads: `languages.JAVA.format_number(3000000000)`
        is 3000000000L.

        Raises ValueError for NaN and infinity without a spelling that is read as them, for a Fraction that no decimal
        number is equal to, for a sign `-` if no literal has one, for a number that is not whole if literals are
        integers, for an int of more than 4300 digits in radix 10, as `str` does, for a value that is not known to have
        27 digits or, of an int, 128 bits, of a number of another radix than that of the syntax, which is 10 for a float
        and a Decimal, and, of a float, for another exponent base.
        """
        style = _style(group, without_base, lowercase, min_digits, exponent, decimals)
        return self._texts((value,), style, lambda it: self._text_of(it, style))[0]

    def format_column(
        self, numbers: Iterable[Any], *, fill: Optional[str] = None, group: Optional[int] = None,
        without_base: bool = False, lowercase: bool = False, min_digits: int = 0,
        exponent: Optional[typing.Literal["never", "always"]] = None, decimals: Optional[int] = None
    ) -> List[str]:
        """Returns a list, or an array of numpy, as texts, as `format_number` does with the same wishes, several times
        as fast. If `fill` is a text, that of None, NaN and `pandas.NA` is this."""
        style = _style(group, without_base, lowercase, min_digits, exponent, decimals)
        listed: Any = _sequence("numbers", numbers)
        listed = listed.tolist() if hasattr(listed, "tolist") else listed
        other: Any = lambda it: self._text_of(it, style)
        if fill is not None:
            na, fill = _na(), _typed("fill", fill, str)
            is_nan: Any = lambda it: it.is_nan() if isinstance(it, Decimal) else it != it
            other = lambda it: fill if it is None or it is na or is_nan(it) else self._text_of(it, style)
        return self._texts(tuple(listed), style, other)

    def _texts(self, numbers: Tuple[Any, ...], style: Tuple[int, ...], other: Any) -> List[str]:
        """Returns numbers as texts. `other` writes those that C leaves."""
        rounded = None
        if style[-2] and any(it.point and it.format.mantissa_radix == 10 for it in self._named.values()):
            rounded = operator.methodcaller("quantize", Decimal(1).scaleb(-style[-1]), None, _TO_EVEN)
        return cast("List[str]", self._write(numbers, style, other, rounded))

    def _text_of(self, value: Any, style: Tuple[int, ...]) -> str:
        """Returns a number as a text."""
        syntaxes: List[Syntax] = [*self._named.values()]
        if isinstance(self, _Several) and (special := _special_of(value)):
            return self._spelled_as(special)
        radix = 10 if isinstance(self, _Several) else syntaxes[0].format.mantissa_radix
        syntax = next((it for it in syntaxes if it.point and it.format.mantissa_radix == 10), syntaxes[0])
        return str(self._write((_writable(value, radix, syntax, style),), style, None, None)[0])

    @typing.overload
    def parse(self, text: Union[str, bytes], type: Type[int]) -> int: ...
    @typing.overload
    def parse(self, text: Union[str, bytes], type: Type[float] = ...) -> float: ...
    def parse(self, text: Union[str, bytes], type: Any = float) -> Any:
        """Returns the value of a text as a `float` or an `int`, faster than `read` does. Raises LiteralError if the
        text is not a number, and ValueError if an `int` is wanted and it is not an integer."""
        if type is not float and type is not int:
            raise TypeError(f"type must be float or int, not {type!r}")
        number = self.read(text)
        if type is int and isinstance(number, Special):
            raise ValueError(_c.describe("value", _c.SPECIAL))
        return type(number)

    def column(
        self, cells: Union[Iterable[Union[str, bytes, None]], Tuple[Any, Any], Tuple[Any, Any, Any]],
        type: Union[Type[float], Type[Decimal], typing.Literal["d", "f", "q", "Q"]] = float, *,
        errors: typing.Literal["raise", "coerce"] = "raise", fill: Union[float, Decimal, None] = None,
        out: Optional[_Writable] = None, scale: Optional[int] = None, missing: Iterable[Union[str, bytes]] = (),
        strip: bool = False
    ) -> Column:
        """Returns the values of cells, some ten times as fast as `read` does.

        `cells` is a sequence of `str`, such as a column of pandas, or of `bytes`, or a tuple `(data, offsets)` of
        buffers, as Arrow holds texts, with offsets of 32 or 64 bits: `memoryview(offsets).cast("i")` or `"q"` if the
        buffer has bytes, and maybe with Arrow's bits of validity, or None, as a third member. Data that is read-only is
        not copied, and must not change meanwhile. `strip` takes white space of ASCII around a number away. Missing, and
        not wrong, are None, NaN and `pandas.NA` in a sequence, texts that are null by their bits, and those that are
        then one of `missing`, such as `("", "-", "NA")`.
        `type` is `float`, `int`, `Decimal`, whose values are a list, or the format of an array: `d` or `f` for floats,
        `q` or `Q` for integers of 64 bits. `values` is an `array.array`, or `out`, a writable buffer of such a format,
        such as an array of numpy. A cell that is missing or wrong has the value `fill`, which is NaN if it is None, and
        which integers need. With the `errors` "raise", a wrong cell raises ColumnError after the whole column is read.
        With a `scale` from 0 to 255, `type` is `int`, and the values are those of `scaled(scale)` of literals: with 2,
        prices in cents. A product that is neither whole nor of 64 bits is not whole, but from 2^90 on (28 digits), it
        may be too large or too small.
        """
        kind = _format(float if type is Decimal and out is None else type, out)
        if scale is not None and kind != "q":
            raise TypeError("with a scale, type must be int, or the format q")
        places = -1 if scale is None else _number("scale", scale)
        buffers, missing = _buffers_of(cells), _sequence("missing", missing, "a sequence of texts")
        texts = () if buffers else tuple(_sequence("cells", cells))
        data, offsets, valid = buffers or (b"", array("q", [0]), None)
        status, size = bytearray(len(texts) or len(offsets) - 1), {"f": 4}.get(kind, 8)
        if errors not in ("raise", "coerce"):
            raise ValueError(f"errors must be 'raise' or 'coerce', not {errors!r}")
        is_left = fill is None and kind in "qQ"
        fill = fill if fill is not None else 0 if is_left else Decimal("NaN") if type is Decimal else math.nan
        values: Any = array(kind, bytes(size * len(status))) if out is None else _checked(out, len(status))
        filling, known = _filling(kind, fill, type is Decimal), tuple(_encoded("a text of `missing`", it) for it in missing)
        how = filling, _na(), places, _typed("strip", strip, bool), known
        absent = self._column(texts, data, offsets, valid, kind, values, status, *how)
        if is_left and (absent or errors == "coerce"):
            raise ValueError("integers have no NaN: pass `fill`, the value of cells that are missing or wrong")
        wrong = _Wrong(self, texts, data, offsets, strip, status)
        if type is Decimal:
            # A float needs other radixes than a Decimal.
            values, left, codes = [fill] * len(status), {*absent}, (0, _c.RADIX)
            for at, code in enumerate(status):
                if code in codes and at not in left:
                    try:
                        values[at], status[at] = self.read(wrong._read_text(at)).decimal(), 0
                    except (OverflowError, ValueError):
                        status[at] = code or _LONG
        column = Column(values, wrong, absent)
        if wrong and errors == "raise":
            raise ColumnError(column)
        return column


def _na() -> Any:
    """Returns `pandas.NA`, or None without pandas."""
    return getattr(sys.modules.get("pandas"), "NA", None)


_BLANKS = " \t\n\v\f\r"
_OFFSETS = ("i", "I", "l", "L", "q", "Q")
_FORMATS = ("d", "f", "q", "Q")


def _format(type: Any, out: Any) -> str:
    """Returns the format of values. Raises TypeError if it does not fit the type."""
    own = type if isinstance(type, str) and type in _FORMATS else ""
    formats = "df" if type is float else "qQ" if type is int else own
    if not formats:
        raise TypeError(f"type must be float, int, or one of the formats d, f, q and Q, not {type!r}")
    found = formats[:1] if out is None else _view("out", out).format
    found = {"l": "q", "L": "Q"}.get(found, found)
    if found not in _FORMATS or found not in formats:
        raise TypeError(f"out must have the format {' or '.join(formats)}, not {found!r}")
    return found


def _filling(kind: str, fill: Any, is_decimal: bool) -> Any:
    """Returns what cells without a value have. Raises an error if a column of this format does not have it."""
    try:
        filling: Any = array(kind, [fill])
        if not is_decimal and math.isinf(filling[0]) and filling[0] != fill:
            raise OverflowError
        return filling
    except TypeError:
        raise TypeError(f"fill must be a number of the column, not {type(fill).__name__}") from None
    except OverflowError:
        raise ValueError(f"fill is not a value of the column: {fill!r}") from None


def _checked(out: Any, count: int) -> Any:
    """Returns a buffer to which this many values are written. Raises an error if it cannot have them."""
    with _view("out", out) as view:
        if view.shape != (count,):
            raise ValueError(f"out has the shape {view.shape}, and there are {count} cells")
        if view.readonly or not view.contiguous:
            raise TypeError("out must be writable, and have its items one after another")
    return out


def _buffers_of(cells: Any) -> Optional[Tuple[Any, Any, Any]]:
    """Returns bytes, whole offsets of their own, and bits of validity or None. Returns None for a sequence of texts."""
    if type(cells) is not tuple or len(cells) not in (2, 3) or isinstance(cells[1], (str, bytes)):
        return None
    data, given, valid = (*cells, None)[:3]
    try:
        given = memoryview(given)
    except TypeError:
        if isinstance(given, Sequence):
            raise TypeError(f"offsets must be an array, such as array('q', [0, 3]), not {type(given).__name__}") from None
        return None
    if not given.ndim:
        return None
    if given.format not in _OFFSETS:
        raise TypeError(f"offsets must have one of the formats {', '.join(_OFFSETS)}, not {given.format!r}")
    if valid is not None and (valid := _view("validity", valid)).format not in ("B", "b", "c"):
        raise TypeError(f"validity must be bytes, with a bit for each text, and not of the format {valid.format!r}")
    data, offsets = _view("data", data), array("q", bytes(8 * (len(given) or 1)))
    is_kept = data.readonly and data.ndim == data.itemsize == 1 and data.contiguous
    # Offsets of 32 bits are the lower halves of the others.
    halves = given.itemsize == 4
    memoryview(offsets).cast("B").cast(given.format)[: len(given) << halves : 1 + halves] = given
    if offsets[0] < 0 or offsets[-1] > data.nbytes:
        raise ValueError(f"offsets are not within the data, which has {data.nbytes} bytes")
    return data if is_kept else bytes(data), offsets, None if valid is None else bytes(valid)


def _sequence(name: str, given: Any, wanted: str = "a sequence, such as one column of a table") -> Any:
    """Returns a sequence. Raises an error that names the argument if it is a text, a table, or no sequence."""
    is_one = len(getattr(given, "shape", (0,))) == 1 and (hasattr(given, "__iter__") or hasattr(given, "__getitem__"))
    if isinstance(given, (str, bytes, Mapping)) or not is_one:
        raise TypeError(f"{name} must be {wanted}, not {type(given).__name__}")
    return given


def _view(name: str, given: Any) -> memoryview:
    """Returns a buffer. Raises an error that names the argument if it is not one."""
    try:
        return memoryview(given)
    except TypeError:
        raise TypeError(f"{name} must be a buffer, such as an array, not {type(given).__name__}") from None


def _style(
    group: Any, without_base: Any, lowercase: Any, min_digits: Any, exponent: Any, decimals: Any
) -> Tuple[int, ...]:
    """Returns wishes as the members of a style."""
    size = 0 if group is None else _number("group", group, 255, "a number from 0 to 254") or 255
    flags = ("without_base", without_base), ("lowercase", lowercase)
    flags_of, least = [_typed(name, it, bool) for name, it in flags], _number("min_digits", min_digits)
    if exponent not in (None, "never", "always"):
        raise ValueError(f'exponent must be "never" or "always", not {exponent!r}')
    places = 0 if decimals is None else _number("decimals", decimals)
    return size, *flags_of, least, (None, "never", "always").index(exponent), decimals is not None, places


# How often 2 and 5 divide each number that no other prime divides.
_FACTORS = {2**twos * 5**fives: (twos, fives) for twos in range(6) for fives in range(3)}
_MOST_DIGITS = 10**6
# The members of a form behind its syntax, if it has the kind `Kind()`, and nothing else.
_PLAIN = 0, 0, 0, 0, None, None, 0, 0
_TOO_LONG = "the exact value has more than 10^6 digits"
# The status of a cell with such a value, which no call of C returns.
_LONG = 255
_TO_EVEN = Context(_MOST_DIGITS, ROUND_HALF_EVEN, MIN_EMIN, MAX_EMAX, traps=[InvalidOperation])
_EXACT = Context(_MOST_DIGITS, Emin=MIN_EMIN, Emax=MAX_EMAX, traps=[InvalidOperation, Rounded])
# Numbers that are neither long nor far from 1.
_NEAR = Context(400, Emin=-999, Emax=999, traps=[InvalidOperation, Rounded, Overflow, Subnormal])


@dataclass(frozen=True, repr=False)
class Syntax(_Reader, metaclass=_Class):
    """What literals are read by: a format, an exponent character and a decimal point that fit it, and conditions. If
    the exponent character and the decimal point are both None, literals are integers.

        >>> syntax = Syntax(Format.of(radix=16, base_prefix="x", exponent_base=2, exponent_radix=10), exponent="p")
        >>> literal = syntax.read("-0x1.8p3")
        >>> literal.value, literal.parts.fraction, literal.parts.exponent
        (-12.0, '8', '3')

    The conditions are that a literal has the base prefix or the base suffix, that its sign is not `-`, that the digit
    separators of its integer, if there are any, make groups of 2 to 8 digits, as in `1,234`, with groups before the
    last of `higher_group_size`, as in `12,34,567`, and that its first digit is `0`, or one from `0` to `9`. The format is in normal form, so equivalent formats have the same syntax. Raises OptionsError if the
    exponent character or the decimal point does not fit the normal form, if only one of them is None, or if the format
    contradicts a condition.
    """

    format: Format
    exponent: Optional[Byte] = "e"
    point: Optional[Byte] = "."
    required_base_prefix: bool = False
    required_base_suffix: bool = False
    no_negative_mantissa_sign: bool = False
    integer_group_size: Optional[int] = None
    higher_group_size: Optional[int] = None
    required_leading_zero: bool = False
    decimal_first_digit: bool = False
    _notes: Tuple[Note, ...] = field(init=False, repr=False, compare=False)
    _by: Any = field(init=False, repr=False, compare=False)  # The members of the structure.

    def __post_init__(self) -> None:
        notes, options = _typed("format", self.format, Format).notes(), (0, 0)
        format = self.format.normal_form()
        if self.exponent is not None and self.point is not None:
            options = _byte("exponent", self.exponent), _byte("point", self.point)
            found = _c.options_reasons(format._halves, *options)
            if reasons := tuple(Reason(text, _joined(mask), options=_members(Role, of)) for text, mask, of in found):
                raise OptionsError(reasons)
        elif self.exponent is not self.point:
            sentence = str(_c.settings_text(b"exponent=none"))
            raise OptionsError((Reason(sentence, options=(Role.EXPONENT, Role.POINT)),))
        exponent, point = (chr(it) if it else None for it in options)
        conditions = {name: _condition(name, getattr(self, name)) for name in _CONDITIONS}
        by = (*format._halves, *options, *(int(it or 0) for it in conditions.values()))
        _c.make(self, (((None, by, *_PLAIN),), (None, None, None), None), False)
        if sentence := self._notation(3):
            raise OptionsError((Reason(sentence),))
        vars(self).update(conditions, format=format, exponent=exponent, point=point, _notes=notes, _by=by)

    def __repr__(self) -> str:
        conditions = "".join(f", {name}={it!r}" for name in _CONDITIONS if (it := getattr(self, name)))
        return f"Syntax({self.format!r}, {self.exponent!r}, {self.point!r}{conditions})"

    def __reduce__(self) -> Tuple[Any, ...]:
        made = self.format, self.exponent, self.point, *(getattr(self, it) for it in _CONDITIONS)
        return type(self), made, {"_notes": self._notes}

    @classmethod
    def integers(cls, format: Format) -> Syntax:
        """Returns the syntax of the integers of a format."""
        return cls(format, None, None)

    @_of(_peltzivar.settings)
    def of(cls: Any, *settings: Union[Edit, str], **fields: Value) -> Syntax:
        """Returns the syntax that settings make, such as the lines of a file, and then keyword arguments. Raises
        SettingsError if there is none.

            Syntax.of("mantissa_radix = 16", "base_prefix = 'x'", "exponent = 'p'")
            Syntax.of(mantissa_radix=16, base_prefix="x", exponent="p")

        The keyword arguments are the attributes of a `FormatView` that are fields or groups, `radix`, and the other
        attributes of a `Syntax`. A setting has the form that `Edit` takes, and a setting of `exponent` or `point` that
        of `base_prefix`. If both are `none`, or None, literals are integers, and one alone is refused: for floats
        without an exponent, set `no_exponent_notation`. A setting that is blank or begins with `#` is skipped. A
        setting overrides those before it. A digit separator that no flag allows is dropped, and `notes` of the syntax
        reports it: set a flag, such as `integer_internal_digit_separator`, too.
        """
        problems, made = _c.read_settings(text := _lines(settings))
        if problems:
            raise SettingsError(tuple(Reason(*it) for it in _findings(text, range(min(problems, 100)))))
        syntax: Syntax = cls._of_numbers(made)
        vars(syntax).update(_notes=tuple(Note(*it) for it in _findings(text, count())))
        return syntax

    @staticmethod
    @_takes(_peltzivar.settings)
    def notes_of(*settings: Union[Edit, str], **fields: Value) -> Tuple[Note, ...]:
        """Returns the notes on settings that later ones override, the first 32 alone, and on those that have no effect,
        such as a digit separator that no flag allows. `of` returns a syntax with the same ones as its `notes`."""
        text = _lines(settings)
        return tuple(Note(*it) for it in _findings(text, count(_c.read_settings(text)[0])))

    def notes(self) -> Tuple[Note, ...]:
        """Returns the notes on the format or the settings of which the syntax was made. Equal syntaxes can have
        others."""
        return self._notes

    @classmethod
    def _of_numbers(cls, numbers: Tuple[int, ...]) -> Syntax:
        low, high, exponent, point, *conditions = numbers
        given: Any = (it if kind is int else bool(it) for it, kind in zip(conditions, _CONDITIONS.values()))
        return cls(Format(_joined((low, high))), exponent or None, point or None, *given)

    def role_of(self, byte: Byte) -> Optional[Role]:
        """Returns the only role that a byte has in literals, or None."""
        return self.format.role_of(byte, exponent=self.exponent or 0, point=self.point or 0)

    def read(self, text: AnyStr) -> Literal[AnyStr]:
        """Returns a text as a literal. Raises LiteralError if it is not one. The indexes are those of characters in a
        `str`, and of bytes in `bytes`."""
        return cast("Literal[AnyStr]", self._read(text))

    def sentence(self) -> str:
        """Returns a sentence that states what differs from decimal digits with an optional sign, point and exponent."""
        return str(self._notation(0))

    def grammar(self) -> str:
        """Returns a grammar of the literals in the notation of W3C, with a rule a line.

            >>> print(Syntax.integers(Format.of(radix=16, base_prefix="x")).grammar(), end="")
            Literal  ::= [+-]? Prefix? Integer
            Integer  ::= Digit+
            Prefix   ::= "0" [Xx]
            Digit    ::= [0-9A-Fa-f]
        """
        return str(self._notation(1))

    def regex(self) -> str:
        """Returns a regular expression for `re.fullmatch`, of at most 500 characters. It matches a text if and only if
        this is a literal. Special values are left out. JavaScript and Rust take it, too, between `^(?:` and `)$`.

            >>> Syntax.integers(Format.of(radix=16, base_prefix="x")).regex()
            '[+-]?(?:[0][Xx])?[0-9A-Fa-f]+'
        """
        return str(self._notation(2))

    @property
    def _named(self) -> Any:
        return {"": self}

    @property
    def _listed(self) -> Any:
        return [("", self, Kind(), None, None, False)]


def _writable(value: Any, radix: int, syntax: Syntax, style: Tuple[int, ...]) -> Any:
    """Returns a number as what C writes: a float, or a literal. A float is rounded by C, and any other number here. An
    int of more than 128 bits is a literal of the radix."""
    kind, (*_, wish, has_decimals, places) = type(value), style
    # numpy has a bool of its own, with one name or the other.
    if kind.__name__ in ("bool", "bool_") or not (hasattr(kind, "__float__") or hasattr(kind, "__index__")):
        raise TypeError(f"value must be a number or a Literal, not {kind.__name__}")
    is_rounded = has_decimals and syntax.format.mantissa_radix == 10 and syntax.point is not None
    is_literal = isinstance(value, _peltzivar.Found)
    if is_literal and not is_rounded:
        return value
    value = value.value if is_literal else value
    if hasattr(type(value), "__index__"):
        value = operator.index(value)
        if radix != 10 and value.bit_length() > 127:
            return Syntax.integers(Format.of(radix=radix)).read(_digits(value, radix))
        value = value if is_rounded else Decimal(str(value))
    if isinstance(value, Fraction) and not is_rounded:
        is_float = radix != 10 and value.denominator > 1 and value == float(value)
        value = float(value) if is_float else _decimal_of(value)
    if is_rounded and isinstance(value, (int, Fraction)):
        # What is divided so is rounded as the exact quotient is.
        size = value.numerator.bit_length() - value.denominator.bit_length()
        rounding = Context(places + max(0, size) // 3 + 9, ROUND_05UP, MIN_EMIN, MAX_EMAX)
        value = rounding.divide(Decimal(value.numerator), value.denominator)
    if not isinstance(value, Decimal) or not value.is_finite():
        return float(value)
    if not is_rounded:
        return _DECIMALS.read(str(value) if abs(value.adjusted()) > 400 else f"{value:f}")
    if syntax.format.no_exponent_notation or not value or wish != 2:
        return _DECIMALS.read(f"{_TO_EVEN.quantize(value, Decimal(1).scaleb(-places)):f}")
    return _DECIMALS.read(f"{Context(places + 1, ROUND_HALF_EVEN, MIN_EMIN, MAX_EMAX).plus(value):.{places}E}")


def _digits(number: int, radix: int) -> str:
    """Returns an int in a radix."""
    rest, digits = (0, format(abs(number), "X")) if radix == 16 else (abs(number), "")
    while rest:
        rest, digits = rest // radix, "0123456789ABCDEFGHIJKLMNOPQRSTUVWXYZ"[rest % radix] + digits
    return digits if number > 0 else f"-{digits}"


def _decimal_of(value: Fraction) -> Decimal:
    """Returns the Decimal that is equal to a Fraction. Raises ValueError if there is none."""
    twos = (value.denominator & -value.denominator).bit_length() - 1
    fives = round(math.log(value.denominator >> twos, 5))
    if value.denominator != 5**fives << twos:
        raise ValueError(f"no decimal number is equal to {value}")
    places = max(twos, fives)
    return _EXACT.scaleb(Decimal(value.numerator * 10**places // value.denominator), -places)


_DECIMALS = Syntax(Format())


def _string(text: str) -> bytes:
    """Returns a string as one of C, of UTF-8. A surrogate stands for a byte that is not."""
    if "\0" in _typed("a string", text, str):
        raise ValueError(f"a string has a null character: {text!r}")
    return text.encode("utf-8", "surrogateescape")


def _shown(text: Optional[bytes]) -> str:
    """Returns a string of C."""
    return (text or b"").decode("utf-8", "surrogateescape")


def _lines(settings: Iterable[Union[Edit, str]]) -> bytes:
    """Returns settings as the lines of a text."""
    texts = [str(it) if isinstance(it, Edit) else it for it in settings]
    lines = [_encoded("a setting", it, _SETTING).rstrip(b"\r\n") for it in texts]
    if more := [text for text, line in zip(texts, lines) if b"\n" in line]:
        raise ValueError(f"a setting is one line: {reprlib.repr(more[0])}")
    return b"\n".join(lines)


def _findings(text: bytes, wanted: Iterable[int]) -> Iterable[Tuple[str, int, Tuple[int, ...]]]:
    """Returns the text, no mask and the indexes of problems of settings, and then of the notes on them."""
    for index in wanted:
        if not (sentence := _c.settings_text(text, index)):
            break
        yield sentence, 0, tuple(_c.settings_lines(text, index))


@dataclass(frozen=True)
class Special:
    """A special value: its sign, which is `+`, `-` or empty, and its spelling. `float(special)` is its value."""

    sign: str
    spelling: Spelling

    def __post_init__(self) -> None:
        if _typed("sign", self.sign, str) not in ("", "+", "-"):
            raise ValueError(f"sign must be '+', '-' or empty, not {reprlib.repr(self.sign)}")
        _typed("spelling", self.spelling, Spelling)

    @property
    def value(self) -> float:
        """The value, as a float."""
        return float(self)

    def decimal(self) -> Decimal:
        """Returns the value as a Decimal."""
        return Decimal(str(self))

    def __float__(self) -> float:
        return float(str(self))

    def __str__(self) -> str:
        return f"{self.sign}{self.spelling}"


def _special(found: Any) -> Optional[Special]:
    """Returns a special value of its numbers, if there is one."""
    return Special(chr(found[1]) if found[1] else "", Spelling(found[0])) if found else None


def _special_of(value: Any) -> Optional[Special]:
    """Returns a special value, also that of a Decimal, which can have a sign, and None for another number."""
    if not isinstance(value, Decimal):
        return value if isinstance(value, Special) else None
    spelling = Spelling.NAN if value.is_nan() else Spelling.INF
    return None if value.is_finite() else Special("-" * value.is_signed(), spelling)


@dataclass(frozen=True)
class Specials(metaclass=_Class):
    """The spellings of NaN and infinity. A spelling that is None or empty matches no text."""

    nan: Optional[str] = None
    inf: Optional[str] = None
    infinity: Optional[str] = None

    def _spellings(self) -> Tuple[bytes, ...]:
        spellings = tuple(_typed("a spelling", "" if it is None else it, str) for it in vars(self).values())
        if any("\0" in it for it in spellings):
            raise ValueError(f"a spelling has a null character: {self}")
        return tuple(it.encode("utf-8", "surrogatepass") for it in spellings)


class _Several(_Reader):
    specials: Any

    def read(self, text: AnyStr) -> Union[Literal[AnyStr], Any]:
        """Returns the number that a text is: a literal or a special value. Raises LiteralError if it is neither. For
        type checkers, it is a `Literal` or anything, so that they take attributes of both."""
        found: Any = self._read(text)
        return _special(found) if type(found) is tuple else found

    def _spelled_as(self, special: Special) -> str:
        """Returns a special value by the first of its spellings that is read as it."""
        names = ("nan",) if special.spelling is Spelling.NAN else ("inf", "infinity")
        is_signed = next(iter(self._named.values())).format.required_mantissa_sign
        sign = "-" if special.sign == "-" else "+" * is_signed
        for text in (sign + spelling for name in names if (spelling := getattr(self.specials, name))):
            with contextlib.suppress(ValueError):
                if isinstance(found := self.read(text), Special) and repr(found.value) == repr(special.value):
                    return str(text)
        raise ValueError(_c.describe("write", _c.WRITE_SPECIAL))

    def token(self, text: AnyStr, start: int = 0) -> Token[AnyStr]:
        """Returns the number that a text has from the index `start` on as a token, as a lexer reads it: the longest
        literal of a form with the longest of its suffixes. Raises LiteralError if a form goes on behind the number
        without an end, if what follows may not, or if there is no number, and ValueError if there are no rules for
        tokens, or too many words. Special values are names, and no tokens.

            >>> languages.JAVA.token("1.5u99")
            Traceback (most recent call last):
            peltzivar.LiteralError: unknown suffix; known are f, d
        """
        return Token(*self._token(text, start))

    def _literal_of(self, text: AnyStr) -> Literal[AnyStr]:
        """Returns the literal of a token."""
        return self.token(text).literal


class Token(_Keyed, Generic[AnyStr]):
    """A number in a text, its suffix, which is empty if it has none, the index `end` behind it, and what follows:
    `rest`."""

    __slots__ = ("literal", "suffix", "end", "_text")

    def __init__(self, literal: Literal[AnyStr], suffix: AnyStr, end: int, text: AnyStr) -> None:
        self.literal: Literal[AnyStr] = literal
        self.suffix: AnyStr = suffix
        self._text: AnyStr = text
        self.end = end

    @property
    def rest(self) -> AnyStr:
        """What follows, which is a copy."""
        return self._text[self.end :]

    def _key(self) -> Tuple[Any, ...]:
        return self.literal, self.suffix, self.rest

    def __repr__(self) -> str:
        return f"Token(literal={self.literal!r}, suffix={self.suffix!r}, rest={reprlib.repr(self.rest)})"


_LIMITS = None, "largest", "both"


@dataclass(frozen=True)
class Kind(metaclass=_Class):
    """How the values of literals of a form are computed. Without arguments, they are the numbers as they are written.

    An integer is too large if `signed` bits, one of which is its sign, or `unsigned` bits are too few for it. From
    2^(wraps - 1) on, it is 2^wraps less, and too large from 2^wraps on or, if `modulo` is true, its lowest bits count. A
    float is the nearest one of 32 bits if `single` is true. With the limits "largest", a float that would be infinite
    is an error, and with "both", also one that would be 0 and is not. Raises ValueError if two numbers are given, or if
    one is not from 1 to 64, or to 128 for `signed` and `unsigned`.
    """

    signed: Optional[int] = None
    unsigned: Optional[int] = None
    wraps: Optional[int] = None
    modulo: bool = False
    single: bool = False
    limits: Optional[str] = None

    def __post_init__(self) -> None:
        numbers = self.signed, self.unsigned, self.wraps
        bits = [_number("a number of bits", it, 256) for it in numbers if it is not None]
        flags = [_typed(name, getattr(self, name), bool) for name in ("modulo", "single")]
        most = 128 if self.wraps is None else 64
        if len(bits) > 1 or not all(1 <= it <= most for it in bits) or flags[0] and self.wraps is None:
            raise ValueError(f"a kind has one number of bits, from 1 to {most}, and `modulo` only with `wraps`: {self}")
        if self.limits not in _LIMITS:
            raise ValueError(f"limits are None, 'largest' or 'both': {self.limits!r}")

    def _numbers(self) -> Tuple[int, int, int, int]:
        number = 1 if self.signed else 4 if self.unsigned else 0 if not self.wraps else 3 if self.modulo else 2
        bits = int(self.signed or self.unsigned or self.wraps or 0)
        return number, bits, int(self.single), _LIMITS.index(self.limits)

    @classmethod
    def _of(cls, number: int, bits: int, single: int, limits: int) -> Kind:
        signed, unsigned, wraps = (bits if number in own else None for own in ((1,), (4,), (2, 3)))
        return cls(signed, unsigned, wraps, number == 3, bool(single), _LIMITS[limits])


@dataclass(frozen=True)
class Suffixes(metaclass=_Class):
    """The suffixes of a form, which only `token` reads: words directly behind `integers` and `floats`, with spaces
    between them, in this case or in either one, and with `whole_words` a suffix is the whole word behind a number, so
    that `1if` has no suffix `i`. Words have letters, digits, `_`, characters that are not ASCII, and those of
    `word_bytes`, such as `-` for `2n-1` of CSS. One that begins with a digit of the form, such as `5k`, is found only
    where the literal cannot go on with it, as behind a base suffix. Any word that begins with a character of `any` is a
    suffix, too, as in `1_km`. `kinds` has the kinds of numbers by their suffixes, a dict or pairs. A
    number is not a token if it is at one of the `stops`: if it ends in a character of the first string, one of the
    second follows, and then one of the third. An empty string asks for nothing.
    `written` has the words that `format_number` may write behind an integer: the first with which `token` reads all of
    the text as the number. Raises ValueError for another character in a word, and for a null character.

        >>> words = Suffixes("u8 i8", "f32", kinds={"f32": Kind(single=True)}, stops=[("", ".", "0123456789")])
        >>> forms = Forms([("number", Syntax(Format()))], suffixes={"number": words}, tokens=Tokens())
        >>> forms.token("7u8;").suffix, forms.token("0.1f32").literal.value
        ('u8', 0.10000000149011612)
    """

    integers: str = ""
    floats: str = ""
    any: str = ""
    kinds: Union[Mapping[str, Kind], Iterable[Tuple[str, Kind]]] = ()
    stops: Iterable[Iterable[str]] = ()
    either_case: bool = False
    written: str = ""
    whole_words: bool = False
    word_bytes: str = ""

    def __post_init__(self) -> None:
        pairs = self.kinds.items() if isinstance(self.kinds, Mapping) else self.kinds
        kinds = tuple((_typed("a word", it, str), _typed("a kind", kind, Kind)) for it, kind in pairs)
        stops = tuple(tuple(_typed("a stop", it, str) for it in stop) for stop in self.stops)
        vars(self).update(kinds=kinds, stops=stops)
        [_typed(name, vars(self)[name], bool) for name in ("either_case", "whole_words")]
        if any(len(stop) != 3 for stop in stops):
            raise ValueError(f"a stop has three strings: {self.stops}")
        texts = self.integers, self.floats, self.any, self.written, self.word_bytes
        [_string(it) for it in (*texts, *(it for stop in stops for it in stop))]
        known = "_" + self.word_bytes
        if wrong := [it for it in self._words() if any(it.isascii() and not it.isalnum() and it not in known for it in it)]:
            raise ValueError(f"a suffix has letters, digits, `_` and characters that are not ASCII: {wrong[0]!r}")

    def _words(self) -> List[str]:
        return [*self.integers.split(" "), *self.floats.split(" "), *dict(self.kinds)]

    def _members(self) -> Tuple[Any, ...]:
        """Returns the members of the structure."""
        stops = tuple(tuple(map(_string, stop)) for stop in self.stops)
        kinds = tuple((_string(it), *kind._numbers()) for it, kind in cast(Any, self.kinds))
        texts = self.integers, self.floats, self.any, self.written, self.word_bytes
        return *map(_string, texts), kinds, stops, int(self.either_case), int(self.whole_words)

    @classmethod
    def _of(cls, *members: Any) -> Suffixes:
        *texts, kinds, stops, either_case, whole_words = members
        integers, floats, any, written, word_bytes = map(_shown, texts)
        named = [(_shown(word), Kind._of(*numbers)) for word, *numbers in kinds]
        shown = [[*map(_shown, it)] for it in stops]
        return cls(integers, floats, any, named, shown, bool(either_case), written, bool(whole_words), word_bytes)


@dataclass(frozen=True)
class Opening(metaclass=_Class):
    """What stands before each literal of a form: up to 8 characters of ASCII, whose letters are in either case, unless
    it is case-sensitive. A sign stands behind the opening. Raises ValueError for others.

        >>> closed = Syntax.of(radix=16, base_suffix="#", required_base_suffix=True, exponent=None, point=None)
        >>> ada = Forms({"hexadecimal": closed}, openings={"hexadecimal": Opening("16#")})
        >>> ada.read("16#FF#").value
        255
    """

    text: str = ""
    case_sensitive: bool = False

    def __post_init__(self) -> None:
        _typed("case_sensitive", self.case_sensitive, bool)
        if len(_string(self.text)) > 8 or not self.text.isascii():
            raise ValueError(f"an opening has at most 8 characters, which are ASCII: {reprlib.repr(self.text)}")

    def _members(self) -> Tuple[Any, ...]:
        """Returns the members of the structure."""
        return _string(self.text), int(self.case_sensitive)


@dataclass(frozen=True)
class Tokens(metaclass=_Class):
    """The rules by which a list has tokens: forms that need a suffix, which only `token` takes, such as `08f` in Java,
    words that may follow a number directly, with spaces between them, such as `else` in `1else`, whether a point at the
    end of a number is none of its characters if another point or a word follows, as in `1..2` and `1.max(2)`, or if a
    letter does, as in `1.eq.2`, and whether any word may follow, as in `2x`."""

    forms: Optional[Forms] = None
    following: str = ""
    gives_points_back: bool = False
    gives_points_to_letters: bool = False
    any_word_follows: bool = False

    def __post_init__(self) -> None:
        if self.forms is not None:
            _typed("forms", self.forms, Forms)
        _string(self.following)
        self._flags()

    def _flags(self) -> List[int]:
        """Returns the last three members of the structure."""
        names = "gives_points_back", "gives_points_to_letters", "any_word_follows"
        return [int(_typed(name, vars(self)[name], bool)) for name in names]


def _goes_on(syntax: Syntax, word: str) -> bool:
    """Returns whether each literal in front of a word goes on with its first character."""
    of, first = syntax.format, word[:1]
    may_end = of.base_suffix or of.digit_separator or of.no_integer_leading_zeros or of.no_float_leading_zeros
    is_digit = first > "" and first.isascii() and None not in (of.mantissa_digit(first), of.exponent_digit(first))
    return is_digit and not may_end


_OF_FORMS = "kinds", "suffixes", "tokens", "openings", "only_read"


class Forms(_Keyed, _Several, Mapping[str, Syntax]):
    """Several forms of numbers, such as `10` and `0x1F`, and the spellings of NaN and infinity.

    The first form of which a text is a literal decides its parts and its value, so the order matters. If it is a
    literal of none, a spelling may match, by the flags of the first form. A LiteralError is that of the form for which
    most of the text is right. `forms["hexadecimal"]` is the syntax with this name. `kinds` has the kinds of forms, by
    their names, `suffixes` the `Suffixes` of forms, `openings` their `Opening`, `only_read` the names of those by which
    nothing is written, and `tokens` the rules for `token`. They are those of `forms` if these are `Forms`. Raises
    ValueError if there are no forms or more than 64, if two have the same name, if a name is that of no form, if each
    number goes on with the first digit of a suffix, such as `5k`, or if forms that have tokens have more than 256
    words, kinds of suffixes, or stops.
    """

    def __init__(
        self, forms: Union[Mapping[str, Syntax], Iterable[Tuple[str, Syntax]]], *, nan: Optional[str] = None,
        inf: Optional[str] = None, infinity: Optional[str] = None, kinds: Optional[Mapping[str, Kind]] = None,
        suffixes: Optional[Mapping[str, Suffixes]] = None, tokens: Optional[Tokens] = None,
        openings: Optional[Mapping[str, Opening]] = None, only_read: Optional[Iterable[str]] = None
    ) -> None:
        pairs = [*(forms.items() if isinstance(forms, Mapping) else forms)]
        self._named = {_typed("a name", name, str): _typed("a form", it, Syntax) for name, it in pairs}
        if not 0 < len(pairs) == len(self) <= _c.FORMS_MAX:
            names = reprlib.repr([it for it, _ in pairs])
            raise ValueError(f"there are 1 to {_c.FORMS_MAX} forms, no two with the same name: {names}")
        self.specials = Specials(nan, inf, infinity)
        if isinstance(forms, Forms):
            kinds, suffixes = forms.kinds if kinds is None else kinds, forms.suffixes if suffixes is None else suffixes
            tokens, openings = forms.tokens if tokens is None else tokens, forms.openings if openings is None else openings
            only_read = forms.only_read if only_read is None else only_read
        self.kinds: Dict[str, Kind] = self._by_form("a kind", kinds, Kind)
        self.suffixes: Dict[str, Suffixes] = self._by_form("suffixes", suffixes, Suffixes)
        self.openings: Dict[str, Opening] = self._by_form("an opening", openings, Opening)
        self.only_read: Tuple[str, ...] = (*self._by_form("", dict.fromkeys(only_read or (), ""), str),)
        self.tokens: Optional[Tokens] = None if tokens is None else _typed("tokens", tokens, Tokens)
        behind = self.tokens.forms if self.tokens is not None else None
        given = [(self.kinds.get(it, Kind()), self.suffixes.get(it), self.openings.get(it)) for it in self]
        own = [(name, self[name], *of, name in self.only_read) for name, of in zip(self, given)]
        if never := [it for _, syntax, _, more, *_ in own if more for it in more._words() if _goes_on(syntax, it)]:
            raise ValueError(f"a suffix begins with a digit, with which the number goes on: {never[0]!r}")
        self._listed: Any = own + (behind._listed if behind is not None else [])
        made = tuple(
            (None, it._by, *kind._numbers(), more and more._members(), *(opening or Opening())._members(), int(is_read))
            for _, it, kind, more, opening, is_read in own
        )
        forms_behind = behind._made[0] if behind is not None else ()
        rules = self.tokens and (forms_behind, _string(self.tokens.following), *self.tokens._flags())
        self._made: Any = made, self.specials._spellings(), rules
        _c.make(self, self._made, True)
        if self.tokens is not None and isinstance(self._explain(b"", 0), str):
            raise ValueError(f"the forms have more than {_c.WORDS_MAX} words, kinds of suffixes, or stops")

    def _by_form(self, what: str, given: Optional[Mapping[str, Any]], kind: Type[Typed]) -> Dict[str, Typed]:
        """Returns what is given for forms."""
        made = {_typed("a name", name, str): _typed(what, it, kind) for name, it in (given or {}).items()}
        if unknown := [*(made.keys() - self.keys())]:
            raise ValueError(f"there is no form with this name: {unknown[0]!r}")
        return made

    def __getitem__(self, name: str) -> Syntax:
        return cast(Syntax, self._named[name])

    def __iter__(self) -> Iterator[str]:
        return iter(self._named)

    def __len__(self) -> int:
        return len(self._named)

    def __repr__(self) -> str:
        spelled = "".join(f", {name}={it!r}" for name, it in vars(self.specials).items() if it)
        more = "".join(f", {name}={it!r}" for name in _OF_FORMS if (it := getattr(self, name)))
        return f"Forms({[*self.items()]}{spelled}{more})"

    def _key(self) -> Tuple[Any, ...]:
        return *self._listed[: len(self)], self.specials, self.tokens

    def __reduce__(self) -> Tuple[Any, ...]:
        more = {name: getattr(self, name) for name in _OF_FORMS}
        return functools.partial(type(self), **vars(self.specials), **more), ([*self.items()],)


def _forms_of(listed: Any, more: Dict[str, Any]) -> Forms:
    """Returns forms of a language. A name that several of them have is followed by the opening, as in `radix in front 16#`."""
    names = [it[0] for it in listed]
    named = {_shown(name if names.count(name) == 1 else name + b" " + it[6]): it for name, *it in listed}
    kinds = {name: kind for name, it in named.items() if (kind := Kind._of(*it[1:5])) != Kind()}
    suffixes = {name: Suffixes._of(*it[5]) for name, it in named.items() if it[5]}
    openings = {name: Opening(_shown(it[6]), bool(it[7])) for name, it in named.items() if it[6]}
    forms = {name: Syntax._of_numbers(it[0]) for name, it in named.items()}
    only_read = [name for name, it in named.items() if it[8]]
    return Forms(forms, **more, kinds=kinds, suffixes=suffixes, openings=openings, only_read=only_read)


class _Language(_Several, _Named):
    """How a language, or a file, writes numbers. `languages` is another name of this class.

    `read(text)` returns a `Literal` of one of its forms, or a `Special`. Raises LiteralError if the text is neither.
    `forms` has the same forms, with the syntax of each by its name, and the spellings of NaN and infinity. If several
    have one name, the opening is part of it, as in `radix in front 16#`. In the repository, docs/LANGUAGES.md describes
    each language, with its standard, and what no format can accept.
    `Language("c#")` finds a language by its name or its title, whatever the case of ASCII letters is.

    Where `-` is an operator, as in C, numbers have no sign: the language refuses `-5`, so read what is behind it.
    """

    def __init__(self, name: str) -> None:
        _c.make(self, name, True)

    @classmethod
    def _missing_(cls, value: object) -> Any:
        name = str(value).encode().lower()
        return next((it for it in cls if name in (it.name.encode().lower(), it.title.encode().lower())), None)

    @property
    def title(self) -> str:
        """The name for people, such as `C#` or `Haskell 2010`."""
        return _TITLES[self.name]

    @functools.cached_property
    def forms(self) -> Forms:
        """The forms of literals, in the order of the documentation, with the spellings of NaN and infinity."""
        listed, spellings, rules = self._members()
        more: Dict[str, Any] = {it: of.decode() for it, of in zip(("nan", "inf", "infinity"), spellings) if of}
        if rules:
            behind = _forms_of(rules[0], {}) if rules[0] else None
            more["tokens"] = Tokens(behind, _shown(rules[1]), *map(bool, rules[2:]))
        return _forms_of(listed, more)

    @property
    def specials(self) -> Specials:
        """The spellings of NaN and infinity. A language in which they are names, or do not exist, has none."""
        return cast(Specials, self.forms.specials)

    @property
    def _named(self) -> Any:
        return self.forms._named

    @property
    def _listed(self) -> Any:
        return self.forms._listed

    def __repr__(self) -> str:
        return f"languages.{self.name}"


_TITLES: Dict[str, str] = dict(_c.LANGUAGES)
_made: Any = _Language
_c.Language = _made("Language", [(it, it) for it in _TITLES], module=__name__)
_c.Language.__doc__ = _Language.__doc__
from ._peltzivar import Language as Language

languages = Language


for _call in (*vars(_Reader).values(), *vars(_Several).values()):
    if inspect.isfunction(_call) and _call.__name__[0] != "_":
        _call.__qualname__ = _call.__name__  # An error has no name of a private class.
for _of_class, _name in ((_Reader, "parse"), (_Reader, "format_number"), (Syntax, "read"), (_Several, "read")):
    # The method is one of C, with the signature and the documentation of that above, which it calls for what it leaves.
    _call = vars(_of_class)[_name]
    _call.__annotations__.clear()
    _shown_as = str(inspect.signature(_call)).replace("(self", "($self", 1).replace("<class 'float'>", "float")
    setattr(_of_class, _name, _c.fast(_of_class, _call, f"{_name}{_shown_as}\n--\n\n{inspect.getdoc(_call)}"))
_c.register(Literal, LiteralError, Decimal)
