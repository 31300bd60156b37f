"""The format word of a syntax: its fields, rules and errors.

    >>> from peltzivar.words import Format, FormatView
    >>> Format.of(mantissa_radix=16, base_prefix="x").base_prefix
    'x'
    >>> FormatView.of(mantissa_radix=16, base_prefix="b").reasons()[0].text
    "the base prefix 'b' is a digit in radix 16"

A format is a 128-bit word. It is lawful if it satisfies all rules. A `FormatView` holds any word, and a `Format` a
lawful one, of which `peltzivar.Syntax` makes a syntax. `peltzivar` has these names, too. In the repository,
docs/FORMAT.md describes fields and rules.
"""

from __future__ import annotations

import functools
import operator
import reprlib
from abc import ABCMeta
from dataclasses import dataclass
from enum import Enum
from typing import Any, Callable, Dict, Generic, Iterable, Iterator, List, Optional, ParamSpec, Tuple, Type, TypeVar
from typing import Union, cast

from . import _peltzivar

# The calls of C.
_c: Any = _peltzivar

__all__ = ["Edit", "Error", "Format", "FormatError", "FormatView", "Note", "OptionsError", "Part", "Reason"]
__all__ += ["ReasonsError", "Role", "Rule", "Setter", "notes_of"]


class _Named(Enum):
    def __str__(self) -> str:
        return self.name


class _Error(_Named):
    @property
    def description(self) -> str:
        """The description of the error in single quotes."""
        return str(_c.describe("error", self.value))

    def __bool__(self) -> bool:
        return bool(self.value)


# The enumerations: their documentation, and what they have beside their members, which C names.
_ENUMERATIONS: Any = {
    "Setter": (_Named, "The setters. A member has the name of the setter in uppercase."),
    "Rule": (_Named, "The rules, in the order in which they are checked, which docs/FORMAT.md states."),
    "Error": (_Error, "The errors, with their sentences as `description`, and success, which is 0, and false."),
    "Part": (_Named, "The parts of a number that can have digit separators."),
    "Role": (_Named, "The roles of a byte in a number."),
    "ReadErrorKind": (_Named, "The kinds of causes why a text is not a literal."),
    "Spelling": (_Named, "The spellings of special values."),
}
for _name, (_kind, _doc) in _ENUMERATIONS.items():
    _names, _first = _c.MEMBERS.get(_name, ([(it.upper(), number) for it, number in _c.SETTERS], 1))
    _module = "peltzivar" if _name in ("ReadErrorKind", "Spelling") else __name__
    _made: Any = _kind(_name, _names, start=_first, module=_module)
    _made.__doc__ = _doc
    setattr(_c, _name, _made)
from ._peltzivar import Error, Part, Role, Rule, Setter

STANDARD: int = _c.STANDARD[1] << 64 | _c.STANDARD[0]

# A byte: a number from 0 to 255, or one ASCII character.
Byte = Union[int, str, bytes]
# The value of a setting: a bool for a flag or a group, and otherwise a number or a Byte, or None if it is absent.
Value = Union[bool, Byte, None]
Typed = TypeVar("Typed")
View = TypeVar("View", bound="FormatView")
Owner = TypeVar("Owner")
Result = TypeVar("Result")
P = ParamSpec("P")

_RADIXES = (Setter.MANTISSA_RADIX, Setter.EXPONENT_BASE, Setter.EXPONENT_RADIX)
_BYTES = (Setter.DIGIT_SEPARATOR, Setter.BASE_PREFIX, Setter.BASE_SUFFIX)
_SETTERS = {**{it.name.lower(): it for it in Setter}, "radix": Setter.MANTISSA_RADIX}
# The conditions of a syntax, with their types.
_CONDITIONS: Dict[str, Any] = {it: int if it.endswith("size") else bool for it in _c.CONDITIONS}
# The names of the arguments that are fields, and of all settings.
_c.fields = (*_SETTERS,)
_c.settings = (*_SETTERS, "exponent", "point", *_CONDITIONS)
_SETTING = "a str or an Edit (pass a list as `*settings`)"


class _Class(ABCMeta):
    """A class of which `dir`, and so `help`, leaves out what each exception and each data class has."""

    def __dir__(cls) -> List[str]:
        common = {*dir(ValueError), "__post_init__", *(it for it in type.__dir__(Note) if it.startswith("__"))}
        return [it for it in super().__dir__() if it not in common]


class _Keyed(metaclass=_Class):
    """Objects that are equal if their keys are."""

    __slots__ = ()

    _key: Any

    def __eq__(self, other: object) -> bool:
        if (key := getattr(other, "_key", None)) is None:
            return NotImplemented
        return bool(self._key() == key())

    def __hash__(self) -> int:
        return hash(self._key())


def _members(kind: Type[Any], bits: int) -> Tuple[Any, ...]:
    """Returns the members whose numbers are those of bits that are set."""
    return tuple(it for it in kind if bits >> it.value & 1)


def _notes(fields: Tuple[int, ...]) -> Tuple[Note, ...]:
    """Returns the notes on fields."""
    return tuple(Note(text, _joined(mask)) for text, mask in _c.notes(fields))


def _joined(halves: Tuple[int, int]) -> int:
    """Returns the word of two halves."""
    return halves[1] << 64 | halves[0]


def _typed(name: str, value: object, kind: Type[Typed], wanted: str = "") -> Typed:
    """Returns a value of this type. Raises an error that names the argument if the value has another one."""
    if not isinstance(value, kind):
        a = "an" if kind.__name__[0] in "aeiouAEIOU" else "a"
        raise TypeError(f"{name} must be {wanted or f'{a} {kind.__name__}'}, not {type(value).__name__}")
    return value


def _number(name: str, value: Any, limit: int = 256, wanted: str = "a number from 0 to 255") -> int:
    """Returns a number below the limit. Raises an error that names the argument if the value is not one."""
    if isinstance(value, bool) or not hasattr(type(value), "__index__"):
        raise TypeError(f"{name} must be {wanted}, not {type(value).__name__}")
    number = operator.index(value)
    if not 0 <= number < limit:
        raise ValueError(f"{name} must be {wanted}, not {number if number.bit_length() < 64 else hex(number)}")
    return number


def _byte(name: str, value: Any) -> int:
    """Returns a byte as a number. Raises an error that names the argument if the value is not a byte."""
    wanted = "one ASCII character or a number from 0 to 255"
    if not isinstance(value, (str, bytes)):
        return _number(name, value, wanted=wanted)
    if len(value) != 1 or isinstance(value, str) and not value.isascii():
        raise ValueError(f"{name} must be {wanted}, not {reprlib.repr(value)}")
    return ord(value)


def _encoded(name: str, text: object, wanted: str = "a str or bytes") -> bytes:
    """Returns a text as bytes. Raises an error that names the argument if it is not a text."""
    return text if isinstance(text, bytes) else _typed(name, text, str, wanted).encode("utf-8", "surrogatepass")


def _refusal(setting: str) -> str:
    """Returns the reason why a setting is refused."""
    text, name = _encoded("a setting", setting), reprlib.repr(setting.partition("=")[0].strip(" \t\n\f\r"))
    return str(_c.setting_error(text)).replace("unknown setting name", f"unknown setting `{name[1:-1]}`")


class _OfFields(Generic[P]):
    """What type checkers take for a method that takes fields and returns an object of the class."""

    def __get__(self, owner: Optional[Owner], kind: Type[Owner]) -> Callable[P, Owner]:
        raise NotImplementedError


def _takes(names: Callable[P, object]) -> Callable[[Callable[..., Result]], Callable[P, Result]]:
    """Makes a call pass its keyword arguments as settings, in order and behind its other settings."""

    def made(call: Any) -> Any:
        return functools.wraps(call)(lambda *it, **fields: call(*it, *_settings(names, call, fields)))

    return made


def _of(names: Callable[P, object]) -> Callable[[Callable[..., object]], _OfFields[P]]:
    """Does the same for a method."""
    made: Any = lambda call: classmethod(_takes(names)(call)) if call.__name__ == "of" else _takes(names)(call)
    return cast(Callable[[Callable[..., object]], _OfFields[P]], made)


def _settings(names: Any, call: Any, fields: Dict[str, Any]) -> Iterator[Union[Edit, str]]:
    """Returns keyword arguments as settings."""
    if unknown := [it for it in fields if it not in names]:
        setting = f"{unknown[0]}="
        text = _c.settings_text(setting.encode()) if "point" in names else _refusal(setting)
        raise TypeError(f"{call.__name__}() got an unexpected keyword argument {unknown[0]!r}: {text}")
    for name, value in fields.items():
        if name in _CONDITIONS:
            yield f"{name}={str(_condition(name, value)).lower()}"
        elif name in _SETTERS:
            yield Edit.of(name, value)
        else:
            yield f"{name}={'none' if value is None else _byte(name, value)}"


def _condition(name: str, value: Value) -> Optional[int]:
    """Returns the value of a condition, None for 0. Raises an error that names it if it does not take the value."""
    if _CONDITIONS[name] is bool:
        return _typed(name, value, bool)
    return None if value is None else _number(name, value) or None


@dataclass(frozen=True, init=False, repr=False)
class Edit(metaclass=_Class):
    """An edit: a setter and its value, parsed from a text NAME=VALUE such as `Edit("digit_separator='_'")`.

    A flag or a group takes `true` or `false`, and a byte a number such as 95 or `0x5F`. Every byte except
    `mantissa_radix` also takes `none`, and a separator, prefix or suffix a character in single quotes. White space
    around the name and the value is skipped. `radix` is another name of `mantissa_radix`. Raises ValueError if the text
    is not a setting. `value` is a bool, an ASCII character, a number, or None. A byte of 128 or more is a number.
    """

    setter: Setter
    value: Union[bool, int, str, None]

    def __init__(self, text: str) -> None:
        if not (edit := _c.parse_edit(_encoded("a setting", _typed("a setting", text, str)))):
            raise ValueError(f"{text}: {_refusal(text)}")
        vars(self).update(setter=Setter(edit[0]), value=_value(Setter(edit[0]), edit[1]))

    @classmethod
    def of(cls, setter: Union[Setter, str], value: Value) -> Edit:
        """Returns the edit with this setter, or the setter with this name, and this value, such as
        `Edit.of("digit_separator", "_")`. Raises TypeError or ValueError if the setter does not take the value."""
        text = setter.strip(" \t\n\f\r") if isinstance(setter, str) else ""
        named = _SETTERS.get(text) if isinstance(setter, str) else _typed("setter", setter, Setter)
        if named is None:
            raise ValueError(f"setter {reprlib.repr(setter)}: {_refusal(f'{setter}=')}")
        vars(edit := cls.__new__(cls)).update(setter=named, value=_value(named, _number_of(named, value)))
        return edit

    @property
    def name(self) -> str:
        """The name of the setter in lower case."""
        return self.setter.name.lower()

    @property
    def mask(self) -> int:
        """A mask of the bits of a word that the edit writes."""
        return _joined(_c.describe("mask", self.setter.value))

    def _numbers(self) -> Tuple[int, int]:
        return self.setter.value, int(_number_of(self.setter, self.value))

    def __str__(self) -> str:
        return str(_c.describe("edit", *self._numbers()))

    def __repr__(self) -> str:
        return f"Edit({str(self)!r})"


def _number_of(setter: Setter, value: Value) -> int:
    """Returns the number of a value. Raises an error that names the setter if it does not take the value."""
    name = setter.name.lower()
    if value is None and (setter in _BYTES or setter in _RADIXES[1:]):
        return 0
    if setter in _BYTES or setter in _RADIXES:
        return _byte(name, value) if setter in _BYTES else _number(name, value)
    return _typed(name, value, bool)


def _value(setter: Setter, number: int) -> Union[bool, int, str, None]:
    """Returns the value that a setter has as this number."""
    if setter in _BYTES:
        return chr(number) if 0 < number < 128 else number or None
    if setter in _RADIXES:
        return None if number == 0 and setter != Setter.MANTISSA_RADIX else number
    return bool(number)


@dataclass(frozen=True)
class Note(metaclass=_Class):
    """A note on fields that have no effect, with a mask of their bits, or on settings, with their indexes."""

    text: str
    mask: int = 0
    indexes: Tuple[int, ...] = ()

    def __str__(self) -> str:
        return self.text


@dataclass(frozen=True)
class Reason(Note):
    """A reason why a word is not lawful, or why options do not fit it: its text, a mask of the bits that it blames, the
    rules that it breaks, and the options that it blames, which are `Role.EXPONENT` and `Role.POINT`. An edit is to
    blame if its mask has a bit in common with this mask that no later edit writes. If settings cause the reason, it has
    the indexes of those to blame instead."""

    rules: Tuple[Rule, ...] = ()
    options: Tuple[Role, ...] = ()


@dataclass(eq=False)
class ReasonsError(ValueError, metaclass=_Class):
    """Raised with the reasons why there is no such format or syntax. Options are checked if the format is lawful."""

    reasons: Tuple[Reason, ...]

    def __str__(self) -> str:
        return "; ".join(reason.text for reason in self.reasons)


@dataclass(eq=False)
class FormatError(ReasonsError):
    """Raised if a word is not lawful. `view` is the view of the word, and `error` its error."""

    view: FormatView
    error: Error


class OptionsError(ReasonsError):
    """Raised if an exponent character and a decimal point do not fit a format, or if it contradicts a condition."""


class _Field:
    """A field or a group of a view. Its name is the name of its setter."""

    def __init__(self, meaning: str) -> None:
        self.__doc__ = meaning

    def __set_name__(self, owner: type, name: str) -> None:
        self._name, self._setter = name, _SETTERS[name]
        self._mask = _joined(_c.describe("mask", self._setter.value))

    def __get__(self, view: Optional[FormatView], owner: type) -> Any:
        if view is None:
            return self
        if self._setter not in _BYTES + _RADIXES:
            return view._word & self._mask != 0
        byte = _c.fields_of(view._halves)[1 + (*_BYTES, *_RADIXES).index(self._setter)]
        return _value(self._setter, byte) if self._setter in _BYTES else byte

    def __set__(self, view: FormatView, value: Value) -> None:
        raise AttributeError(f"a view does not change: edit({self._name}={value!r}) returns another one")

    def __repr__(self) -> str:
        return f"<field {self._name}>"


# Fields of each type: flags, bytes with a role, and radixes.
_flag = cast(Callable[[str], bool], lambda meaning: _Field(f"Whether {meaning}."))
_mark = cast(Callable[[str], Union[str, int, None]], lambda meaning: _Field(f"The {meaning}, or None if it is absent."))
_radix = cast(Callable[[str], int], lambda meaning: _Field(f"The {meaning}."))


class FormatView(_Keyed):
    """A view of a format word, lawful or not. `int(view)` is the word, and `str(view)` is its text.

    An absent digit separator, base prefix or base suffix is None. An absent exponent base or exponent radix has the
    value of the mantissa radix. Raises ValueError if the word is negative or has more than 128 bits.
    """

    __slots__ = ("_word", "_halves")

    # Made by make_python.py: attributes
    required_integer_digits = _flag("the format requires digits before the decimal point")
    required_fraction_digits = _flag("the format requires digits after a decimal point")
    required_exponent_digits = _flag("the format requires digits after an exponent character")
    required_mantissa_digits = _flag("the format requires a digit in the mantissa of a float")
    no_positive_mantissa_sign = _flag("the format forbids a `+` before an integer or a float")
    required_mantissa_sign = _flag("the format requires a sign before an integer or a float")
    no_exponent_notation = _flag("the format forbids an exponent in a float")
    no_positive_exponent_sign = _flag("the format forbids a `+` in the exponent")
    required_exponent_sign = _flag("the format requires a sign in the exponent")
    no_exponent_without_fraction = _flag("the format requires a decimal point before an exponent")
    no_special = _flag("the format forbids all special values")
    case_sensitive_special = _flag("special values are case-sensitive")
    no_integer_leading_zeros = _flag("the format forbids leading zeros in an integer")
    no_float_leading_zeros = _flag("the format forbids leading zeros in a float")
    required_exponent_notation = _flag("the format requires an exponent in a float")
    case_sensitive_exponent = _flag("the exponent character is case-sensitive")
    case_sensitive_base_prefix = _flag("the base prefix is case-sensitive")
    case_sensitive_base_suffix = _flag("the base suffix is case-sensitive")
    integer_internal_digit_separator = _flag("the format allows a digit separator between integer digits")
    fraction_internal_digit_separator = _flag("the format allows a digit separator between fraction digits")
    exponent_internal_digit_separator = _flag("the format allows a digit separator between exponent digits")
    integer_leading_digit_separator = _flag("the format allows a digit separator before the integer digits")
    fraction_leading_digit_separator = _flag("the format allows a digit separator before the fraction digits")
    exponent_leading_digit_separator = _flag("the format allows a digit separator before the exponent digits")
    integer_trailing_digit_separator = _flag("the format allows a digit separator after the integer digits")
    fraction_trailing_digit_separator = _flag("the format allows a digit separator after the fraction digits")
    exponent_trailing_digit_separator = _flag("the format allows a digit separator after the exponent digits")
    integer_consecutive_digit_separator = _flag("the format allows consecutive digit separators in the integer part")
    fraction_consecutive_digit_separator = _flag("the format allows consecutive digit separators in the fraction")
    exponent_consecutive_digit_separator = _flag("the format allows consecutive digit separators in the exponent")
    special_digit_separator = _flag("the format allows digit separators in special values")
    digit_separator = _mark("digit separator: the byte that separates groups of digits")
    base_prefix = _mark("base prefix: the byte that may follow a leading zero to indicate the radix")
    base_suffix = _mark("base suffix: the byte that may follow the digits to indicate the radix")
    mantissa_radix = _radix("mantissa radix: the radix of the integer and fraction digits")
    exponent_base = _radix("exponent base: the base that is raised to the exponent")
    exponent_radix = _radix("exponent radix: the radix of the exponent digits")
    required_digits = _flag("any of the flags that require digits is set")
    internal_digit_separator = _flag("any of the flags that allow a digit separator between digits is set")
    leading_digit_separator = _flag("any of the flags that allow a digit separator before digits is set")
    trailing_digit_separator = _flag("any of the flags that allow a digit separator after digits is set")
    consecutive_digit_separator = _flag("any of the flags that allow consecutive digit separators is set")
    digit_separator_flags = _flag("any of the flags that allow digit separators is set")
    integer_digit_separator_flags = _flag("any of the flags that allow digit separators in the integer part is set")
    fraction_digit_separator_flags = _flag("any of the flags that allow digit separators in the fraction is set")
    exponent_digit_separator_flags = _flag("any of the flags that allow digit separators in the exponent is set")
    # End

    def __init__(self, word: int = STANDARD) -> None:
        self._word = _number("a format word", word, 1 << 128, "a number of at most 128 bits")
        self._halves = self._word & (1 << 64) - 1, self._word >> 64

    @_of(_peltzivar.fields)
    def of(cls: Any, *settings: Union[Edit, str], **fields: Value) -> FormatView:
        """Applies the settings and then the fields, in order, to the default fields, and returns a view of the word.

        If no flag allows the digit separator, a `FormatView` drops it, and `notes_of` reports it. A `Format` raises a
        ValueError then, and a FormatError if the word is not lawful.
        """
        return cast(FormatView, cls._packed(_c.NEW_FIELDS, settings))

    @classmethod
    def parse(cls: Type[View], text: str) -> View:
        """Parses `0x` followed by 1 to 32 hexadecimal digits. Raises ValueError if the text has another form."""
        error, word = _c.parse_word(_encoded("a format word", _typed("a format word", text, str)))
        if error:
            raise ValueError(f"{reprlib.repr(text)} is not a format word: {Error(error).description}")
        return cls(_joined(word))

    def mantissa_digit(self, byte: Byte) -> Optional[int]:
        """Returns the value of a byte as a digit of the integer or the fraction, or None if it is not one."""
        return cast(Optional[int], _c.mantissa_digit(self._halves, _byte("a byte", byte)))

    def exponent_digit(self, byte: Byte) -> Optional[int]:
        """Returns the value of a byte as a digit of the exponent, or None if it is not one."""
        return cast(Optional[int], _c.exponent_digit(self._halves, _byte("a byte", byte)))

    def role_of(self, byte: Byte, *, exponent: Byte = 0, point: Byte = 0) -> Optional[Role]:
        """Returns the first role that a byte has in numbers with this exponent character and this decimal point, or
        None. An option that is 0 matches no byte. If this is a `Format` and the options fit it, no byte has two
        roles."""
        options = _byte("exponent", exponent), _byte("point", point)
        role = _c.role_of(self._halves, *options, _byte("a byte", byte))
        return Role(role) if role else None

    @_of(_peltzivar.fields)
    def edit(self, *settings: Union[Edit, str], **fields: Value) -> FormatView:
        """Applies the settings and then the fields to the word, in order, and returns a view of the new word.

        Before that, the mantissa radix replaces an absent exponent base or exponent radix. After that, a separator that
        no flag allows is dropped. So set a digit separator and its flags in one call. A `Format` raises a ValueError if
        it would drop a separator that was passed, and a FormatError if the new word is not lawful.
        """
        return self._packed(_c.fields_of(self._halves), settings)

    def edits(self) -> Tuple[Edit, ...]:
        """Returns an edit for each field of the word that differs from its default, in the order of the bits."""
        return tuple(Edit.of(Setter(it), _value(Setter(it), value)) for it, value in _c.edits_of(self._halves))

    def normal_form(self: View) -> View:
        """Returns the normal form of the word. Equivalent words have the same normal form."""
        return type(self)(_joined(_c.normal_form(self._halves)))

    def check(self) -> Format:
        """Returns the word as a `Format`. Raises FormatError if the word is not lawful."""
        return Format(self._word)

    def error(self) -> Error:
        """Returns the error of the first rule that the word breaks, or `Error.SUCCESS` if the word is lawful."""
        return Error(_c.check(self._halves))

    def reasons(self) -> Tuple[Reason, ...]:
        """Returns each reason why the word is not lawful."""
        found = _c.reasons(self._halves)
        return tuple(Reason(text, _joined(mask), rules=_members(Rule, bits)) for text, mask, bits in found)

    def notes(self) -> Tuple[Note, ...]:
        """Returns the notes on fields of the word that have no effect."""
        return _notes(_c.fields_of(self._halves))

    @classmethod
    def _packed(cls: Type[View], fields: Tuple[int, ...], settings: Iterable[Union[Edit, str]]) -> View:
        """Applies settings to fields, and returns a view of the word."""
        edits = _edits(settings)
        changed, word = _c.pack(fields, [it._numbers() for it in edits])
        view = cls(_joined(word))
        is_dropped = changed[1] and view.digit_separator is None
        if is_dropped and issubclass(cls, Format) and Setter.DIGIT_SEPARATOR in [edit.setter for edit in edits]:
            raise ValueError("; ".join(note.text for note in _notes(changed) if note.mask >> 64 & 255))
        return view

    def _key(self) -> int:
        return self._word

    def __int__(self) -> int:
        return self._word

    __index__ = __int__

    def __str__(self) -> str:
        return str(_c.word_text(self._halves))

    def __format__(self, specification: str) -> str:
        """Formats the text of the word or, if the specification is one of numbers such as `#x`, the number."""
        return format(self._word if specification.endswith(tuple("bdoxX")) else str(self), specification)

    def __repr__(self) -> str:
        name = type(self).__name__
        if _c.pack(_c.NEW_FIELDS, [it._numbers() for it in self.edits()])[1] != self._halves:
            return f"{name}({self})"
        return f"{name}.of({', '.join(f'{edit.name}={edit.value!r}' for edit in self.edits())})"


class Format(FormatView):
    """A view of a lawful word. Raises FormatError if the word is not lawful."""

    __slots__ = ()

    def __init__(self, word: int = STANDARD) -> None:
        super().__init__(word)
        if error := self.error():
            raise FormatError(self.reasons(), FormatView(word), error)


@_takes(_peltzivar.fields)
def notes_of(*settings: Union[Edit, str], **fields: Value) -> Tuple[Note, ...]:
    """Returns the notes on the fields that settings write, also on a digit separator that `FormatView.of` drops."""
    return _notes(_c.pack(_c.NEW_FIELDS, [it._numbers() for it in _edits(settings)])[0])


def _edits(settings: Iterable[Union[Edit, str]]) -> List[Edit]:
    """Returns settings as edits."""
    return [it if isinstance(it, Edit) else Edit(_typed("a setting", it, str, _SETTING)) for it in settings]
