"""A program with types. It uses each name of the module but those of fields. test_python.py compares the types with
values, and mypy each with what it finds."""
from array import array
from decimal import Decimal
from fractions import Fraction
from typing import Any, Dict, List, Optional, Sequence, Tuple, Union
from typing import assert_type as typed

from peltzivar import Column, ColumnError, Forms, Kind, Literal, LiteralError, Opening, Parts, ReadErrorKind
from peltzivar import SettingsError, Special, Specials, Spelling, Suffixes, Syntax, Token, Tokens, WrongCell, languages
from peltzivar.words import Edit, Error, Format, FormatError, FormatView, Note, OptionsError, Part, Reason
from peltzivar.words import ReasonsError, Role, Rule, Setter, notes_of

format = typed(Format.of("radix=16", Edit.of(Setter.NO_SPECIAL, True), base_prefix=b"x"), Format)
view = typed(FormatView.of(mantissa_radix=16, base_prefix=120, digit_separator="_").edit("no_special=true"), FormatView)
typed((view.normal_form(), format.edit(exponent_base=None).normal_form()), Tuple[FormatView, Format])
typed(FormatView.parse("0x0A0A0A0000000000000000000000000C").check(), Format)
typed((view.mantissa_digit("f"), view.exponent_digit(b"f")), Tuple[Optional[int], Optional[int]])
typed(view.role_of("p", exponent=b"p", point=46), Optional[Role])
edit = typed(view.edits()[0], Edit)
typed((edit.setter, edit.value, edit.name, edit.mask), Tuple[Setter, Union[bool, int, str, None], str, int])
typed((view.error(), Error.EMPTY.description, str(view)), Tuple[Error, str, str])
reasons = typed(FormatView(0).reasons(), Tuple[Reason, ...])
typed((reasons[0].text, reasons[0].mask, reasons[0].indexes), Tuple[str, int, Tuple[int, ...]])
typed((reasons[0].rules, reasons[0].options), Tuple[Tuple[Rule, ...], Tuple[Role, ...]])
typed(view.notes() + notes_of(digit_separator="_"), Tuple[Note, ...])
typed(Syntax.notes_of("radix=2", radix=3) + Syntax.of().notes(), Tuple[Note, ...])
syntax = typed(Syntax.of("radix = 10", digit_separator="_", internal_digit_separator=True, point=b","), Syntax)
integers = typed(Syntax.integers(format), Syntax)
typed((syntax.exponent, syntax.point), Tuple[Union[int, str, bytes, None], Union[int, str, bytes, None]])
typed((syntax.required_base_prefix, syntax.required_base_suffix), Tuple[bool, bool])
typed((syntax.no_negative_mantissa_sign, syntax.format), Tuple[bool, Format])
typed((syntax.required_leading_zero, syntax.decimal_first_digit), Tuple[bool, bool])
typed((syntax.integer_group_size, syntax.higher_group_size), Tuple[Optional[int], Optional[int]])
typed(syntax.role_of("_"), Optional[Role])
typed((syntax.sentence(), syntax.grammar(), syntax.regex()), Tuple[str, str, str])
literal = typed(syntax.read("-1_234,50"), Literal[str])
prefix, rest = typed(syntax.read_prefix(b"1;2"), Tuple[Literal[bytes], bytes])
typed((literal.value, literal.scaled(2), int(prefix)), Tuple[Union[int, float], int, int])
typed((literal.decimal(), literal.fraction(), float(literal)), Tuple[Decimal, Fraction, float])
parts = typed(prefix.parts, Parts[bytes])
typed([parts.sign, parts.prefix, parts.integer, parts.point, parts.fraction, parts.exponent_character], List[bytes])
typed([parts.exponent_sign, parts.exponent, parts.suffix, prefix.text, prefix.digits(Part.INTEGER)], List[bytes])
typed((literal.syntax, literal.form, literal.text, literal.is_float), Tuple[Syntax, str, str, bool])
typed(literal.digits(Part.FRACTION), str)
typed(syntax.format_number(Decimal(1), group=3, without_base=True) + syntax.format_number(1.5), str)
typed(syntax.format_number(literal) + syntax.format_number(Fraction(1, 4)), str)
typed((syntax.parse("1"), languages.C.parse(b"0x1F", float), languages.C.parse("017", int)), Tuple[float, float, int])
typed(languages.TOML.read(b"-inf"), Union[Literal[bytes], Any])
specials = typed(Specials(nan="NaN", inf=None, infinity="Infinity"), Specials)
typed((specials.nan, specials.inf, Specials("").infinity), Tuple[Optional[str], Optional[str], Optional[str]])
special = typed(Special("", Spelling.NAN), Special)
typed((special.sign, special.spelling, special.value, special.decimal()), Tuple[str, Spelling, float, Decimal])
forms = typed(Forms([("", syntax)], nan="NaN", inf=None, infinity="Infinity", kinds={"": Kind(wraps=8)}), Forms)
kind = typed(Kind(signed=8, single=True, limits="both"), Kind)
typed((kind.signed, kind.unsigned, literal.kind.wraps), Tuple[Optional[int], Optional[int], Optional[int]])
typed((kind.modulo, kind.single, kind.limits), Tuple[bool, bool, Optional[str]])
typed((forms.kinds, forms.suffixes, forms.tokens), Tuple[Dict[str, Kind], Dict[str, Suffixes], Optional[Tokens]])
suffixes = typed(Suffixes("u8", floats="f", any="_", kinds={"f": kind}, stops=[("", ".", "0")]), Suffixes)
typed(Suffixes(integers="U8", either_case=True, written="u8", whole_words=True, word_bytes="-"), Suffixes)
opening = typed(Opening(text="16#", case_sensitive=True), Opening)
opened = typed(Forms({"ada": integers}, openings={"ada": opening}, only_read=["ada"]), Forms)
typed((opened.openings, opened.only_read), Tuple[Dict[str, Opening], Tuple[str, ...]])
rules = typed(Tokens(None, "if", gives_points_back=True, gives_points_to_letters=True, any_word_follows=True), Tokens)
typed((rules.forms, rules.following), Tuple[Optional[Forms], str])
token = typed(Forms({"": syntax}, suffixes={"": suffixes}, tokens=rules).token("1u8;"), Token[str])
typed((token.literal, token.suffix, token.rest, token.end), Tuple[Literal[str], str, str, int])
typed(languages.C.token(b" 1L", 1).suffix, bytes)
again = typed(Forms({**languages.C.forms, "own": forms[""]}), Forms)
typed((again.parse("1", int), forms.read_prefix("1")), Tuple[int, Tuple[Literal[str], str]])
out = array("d", [7, 7, 7])
column = typed(languages.CSV_DE.column(["1,5", None, "x"], float, errors="coerce", fill=0.5, out=out), Column)
wrong = typed(column.wrong, Sequence[WrongCell])
typed((column.missing, column.values), Tuple[Tuple[int, ...], Any])
typed(languages.CSV_DE.column(["1,5", None], Decimal, errors="coerce"), Column)
typed(languages.CSV_DE.format_column([1.5, None], fill="", decimals=2), List[str])
typed((wrong[0].index, wrong[0].text, wrong[0].error), Tuple[int, Union[str, bytes], ValueError])
try:
    languages.JSON.column((b"1x", array("q", [0, 2])), "q")
except ColumnError as refused:
    typed(refused.column, Column)
try:
    languages.JSON.read("1x")
except LiteralError as why:
    typed((why.sentence, why.full_sentence, why.text, why.form), Tuple[str, str, Union[str, bytes], str])
    typed((why.valid_up_to, why.span, why.kind), Tuple[int, Tuple[int, int], ReadErrorKind])
    typed((why.part, why.mask, why.conditions), Tuple[Optional[Part], int, Tuple[str, ...]])
    typed(why.edits, Tuple[Edit, ...])
try:
    Format(0)
except FormatError as unlawful:
    typed((unlawful.view, unlawful.error), Tuple[FormatView, Error])
try:
    Syntax.of("radix=1")
except (OptionsError, SettingsError, ReasonsError) as caught:
    typed(caught.reasons, Tuple[Reason, ...])
