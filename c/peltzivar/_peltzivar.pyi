# Made by make_python.py from the imported module.
from typing import Any, Optional, Union

from . import _Language
from .words import Byte, Edit, _Error, _Named

class Reader:
    _column: Any; _explain: Any; _members: Any; _notation: Any; _read: Any; _token: Any; _write: Any

class Found:
    _ends: Any; _form: Any; _int: Any; _owner: Any; _plain: Any; _suffix: Any; _times: Any
    def __float__(self) -> float: ...

class Setter(_Named):
    REQUIRED_INTEGER_DIGITS = 0; REQUIRED_FRACTION_DIGITS = 1; REQUIRED_EXPONENT_DIGITS = 2
    REQUIRED_MANTISSA_DIGITS = 3; NO_POSITIVE_MANTISSA_SIGN = 4; REQUIRED_MANTISSA_SIGN = 5; NO_EXPONENT_NOTATION = 6
    NO_POSITIVE_EXPONENT_SIGN = 7; REQUIRED_EXPONENT_SIGN = 8; NO_EXPONENT_WITHOUT_FRACTION = 9; NO_SPECIAL = 10
    CASE_SENSITIVE_SPECIAL = 11; NO_INTEGER_LEADING_ZEROS = 12; NO_FLOAT_LEADING_ZEROS = 13
    REQUIRED_EXPONENT_NOTATION = 14; CASE_SENSITIVE_EXPONENT = 15; CASE_SENSITIVE_BASE_PREFIX = 16
    CASE_SENSITIVE_BASE_SUFFIX = 17; INTEGER_INTERNAL_DIGIT_SEPARATOR = 32; FRACTION_INTERNAL_DIGIT_SEPARATOR = 33
    EXPONENT_INTERNAL_DIGIT_SEPARATOR = 34; INTEGER_LEADING_DIGIT_SEPARATOR = 35
    FRACTION_LEADING_DIGIT_SEPARATOR = 36; EXPONENT_LEADING_DIGIT_SEPARATOR = 37
    INTEGER_TRAILING_DIGIT_SEPARATOR = 38; FRACTION_TRAILING_DIGIT_SEPARATOR = 39
    EXPONENT_TRAILING_DIGIT_SEPARATOR = 40; INTEGER_CONSECUTIVE_DIGIT_SEPARATOR = 41
    FRACTION_CONSECUTIVE_DIGIT_SEPARATOR = 42; EXPONENT_CONSECUTIVE_DIGIT_SEPARATOR = 43
    SPECIAL_DIGIT_SEPARATOR = 44; DIGIT_SEPARATOR = 64; BASE_PREFIX = 88; BASE_SUFFIX = 96; MANTISSA_RADIX = 104
    EXPONENT_BASE = 112; EXPONENT_RADIX = 120; REQUIRED_DIGITS = 128; INTERNAL_DIGIT_SEPARATOR = 129
    LEADING_DIGIT_SEPARATOR = 130; TRAILING_DIGIT_SEPARATOR = 131; CONSECUTIVE_DIGIT_SEPARATOR = 132
    DIGIT_SEPARATOR_FLAGS = 133; INTEGER_DIGIT_SEPARATOR_FLAGS = 134; FRACTION_DIGIT_SEPARATOR_FLAGS = 135
    EXPONENT_DIGIT_SEPARATOR_FLAGS = 136

class Rule(_Named):
    MANTISSA_RADIX_IN_RANGE = 1; EXPONENT_BASE_IN_RANGE = 2; EXPONENT_RADIX_IN_RANGE = 3
    DIGIT_SEPARATOR_IS_PUNCTUATION = 4; BASE_PREFIX_IS_PUNCTUATION = 5; BASE_SUFFIX_IS_PUNCTUATION = 6
    PUNCTUATION_DIFFERS = 7; EXPONENT_FLAGS_AGREE = 8; MANTISSA_SIGN_FLAGS_AGREE = 9; EXPONENT_SIGN_FLAGS_AGREE = 10
    SPECIAL_CASE_FLAGS_AGREE = 11; SPECIAL_SEPARATOR_FLAGS_AGREE = 12; INTEGER_CONSECUTIVE_IS_ALLOWED = 13
    FRACTION_CONSECUTIVE_IS_ALLOWED = 14; EXPONENT_CONSECUTIVE_IS_ALLOWED = 15; RESERVED_BITS_ARE_ZERO = 16

class Error(_Error):
    SUCCESS = 0; OVERFLOW = 1; UNDERFLOW = 2; INVALID_DIGIT = 3; EMPTY = 4; EMPTY_MANTISSA = 5; EMPTY_EXPONENT = 6
    EMPTY_INTEGER = 7; EMPTY_FRACTION = 8; INVALID_POSITIVE_MANTISSA_SIGN = 9; MISSING_MANTISSA_SIGN = 10
    INVALID_EXPONENT = 11; INVALID_POSITIVE_EXPONENT_SIGN = 12; MISSING_EXPONENT_SIGN = 13
    EXPONENT_WITHOUT_FRACTION = 14; INVALID_LEADING_ZEROS = 15; MISSING_EXPONENT = 16; MISSING_SIGN = 17
    INVALID_POSITIVE_SIGN = 18; INVALID_NEGATIVE_SIGN = 19; INVALID_MANTISSA_RADIX = 20; INVALID_EXPONENT_BASE = 21
    INVALID_EXPONENT_RADIX = 22; INVALID_DIGIT_SEPARATOR = 23; INVALID_DECIMAL_POINT = 24
    INVALID_EXPONENT_SYMBOL = 25; INVALID_BASE_PREFIX = 26; INVALID_BASE_SUFFIX = 27; INVALID_PUNCTUATION = 28
    INVALID_EXPONENT_FLAGS = 29; INVALID_MANTISSA_SIGN = 30; INVALID_EXPONENT_SIGN = 31; INVALID_SPECIAL = 32
    INVALID_CONSECUTIVE_INTEGER_DIGIT_SEPARATOR = 33; INVALID_CONSECUTIVE_FRACTION_DIGIT_SEPARATOR = 34
    INVALID_CONSECUTIVE_EXPONENT_DIGIT_SEPARATOR = 35; INVALID_FLAGS = 36; INVALID_NAN_STRING = 37
    NAN_STRING_TOO_LONG = 38; INVALID_INF_STRING = 39; INF_STRING_TOO_LONG = 40; INVALID_INFINITY_STRING = 41
    INFINITY_STRING_TOO_LONG = 42; INFINITY_STRING_TOO_SHORT = 43; INVALID_FLOAT_PARSE_ALGORITHM = 44
    INVALID_RADIX = 45; INVALID_FLOAT_PRECISION = 46; INVALID_NEGATIVE_EXPONENT_BREAK = 47
    INVALID_POSITIVE_EXPONENT_BREAK = 48

class Part(_Named):
    INTEGER = 0; FRACTION = 1; EXPONENT = 2

class Role(_Named):
    DIGIT = 1; SIGN = 2; SEPARATOR = 3; PREFIX = 4; SUFFIX = 5; EXPONENT = 6; POINT = 7

class ReadErrorKind(_Named):
    REQUIREMENT = 1; SEPARATOR = 2; CASE = 3; BYTE = 4; MISSING = 5; SUFFIX = 6; POINT = 7; STOP = 8; OPENING = 9

class Spelling(_Named):
    NAN = 1; INF = 2; INFINITY = 3

class Language(_Language):
    ADA = 'ADA'; BASH = 'BASH'; C = 'C'; CLOJURE = 'CLOJURE'; COMMON_LISP = 'COMMON_LISP'; CSS = 'CSS'; CSV = 'CSV'
    CSV_DE = 'CSV_DE'; CSV_EN = 'CSV_EN'; C_PLUS_PLUS = 'C_PLUS_PLUS'; C_SHARP = 'C_SHARP'; D = 'D'; DART = 'DART'
    ELIXIR = 'ELIXIR'; ERLANG = 'ERLANG'; FORTRAN = 'FORTRAN'; GNU_ASSEMBLER = 'GNU_ASSEMBLER'; GO = 'GO'
    HASKELL = 'HASKELL'; HASKELL_GHC2021 = 'HASKELL_GHC2021'; JAVA = 'JAVA'; JAVASCRIPT = 'JAVASCRIPT'; JSON = 'JSON'
    JSON5 = 'JSON5'; JULIA = 'JULIA'; KOTLIN = 'KOTLIN'; LUA = 'LUA'; MATLAB = 'MATLAB'; NASM = 'NASM'; NIM = 'NIM'
    OCAML = 'OCAML'; PASCAL = 'PASCAL'; PERL = 'PERL'; PHP = 'PHP'; POSTSCRIPT = 'POSTSCRIPT'; PROLOG = 'PROLOG'
    PYTHON = 'PYTHON'; R = 'R'; RAKU = 'RAKU'; RUBY = 'RUBY'; RUST = 'RUST'; SCALA = 'SCALA'; SCHEME = 'SCHEME'
    SQL = 'SQL'; SWIFT = 'SWIFT'; TCL = 'TCL'; TOML = 'TOML'; VERILOG = 'VERILOG'; VHDL = 'VHDL'
    VISUAL_BASIC = 'VISUAL_BASIC'; XML_SCHEMA = 'XML_SCHEMA'; XML_SCHEMA_DOUBLE = 'XML_SCHEMA_DOUBLE'; YAML = 'YAML'
    YAML_1_1 = 'YAML_1_1'

def fields(
    *settings: Union[Edit, str],
    required_integer_digits: bool = ..., required_fraction_digits: bool = ..., required_exponent_digits: bool = ...,
    required_mantissa_digits: bool = ..., no_positive_mantissa_sign: bool = ..., required_mantissa_sign: bool = ...,
    no_exponent_notation: bool = ..., no_positive_exponent_sign: bool = ..., required_exponent_sign: bool = ...,
    no_exponent_without_fraction: bool = ..., no_special: bool = ..., case_sensitive_special: bool = ...,
    no_integer_leading_zeros: bool = ..., no_float_leading_zeros: bool = ..., required_exponent_notation: bool = ...,
    case_sensitive_exponent: bool = ..., case_sensitive_base_prefix: bool = ..., case_sensitive_base_suffix: bool = ...,
    integer_internal_digit_separator: bool = ..., fraction_internal_digit_separator: bool = ...,
    exponent_internal_digit_separator: bool = ..., integer_leading_digit_separator: bool = ...,
    fraction_leading_digit_separator: bool = ..., exponent_leading_digit_separator: bool = ...,
    integer_trailing_digit_separator: bool = ..., fraction_trailing_digit_separator: bool = ...,
    exponent_trailing_digit_separator: bool = ..., integer_consecutive_digit_separator: bool = ...,
    fraction_consecutive_digit_separator: bool = ..., exponent_consecutive_digit_separator: bool = ...,
    special_digit_separator: bool = ..., digit_separator: Optional[Byte] = ..., base_prefix: Optional[Byte] = ...,
    base_suffix: Optional[Byte] = ..., mantissa_radix: int = ..., exponent_base: Optional[int] = ...,
    exponent_radix: Optional[int] = ..., required_digits: bool = ..., internal_digit_separator: bool = ...,
    leading_digit_separator: bool = ..., trailing_digit_separator: bool = ..., consecutive_digit_separator: bool = ...,
    digit_separator_flags: bool = ..., integer_digit_separator_flags: bool = ...,
    fraction_digit_separator_flags: bool = ..., exponent_digit_separator_flags: bool = ..., radix: int = ...,
) -> Any: ...

def settings(
    *settings: Union[Edit, str],
    required_integer_digits: bool = ..., required_fraction_digits: bool = ..., required_exponent_digits: bool = ...,
    required_mantissa_digits: bool = ..., no_positive_mantissa_sign: bool = ..., required_mantissa_sign: bool = ...,
    no_exponent_notation: bool = ..., no_positive_exponent_sign: bool = ..., required_exponent_sign: bool = ...,
    no_exponent_without_fraction: bool = ..., no_special: bool = ..., case_sensitive_special: bool = ...,
    no_integer_leading_zeros: bool = ..., no_float_leading_zeros: bool = ..., required_exponent_notation: bool = ...,
    case_sensitive_exponent: bool = ..., case_sensitive_base_prefix: bool = ..., case_sensitive_base_suffix: bool = ...,
    integer_internal_digit_separator: bool = ..., fraction_internal_digit_separator: bool = ...,
    exponent_internal_digit_separator: bool = ..., integer_leading_digit_separator: bool = ...,
    fraction_leading_digit_separator: bool = ..., exponent_leading_digit_separator: bool = ...,
    integer_trailing_digit_separator: bool = ..., fraction_trailing_digit_separator: bool = ...,
    exponent_trailing_digit_separator: bool = ..., integer_consecutive_digit_separator: bool = ...,
    fraction_consecutive_digit_separator: bool = ..., exponent_consecutive_digit_separator: bool = ...,
    special_digit_separator: bool = ..., digit_separator: Optional[Byte] = ..., base_prefix: Optional[Byte] = ...,
    base_suffix: Optional[Byte] = ..., mantissa_radix: int = ..., exponent_base: Optional[int] = ...,
    exponent_radix: Optional[int] = ..., required_digits: bool = ..., internal_digit_separator: bool = ...,
    leading_digit_separator: bool = ..., trailing_digit_separator: bool = ..., consecutive_digit_separator: bool = ...,
    digit_separator_flags: bool = ..., integer_digit_separator_flags: bool = ...,
    fraction_digit_separator_flags: bool = ..., exponent_digit_separator_flags: bool = ..., radix: int = ...,
    exponent: Optional[Byte] = ..., point: Optional[Byte] = ..., required_base_prefix: bool = ...,
    required_base_suffix: bool = ..., no_negative_mantissa_sign: bool = ..., integer_group_size: Optional[int] = ...,
    higher_group_size: Optional[int] = ..., required_leading_zero: bool = ..., decimal_first_digit: bool = ...,
) -> Any: ...
