//! The forms of each language. The comment of a setter has a text that is accepted or rejected because of the setter.

use super::{Definition, Language};
use crate::literal::syntax::Grammar;
use crate::literal::{
    Conditions, FloatKind, FloatLimits, Form, Forms, IntegerKind, Kind, Opening, Specials, Stop, Suffixes, Syntax,
    Tokens,
};
use crate::NumberFormatBuilder;
use core::num::NonZeroU8;
use IntegerKind::{Signed, Unsigned, Wraps};

/// Names of languages that people type, beside the languages' own. A part of a name, such as `lisp`, needs no row.
pub(super) const ALIASES: &[(&str, Language)] = &[
    ("c99", Language::C),
    ("cpp", Language::C_PLUS_PLUS),
    ("csharp", Language::C_SHARP),
    ("delphi", Language::PASCAL),
    ("dlang", Language::D),
    ("f90", Language::FORTRAN),
    ("golang", Language::GO),
    ("hs", Language::HASKELL),
    ("js", Language::JAVASCRIPT),
    ("mysql", Language::SQL),
    ("octave", Language::MATLAB),
    ("postgres", Language::SQL),
    ("racket", Language::SCHEME),
    ("rb", Language::RUBY),
    ("sh", Language::BASH),
    ("ts", Language::JAVASCRIPT),
    ("typescript", Language::JAVASCRIPT),
    ("yml", Language::YAML),
];

/// Makes a list of words, and one of words with their kinds.
macro_rules! list {
    ($($word:tt)*) => { const { &[$(stringify!($word).as_bytes()),*] } };
}
macro_rules! kinds {
    ($($kind:expr => [$($word:tt)*];)*) => { &[$($((stringify!($word).as_bytes(), $kind),)*)*] };
}

/// Numbers without signs, which are operators, and without NaN and infinity, which are names.
const TOKENS: NumberFormatBuilder = NumberFormatBuilder::new()
    .no_positive_mantissa_sign(true) // rejects `+1`
    .no_special(true); // rejects `NaN` and `inf`

/// The same with a digit separator between two digits.
const fn separated(separator: u8) -> NumberFormatBuilder {
    TOKENS
        .digit_separator(NonZeroU8::new(separator)) // the byte, which the flag below allows
        .internal_digit_separator(true) // accepts `1_0.0_1e1_0`, not `1__0`, `_1` or `1_`
}

/// Numbers that have no leading zeros: rejects `01` and `01.0`.
const fn without_zeros(builder: NumberFormatBuilder) -> NumberFormatBuilder {
    builder.no_integer_leading_zeros(true).no_float_leading_zeros(true)
}

/// Conditions of numbers without the sign `-`, which reject `-1`. A syntax gets all its conditions at once, since each check of
/// them costs who compiles the constants.
const UNSIGNED: Conditions = Conditions::NONE.no_negative_mantissa_sign(true);
const PREFIXED: Conditions = UNSIGNED.required_base_prefix(true); // accepts `0x1F`, rejects `1F`
const SUFFIXED: Conditions = UNSIGNED.required_base_suffix(true); // accepts `1Fh`, rejects `1F`

/// Conditions of numbers whose first digit is not a letter: `0FFh` is accepted, and `FFh`, a name, rejected.
const NAMELESS: Conditions = SUFFIXED.decimal_first_digit(true);

/// Returns the syntax of numbers with an exponent character and a decimal point.
const fn numbers(exponent: u8, point: u8, builder: NumberFormatBuilder) -> Syntax {
    Syntax::new_or_panic(builder.build_format_or_panic(), exponent, point)
}

/// Returns the same syntax with groups of three digits: `1,234` is accepted, and `12,34` rejected.
const fn grouped(syntax: Syntax) -> Syntax {
    syntax.with_conditions_or_panic(Conditions::NONE.integer_group_size(Some(3)))
}

/// Returns the syntax of decimal floats and integers: `10` and `1.5e3`.
const fn decimal(builder: NumberFormatBuilder) -> Syntax {
    numbers(b'e', b'.', builder).with_conditions_or_panic(UNSIGNED)
}

/// Returns the syntax of integers of a radix, which stand after decimal ones: `017`.
const fn integers(radix: u8, builder: NumberFormatBuilder, conditions: Conditions) -> Syntax {
    let builder = builder.fraction_digit_separator_flags(false).exponent_digit_separator_flags(false);
    Syntax::integers(builder.mantissa_radix(radix).build_format_or_panic()).with_conditions_or_panic(conditions)
}

/// Returns the syntax of octal integers, which begin with a zero: `017` is accepted, and `17` rejected.
const fn octal(builder: NumberFormatBuilder) -> Syntax {
    integers(8, builder, UNSIGNED.required_leading_zero(true))
}

/// Returns the syntax of integers of a radix with a prefix, which is required.
const fn prefixed(prefix: u8, radix: u8, builder: NumberFormatBuilder) -> Syntax {
    integers(radix, builder.base_prefix(NonZeroU8::new(prefix)), PREFIXED)
}

/// Returns the syntax of decimal floats and integers with a prefix, which is required: `0d10`.
const fn prefixed_decimal(prefix: u8, builder: NumberFormatBuilder) -> Syntax {
    numbers(b'e', b'.', builder.base_prefix(NonZeroU8::new(prefix))).with_conditions_or_panic(PREFIXED)
}

/// Returns the syntax of integers of a radix with a suffix, which is required.
const fn suffixed(suffix: u8, radix: u8, builder: NumberFormatBuilder, conditions: Conditions) -> Syntax {
    integers(radix, builder.base_suffix(NonZeroU8::new(suffix)), conditions)
}

/// Returns the syntax of floats, and of integers if no exponent is required, of a radix with a prefix, which is required.
/// The exponent is decimal, and its base is 2: `0x1.8p3` is 1.5 × 2^3.
const fn binary_floats(prefix: u8, radix: u8, builder: NumberFormatBuilder) -> Syntax {
    powers_of_two(radix, builder.base_prefix(NonZeroU8::new(prefix)), PREFIXED)
}

/// Returns the syntax of the same numbers with other conditions.
const fn powers_of_two(radix: u8, builder: NumberFormatBuilder, conditions: Conditions) -> Syntax {
    let builder = builder.mantissa_radix(radix).exponent_base(NonZeroU8::new(2)).exponent_radix(NonZeroU8::new(10));
    numbers(b'p', b'.', builder).with_conditions_or_panic(conditions)
}

/// Returns the same syntax with the sign `-`: accepts `-1`.
const fn signed(syntax: Syntax) -> Syntax {
    syntax.with_conditions_or_panic(syntax.conditions().no_negative_mantissa_sign(false))
}

/// Returns the form of integers that may have leading zeros if a word is behind, as in `08f` of Java.
const fn leading_zeros(name: &'static str, builder: NumberFormatBuilder, words: &'static Suffixes) -> Form {
    Form::new(name, integers(10, builder, UNSIGNED)).with_suffixes(words)
}

/// Returns an opening.
const fn opening(text: &'static str) -> Opening {
    Opening::new(text.as_bytes()).unwrap()
}

/// The number of radixes, which are those from 2 to 36.
const RADIXES: usize = 35;

/// Returns `forms`, and `binary` in each radix, with an opening that has the radix between two texts. No form is checked again.
const fn with_radixes<const N: usize>(forms: &[Form], before: &str, behind: &str, binary: Form) -> [Form; N] {
    let (mut all, mut index) = ([binary; N], 0);
    while index < N {
        let radix = (index + 2).saturating_sub(forms.len()) as u8;
        all[index] = if index < forms.len() { forms[index] } else { in_radix(binary, before, radix, behind) };
        index += 1;
    }
    all
}

/// Returns the form of binary integers in another radix, of which the opening has the decimal digits between a byte, if there is one, and
/// another.
const fn in_radix(binary: Form, before: &str, radix: u8, behind: &str) -> Form {
    let syntax = Grammar { radix, exponent_base: radix, exponent_radix: radix, ..binary.syntax.grammar }.syntax();
    let (ten, one, behind) = (b'0' + radix / 10, b'0' + radix % 10, behind.as_bytes()[0]);
    let bytes: &[u8] = match (before.as_bytes(), radix < 10) {
        ([], true) => &[one, behind],
        ([], false) => &[ten, one, behind],
        ([before, ..], true) => &[*before, one, behind],
        ([before, ..], false) => &[*before, ten, one, behind],
    };
    Form { syntax, ..binary }.with_opening(Opening::new(bytes).unwrap())
}

/// Returns the syntax of binary integers and fractions without an exponent, for forms with a radix in their opening, and with a suffix,
/// which is required. No digit is `^`.
const fn closed(suffix: u8, builder: NumberFormatBuilder) -> Syntax {
    let builder = builder.mantissa_radix(2).no_exponent_notation(true).required_digits(true); // rejects `.8` and `F.`
    numbers(b'^', b'.', builder.base_suffix(NonZeroU8::new(suffix))).with_conditions_or_panic(SUFFIXED)
}

/// Digits of Raku after a prefix.
const RAKU_PREFIXED: NumberFormatBuilder = GO_PREFIXED.case_sensitive_base_prefix(true); // rejects `0X1F`

/// Digits of Ruby, which are separated by one `_`, after a sign.
const RUBY: NumberFormatBuilder = separated(b'_').no_positive_mantissa_sign(false); // accepts `+1`

/// Numbers with signs, without NaN and infinity.
const SIGNED: NumberFormatBuilder = NumberFormatBuilder::new().no_special(true); // accepts `+1`, rejects `NaN` and `inf`

/// Digits of C and C++.
const C: NumberFormatBuilder = separated(b'\''); // accepts `1'000`, not `1''0`

/// Digits of C#, Java and Kotlin.
const JAVA: NumberFormatBuilder = separated(b'_').consecutive_digit_separator(true); // accepts `1__0`

/// Decimal digits of Kotlin and Scala.
const KOTLIN: NumberFormatBuilder = JAVA
    .required_fraction_digits(true) // rejects `1.`, not `.5`
    .no_integer_leading_zeros(true); // rejects `01`, not `01.0`

/// Digits of Visual Basic after a prefix.
const VISUAL_BASIC: NumberFormatBuilder = JAVA.integer_leading_digit_separator(true); // accepts `&H_1F`

/// Digits of Go and Python after a prefix.
const GO_PREFIXED: NumberFormatBuilder = separated(b'_').integer_leading_digit_separator(true); // accepts `0x_1F`

/// Digits of OCaml, Rust and Swift.
const RUST: NumberFormatBuilder = JAVA.trailing_digit_separator(true); // accepts `1_`

/// Digits of YAML 1.1, after a sign.
const YAML_1_1: NumberFormatBuilder = RUST.no_positive_mantissa_sign(false); // accepts `+1`

/// Digits of D after a prefix.
const D_PREFIXED: NumberFormatBuilder = RUST.integer_leading_digit_separator(true); // accepts `0x_1F`

/// Digits of Rust and, after a sign, of YAML 1.1 after a prefix.
const RUST_PREFIXED: NumberFormatBuilder = D_PREFIXED.case_sensitive_base_prefix(true); // rejects `0X1F`
const YAML_1_1_PREFIXED: NumberFormatBuilder = RUST_PREFIXED.no_positive_mantissa_sign(false); // accepts `+0x1F`

/// Digits of Ada, Elixir, Erlang and VHDL.
const ERLANG: NumberFormatBuilder = separated(b'_')
    .required_digits(true) // rejects `.5`, `1.`, `1e` and `.`
    .no_exponent_without_fraction(true); // rejects `1e3`, not `1.0e3`

/// Digits of Julia, which has no separator in an exponent.
const JULIA: NumberFormatBuilder = separated(b'_').exponent_internal_digit_separator(false); // rejects `1e1_0`

/// Cells of spreadsheets, in which separators make groups of three digits.
const SPREADSHEET: NumberFormatBuilder = without_zeros(TOKENS)
    .required_digits(true) // rejects `.50`, `1.` and `.`
    .no_exponent_notation(true) // rejects `1.5e3`
    .integer_internal_digit_separator(true); // accepts `1,234.50`, not `0.123,4`

/// Digits of NASM, in which `_` may be anywhere after the first one.
const NASM: NumberFormatBuilder = separated(b'_')
    .trailing_digit_separator(true) // accepts `1_h`
    .consecutive_digit_separator(true) // accepts `1__0h`
    .fraction_leading_digit_separator(true) // accepts `1._5`
    .exponent_leading_digit_separator(true); // accepts `1.e_5`

/// Digits of NASM after a prefix.
const NASM_PREFIXED: NumberFormatBuilder = NASM.integer_leading_digit_separator(true); // accepts `0x_1`

/// Integers of a kind, and floats that are the nearest ones.
const fn whole(integers: IntegerKind) -> Kind {
    Kind::new(integers, FloatKind::Nearest).unwrap()
}

/// The same kind, by which floats that are too large are errors.
const fn finite(kind: Kind) -> Kind {
    kind.with_limits(FloatLimits::Largest)
}

/// The same kind, by which floats that are too large or vanish are errors.
const fn within(kind: Kind) -> Kind {
    kind.with_limits(FloatLimits::Both)
}

/// Floats of 32 bits.
const SINGLE: Kind = Kind::new(IntegerKind::Exact, FloatKind::Single).unwrap();

/// Integers of Lua, NASM and Nim, of which the last 64 bits count.
const LAST_64: Kind = whole(IntegerKind::WrapsModulo(64));

/// What goes on a number of Ada: `16#FF#`, `16:FF:` and `1.x`, but not `1..2`; and on one of VHDL: `1\a\`.
const ADA_WORDS: Suffixes = Suffixes::new(&[], &[], ADA_STOPS);
const ADA_STOPS: &[Stop] = &[
    Stop::new(b"", b"#\\", b""),
    Stop::new(b"", b":", b"0123456789ABCDEFabcdef"),
    Stop::new(b"", b".", &NO_NAME),
    Stop::new(b"", b".", &LETTERS),
];

/// Kinds of Fortran, of so many bytes or by a name: `1_8`, `1.0_dp`. Those of 10 and 16 bytes have floats that an `f64`
/// has not.
const FORTRAN_WORDS: Suffixes = Suffixes::new(&[], &[], &[Stop::new(b"", b".", b"_0123456789")])
    .any_word(b"_")
    .with_kinds(kinds! {
        whole(Signed(8)) => [_1]; whole(Signed(16)) => [_2]; finite(whole(Signed(64))) => [_8]; Kind::EXACT => [_10];
        whole(Signed(128)) => [_16];
    })
    .with_written(&[b"_8"]);

/// What goes on a number of Bash, and on a decimal one of Erlang: `37#1`.
const BASH_WORDS: Suffixes = Suffixes::new(&[], &[], &[Stop::new(b"", b"#@", b"")]);
const ERLANG_WORDS: Suffixes = Suffixes::new(&[], &[], &[Stop::new(b"", b"#", b"")]);

/// Suffixes of Clojure, and what else goes on a number: `1/2`.
const CLOJURE_STOPS: &[Stop] = &[Stop::new(b"", b"!$&*+-./:<=>?|", b"")];
const CLOJURE_DECIMALS: Suffixes = Suffixes::new(&[b"N", b"M"], &[b"M"], CLOJURE_STOPS);
const CLOJURE_INTEGERS: Suffixes = Suffixes::new(&[b"N"], &[], CLOJURE_STOPS);
const CLOJURE_BIG: Suffixes = Suffixes::new(&[b"M"], &[], CLOJURE_STOPS);
const CLOJURE_WORDS: Suffixes = Suffixes::new(&[], &[], CLOJURE_STOPS);

/// What makes a symbol of a number of Common Lisp, or goes on it, and what makes one of Scheme: `1+`, `1/2`.
const LISP_WORDS: Suffixes = Suffixes::new(&[], &[], &[Stop::new(b"", b"!#$%&*+-./:<=>?@[\\]^{|}~", b"")]);
const SCHEME_WORDS: Suffixes = Suffixes::new(&[], &[], &[Stop::new(b"", b"!#$%&'*+,-./:<=>?@\\^`{|}~", b"")]);

/// Words after integers and floats, in this case.
const fn words(integers: &'static [&'static [u8]], floats: &'static [&'static [u8]]) -> Suffixes {
    Suffixes::new(integers, floats, &[])
}

/// A digit after a decimal point.
const POINT_AND_DIGIT: &[Stop] = &[Stop::new(b"", b".", b"0123456789")];

/// Suffixes of integers of C: `1u`, `1LL`, `1ul` and `1wb`. Decimal floats, such as `1.5dd`, are not hexadecimal.
const C_INTEGERS: &[&[u8]] =
    list![u U l L ll LL ul uL ull uLL Ul UL Ull ULL lu lU llu llU Lu LU LLu LLU wb WB uwb uWB Uwb UWB wbu wbU WBu WBU];

/// What goes on a preprocessing number of C: `1.2.3`, `1'`, `1$x`, `1\u00E9` and `0xe+1`.
const C_STOPS: &[Stop] = &[Stop::new(b"", b".'$", b""), Stop::new(b"", b"\\", b"uU"), Stop::new(b"eEpP", b"+-", b"")];
/// Those of decimal integers alone have kinds of their own, after the first twelve.
const C_WORDS: Suffixes = Suffixes::new(C_INTEGERS, list![f F l L], C_STOPS).with_kinds(C_KINDS.split_at(12).0);
const C_DECIMALS: Suffixes =
    Suffixes::new(C_INTEGERS, list![f F l L df dd dl DF DD DL], C_STOPS).with_kinds(C_KINDS).with_written(&[b"ULL"]);
const C_KINDS: &[(&[u8], Kind)] = kinds! {
    SINGLE => [f F]; Kind::EXACT => [wb WB uwb uWB Uwb UWB wbu wbU WBu WBU];
    whole(Unsigned(64)) => [u U ul uL ull uLL Ul UL Ull ULL lu lU llu llU Lu LU LLu LLU];
};

/// Suffixes of C++, of its library, such as `1ms` and `1.5if`, and of its users: `1_km`.
const C_PLUS_PLUS_INTEGERS: &[&[u8]] =
    list![u U l L ll LL ul uL ull uLL Ul UL Ull ULL lu lU llu llU Lu LU LLu LLU h min s ms us ns d y i il if];
const C_PLUS_PLUS_FLOATS: &[&[u8]] = list![f F l L h min s ms us ns i il if];
const C_PLUS_PLUS_WORDS: Suffixes = Suffixes::new(C_PLUS_PLUS_INTEGERS, C_PLUS_PLUS_FLOATS, C_STOPS)
    .any_word(b"_")
    .with_kinds(C_PLUS_PLUS_KINDS)
    .with_written(&[b"ULL"]);
const C_PLUS_PLUS_KINDS: &[(&[u8], Kind)] = kinds! {
    SINGLE => [f F]; whole(Unsigned(64)) => [u U ul uL ull uLL Ul UL Ull ULL lu lU llu llU Lu LU LLu LLU d y i il];
    whole(Signed(64)) => [h min s ms us ns]; Kind::new(Unsigned(64), FloatKind::Single).unwrap() => [if];
};

/// Units of CSS: any word, such as `px` and the `n-1` of `2n-1`. A name may also begin with `-` and have escapes: `1-x`, `1--x` and
/// `1\78` are refused. So is `1e+x`, in which `e` is a unit: `+` may begin an exponent.
const CSS_WORDS: Suffixes = Suffixes::new(&[], &[], CSS_STOPS).any_word(&LETTERS).with_word_bytes(b"-");
const CSS_STOPS: &[Stop] = &[Stop::new(b"", b"-", &LETTERS), Stop::new(b"", b"-", b"-\\"), Stop::new(b"", b"\\", b"")];
/// Suffixes of C#, in either case.
const C_SHARP_INTEGERS: &[&[u8]] = list![u l ul lu];
const C_SHARP_DECIMALS: Suffixes = words(list![u l ul lu f d m], &[b"f", b"d", b"m"])
    .either_case(true)
    .with_kinds(kinds! { finite(SINGLE) => [f]; finite(Kind::EXACT) => [d m]; });

/// Suffixes of D: `1uL` and `1.5Li`.
const D_INTEGERS: Suffixes = words(list![L u U Lu LU uL UL], &[]);
const D_WORDS: Suffixes =
    words(list![L u U Lu LU uL UL f F i fi Fi Li], list![f F L i fi Fi Li]).with_kinds(D_KINDS).with_written(&[b"u"]);
const D_KINDS: &[(&[u8], Kind)] = kinds! {
    whole(Unsigned(64)) => [u U Lu LU uL UL]; finite(SINGLE) => [f F fi Fi]; finite(Kind::EXACT) => [i];
    whole(Signed(64)) => [L]; Kind::EXACT => [Li];
};

/// Suffixes of imaginary numbers of Go and Raku, and a point that no binary and octal number of Go has: `0b1.`.
const IMAGINARY: Suffixes = words(&[b"i"], &[b"i"]);
const GO_POINTLESS: Suffixes = Suffixes::new(&[b"i"], &[], &[Stop::new(b"", b".", b"")]);

/// Suffixes of Java and Scala, in either case.
const JAVA_DECIMALS: Suffixes = words(&[b"l", b"f", b"d"], &[b"f", b"d"])
    .either_case(true)
    .with_kinds(kinds! { whole(Signed(64)) => [l]; within(SINGLE) => [f]; within(Kind::EXACT) => [d]; })
    .with_written(&[b"L"]);
const SCALA_DECIMALS: Suffixes =
    JAVA_DECIMALS.with_kinds(kinds! { whole(Signed(64)) => [l]; finite(SINGLE) => [f]; finite(Kind::EXACT) => [d]; });
const JAVA_INTEGERS: Suffixes =
    words(&[b"l"], &[]).either_case(true).with_kinds(kinds! { whole(Wraps(64)) => [l]; }).with_written(&[b"L"]);
const JAVA_FLOATS: Suffixes = words(&[b"f", b"d"], &[b"f", b"d"])
    .either_case(true)
    .with_kinds(kinds! { within(SINGLE) => [f]; within(Kind::EXACT) => [d]; });
const SCALA_FLOATS: Suffixes = JAVA_FLOATS.with_kinds(kinds! { finite(SINGLE) => [f]; finite(Kind::EXACT) => [d]; });

/// The suffix of big integers of JavaScript. A name, which `$` and `\\` may begin, does not follow a number.
const BIG: Suffixes = Suffixes::new(&[b"n"], &[], &[Stop::new(b"", b"$\\", b"")]);

/// Suffixes of MATLAB: the type of an integer with a prefix, and those of imaginary numbers.
const MATLAB_INTEGERS: Suffixes = Suffixes::new(list![u8 u16 u32 u64 s8 s16 s32 s64], &[], &[]).with_kinds(kinds! {
    whole(Unsigned(8)) => [u8]; whole(Unsigned(16)) => [u16]; whole(Unsigned(32)) => [u32]; whole(Wraps(8)) => [s8];
    whole(Wraps(16)) => [s16]; whole(Wraps(32)) => [s32]; whole(Wraps(64)) => [s64];
});
const MATLAB_WORDS: Suffixes = Suffixes::new(&[b"i", b"j"], &[b"i", b"j"], POINT_AND_DIGIT).either_case(true);

/// A second point of Julia, Lua and NASM: `1..2` is no number, and no range.
const ONE_POINT: Suffixes = Suffixes::new(&[], &[], &[Stop::new(b"", b".", b"")]);

/// Suffixes of Kotlin.
const KOTLIN_DECIMALS: Suffixes =
    words(list![u U L uL UL f F], &[b"f", b"F"]).with_kinds(KOTLIN_KINDS).with_written(&[b"u"]);
const KOTLIN_WORDS: Suffixes = words(list![u U L uL UL], &[]).with_kinds(KOTLIN_KINDS).with_written(&[b"u"]);
const KOTLIN_KINDS: &[(&[u8], Kind)] = kinds! { whole(Unsigned(64)) => [u U uL UL]; SINGLE => [f F]; };
const KOTLIN_FLOATS: Suffixes = words(&[b"f", b"F"], &[]).with_kinds(kinds! { SINGLE => [f F]; });

/// Suffixes of Nim, in either case, also after `'`. Any other word after `'`, as in `1'x`, is refused, and so is a second point.
const NIM_STOPS: &[Stop] = &[Stop::new(b"", b"'", b""), Stop::new(b"", b".", b"0123456789")];
const NIM_INTEGERS: Suffixes =
    Suffixes::new(list![i8 i16 i32 i64 u u8 u16 u32 u64 'i8 'i16 'i32 'i64 'u 'u8 'u16 'u32 'u64], &[], NIM_STOPS)
        .either_case(true)
        .with_word_bytes(b"'")
        .with_kinds(NIM_KINDS)
        .with_written(&[b"u64"]);
const NIM_DECIMALS: Suffixes = Suffixes::new(
    list![i8 i16 i32 i64 u u8 u16 u32 u64 f f32 f64 d 'i8 'i16 'i32 'i64 'u 'u8 'u16 'u32 'u64 'f 'f32 'f64 'd],
    list![f f32 f64 d 'f 'f32 'f64 'd],
    NIM_STOPS,
)
.either_case(true)
.with_word_bytes(b"'")
.with_kinds(NIM_DECIMAL_KINDS)
.with_written(&[b"u64"]);
const NIM_KINDS: &[(&[u8], Kind)] = kinds! {
    whole(Wraps(8)) => [i8 'i8]; whole(Wraps(16)) => [i16 'i16]; whole(Wraps(32)) => [i32 'i32];
    whole(Unsigned(8)) => [u8 'u8]; whole(Unsigned(16)) => [u16 'u16]; whole(Unsigned(32)) => [u32 'u32];
    whole(Unsigned(64)) => [u u64 'u 'u64];
};
const NIM_DECIMAL_KINDS: &[(&[u8], Kind)] = kinds! {
    whole(Signed(8)) => [i8 'i8]; whole(Signed(16)) => [i16 'i16]; whole(Signed(32)) => [i32 'i32];
    whole(Unsigned(8)) => [u8 'u8]; whole(Unsigned(16)) => [u16 'u16]; whole(Unsigned(32)) => [u32 'u32];
    whole(Unsigned(64)) => [u u64 'u 'u64]; SINGLE => [f f32 'f 'f32]; Kind::EXACT => [f64 d 'f64 'd];
};

/// Suffixes of OCaml, whose names may have `'`.
const OCAML_WORDS: Suffixes = Suffixes::new(list![l L n], &[], &[Stop::new(b"", b"'", b"")])
    .with_kinds(kinds! { whole(Wraps(32)) => [l]; whole(Wraps(64)) => [L n]; });
const OCAML_DECIMALS: Suffixes =
    OCAML_WORDS.with_kinds(kinds! { whole(Signed(32)) => [l]; whole(Signed(64)) => [L n]; });

/// What may not follow a decimal number of Perl, of which `1.2.3` is a string, and the point of `1.x` may be of the number or not,
/// and of SQL, which has neither.
const PERL_WORDS: Suffixes =
    Suffixes::new(&[], &[], &[Stop::new(b"", b".", b"0123456789"), Stop::new(b"", b".", &LETTERS)]);

/// What goes on a name of PostScript, of which letters and most punctuation may follow a digit.
const POSTSCRIPT_WORDS: Suffixes = Suffixes::new(&[], &[], &[Stop::new(b"", b"!\"#$&'*+,-.:;=?@\\^`|~", b"")]);

/// What goes on a number of Prolog: `0'a`.
const PROLOG_WORDS: Suffixes = Suffixes::new(&[], &[], &[Stop::new(b"", b"'", b"")]);

/// The suffix of imaginary numbers of Python, in either case.
const PYTHON_WORDS: Suffixes = words(&[b"j"], &[b"j"]).either_case(true);

/// Words of Python that may follow a number: `1if x else 0`.
const PYTHON_KEYWORDS: &[&[u8]] = list![and else for if in is not or];

/// Suffixes of R, for integers and imaginary numbers.
const R_WORDS: Suffixes = words(&[b"L", b"i"], &[b"L", b"i"]);

/// Suffixes of Ruby.
const RUBY_WORDS: Suffixes = Suffixes::new(list![r i ri], &[b"i"], POINT_AND_DIGIT).whole_words(true);

/// Words of Ruby that may follow a number: `1unless x`.
const RUBY_KEYWORDS: &[&[u8]] = list![
    alias and begin break case class def do else elsif end ensure false for if in module next nil not or redo rescue
    retry return self super then true undef unless until when while yield
];

/// Suffixes of Rust.
const RUST_INTEGERS: &[&[u8]] = list![u8 u16 u32 u64 u128 usize i8 i16 i32 i64 i128 isize];
const RUST_DECIMALS: &[&[u8]] = list![u8 u16 u32 u64 u128 usize i8 i16 i32 i64 i128 isize f32 f64];
const RUST_WORDS: Suffixes = words(RUST_DECIMALS, &[b"f32", b"f64"]).with_kinds(RUST_KINDS);
const RUST_PREFIXED_WORDS: Suffixes =
    Suffixes::new(RUST_INTEGERS, &[], &[Stop::new(b"", b".", &NO_NAME)]).with_kinds(RUST_KINDS);
const RUST_KINDS: &[(&[u8], Kind)] = kinds! {
    whole(Unsigned(8)) => [u8]; whole(Unsigned(16)) => [u16]; whole(Unsigned(32)) => [u32];
    whole(Unsigned(64)) => [u64 usize]; whole(Signed(8)) => [i8]; whole(Signed(16)) => [i16];
    whole(Signed(32)) => [i32]; whole(Signed(64)) => [i64 isize]; whole(Signed(128)) => [i128]; finite(SINGLE) => [f32];
    finite(Kind::EXACT) => [f64];
};

/// What goes on a number of Verilog: `8'hFF`, `1.x` and `1$`.
const VERILOG_WORDS: Suffixes = Suffixes::new(&[], &[], &[Stop::new(b"", b"'.$", b"")]);

/// Suffixes of Visual Basic, in either case, of which some are no letters: `1.5!`.
const VISUAL_BASIC_INTEGERS: Suffixes = words(list![S US I % UI L & UL], &[])
    .either_case(true)
    .with_word_bytes(b"%&")
    .with_kinds(kinds! {
        whole(Wraps(16)) => [S]; whole(Unsigned(16)) => [US]; whole(Unsigned(32)) => [UI]; whole(Wraps(64)) => [L &];
        whole(Unsigned(64)) => [UL];
    })
    .with_written(&[b"L", b"UL"]);
const VISUAL_BASIC_DECIMALS: Suffixes = words(list![S US I % UI L & UL F ! R # D @], list![F ! R # D @])
    .either_case(true)
    .with_word_bytes(b"%&!#@")
    .with_kinds(kinds! {
        whole(Signed(16)) => [S]; whole(Unsigned(16)) => [US]; whole(Signed(32)) => [I %]; whole(Unsigned(32)) => [UI];
        whole(Signed(64)) => [L &]; whole(Unsigned(64)) => [UL]; finite(SINGLE) => [F !];
        finite(Kind::EXACT) => [R # D @];
    })
    .with_written(&[b"UL"]);

/// Letters, `_` and the bytes from 128 up; and all other bytes, but for a point, and for 0, which ends a string of C.
const LETTERS: [u8; 181] = bytes(true);
const NO_NAME: [u8; 73] = bytes(false);

/// Returns the bytes of `LETTERS`, or else those of `NO_NAME`.
const fn bytes<const COUNT: usize>(are_letters: bool) -> [u8; COUNT] {
    let (mut bytes, mut at, mut byte) = ([0; COUNT], 0, 0);
    while at < COUNT {
        byte += 1;
        let is_letter = byte == b'_' || byte.is_ascii_alphabetic() || byte >= 128;
        if is_letter == are_letters && byte != b'.' {
            bytes[at] = byte;
            at += 1;
        }
    }
    bytes
}

/// Tokens whose last point belongs to what follows: `1..2` and `1.max(2)`.
const POINTS_BACK: Tokens = Tokens::new(&[], &[]).gives_points_back(true);

/// The same before any word, as in `1to` of Pascal and `1x3` of Perl.
const WORDS_FOLLOW: Tokens = POINTS_BACK.any_word_follows(true);

languages! {
    /// Ada's decimal and based literals (Reference Manual 2012, 2.4.1 and 2.4.2). `1E3`, an integer in Ada, is a float
    /// here: `to_scaled(0)` is 1000. At the end of a text, the token of `1.` is `1`.
    ADA: "Ada" = {
        "decimal": decimal(ERLANG) => ADA_WORDS,
        "integer with an exponent": decimal(separated(b'_').required_digits(true)) => ADA_WORDS, // rejects `.5`, `1.`, `1e` and `.`
    } radixes "" "#" to 16 { closed(b'#', separated(b'_')) } => POINTS_BACK;

    /// Bash's integers in arithmetic (Bash Reference Manual 5.2, 6.5 Shell Arithmetic). An integer keeps its last 64
    /// bits: `9223372036854775808` is -9223372036854775808. A float is written if it is whole.
    BASH: "Bash" = {
        "decimal": integers(10, TOKENS.no_integer_leading_zeros(true), UNSIGNED) => BASH_WORDS; LAST_64, // rejects `08`
        "octal": octal(TOKENS) => BASH_WORDS; LAST_64,
        "hexadecimal": prefixed(b'x', 16, TOKENS) => BASH_WORDS; LAST_64,
    } radixes "" "#" { integers(2, TOKENS, UNSIGNED) => BASH_WORDS; LAST_64 } => Tokens::new(&[], &[]);

    /// C's integer and floating constants (C23, 6.4.4.1 and 6.4.4.2). A decimal integer has the type `long long`, which
    /// has 63 bits and a sign, unless its suffix has a `u`. `16777217.0df` is not rounded to seven digits.
    C: "C" = {
        "decimal": decimal(C.no_integer_leading_zeros(true)) => C_DECIMALS; whole(Signed(64)), // rejects `08`, not `08.5`
        "octal": octal(C) => C_WORDS; whole(Unsigned(64)),
        "hexadecimal": prefixed(b'x', 16, C) => C_WORDS; whole(Unsigned(64)),
        "binary": prefixed(b'b', 2, C) => C_WORDS; whole(Unsigned(64)),
        "hexadecimal float": binary_floats(b'x', 16, C.required_exponent_notation(true)) => C_WORDS, // rejects `0x1.8`
    } => Tokens::new(&[], &[]);

    /// Clojure's integers and floats, with signs (The Clojure Reader 1.11, Literals, Numbers).
    CLOJURE: "Clojure" = {
        "decimal": numbers(b'e', b'.', SIGNED
            .required_integer_digits(true) // rejects `.5`, not `1.`
            .no_integer_leading_zeros(true) // rejects `08`, not `08.5`
        ) => CLOJURE_DECIMALS,
        "octal": signed(octal(SIGNED)) => CLOJURE_INTEGERS,
        "hexadecimal": signed(prefixed(b'x', 16, SIGNED)) => CLOJURE_INTEGERS,
    } radixes "" "r" { integers(2, TOKENS, UNSIGNED) => CLOJURE_WORDS } => Tokens::new(
        &[Form::new("big decimal, leading zeros", integers(10, SIGNED, Conditions::NONE)).with_suffixes(&CLOJURE_BIG)],
        &[],
    );

    /// Common Lisp's integers and floats, with signs (Common Lisp HyperSpec, 2.3.2.1 and 2.4.8.7 to 2.4.8.10). `1.` is
    /// an integer, and `0.1`, but not `0.1d0`, is an `f32`.
    COMMON_LISP: "Common Lisp" = {
        "decimal": integers(10, SIGNED, Conditions::NONE) => LISP_WORDS,
        "with a point at the end": integers(10, SIGNED.base_suffix(NonZeroU8::new(b'.')), Conditions::NONE.required_base_suffix(true)) => LISP_WORDS,
        "float": numbers(b'e', b'.', SIGNED.required_fraction_digits(true)) => LISP_WORDS; finite(SINGLE), // rejects `1.` and `1.e5`, not `.5`
        "float, no digits behind the point": numbers(b'e', b'.', SIGNED.required_exponent_notation(true)) => LISP_WORDS; finite(SINGLE), // accepts `1.e5`
        "single": numbers(b'f', b'.', SIGNED.required_exponent_notation(true)) => LISP_WORDS; finite(SINGLE),
        "short": numbers(b's', b'.', SIGNED.required_exponent_notation(true)) => LISP_WORDS; finite(SINGLE),
        "double": numbers(b'd', b'.', SIGNED.required_exponent_notation(true)) => LISP_WORDS; finite(Kind::EXACT),
        "long": numbers(b'l', b'.', SIGNED.required_exponent_notation(true)) => LISP_WORDS; finite(Kind::EXACT),
        "hexadecimal" behind "#x": integers(16, SIGNED, Conditions::NONE) => LISP_WORDS,
        "octal" behind "#o": integers(8, SIGNED, Conditions::NONE) => LISP_WORDS,
        "binary" behind "#b": integers(2, SIGNED, Conditions::NONE) => LISP_WORDS,
    } radixes "#" "r" { integers(2, SIGNED, Conditions::NONE) => LISP_WORDS } => Tokens::new(&[], &[]);

    /// CSS's numbers, with signs (CSS Syntax Module Level 3, 4.3.12). The suffix of a token is its unit, a word that
    /// may have `-` after its first byte. A unit that begins with `-` or has an escape is refused, and so is `1e+x`. A
    /// token ends before `%`.
    CSS: "CSS" = { "decimal": numbers(b'e', b'.', SIGNED.required_fraction_digits(true)) => CSS_WORDS } => POINTS_BACK; // rejects `1.`, not `.5`

    /// Numbers in CSV, as programs write them (RFC 4180): `1.23E+05`, `+5` and `NaN`, without groups. Most programs
    /// read integers as doubles: take them as `f64`.
    CSV: "CSV" = {
        "decimal": numbers(b'e', b'.', NumberFormatBuilder::new()),
    }, Specials { nan: Some(b"NaN"), inf: Some(b"Inf"), infinity: Some(b"Infinity") };

    /// Numbers in CSV, as German spreadsheets write cells of the format `#.##0,00` (RFC 4180): `1.234,50`. `0.123` is
    /// refused: its point separates groups, so its zero is a leading one.
    CSV_DE: "CSV (German)" = { "decimal": grouped(numbers(b'e', b',', SPREADSHEET.digit_separator(NonZeroU8::new(b'.')))) };

    /// Numbers in CSV, as English spreadsheets write cells of the format `#,##0.00`, in quotes (RFC 4180):
    /// `"1,234.50"`. Remove the quotes, as CSV readers do. Replace the minus sign U+2212 of Gnumeric by `-`.
    CSV_EN: "CSV (English)" = { "decimal": grouped(numbers(b'e', b'.', SPREADSHEET.digit_separator(NonZeroU8::new(b',')))) };

    /// C++'s integer and floating literals (C++20, 5.13.2 and 5.13.4). The standard library has the suffixes of durations and
    /// dates, and `i`, `il` and `if` of imaginary numbers.
    C_PLUS_PLUS: "C++" = {
        "decimal": decimal(C.no_integer_leading_zeros(true)) => C_PLUS_PLUS_WORDS; whole(Signed(64)), // rejects `08`, not `08.5`
        "octal": octal(C) => C_PLUS_PLUS_WORDS; whole(Unsigned(64)),
        "hexadecimal": prefixed(b'x', 16, C) => C_PLUS_PLUS_WORDS; whole(Unsigned(64)),
        "binary": prefixed(b'b', 2, C) => C_PLUS_PLUS_WORDS; whole(Unsigned(64)),
        "hexadecimal float": binary_floats(b'x', 16, C.required_exponent_notation(true)) => C_PLUS_PLUS_WORDS, // rejects `0x1.8`
    } => Tokens::new(&[], &[]);

    /// C#'s integer and real literals (C# standard, 6.4.5.3 and 6.4.5.4).
    C_SHARP: "C#" = {
        "decimal": decimal(JAVA.required_fraction_digits(true)) => C_SHARP_DECIMALS; finite(whole(Unsigned(64))), // rejects `1.`, not `.5`
        "hexadecimal": prefixed(b'x', 16, JAVA.integer_leading_digit_separator(true)) => words(C_SHARP_INTEGERS, &[]).either_case(true); whole(Unsigned(64)), // accepts `0x_1F`
        "binary": prefixed(b'b', 2, JAVA.integer_leading_digit_separator(true)) => words(C_SHARP_INTEGERS, &[]).either_case(true); whole(Unsigned(64)), // accepts `0b_1`
    } => POINTS_BACK;

    /// D's integers and floats (D Language Specification, Lexical, Integer Literals and Floating Point Literals).
    D: "D" = {
        "decimal": decimal(RUST
            .required_fraction_digits(true) // rejects `1.` and `1.e5`, not `.5`
            .no_integer_leading_zeros(true) // rejects `08`, not `08.5`
            .exponent_leading_digit_separator(true) // accepts `1e_5`
        ) => D_WORDS; finite(whole(Signed(64))),
        "with a point at the end": decimal(RUST
            .exponent_digit_separator_flags(false)
            .no_integer_leading_zeros(true) // rejects `08`, not `08.`
            .no_exponent_notation(true) // rejects `1.e5`
        ); finite(whole(Signed(64))),
        "hexadecimal": prefixed(b'x', 16, D_PREFIXED) => D_INTEGERS; whole(Unsigned(64)),
        "binary": prefixed(b'b', 2, D_PREFIXED) => D_INTEGERS; whole(Unsigned(64)),
        "hexadecimal float": binary_floats(b'x', 16, D_PREFIXED
            .required_fraction_digits(true) // rejects `0x1.p3`, not `0x.8p3`
            .exponent_leading_digit_separator(true) // accepts `0x1p_3`
            .required_exponent_notation(true) // rejects `0x1.8`
        ) => D_WORDS; finite(Kind::EXACT),
    } => POINTS_BACK;

    /// Dart's integers and doubles (Dart Language Specification 6, Numbers, and the separators of Dart 3.6). An integer has 64 bits:
    /// `0xffffffffffffffff` is -1. `9223372036854775808`, which is lawful only after the operator `-`, is too large.
    DART: "Dart" = {
        "decimal": decimal(JAVA.required_fraction_digits(true)); whole(Signed(64)), // rejects `1.`, not `.5`
        "hexadecimal": prefixed(b'x', 16, JAVA); whole(Wraps(64)),
    } => POINTS_BACK;

    /// Elixir's integers and floats (Syntax reference 1.14, Numbers).
    ELIXIR: "Elixir" = {
        "decimal": decimal(ERLANG); finite(Kind::EXACT),
        "hexadecimal": prefixed(b'x', 16, separated(b'_').case_sensitive_base_prefix(true)), // rejects `0X1F`
        "octal": prefixed(b'o', 8, separated(b'_').case_sensitive_base_prefix(true)), // rejects `0O17`
        "binary": prefixed(b'b', 2, separated(b'_').case_sensitive_base_prefix(true)), // rejects `0B1`
    } => POINTS_BACK;

    /// Erlang's integers and floats (Reference Manual 13.1 of OTP 25, 3.3 Numbers).
    ERLANG: "Erlang" = {
        "decimal": decimal(ERLANG) => ERLANG_WORDS; finite(Kind::EXACT),
    } radixes "" "#" { integers(2, separated(b'_'), UNSIGNED) } => WORDS_FOLLOW;

    /// Fortran's signed integers and reals (ISO/IEC 1539-1:2018, 7.4.3). Binary, octal and hexadecimal constants have
    /// no type of their own: here, they have at most 128 bits, and are not written. `0.1`, but not `0.1d0`, is an
    /// `f32`. The suffix of a token is its kind: `0.1_8` is no `f32`. A kind such as `_dp` or `_08` is read, but not
    /// known. Compilers refuse `1_` and `1_8x`, which are tokens here. gfortran also reads `1q5`, and `1.q5` as one
    /// number.
    FORTRAN: "Fortran" = {
        "decimal": numbers(b'e', b'.', SIGNED) => FORTRAN_WORDS; finite(Kind::new(Signed(32), FloatKind::Single).unwrap()),
        // It rejects `1.0`, which the first form reads.
        "double precision": numbers(b'd', b'.', SIGNED.required_exponent_notation(true)); finite(Kind::EXACT),
        "hexadecimal, '" behind "z'" only_read true: suffixed(b'\'', 16, TOKENS, SUFFIXED); whole(Unsigned(128)),
        "octal, '" behind "o'" only_read true: suffixed(b'\'', 8, TOKENS, SUFFIXED); whole(Unsigned(128)),
        "binary, '" behind "b'" only_read true: suffixed(b'\'', 2, TOKENS, SUFFIXED); whole(Unsigned(128)),
        "hexadecimal, \"" behind "z\"" only_read true: suffixed(b'"', 16, TOKENS, SUFFIXED); whole(Unsigned(128)),
        "octal, \"" behind "o\"" only_read true: suffixed(b'"', 8, TOKENS, SUFFIXED); whole(Unsigned(128)),
        "binary, \"" behind "b\"" only_read true: suffixed(b'"', 2, TOKENS, SUFFIXED); whole(Unsigned(128)),
    } => Tokens::new(&[], &[]).gives_points_to_letters();

    /// Integers and floats of the GNU assembler (Using as 2.40, 3.6.2 Number Constants). A float has a point, an
    /// exponent, or a letter after a zero: `0e5` is 5, and `0f-1.5` has a sign. Some directives, such as `.double`,
    /// read integers as decimal floats, also `017`. Local labels, such as `1f` and `1b`, are refused here.
    GNU_ASSEMBLER: "GNU assembler" = {
        "decimal": integers(10, TOKENS.no_integer_leading_zeros(true), UNSIGNED); whole(Unsigned(128)), // rejects `08`
        "octal": octal(TOKENS); whole(Unsigned(128)),
        "hexadecimal": prefixed(b'x', 16, TOKENS); whole(Unsigned(128)),
        "binary": prefixed(b'b', 2, TOKENS); whole(Unsigned(128)),
        "float, 0e" behind "0e" only_read true: numbers(b'e', b'.', SIGNED); finite(Kind::EXACT),
        "float, 0f" behind "0f" only_read true: numbers(b'e', b'.', SIGNED); finite(Kind::EXACT),
        "float, 0d" behind "0d" only_read true: numbers(b'e', b'.', SIGNED); finite(Kind::EXACT),
        "float": decimal(TOKENS.no_integer_leading_zeros(true)); finite(Kind::EXACT), // rejects `08`, not `08.5`
    } => Tokens::new(&[], &[]);

    /// Go's integer and floating-point literals (Language Specification).
    GO: "Go" = {
        "decimal": decimal(separated(b'_').no_integer_leading_zeros(true)) => IMAGINARY, // rejects `08`, not `08.5`
        "octal": octal(separated(b'_')) => GO_POINTLESS,
        "hexadecimal": prefixed(b'x', 16, GO_PREFIXED) => IMAGINARY,
        "octal, 0o": prefixed(b'o', 8, GO_PREFIXED) => GO_POINTLESS,
        "binary": prefixed(b'b', 2, GO_PREFIXED) => GO_POINTLESS,
        "hexadecimal float": binary_floats(b'x', 16, GO_PREFIXED.required_exponent_notation(true)) => IMAGINARY, // rejects `0x1.8`
    } => Tokens::new(&[leading_zeros("imaginary, leading zeros", separated(b'_'), &IMAGINARY)], &[]);

    /// Haskell's integers and floats (Haskell 2010 Report, 2.5). GHC reads more since 9.2: those of `HASKELL_GHC2021`.
    HASKELL: "Haskell 2010" = {
        "decimal": decimal(TOKENS.required_digits(true)), // rejects `.5`, `1.`, `1e` and `.`
        "hexadecimal": prefixed(b'x', 16, TOKENS),
        "octal": prefixed(b'o', 8, TOKENS),
    } => POINTS_BACK;

    /// Haskell's integers and floats with the extensions of GHC that `GHC2021` has (GHC User's Guide 9.2,
    /// NumericUnderscores, BinaryLiterals and HexFloatLiterals).
    HASKELL_GHC2021: "Haskell GHC2021" = {
        "decimal": decimal(JAVA.required_digits(true)), // rejects `.5`, `1.`, `1e` and `.`
        "hexadecimal": binary_floats(b'x', 16, JAVA
            .integer_leading_digit_separator(true) // accepts `0x_1F`
            .required_digits(true) // rejects `0x.8`, `0x1.` and `0x1p`
        ),
        "octal": prefixed(b'o', 8, JAVA.integer_leading_digit_separator(true)), // accepts `0o_17`
        "binary": prefixed(b'b', 2, JAVA.integer_leading_digit_separator(true)), // accepts `0b_1`
    } => POINTS_BACK;

    /// Java's integer and floating-point literals (Language Specification 21, 3.10.1 and 3.10.2). Values are those of
    /// `int` or, with `L`, of `long`: `0xffffffff` is -1. `2147483648`, which is lawful only after the operator `-`, is
    /// too large.
    JAVA: "Java" = {
        "decimal": decimal(JAVA.no_integer_leading_zeros(true)) => JAVA_DECIMALS; within(whole(Signed(32))), // rejects `08`, not `08.5`
        "octal": octal(JAVA) => JAVA_INTEGERS; whole(Wraps(32)),
        "hexadecimal": prefixed(b'x', 16, JAVA) => JAVA_INTEGERS; whole(Wraps(32)),
        "binary": prefixed(b'b', 2, JAVA) => JAVA_INTEGERS; whole(Wraps(32)),
        "hexadecimal float": binary_floats(b'x', 16, JAVA.required_exponent_notation(true)) => JAVA_FLOATS; within(Kind::EXACT), // rejects `0x1.8`
    } => Tokens::new(&[leading_zeros("float, leading zeros", JAVA, &JAVA_FLOATS)], &[]);

    /// JavaScript's numeric literals in strict code (ECMA-262, Numeric Literals). JavaScript makes integers doubles, which it
    /// rounds from 2^53 on: take their values as `f64`.
    JAVASCRIPT: "JavaScript" = {
        "decimal": decimal(without_zeros(separated(b'_'))) => BIG,
        "hexadecimal": prefixed(b'x', 16, separated(b'_')) => BIG,
        "octal": prefixed(b'o', 8, separated(b'_')) => BIG,
        "binary": prefixed(b'b', 2, separated(b'_')) => BIG,
    } => Tokens::new(&[], &[]);

    /// JSON's numbers (RFC 8259, 6. Numbers).
    JSON: "JSON" = { "decimal": numbers(b'e', b'.', without_zeros(TOKENS).required_digits(true)) }; // rejects `.5`, `1.`, `1e` and `.`

    /// JSON5's numbers (The JSON5 Data Interchange Format 1.0.0, 6. Numbers). As in JavaScript, they are doubles: take their values
    /// as `f64`.
    JSON5: "JSON5" = {
        "decimal": numbers(b'e', b'.', without_zeros(TOKENS)
            .no_positive_mantissa_sign(false) // accepts `+1`
            .no_special(false) // accepts `NaN` and `Infinity`
            .case_sensitive_special(true) // rejects `nan`
        ),
        "hexadecimal": signed(prefixed(b'x', 16, TOKENS.no_positive_mantissa_sign(false))), // accepts `+0x1F`
    }, Specials { nan: Some(b"NaN"), inf: Some(b"Infinity"), infinity: None };

    /// Julia's integers and floats (Manual 1.11, Integers and Floating-Point Numbers). `0.1f0`, but not `0.1`, is an
    /// `f32`. The token of `2x` is `2`.
    JULIA: "Julia" = {
        "decimal": decimal(JULIA) => ONE_POINT,
        "32 bits": numbers(b'f', b'.', JULIA.case_sensitive_exponent(true)).with_conditions_or_panic(UNSIGNED) => ONE_POINT; SINGLE, // accepts `1f3`, not `1F3`
        "hexadecimal": prefixed(b'x', 16, JULIA.case_sensitive_base_prefix(true)), // rejects `0X1F`
        "octal": prefixed(b'o', 8, JULIA.case_sensitive_base_prefix(true)), // rejects `0O17`
        "binary": prefixed(b'b', 2, JULIA.case_sensitive_base_prefix(true)), // rejects `0B1`
        "hexadecimal float": binary_floats(b'x', 16, JULIA
            .case_sensitive_base_prefix(true) // rejects `0X1p3`
            .required_exponent_notation(true) // rejects `0x1.8`
        ),
    } => Tokens::new(&[], &[]).any_word_follows(true);

    /// Kotlin's integer and real literals (Kotlin language specification 1.9, Literals). An integer is an `Int` or a `Long` or, with
    /// `u`, a `ULong`.
    KOTLIN: "Kotlin" = {
        "decimal": decimal(KOTLIN) => KOTLIN_DECIMALS; whole(Signed(64)),
        "hexadecimal": prefixed(b'x', 16, JAVA) => KOTLIN_WORDS; whole(Signed(64)),
        "binary": prefixed(b'b', 2, JAVA) => KOTLIN_WORDS; whole(Signed(64)),
    } => Tokens::new(&[leading_zeros("float, leading zeros", JAVA, &KOTLIN_FLOATS)], &[]).gives_points_back(true);

    /// Lua's integers and floats (Reference Manual 5.4, 3.1). A decimal integer from 2^63 on is a float in Lua: take
    /// its value as an `f64`. A hexadecimal one keeps its last 64 bits: `0xffffffffffffffff` is -1.
    LUA: "Lua" = {
        "decimal": decimal(TOKENS) => ONE_POINT,
        "hexadecimal": binary_floats(b'x', 16, TOKENS) => ONE_POINT; LAST_64,
    } => Tokens::new(&[], &[]);

    /// MATLAB's numbers (MATLAB Programming Fundamentals R2023a, Integers and Floating-Point Numbers). A decimal is a
    /// double: take its value as an `f64`. `1.` is refused here, since `1./x` is `1` and `./`.
    MATLAB: "MATLAB" = {
        "decimal": decimal(TOKENS.required_fraction_digits(true)) => MATLAB_WORDS, // rejects `1.`, not `.5`
        "decimal, d": numbers(b'd', b'.', TOKENS
            .required_fraction_digits(true)
            .required_exponent_notation(true) // rejects `1.0`, which the first form reads
        ).with_conditions_or_panic(UNSIGNED) => MATLAB_WORDS,
        "hexadecimal": prefixed(b'x', 16, TOKENS) => MATLAB_INTEGERS; whole(Unsigned(64)),
        "binary": prefixed(b'b', 2, TOKENS) => MATLAB_INTEGERS; whole(Unsigned(64)),
    } => POINTS_BACK;

    /// NASM's numeric constants (NASM manual, Numeric Constants and Floating-Point Constants). An integer keeps its
    /// last 64 bits: `0x10000000000000001` is 1, and `0xffffffffffffffff` -1.
    NASM: "NASM" = {
        "decimal": decimal(NASM
            .required_integer_digits(true) // rejects `.5`, not `1.`
            .required_exponent_digits(false) // accepts `1e`
        ) => ONE_POINT; LAST_64,
        "decimal, d": suffixed(b'd', 10, NASM, SUFFIXED) => ONE_POINT; LAST_64,
        "decimal, t": suffixed(b't', 10, NASM, SUFFIXED) => ONE_POINT; LAST_64,
        "hexadecimal, h": suffixed(b'h', 16, NASM, NAMELESS) => ONE_POINT; LAST_64, // rejects `ffh`
        "hexadecimal, x": suffixed(b'x', 16, NASM, NAMELESS) => ONE_POINT; LAST_64, // rejects `ffx`
        "octal, o": suffixed(b'o', 8, NASM, SUFFIXED) => ONE_POINT; LAST_64,
        "octal, q": suffixed(b'q', 8, NASM, SUFFIXED) => ONE_POINT; LAST_64,
        "binary, b": suffixed(b'b', 2, NASM, SUFFIXED) => ONE_POINT; LAST_64,
        "binary, y": suffixed(b'y', 2, NASM, SUFFIXED) => ONE_POINT; LAST_64,
        "decimal, 0d": prefixed_decimal(b'd', NASM_PREFIXED.required_exponent_digits(false)) => ONE_POINT; LAST_64, // accepts `0d1e`
        "decimal, 0t": prefixed_decimal(b't', NASM_PREFIXED.required_exponent_digits(false)) => ONE_POINT; LAST_64, // accepts `0t1e`
        "hexadecimal, 0h": binary_floats(b'h', 16, NASM_PREFIXED) => ONE_POINT; LAST_64,
        "hexadecimal, 0x": binary_floats(b'x', 16, NASM_PREFIXED) => ONE_POINT; LAST_64,
        "hexadecimal, $" behind "$": integers(16, NASM, UNSIGNED.decimal_first_digit(true)) => ONE_POINT; LAST_64, // rejects `$ff`
        "octal, 0o": binary_floats(b'o', 8, NASM_PREFIXED) => ONE_POINT; LAST_64,
        "octal, 0q": binary_floats(b'q', 8, NASM_PREFIXED) => ONE_POINT; LAST_64,
        "binary, 0b": binary_floats(b'b', 2, NASM_PREFIXED) => ONE_POINT; LAST_64,
        "binary, 0y": binary_floats(b'y', 2, NASM_PREFIXED) => ONE_POINT; LAST_64,
    } => Tokens::new(&[], &[]);

    /// Nim's integers and floats, with the sign `-` (Nim Manual 1.6, Numeric literals). A hexadecimal, octal or binary
    /// integer keeps its last 64 bits: `0xffffffffffffffff` is -1. Suffixes of users, such as `'big`, are refused here,
    /// and so is `0b1f32`, whose digits are the bits of a float.
    NIM: "Nim" = {
        "decimal": numbers(b'e', b'.', separated(b'_').required_digits(true)) => NIM_DECIMALS; whole(Signed(64)), // rejects `.5`, `1.`, `1e` and `.`
        "hexadecimal": signed(prefixed(b'x', 16, separated(b'_'))) => NIM_INTEGERS; LAST_64,
        "octal": signed(prefixed(b'o', 8, separated(b'_').case_sensitive_base_prefix(true))) => NIM_INTEGERS; LAST_64, // rejects `0O17`
        "binary": signed(prefixed(b'b', 2, separated(b'_'))) => NIM_INTEGERS; LAST_64,
    } => POINTS_BACK;

    /// OCaml's integers and floats (Manual 5.2, 11.1 Lexical conventions). An integer has 63 bits, so
    /// `0x7fffffffffffffff` is -1.
    OCAML: "OCaml" = {
        "decimal": decimal(RUST
            .required_integer_digits(true) // rejects `.5`, not `1.`
            .fraction_leading_digit_separator(true) // accepts `1._5`, not `_1` or `1e_5`
        ) => OCAML_DECIMALS; whole(Signed(63)),
        "hexadecimal": binary_floats(b'x', 16, RUST
            .required_integer_digits(true) // rejects `0x.8`, not `0x1.`
            .fraction_leading_digit_separator(true) // accepts `0x1._8`, not `0x_1`
        ) => OCAML_WORDS; whole(Wraps(63)),
        "octal": prefixed(b'o', 8, RUST) => OCAML_WORDS; whole(Wraps(63)),
        "binary": prefixed(b'b', 2, RUST) => OCAML_WORDS; whole(Wraps(63)),
    } => Tokens::new(&[], &[]);

    /// Pascal's integers and reals (Free Pascal Reference Guide 3.2, 1.6 Numbers). A hexadecimal, octal or binary
    /// integer has 64 bits: `$FFFFFFFFFFFFFFFF` is -1. A decimal integer from 2^64 on is a real there: take its value
    /// as an `f64`.
    PASCAL: "Pascal" = {
        "decimal": decimal(TOKENS.required_digits(true)), // rejects `.5`, `1.`, `1e` and `.`
        "hexadecimal" behind "$": integers(16, TOKENS, UNSIGNED); whole(Wraps(64)),
        "octal" behind "&": integers(8, TOKENS, UNSIGNED); whole(Wraps(64)),
        "binary" behind "%": integers(2, TOKENS, UNSIGNED); whole(Wraps(64)),
    } => WORDS_FOLLOW;

    /// Perl's numeric literals (perldata 5.36, Scalar value constructors). An integer from 2^64 on is a float in Perl:
    /// take its value as an `f64`. Floats of another radix are only read, since Perl drops bits of them. A token is
    /// refused before a point that may be an operator, as in `1.x` and `0x1F.8`.
    PERL: "Perl" = {
        "decimal": decimal(without_zeros(separated(b'_'))) => PERL_WORDS, // rejects `01.5`
        "octal": octal(separated(b'_')),
        "hexadecimal": prefixed(b'x', 16, separated(b'_')),
        "octal, 0o": prefixed(b'o', 8, separated(b'_')),
        "binary": prefixed(b'b', 2, separated(b'_')),
        "hexadecimal float" only_read true: binary_floats(b'x', 16, separated(b'_').required_exponent_notation(true)), // rejects `0x1.8`
        "octal float, 0o" only_read true: binary_floats(b'o', 8, separated(b'_').required_exponent_notation(true)), // rejects `0o1.4`
        "binary float" only_read true: binary_floats(b'b', 2, separated(b'_').required_exponent_notation(true)), // rejects `0b1.1`
        "octal float" only_read true: powers_of_two(8, separated(b'_').required_exponent_notation(true), UNSIGNED.required_leading_zero(true)), // rejects `01.4`
    } => WORDS_FOLLOW;

    /// PHP's integers and floats (Manual, 8.1 and later, Integers and Floating point numbers). An integer from 2^63 on
    /// is a float in PHP, and not always the nearest one if it has a prefix.
    PHP: "PHP" = {
        "decimal": decimal(separated(b'_').no_integer_leading_zeros(true)), // rejects `08`, not `08.5`
        "octal": octal(separated(b'_')),
        "hexadecimal": prefixed(b'x', 16, separated(b'_')),
        "octal, 0o": prefixed(b'o', 8, separated(b'_')),
        "binary": prefixed(b'b', 2, separated(b'_')),
    } => Tokens::new(&[], &[]);

    /// PostScript's numbers, with signs (PostScript Language Reference, third edition, 3.2.2), as in Ghostscript. An
    /// integer has 64 bits: `16#FFFFFFFFFFFFFFFF` is -1. Floats are singles.
    POSTSCRIPT: "PostScript" = {
        "decimal": numbers(b'e', b'.', SIGNED.required_exponent_digits(true)) => POSTSCRIPT_WORDS; finite(Kind::new(Signed(64), FloatKind::Single).unwrap()), // rejects `1e`
    } radixes "" "#" { integers(2, TOKENS, UNSIGNED) => POSTSCRIPT_WORDS; whole(Wraps(64)) } => Tokens::new(&[], &[]);

    /// Prolog's integers and floats (SWI-Prolog 9 Reference Manual, 5.10 and 2.15.1.6). `1 000`, a number in
    /// SWI-Prolog, is refused here.
    PROLOG: "Prolog" = {
        "decimal": decimal(TOKENS.required_digits(true)) => PROLOG_WORDS; finite(Kind::EXACT), // rejects `.5`, `1.`, `1e` and `.`
        "decimal, with separators": integers(10, separated(b'_'), UNSIGNED) => PROLOG_WORDS, // accepts `1_000`
        "hexadecimal": prefixed(b'x', 16, separated(b'_').case_sensitive_base_prefix(true)), // rejects `0X1F`
        "octal": prefixed(b'o', 8, separated(b'_').case_sensitive_base_prefix(true)), // rejects `0O17`
        "binary": prefixed(b'b', 2, separated(b'_').case_sensitive_base_prefix(true)), // rejects `0B1`
    } radixes "" "'" { integers(2, separated(b'_'), UNSIGNED) } => POINTS_BACK;

    /// Python's integers and floats (Language Reference 3.12, 2.4.5 and 2.4.6). The token of `0or x` is `0`, where
    /// CPython takes `0o` for a prefix, and refuses it.
    PYTHON: "Python" = {
        "decimal": decimal(separated(b'_').no_integer_leading_zeros(true)) => PYTHON_WORDS, // rejects `01`, not `01.0`
        "hexadecimal": prefixed(b'x', 16, GO_PREFIXED),
        "octal": prefixed(b'o', 8, GO_PREFIXED),
        "binary": prefixed(b'b', 2, GO_PREFIXED),
    } => Tokens::new(&[leading_zeros("imaginary, leading zeros", separated(b'_'), &PYTHON_WORDS)], PYTHON_KEYWORDS);

    /// R's numeric constants (R Language Definition 4.2, 10.3.1). In R, all are doubles: `9007199254740993` is
    /// 9007199254740992 there, and a hexadecimal float below 2^-1022 is 0.
    R: "R" = {
        "decimal": decimal(TOKENS) => R_WORDS,
        "hexadecimal": prefixed(b'x', 16, TOKENS) => R_WORDS,
        "hexadecimal float": binary_floats(b'x', 16, TOKENS.required_exponent_notation(true)) => R_WORDS, // rejects `0x1.8`
    } => Tokens::new(&[], &[]);

    /// Raku's integers, rationals and floats (Raku Documentation 2022.12, Number literals).
    RAKU: "Raku" = {
        "decimal": decimal(separated(b'_').required_fraction_digits(true)) => IMAGINARY, // rejects `1.`, not `.5`
        "hexadecimal": prefixed(b'x', 16, RAKU_PREFIXED) => IMAGINARY,
        "octal": prefixed(b'o', 8, RAKU_PREFIXED) => IMAGINARY,
        "binary": prefixed(b'b', 2, RAKU_PREFIXED) => IMAGINARY,
        "decimal, 0d": prefixed(b'd', 10, RAKU_PREFIXED) => IMAGINARY,
    } radixes ":" "<" { closed(b'>', separated(b'_')) } => POINTS_BACK;

    /// Ruby's integers and floats (ISO/IEC 30170:2012, 8.7.6.2), with signs.
    RUBY: "Ruby" = {
        "decimal": numbers(b'e', b'.', without_zeros(RUBY).required_digits(true)) => RUBY_WORDS, // rejects `.5`, `1.`, `1e` and `.`
        "octal": signed(octal(RUBY)) => RUBY_WORDS,
        "hexadecimal": signed(prefixed(b'x', 16, RUBY)) => RUBY_WORDS,
        "octal, 0o": signed(prefixed(b'o', 8, RUBY)) => RUBY_WORDS,
        "binary": signed(prefixed(b'b', 2, RUBY)) => RUBY_WORDS,
        "decimal, 0d": signed(prefixed(b'd', 10, RUBY)) => RUBY_WORDS,
    } => Tokens::new(
        &[Form::new("rational", numbers(b'e', b'.', without_zeros(RUBY).required_digits(true).no_exponent_notation(true)))
            .with_suffixes(&words(&[b"r", b"ri"], &[b"r", b"ri"]).whole_words(true))],
        RUBY_KEYWORDS,
    )
    .gives_points_back(true);

    /// Rust's integers and floats (Reference, Integer literals and Floating-point literals). Without a suffix, an
    /// integer has up to 128 bits. `128i8`, which Rust takes only after the operator `-`, is too large. At the end of a
    /// text, the token of `0b1.` is `0b1`, but rustc takes the point, and refuses it.
    RUST: "Rust" = {
        "decimal": decimal(RUST
            .required_integer_digits(true) // rejects `.5`
            .required_fraction_digits(true) // rejects `1.` and `1.e5`
            .exponent_leading_digit_separator(true) // accepts `1e_5`
        ) => RUST_WORDS; finite(whole(Unsigned(128))),
        "with a point at the end": decimal(RUST
            .exponent_digit_separator_flags(false)
            .required_integer_digits(true) // rejects `.5`, not `1.`
            .no_exponent_notation(true) // rejects `1.e5`
        ) => RUST_WORDS; finite(whole(Unsigned(128))),
        "hexadecimal": prefixed(b'x', 16, RUST_PREFIXED) => RUST_PREFIXED_WORDS; whole(Unsigned(128)),
        "octal": prefixed(b'o', 8, RUST_PREFIXED) => RUST_PREFIXED_WORDS; whole(Unsigned(128)),
        "binary": prefixed(b'b', 2, RUST_PREFIXED) => RUST_PREFIXED_WORDS; whole(Unsigned(128)),
    } => POINTS_BACK;

    /// Scala's integers and floats (Scala 3.3 Reference, Syntax). Values are those of `Int` or, with `L`, of `Long`:
    /// `0xffffffff` is -1. `2147483648`, which is lawful only after the operator `-`, is too large.
    SCALA: "Scala" = {
        "decimal": decimal(KOTLIN) => SCALA_DECIMALS; finite(whole(Signed(32))),
        "hexadecimal": prefixed(b'x', 16, JAVA) => JAVA_INTEGERS; whole(Wraps(32)),
    } => Tokens::new(&[leading_zeros("float, leading zeros", JAVA, &SCALA_FLOATS)], &[]).gives_points_back(true);

    /// Scheme's integers and decimals, with signs (R7RS, 7.1.1 Lexical structure).
    SCHEME: "Scheme" = {
        "decimal": numbers(b'e', b'.', SIGNED) => SCHEME_WORDS,
        "decimal, #d" behind "#d": numbers(b'e', b'.', SIGNED) => SCHEME_WORDS,
        "hexadecimal" behind "#x": integers(16, SIGNED, Conditions::NONE) => SCHEME_WORDS,
        "octal" behind "#o": integers(8, SIGNED, Conditions::NONE) => SCHEME_WORDS,
        "binary" behind "#b": integers(2, SIGNED, Conditions::NONE) => SCHEME_WORDS,
    } => Tokens::new(&[], &[]);

    /// SQL's signed numeric literals (ISO/IEC 9075-2:2016, 5.3 `<literal>`).
    SQL: "SQL" = { "decimal": numbers(b'e', b'.', SIGNED) => PERL_WORDS } => POINTS_BACK;

    /// Swift's numeric literals, with the sign `-` (The Swift Programming Language, Lexical Structure).
    SWIFT: "Swift" = {
        "decimal": numbers(b'e', b'.', RUST.required_digits(true)), // rejects `.5`, `1.`, `1e` and `.`
        "hexadecimal": signed(prefixed(b'x', 16, RUST.case_sensitive_base_prefix(true))), // rejects `0X1F`
        "octal": signed(prefixed(b'o', 8, RUST.case_sensitive_base_prefix(true))), // rejects `0O17`
        "binary": signed(prefixed(b'b', 2, RUST.case_sensitive_base_prefix(true))), // rejects `0B1`
        "hexadecimal float": signed(binary_floats(b'x', 16, RUST
            .case_sensitive_base_prefix(true) // rejects `0X1p3`
            .required_digits(true) // rejects `0x.8p3`, `0x1.p3` and `0x1p`
            .required_exponent_notation(true) // rejects `0x1.8`
        )),
    } => POINTS_BACK;

    /// Tcl's numbers as operands of `expr` (expr manual 8.6, Operands).
    TCL: "Tcl" = {
        "decimal": decimal(TOKENS
            .no_special(false) // accepts `Inf`
            .no_integer_leading_zeros(true) // rejects `08`, not `08.5`
        ),
        "octal": octal(TOKENS),
        "hexadecimal": prefixed(b'x', 16, TOKENS),
        "octal, 0o": prefixed(b'o', 8, TOKENS),
        "binary": prefixed(b'b', 2, TOKENS),
    }, Specials { nan: None, inf: Some(b"Inf"), infinity: Some(b"Infinity") } => Tokens::new(&[], &[b"eq", b"ne", b"in", b"ni"]);

    /// TOML's integers and floats (TOML 1.0.0, Integer and Float).
    TOML: "TOML" = {
        "decimal": numbers(b'e', b'.', without_zeros(separated(b'_'))
            .required_digits(true) // rejects `.5`, `1.`, `1e` and `.`
            .no_positive_mantissa_sign(false) // accepts `+1`
            .no_special(false) // accepts `nan` and `inf`
            .case_sensitive_special(true) // rejects `NaN` and `Inf`
        ),
        "hexadecimal": prefixed(b'x', 16, separated(b'_').case_sensitive_base_prefix(true)), // rejects `0X1F`
        "octal": prefixed(b'o', 8, separated(b'_').case_sensitive_base_prefix(true)), // rejects `0O17`
        "binary": prefixed(b'b', 2, separated(b'_').case_sensitive_base_prefix(true)), // rejects `0B1`
    }, Specials { nan: Some(b"nan"), inf: Some(b"inf"), infinity: None };

    /// Verilog's integers without a size and reals (IEEE 1364-2005, 3.5). A size, as in `8'hFF`, is refused here, and
    /// so is `'shFF`, whose value depends on the size.
    VERILOG: "Verilog" = {
        "decimal": decimal(RUST.required_digits(true)) => VERILOG_WORDS, // rejects `.5`, `1.`, `1e` and `.`
        "hexadecimal" behind "'h": integers(16, RUST, UNSIGNED) => VERILOG_WORDS,
        "decimal integer" behind "'d": integers(10, RUST, UNSIGNED) => VERILOG_WORDS,
        "octal" behind "'o": integers(8, RUST, UNSIGNED) => VERILOG_WORDS,
        "binary" behind "'b": integers(2, RUST, UNSIGNED) => VERILOG_WORDS,
    } => Tokens::new(&[], &[]);

    /// VHDL's abstract literals (IEEE 1076-2008, 15.5). Integers without an exponent have 64 bits, one of which is the
    /// sign, as in GHDL. `1E3`, an integer in VHDL, is a float here.
    VHDL: "VHDL" = {
        "decimal": decimal(ERLANG) => ADA_WORDS; finite(whole(Signed(64))),
        "integer with an exponent": decimal(separated(b'_').required_digits(true)) => ADA_WORDS; finite(whole(Signed(64))),
    } radixes "" "#" to 16 { closed(b'#', separated(b'_')) => ADA_WORDS; finite(whole(Signed(64))) } => Tokens::new(&[], &[]);

    /// Visual Basic's integers, floats and decimals (Visual Basic Language Specification 11, 2.4, and the separators of
    /// Visual Basic 15.5). Values are those of `Integer` or, with `L` or `&`, of `Long`: `&HFFFFFFFF` is -1.
    /// `&H100000000` is too large without a suffix, but a decimal integer may have 64 bits.
    VISUAL_BASIC: "Visual Basic" = {
        "decimal": decimal(JAVA.required_fraction_digits(true)) => VISUAL_BASIC_DECIMALS; finite(whole(Signed(64))), // rejects `1.`, not `.5`
        "hexadecimal" behind "&H": integers(16, VISUAL_BASIC, UNSIGNED) => VISUAL_BASIC_INTEGERS; whole(Wraps(32)),
        "octal" behind "&O": integers(8, VISUAL_BASIC, UNSIGNED) => VISUAL_BASIC_INTEGERS; whole(Wraps(32)),
        "binary" behind "&B": integers(2, VISUAL_BASIC, UNSIGNED) => VISUAL_BASIC_INTEGERS; whole(Wraps(32)),
    } => POINTS_BACK;

    /// The decimals of XML Schema, with signs (XML Schema 1.1, Part 2, 3.3.3).
    XML_SCHEMA: "XML Schema" = { "decimal": numbers(b'e', b'.', SIGNED.no_exponent_notation(true)) }; // rejects `1e5`

    /// The doubles of XML Schema, with signs (XML Schema 1.1, Part 2, 3.3.5): take the values of integers as `f64`.
    XML_SCHEMA_DOUBLE: "XML Schema double" = {
        "decimal": numbers(b'e', b'.', NumberFormatBuilder::new().case_sensitive_special(true)), // rejects `nan` and `inf`
    }, Specials { nan: Some(b"NaN"), inf: Some(b"INF"), infinity: None };

    /// YAML's integers and floats (YAML 1.2.2, 10.3.2 Tag Resolution). `-.nan`, which is read and written here, is a
    /// string to tools. Tools for YAML 1.1, such as PyYAML, read `YAML_1_1`: there, `010` is 8, and `1e3` is a string.
    YAML: "YAML" = {
        "decimal": numbers(b'e', b'.', NumberFormatBuilder::new()),
        "octal": prefixed(b'o', 8, TOKENS.case_sensitive_base_prefix(true)), // rejects `0O17`
        "hexadecimal": prefixed(b'x', 16, TOKENS.case_sensitive_base_prefix(true)), // rejects `0X1F`
    }, Specials { nan: Some(b".nan"), inf: Some(b".inf"), infinity: None };

    /// YAML 1.1's integers and floats (int.html and float.html of its type repository). `-.nan`, which is read and
    /// written here, is a string to tools.
    YAML_1_1: "YAML 1.1" = {
        "decimal": numbers(b'e', b'.', YAML_1_1
            .no_special(false) // accepts `.nan` and `.inf`
            .no_integer_leading_zeros(true) // rejects `08`, not `08.5`
            .fraction_leading_digit_separator(true) // accepts `1._5`
            .exponent_digit_separator_flags(false) // rejects `1.5e+1_0`
            .required_exponent_sign(true) // rejects `1.5e3`
            .no_exponent_without_fraction(true) // rejects `1e+3`, not `1.e+3`
        ),
        "octal": signed(octal(YAML_1_1)),
        "hexadecimal": signed(prefixed(b'x', 16, YAML_1_1_PREFIXED)),
        "binary": signed(prefixed(b'b', 2, YAML_1_1_PREFIXED)),
    }, Specials { nan: Some(b".nan"), inf: Some(b".inf"), infinity: None };
}
