//! The numbers that languages have, by the languages' own definitions.

use peltzivar::literal::{Form, Language, Literal};

/// Languages, what the names of forms begin with or, behind `!`, do not begin with, the suffixes there, where `-` is
/// none, and the kind. Integers are `i8` with 8 bits, one of which is the sign, `u8` without a sign, `w8` if they wrap
/// at 8 bits, and `m8` if the last 8 bits count. Floats are `f64`, or `f32`, and before `!` they are finite. `=` is the
/// suffix itself. Where nothing is stated, integers have any size, and floats are `f64`.
#[rustfmt::skip]
pub const KINDS: &[[&str; 4]] = &[
    ["BASH NASM", "", "-", "m64"],
    ["C C_PLUS_PLUS", "decimal", "- l L ll LL", "i64"],
    ["C C_PLUS_PLUS", "!decimal", "- l L ll LL", "u64"],
    ["C C_PLUS_PLUS", "", "u U ul uL ull uLL Ul UL Ull ULL lu lU llu llU Lu LU LLu LLU", "u64"],
    ["C C_PLUS_PLUS KOTLIN", "", "f F", "f32"],
    ["C_PLUS_PLUS", "", "h min s ms us ns", "i64"],
    ["C_PLUS_PLUS", "", "d y i il", "u64"],
    ["C_PLUS_PLUS", "", "if", "u64 f32"],
    ["C_SHARP", "decimal", "-", "u64 f64!"],
    ["C_SHARP", "!decimal", "-", "u64"],
    ["C_SHARP", "", "u l ul lu", "u64"],
    ["C_SHARP D JAVA SCALA", "", "f", "f32!"],
    ["C_SHARP JAVA SCALA", "", "d", "f64!"],
    ["C_SHARP", "", "m", "f64!"],
    ["COMMON_LISP", "float", "-", "f32!"],
    ["COMMON_LISP", "s", "-", "f32!"],
    ["COMMON_LISP", "double", "-", "f64!"],
    ["COMMON_LISP", "long", "-", "f64!"],
    ["D", "decimal", "-", "i64 f64!"],
    ["D", "!decimal", "-", "u64 f64!"],
    ["D", "decimal", "L", "i64"],
    ["D", "!decimal", "L", "u64"],
    ["D", "", "u U Lu LU uL UL", "u64"],
    ["D", "", "F fi Fi", "f32!"],
    ["D", "", "i", "f64!"],
    ["DART", "decimal", "-", "i64"],
    ["DART", "!decimal", "-", "w64"],
    ["ELIXIR ERLANG PROLOG", "decimal", "-", "f64!"],
    ["FORTRAN", "decimal", "- _4 _dp", "i32 f32!"],
    ["FORTRAN", "decimal", "_1", "i8"],
    ["FORTRAN", "decimal", "_2", "i16"],
    ["FORTRAN", "decimal", "_8", "i64 f64!"],
    ["FORTRAN", "decimal", "_10", "f64"],
    ["FORTRAN", "decimal", "_16", "i128"],
    ["FORTRAN", "double", "-", "f64!"],
    ["FORTRAN", "!d", "-", "u128"],
    ["GNU_ASSEMBLER", "float", "-", "f64!"],
    ["GNU_ASSEMBLER", "!float", "-", "u128"],
    ["JAVA SCALA", "decimal", "-", "i32 f64!"],
    ["JAVA SCALA", "decimal", "l", "i64"],
    ["JAVA SCALA", "!decimal", "-", "w32 f64!"],
    ["JAVA SCALA", "!decimal", "l", "w64"],
    ["JULIA", "32 bits", "-", "f32"],
    ["KOTLIN", "", "- L", "i64"],
    ["KOTLIN", "", "u U uL UL", "u64"],
    ["LUA", "!decimal", "-", "m64"],
    ["MATLAB", "!decimal", "-", "u64"],
    ["MATLAB", "", "u8 u16 u32 u64", "="],
    ["MATLAB", "", "s8", "w8"],
    ["MATLAB", "", "s16", "w16"],
    ["MATLAB", "", "s32", "w32"],
    ["MATLAB", "", "s64", "w64"],
    ["NIM", "decimal", "-", "i64"],
    ["NIM", "decimal", "i8 'i8", "i8"],
    ["NIM", "decimal", "i16 'i16", "i16"],
    ["NIM", "decimal", "i32 'i32", "i32"],
    ["NIM", "decimal", "i64 'i64", "i64"],
    ["NIM", "!decimal", "- i64 'i64", "m64"],
    ["NIM", "!decimal", "i8 'i8", "w8"],
    ["NIM", "!decimal", "i16 'i16", "w16"],
    ["NIM", "!decimal", "i32 'i32", "w32"],
    ["NIM", "", "u8 'u8", "u8"],
    ["NIM", "", "u16 'u16", "u16"],
    ["NIM", "", "u32 'u32", "u32"],
    ["NIM", "", "u 'u u64 'u64", "u64"],
    ["NIM", "", "f 'f f32 'f32", "f32"],
    ["OCAML", "decimal", "-", "i63"],
    ["OCAML", "decimal", "l", "i32"],
    ["OCAML", "decimal", "L n", "i64"],
    ["OCAML", "!decimal", "-", "w63"],
    ["OCAML", "!decimal", "l", "w32"],
    ["OCAML", "!decimal", "L n", "w64"],
    ["PASCAL", "!decimal", "-", "w64"],
    ["POSTSCRIPT", "decimal", "-", "i64 f32!"],
    ["POSTSCRIPT", "!decimal", "-", "w64"],
    ["RUST", "", "- u128", "u128 f64!"],
    ["RUST", "", "i8 i16 i32 i64 i128 u8 u16 u32 u64", "="],
    ["RUST", "", "isize", "i64"],
    ["RUST", "", "usize", "u64"],
    ["RUST", "", "f32", "f32!"],
    ["RUST", "", "f64", "f64!"],
    ["VHDL", "", "-", "i64 f64!"],
    ["VISUAL_BASIC", "decimal", "-", "i64 f64!"],
    ["VISUAL_BASIC", "decimal", "S", "i16"],
    ["VISUAL_BASIC", "decimal", "I %", "i32"],
    ["VISUAL_BASIC", "decimal", "L &", "i64"],
    ["VISUAL_BASIC", "!decimal", "- I %", "w32"],
    ["VISUAL_BASIC", "!decimal", "S", "w16"],
    ["VISUAL_BASIC", "!decimal", "L &", "w64"],
    ["VISUAL_BASIC", "", "US", "u16"],
    ["VISUAL_BASIC", "", "UI", "u32"],
    ["VISUAL_BASIC", "", "UL", "u64"],
    ["VISUAL_BASIC", "", "F !", "f32!"],
    ["VISUAL_BASIC", "", "R # D @", "f64!"],
];

/// Returns the literal that is the whole text or, with a suffix, the whole token, and the form.
pub fn whole<'a>(language: Language, text: &'a str, suffix: &str) -> Option<(Literal<'a>, &'static Form)> {
    if suffix.is_empty() {
        let number = language.read(text).ok()?;
        return Some((number.literal()?, &language.forms()[number.form()?]));
    }
    let token = language.token(text).ok().filter(|it| it.suffix == suffix.as_bytes() && it.rest.is_empty())?;
    Some((token.literal, &language.forms()[token.form]))
}

/// What literals of a form with a suffix are worth: the row, if there is one, the kind of integers with its bits,
/// unless they have any size, whether floats are singles, and whether they are finite.
#[derive(Default)]
pub struct Limits {
    pub row: Option<usize>,
    pub integers: Option<(char, u32)>,
    pub single: bool,
    pub finite: bool,
}

/// Returns the index of the row for a suffix of a form, if it has one.
fn row(language: Language, form: &Form, suffix: &str) -> Option<usize> {
    let either = form.suffixes().is_some_and(|it| it.is_either_case());
    let has_suffix =
        |it: &str| it == suffix || either && it.eq_ignore_ascii_case(suffix) || it == "-" && suffix.is_empty();
    let has_form = |it: &str| match it.strip_prefix('!') {
        Some(other) => !form.name().starts_with(other),
        None => form.name().starts_with(it),
    };
    KINDS.iter().position(|[languages, forms, suffixes, _]| {
        let has_language = || languages.split(' ').any(|it| it == language.name());
        has_form(forms) && has_language() && suffixes.split(' ').any(has_suffix)
    })
}

impl Limits {
    /// Returns what the row for a suffix states.
    pub fn of(language: Language, form: &Form, suffix: &str) -> Limits {
        let mut limits = Limits { row: row(language, form, suffix), ..Limits::default() };
        for kind in limits.row.map_or("f64", |row| KINDS[row][3]).split(' ') {
            let kind = if kind == "=" { suffix.to_lowercase() } else { kind.to_string() };
            match kind.trim_end_matches('!').split_at(1) {
                ("f", bits) => (limits.single, limits.finite) = (bits == "32", kind.ends_with('!')),
                (of, bits) => limits.integers = Some((of.chars().next().unwrap(), bits.parse().unwrap())),
            }
        }
        limits
    }
}
