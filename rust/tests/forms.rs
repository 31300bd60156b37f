//! Numbers of several forms: which form has a text, which has its error, and which writes a number.

#[path = "known/limits.rs"]
mod limits;
#[path = "../../compare/rust/src/random.rs"]
mod random;

use limits::{whole, Limits};
use peltzivar::literal::{
    Condition, Conditions, ExponentStyle, FloatKind, Form, Forms, IntegerKind, Kind, Language, Literal, Number,
    Opening, ParseError, Real, Specials, Style, Syntax, Whole, Writable, WriteError,
};
use peltzivar::{Format, NumberFormatBuilder, Part};
use random::Random;
use std::iter;

/// What a lexer gets of the text that begins with a number: its value and the rest, or the bytes to blame.
#[test]
fn a_front_has_a_value_and_each_error_a_span() {
    assert_eq!(Language::C.parse_prefix("0x1Fu;"), Ok((31, "u;")));
    assert_eq!(Language::TOML.forms()[0].syntax().parse_prefix("1_000.5]"), Ok((1000.5, "]")));
    let where_of = |error: ParseError| (error.span(), error.form(), error.valid_up_to());
    assert_eq!(where_of(Language::C.parse_prefix::<u8>("256;").unwrap_err()), (0..3, None, 3));
    assert_eq!(where_of(Language::TOML.parse::<u8>("+nan").unwrap_err()), (0..4, None, 4));
    assert_eq!(where_of(Language::C.parse::<u8>("0b12").unwrap_err()), (3..4, Some(3), 3));
}

#[test]
fn languages_are_found_by_name() {
    const C_SHARP: Language = Language::from_name("c_sharp").unwrap();
    for language in Language::ALL {
        for name in [language.name(), language.title()] {
            assert_eq!((name.parse(), name.to_lowercase().parse()), (Ok(*language), Ok(*language)));
        }
    }
    assert_eq!((C_SHARP, Language::from_name("C_SHAR")), (Language::C_SHARP, None));
    assert!(["", " C", "C ", "C\n"].iter().all(|it| Language::from_name(it).is_none()));
    let error = |name: &str| name.parse::<Language>().unwrap_err().to_string();
    for near in [
        "cpp C_PLUS_PLUS",
        "c-sharp C_SHARP",
        "CSharp C_SHARP",
        "lisp COMMON_LISP",
        "js JAVASCRIPT",
        "Javascrip JAVASCRIPT",
        "TypeScript JAVASCRIPT",
        "javva JAVA",
        "jvaa JAVA",
        "java8 JAVA",
        "golang GO",
        "haskell2010 HASKELL",
        "yml YAML",
        "kotln KOTLIN",
        "python3 PYTHON",
        "delphi PASCAL",
        "racket SCHEME",
        "xml XML_SCHEMA",
    ] {
        let (name, wanted) = near.split_once(' ').unwrap();
        assert_eq!(error(name), format!("unknown language; did you mean `{wanted}`?"), "{name}");
    }
    for name in ["Q", "", "ab", "lang", "erlgo", "notjs", "cobol", "simula", "algol", "eiffel"] {
        assert_eq!(error(name), "unknown language", "{name}");
    }
    for (alias, language) in Language::ALL.iter().flat_map(|it| it.aliases().map(move |alias| (alias, it))) {
        assert_eq!(
            (Language::from_name(alias), error(alias).ends_with(&format!("`{language}`?"))),
            (None, true),
            "{alias}"
        );
    }
}

/// Returns whether a list writes no number with the sign of `value`.
fn is_unsigned(forms: &Forms, value: f64) -> bool {
    let mut written = forms.into_iter().filter(|form| !form.is_only_read());
    value.is_sign_negative() && written.all(|form| form.syntax().conditions().has(Condition::NegativeSign))
}

/// Returns digits of std with the point and the groups of a language. Common Lisp and Fortran have `d0` where a single is another number.
fn amount_in(language: Language, digits: &str) -> String {
    let (group, point) = match language.name() {
        "CSV_EN" => (",", "."),
        "CSV_DE" => (".", ","),
        _ => ("", "."),
    };
    let (integer, fraction) = digits.split_once('.').unwrap_or((digits, ""));
    let split = if integer.trim_matches('-').len() > 3 { integer.len() - 3 } else { 0 };
    let single = digits.parse::<f32>().map(f64::from) == digits.parse::<f64>();
    let has_singles = [Language::COMMON_LISP, Language::FORTRAN].contains(&language);
    [
        &integer[..split],
        if split > 0 { group } else { "" },
        &integer[split..],
        if fraction.is_empty() { "" } else { point },
        fraction,
        if has_singles && !fraction.is_empty() && !single { "d0" } else { "" },
    ]
    .concat()
}

#[test]
fn amounts_are_rounded_as_std_rounds_them() {
    let state = &mut Random::new(20_261_201);
    for (language, index) in Language::ALL.iter().flat_map(|language| (0..1000).map(move |index| (*language, index))) {
        let amount = state.below(10_000_000) as f64 / if index % 4 == 0 { -1000.0 } else { 1000.0 };
        for places in 0..=6 {
            let (style, size) = (Style::PLAIN.decimals(places), usize::from(places));
            // Bash has no floats.
            let wanted = if language == Language::BASH {
                Err(WriteError::Fraction)
            } else if is_unsigned(language.forms(), amount) {
                Err(WriteError::Negative)
            } else {
                Ok(amount_in(language, &format!("{amount:.size$}")))
            };
            let written = language.forms().format_float(amount, style);
            assert_eq!(written.map(|text| text.to_string()), wanted, "{language}");
        }
    }
}

/// The floats of PostScript are all singles.
#[test]
fn a_double_is_written_where_all_floats_are_singles() {
    let forms = Language::POSTSCRIPT.forms();
    let (largest, least) = (f64::from(f32::MAX), f64::from(f32::from_bits(1)));
    for value in [0.64, -0.1, 0.1 + 0.2, 0.0, -0.0, 1e14, 16_777_217.0, 1.0 / 3.0, 1e38, 1e-45, largest, least] {
        let text = forms.format_float(value, Style::PLAIN).map(|it| it.to_string());
        assert_eq!(text, Ok(format!("{value:?}")), "{value}");
        let read = text.map(|it| forms.parse::<f32>(it).map(f32::to_bits));
        assert_eq!(read, Ok(Ok((value as f32).to_bits())), "{value}");
        let literal = format!("{value:?}");
        let literal = Language::JSON.read(&literal).unwrap().literal().unwrap();
        assert_eq!(forms.format_literal(&literal, Style::PLAIN).map(|it| it.to_string()), Ok(format!("{value:?}")));
    }
    let (large, small) = (WriteError::TooLarge, WriteError::ReadBack);
    for (value, error) in [(1e39, large), (-1e300, large), (1e-46, small), (f64::MIN_POSITIVE, small)] {
        assert_eq!(forms.format_float(value, Style::PLAIN).err(), Some(error), "{value}");
    }
}

/// Returns whether a literal can be a number: an integer by the bits of its kind, and a float if it is exactly this
/// number.
fn has(limits: &Limits, is_float: bool, number: i128) -> bool {
    let size = number.unsigned_abs();
    let above = |bits: u32, size: u128| size.checked_shr(bits).is_some_and(|it| it > 0);
    match limits.integers {
        _ if is_float => size == if limits.single { size as f32 as u128 } else { size as f64 as u128 },
        None => true,
        Some(('u', bits)) => number >= 0 && !above(bits, size),
        Some((_, bits)) => !above(bits - 1, if number < 0 { size - 1 } else { size }),
    }
}

/// Returns the whole number that a text with a suffix is by its digits, their radix and its exponent, if a literal with
/// this suffix can be this number.
fn number_of(language: Language, text: &str, suffix: &str) -> Option<i128> {
    let (literal, form) = whole(language, text, suffix)?;
    let digits =
        |part: &[u8]| part.iter().map(|it| char::from(*it)).filter(|it| it.is_alphanumeric()).collect::<String>();
    let [integer, fraction, exponent] = [literal.integer(), literal.fraction(), literal.exponent()].map(digits);
    let fraction = fraction.trim_end_matches('0');
    let exponent: u32 = format!("0{exponent}").parse().ok()?;
    let (up, down) = if literal.exponent_sign() == b"-" { (0, exponent) } else { (exponent, 0) };
    let (radix, base) = (literal.radix(Part::Integer), form.syntax().format().exponent_base());
    let power = |base: u32, exponent| i128::from(base).checked_pow(exponent);
    let size = i128::from_str_radix(&(integer + fraction), radix).ok()?.checked_mul(power(base, up)?)?;
    let divisor = power(radix, fraction.len() as u32)?.checked_mul(power(base, down)?)?;
    let number = size / divisor * if literal.is_negative() { -1 } else { 1 };
    let is_whole = size % divisor == 0;
    (is_whole && has(&Limits::of(language, form, suffix), literal.is_float(), number)).then_some(number)
}

/// Returns what a list writes for a decimal integer: the first text that is this integer by the limits of the language. Decimal
/// forms come first, and each form writes it without a word and then with its words.
fn integer_in(language: Language, literal: &Literal, value: i128) -> Option<String> {
    let forms = language.forms();
    let is_value = |text: &str, word| number_of(language, text, word) == Some(value);
    let asked = |decimal| forms.into_iter().filter(move |it| (it.syntax().format().mantissa_radix() == 10) == decimal);
    asked(true).chain(asked(false)).find_map(|form| {
        let text = form.syntax().format_literal(literal, Style::PLAIN).ok()?.to_string();
        let words = form.suffixes().into_iter().flat_map(|it| it.written());
        let words = words.filter_map(|word| std::str::from_utf8(word).ok());
        let mut texts = iter::once("").chain(words).map(|word| (format!("{text}{word}"), word));
        texts.find(|(text, word)| is_value(text, word)).map(|it| it.0)
    })
}

/// No wish for an exponent changes what is written.
#[test]
fn an_integer_never_becomes_another_number() {
    let state = &mut Random::new(20_261_202);
    let powers = (0..126).map(|bits| 1 << bits).chain((0..38).map(|power| 10_i128.pow(power)));
    let mut values = Vec::from_iter(powers.flat_map(|power| [power - 1, power, power + 1]));
    values.extend((0..300).map(|_| (state.bits() >> 1) as i128 >> state.below(127)));
    for (language, value) in Language::ALL.iter().flat_map(|it| values.iter().map(move |value| (it, *value))) {
        let (forms, value) = (language.forms(), if state.one_in(2) { value } else { -value });
        let digits = value.to_string();
        let literal = Language::YAML.read(&digits).unwrap().literal().unwrap();
        let wanted = integer_in(*language, &literal, value).ok_or_else(|| match forms.read(&digits) {
            Ok(Number::Literal { literal, .. }) if literal.to_i128().is_err() => WriteError::TooLarge,
            Ok(_) => WriteError::ReadBack,
            Err(_) => WriteError::Negative,
        });
        for wish in [ExponentStyle::AsNumber, ExponentStyle::Always, ExponentStyle::Never] {
            let style = Style::PLAIN.exponent(wish);
            for written in [forms.format_integer(value, style), forms.format_literal(&literal, style)] {
                assert_eq!(written.map(|text| text.to_string()), wanted, "{language}: {value}, {wish:?}");
            }
        }
    }
}

/// Each literal has an exponent, and its floats are single, or its integers have few bits.
#[test]
fn an_integer_has_an_exponent_where_it_stays_the_same_number() {
    let format = NumberFormatBuilder::new().required_exponent_notation(true).build_format_or_panic();
    let form = Form::new("", Syntax::new_or_panic(format, b'e', b'.'));
    let single = Kind::new(IntegerKind::Exact, FloatKind::Single).unwrap();
    let wraps = Kind::new(IntegerKind::Wraps(64), FloatKind::Nearest).unwrap();
    for (kind, largest) in [(single, 1_u64 << 24), (wraps, 1 << 53), (Kind::EXACT, 1 << 53)] {
        let forms = [form.with_kind(kind)];
        let written = |value| Forms::new_or_panic(&forms).format_integer(value, Style::PLAIN).map(|it| it.to_string());
        assert_eq!([5, largest].map(written), [Ok("5e0".into()), Ok(format!("{largest}e0"))]);
        assert_eq!(written(largest + 1), Err(WriteError::ReadBack));
    }
}

/// An integer has an exponent only where each literal has one, and not in a radix without floats, where no type reads it.
#[test]
fn an_integer_has_no_exponent_in_a_radix_without_floats() {
    for (radix, required) in (2..=36).flat_map(|radix| [(radix, false), (radix, true)]) {
        let format = NumberFormatBuilder::new().mantissa_radix(radix).required_exponent_notation(required);
        let form = Form::new("", Syntax::new_or_panic(format.build_format_or_panic(), b'^', b'.'));
        let forms = [form, form.with_opening(Opening::new(b"$").unwrap())];
        for forms in [&forms[..1], &forms[1..]].map(Forms::new_or_panic) {
            let literal = Language::JSON.read("8").unwrap().literal().unwrap();
            let style = Style::PLAIN.exponent(ExponentStyle::Always);
            let has_floats = radix == 10 || radix.is_power_of_two();
            for written in [forms.format_integer(8, style), forms.format_literal(&literal, style)] {
                let read = written.map(|text| {
                    let text = text.to_string();
                    (forms.parse::<i64>(&text).ok(), forms.parse::<f64>(&text).ok())
                });
                let wanted = match (has_floats, required) {
                    (true, true) => Ok((None, Some(8.0))),
                    (true, false) => Ok((Some(8), Some(8.0))),
                    (false, false) => Ok((Some(8), None)),
                    (false, true) => Err(WriteError::ReadBack),
                };
                assert_eq!(read, wanted, "{radix}");
            }
        }
    }
}

/// Writes a special value, and compares what the text is read as.
fn special_in(forms: &Forms, value: f64) -> Option<String> {
    let written = [forms.format_float(value, Style::PLAIN), forms.format_float(value as f32, Style::PLAIN)];
    let [text, single] = written.map(|text| text.map(|text| text.to_string()));
    assert_eq!((single, text.as_ref().err()), (text.clone(), text.as_ref().err().map(|_| &WriteError::Special)));
    let text = text.ok()?;
    assert!(matches!(forms.read(&text), Ok(Number::Special(_))), "{text}");
    assert_eq!(format!("{:?}", forms.parse::<f64>(&text)), format!("{:?}", Ok::<_, ()>(value)));
    Some(text)
}

#[test]
fn special_values_are_no_literals_of_any_form() {
    let floats = [f64::NAN, f64::INFINITY, f64::NEG_INFINITY];
    for (forms, value) in Language::ALL.iter().flat_map(|it| floats.map(|value| (it.forms(), value))) {
        let Specials { nan, inf, infinity } = forms.specials();
        let spelling = if value.is_nan() { nan } else { inf.or(infinity) };
        assert_eq!(
            special_in(forms, value).is_some(),
            spelling.is_some() && !(value < 0.0 && is_unsigned(forms, value))
        );
    }
    let decimal = Syntax::new_or_panic(Format::default(), b'e', b'.');
    let letters = Syntax::integers(NumberFormatBuilder::new().mantissa_radix(36).build_format_or_panic());
    let forms = [decimal, letters].map(|it| Form::new("", it));
    for (words, wanted) in [
        (["nan", "inf", "infinity"], [None, None, None]),
        (["nan", "inf", "in.f"], [None, Some("in.f"), Some("-in.f")]),
        (["na.n", "i.nf", "in.f"], [Some("na.n"), Some("i.nf"), Some("-i.nf")]),
    ] {
        let [nan, inf, infinity] = words.map(|word| Some(word.as_bytes()));
        let forms = Forms::new_or_panic(&forms).with_specials(Specials { nan, inf, infinity });
        assert_eq!(floats.map(|value| special_in(&forms, value)), wanted.map(|text| text.map(str::to_string)));
    }
}

/// The first form is used for a text of any length, and if it is refused, another form.
#[test]
fn a_long_text_is_used_or_leaves_a_short_one() {
    let format = NumberFormatBuilder::new().digit_separator(b'_'.try_into().ok()).internal_digit_separator(true);
    let format = format.no_exponent_notation(true).build_format_or_panic();
    let conditions = Conditions::NONE.integer_group_size(Some(2));
    let long = Syntax::new_or_panic(format, b'e', b'.').with_conditions(conditions).unwrap();
    let hexadecimal = Syntax::integers(NumberFormatBuilder::new().mantissa_radix(16).build_format_or_panic());
    let decimal = Syntax::new_or_panic(Format::default(), b'e', b'.');
    let [long, decimal, hexadecimal] = [long, decimal, hexadecimal].map(|it| Form::new("", it));
    let few = [long.with_kind(Kind::new(IntegerKind::Unsigned(32), FloatKind::Single).unwrap()), decimal, hexadecimal];
    let grouped = |digits: String| {
        let groups = digits.as_bytes().rchunks(2).rev().map(|it| std::str::from_utf8(it).unwrap());
        Vec::from_iter(groups).join("_")
    };
    for size in 17..=32 {
        let (value, text) = (u128::MAX >> (128 - 4 * size), format!("1e{size}"));
        let digits = [value.to_string(), format!("1{}", "0".repeat(size))].map(grouped);
        let used = [digits[0].clone(), digits[1].clone() + ".0"];
        let float = text.parse::<f64>().unwrap();
        for (forms, wanted) in [([long, decimal, hexadecimal], used), (few, ["F".repeat(size), text])] {
            let forms = Forms::new_or_panic(&forms);
            let written = [forms.format_integer(value, Style::PLAIN), forms.format_float(float, Style::PLAIN)];
            let calls = [&Whole::of(value) as &dyn Writable, &Real { value: float }];
            let passed =
                calls.map(|it| forms.written(it, Style::PLAIN, |text| String::from_utf8(text.to_vec()).unwrap()));
            assert_eq!(passed, written.map(|text| text.map(|it| it.to_string())));
            assert_eq!(passed, wanted.map(Ok));
        }
    }
}
