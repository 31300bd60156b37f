//! Writers: what is written, and that it is read back with the same value. `c/tests/test_writing.py` compares values in any
//! syntax.

use peltzivar::literal::{
    ExponentStyle, Form, Forms, Language, Opening, Sign, Special, Specials, Spelling, Style, Syntax, WriteError,
    Written,
};
use peltzivar::{NumberFormatBuilder, Settings};
use std::num::NonZeroU8;

/// Returns the syntax with these settings, in which no digits are required unless they say so.
fn syntax_of(settings: &str) -> Syntax {
    let all = ["required_digits=false"].into_iter().chain(settings.split_whitespace());
    Settings::read(all).unwrap().build_syntax().expect(settings)
}

/// Returns the style of wishes such as `group=3 lowercase=true`.
fn style_of(wishes: &str) -> Style {
    wishes.split_whitespace().fold(Style::PLAIN, |style, wish| {
        let (name, value) = wish.split_once('=').unwrap();
        let number = value.parse::<u8>();
        match (name, value) {
            ("group", _) => style.group(number.unwrap().into()),
            ("min_digits", _) => style.min_digits(number.unwrap()),
            ("lowercase", "true") => style.lowercase(),
            ("without_base", "true") => style.without_base(),
            ("decimals", _) => style.decimals(number.unwrap()),
            ("exponent", "never") => style.exponent(ExponentStyle::Never),
            ("exponent", "always") => style.exponent(ExponentStyle::Always),
            _ => panic!("{wish}"),
        }
    })
}

/// Returns what is written, or the error behind `!`.
fn shown(written: Result<Written<'_>, WriteError>) -> String {
    written.map_or_else(|error| format!("!{error:?}"), |it| it.to_string())
}

/// Writes a literal of a syntax in another one, or the float behind `=`.
fn convert(text: &str, source: &str, target: &str, style: &str) -> String {
    let (source, target, style) = (syntax_of(source), syntax_of(target), style_of(style));
    let literal = source.read(text.trim_start_matches('=')).unwrap();
    shown(match text.strip_prefix('=') {
        Some(float) => target.format_float(float.parse::<f64>().unwrap(), style),
        None => target.format_literal(&literal, style),
    })
}

#[test]
fn literals_are_written_as_the_rows_say() {
    let lines = include_str!("writing.txt").lines().filter(|line| !line.is_empty() && !line.starts_with('#'));
    for line in lines {
        let [text, source, target, style, wanted] = Vec::from_iter(line.split('|').map(str::trim))[..] else {
            panic!("{line}")
        };
        assert_eq!(convert(text, source, target, style), wanted, "{line}");
        // An integer of Rust is written as the literal that std prints of it, if there is one without an exponent.
        if let Some(value) = text.parse::<i128>().ok().filter(|it| source.is_empty() && it.to_string() == text) {
            let target = syntax_of(target);
            assert_eq!(shown(target.format_integer(value, style_of(style))), wanted, "{line}");
        }
    }
}

/// The value of a float is known if it has at most 27 digits and 255 of them behind the point, and it may be up to 2^128 of the last.
/// An exponent in the syntax that has read it has any length.
#[test]
fn values_are_known_up_to_the_limits() {
    let long = format!("5e{}", "9".repeat(40));
    let (far, tiny) = (format!("1e{}", "9".repeat(40)), format!("-1e-{}", "9".repeat(40)));
    let (near, least) = (format!("0.{}1e1000", "0".repeat(999)), format!("0.{}1", "0".repeat(254)));
    let large = format!("1{}", "0".repeat(38));
    for (text, wanted, whole) in [
        ("1e38", &*format!("{large}.0"), &*large),
        ("1e39", "!Radix", "!Radix"),
        ("1e-255", &*least, "!Fraction"),
        ("1e-256", "!Radix", "!Fraction"),
        ("1234567890123456789012345.67e-1", "123456789012345678901234.567", "!Fraction"),
        ("123456789012345678901234567.891e-1", "!Radix", "!Fraction"),
        (&*near, "1.0", "1"),
        (&*far, "!Radix", "!Radix"),
        (&*tiny, "!Radix", "!Fraction"),
    ] {
        assert_eq!(convert(text, "", "no_exponent_notation=true", ""), wanted, "{text}");
        assert_eq!(convert(text, "", "exponent=none point=none", ""), whole, "{text}");
    }
    assert_eq!(convert(&long, "", "", ""), long);
    assert_eq!(convert(&long, "", "", "exponent=never"), long);
    assert_eq!(convert(&long, "", "exponent_radix=2", ""), "!Radix");
}

/// Returns what a language, or the forms of some settings, write for a literal of a language.
fn chosen(source: Language, text: &str, target: &Forms<'_>) -> String {
    shown(target.format_literal(&source.read(text).unwrap().literal().unwrap(), Style::PLAIN))
}

#[test]
fn forms_write_what_they_read_as_the_same_number() {
    for (source, text, target, wanted) in [
        (Language::C, "0x1p3", Language::PYTHON, "8.0"),
        (Language::C, "0x1.8p1", Language::JAVA, "0x1.8p1"),
        (Language::C, "0x1p-3", Language::JSON, "0.125"),
        (Language::C, "0x1.8p0", Language::PYTHON, "1.5"),
        (Language::C, "0x1.23456789abcdefp-60", Language::JSON, "!Radix"),
        (Language::C, "0xffffffff", Language::JAVA, "0xFFFFFFFFL"),
        (Language::C, "017", Language::PYTHON, "0o17"),
        (Language::C, "017", Language::JSON, "15"),
        (Language::PYTHON, "0o17", Language::C, "017"),
        // What a literal is worth by its kind, and a form whose floats are single.
        (Language::JAVA, "0xffffffff", Language::PYTHON, "!Negative"),
        (Language::JAVA, "0xffffffff", Language::JSON, "-1"),
        (Language::PYTHON, "0.1", Language::FORTRAN, "0.1d0"),
        (Language::JAVA, "0x80000000", Language::FORTRAN, "-2147483648"),
        (Language::FORTRAN, "0.1", Language::PYTHON, "0.10000000149011612"),
        (Language::LUA, "0x6f0621c5a5adf4f0e7dcF", Language::C, "2043045296116497871"),
        (Language::PYTHON, "1_000", Language::TOML, "1000"),
        (Language::PYTHON, "0xFF", Language::JSON, "255"),
        (Language::TOML, "-0", Language::JSON, "-0"),
        (Language::JSON, "1e400", Language::JSON, "1e400"),
        (Language::JSON, "1e99999999999999999999", Language::JSON, "1e99999999999999999999"),
    ] {
        assert_eq!(chosen(source, text, target.forms()), wanted, "{source} {text} in {target}");
    }
    let (hexadecimal, decimal) = (syntax_of("radix=16 exponent=none point=none"), syntax_of(""));
    let forms = [Form::new("hexadecimal", hexadecimal), Form::new("decimal", decimal)];
    let forms = Forms::new_or_panic(&forms);
    // Decimal digits are hexadecimal ones.
    for (text, wanted) in [("300", "12C"), ("7", "7"), ("1.5", "1.5"), ("3e2", "12C"), ("0.0", "0.0")] {
        assert_eq!(chosen(Language::JSON, text, &forms), wanted);
    }
    assert_eq!(chosen(Language::JSON, &(1_u128 << 127).to_string(), &forms), format!("{:X}", 1_u128 << 127));
    assert_eq!(chosen(Language::JSON, "340282366920938463463374607431768211456", &forms), "!ReadBack");
    for size in [4095, 4096, 4097, 5001] {
        let text = format!("9{}", "0".repeat(size - 1));
        let wanted = if size > 4096 { format!("!Buffer({size})") } else { text.clone() };
        assert_eq!(chosen(Language::JSON, &text, Language::JSON.forms()), wanted);
    }
    assert_eq!(forms.format_integer(-300, Style::PLAIN).unwrap().to_string(), "-12C");
    assert_eq!(forms.format_integer(5_u8, Style::PLAIN).unwrap().to_string(), "5");
    assert_eq!(forms.format_float(0.1_f32, Style::PLAIN).unwrap().to_string(), "0.1");
    assert_eq!(forms.format_float(f64::NAN, Style::PLAIN).unwrap_err(), WriteError::Special);
    let special = |value: f64| Language::YAML.forms().format_float(value, Style::PLAIN).unwrap().to_string();
    assert_eq!([f64::NAN, f64::INFINITY, f64::NEG_INFINITY].map(special), [".nan", ".inf", "-.inf"]);
}

/// What stands around a literal counts for the width, and zeros are inside.
#[test]
fn an_opening_stands_before_what_is_written() {
    let opening = Opening::new(b"#x").unwrap();
    let syntax = syntax_of("mantissa_radix=16 exponent_base=2 exponent_radix=10 exponent=94 base_suffix=39");
    let closed = syntax.with_conditions_or_panic(syntax.conditions().required_base_suffix(true));
    let [first, second] = [syntax, closed].map(|it| Form::new("", it).with_opening(opening));
    let forms = [first.only_read(true), second];
    let forms = Forms::new_or_panic(&forms);
    let long = Language::PYTHON.read("0xFFFFFFFFFFFFFFFFFFFFFFFFFFFFFFFFFFFFFFFFFFFFFFFFF").unwrap().literal().unwrap();
    let written = [
        forms.format_integer(255, Style::PLAIN),
        forms.format_float(-1.5, Style::PLAIN),
        forms.format_literal(&long, Style::PLAIN),
        Language::JAVA.forms().format_integer(3_000_000_000_u32, Style::PLAIN),
    ];
    for (written, wanted) in written.map(Result::unwrap).iter().zip([
        "#xFF'",
        "#x-1.8'",
        "#xFFFFFFFFFFFFFFFFFFFFFFFFFFFFFFFFFFFFFFFFFFFFFFFFF'",
        "3000000000L",
    ]) {
        let padded = format!("{written:<60}|{written:^+60}|{written:060}");
        let zeros = "0".repeat(60 - wanted.len());
        let (before, inside) = wanted.split_at(wanted.find(|it: char| it.is_ascii_digit() || it == 'F').unwrap());
        let plus = if before.ends_with('-') { String::from(wanted) } else { [before, "+", inside].concat() };
        assert_eq!(padded, format!("{wanted:<60}|{plus:^60}|{before}{zeros}{inside}"));
        assert_eq!((written.to_string(), format!("{written:?}")), (wanted.into(), format!("{wanted:?}")));
        assert_eq!(written.write_into(&mut [0; 60]), Ok(wanted));
        assert_eq!(written.write_into(&mut [0; 3]), Err(WriteError::Buffer(wanted.len())));
        let mut text = String::new();
        written.write_to(&mut text).unwrap();
        assert_eq!(text, wanted);
    }
}

/// As std's numbers: zeros and the sign come before the digits, of which zeros are in no group.
#[test]
fn zeros_are_in_no_group() {
    let text = Language::TOML.forms()[0].syntax().format_integer(-1_234_567, Style::PLAIN.group(3)).unwrap();
    assert_eq!(format!("{text:012}|{text:+}|{text:*^14.2}"), "-001_234_567|-1_234_567|**-1_234_567**");
}

/// Integers of each number of binary digits, in groups and without, and the literals that are read from them. Each byte
/// that can be a suffix is the suffix of two texts, of which one is long.
#[test]
fn texts_of_each_length_are_printed_and_written() {
    let builder = NumberFormatBuilder::new().mantissa_radix(2).digit_separator(NonZeroU8::new(b'_'));
    let suffixed = |byte| builder.internal_digit_separator(true).base_suffix(NonZeroU8::new(byte)).build_format();
    for (size, group, byte) in (1..=128).flat_map(|size| [(size, size, size), (size, 3, 128 - size)]) {
        let format = suffixed(byte as u8).or(suffixed(0)).unwrap();
        let (syntax, style) = (Syntax::integers(format), Style::PLAIN.group(group));
        let value = 0xDEAD_BEEF_CAFE_BABE_0123_4567_89AB_CDEF_u128 >> (128 - size);
        let digits = format!("{value:b}");
        let groups = digits.as_bytes().rchunks(group).rev().map(|it| std::str::from_utf8(it).unwrap());
        let suffix = format.base_suffix().map(|byte| char::from(byte.get()));
        let wanted = &*(Vec::from_iter(groups).join("_") + &String::from_iter(suffix));
        let (length, literal) = (wanted.len(), syntax.read(wanted).unwrap());
        for text in [syntax.format_integer(value, style), syntax.format_literal(&literal, style)].map(Result::unwrap) {
            assert_eq!(text.to_string(), wanted);
            assert_eq!(format!("{text:?} {text:>200}"), format!("{wanted:?} {wanted:>200}"));
            assert_eq!(text.write_into(&mut [0; 256][..length]), Ok(wanted));
            assert_eq!(text.write_into(&mut [0; 256][..length - 1]), Err(WriteError::Buffer(length)));
        }
    }
}

/// A special value has the sign that a syntax requires, and of its spellings the first that is read back.
#[test]
fn special_values_have_the_required_sign() {
    let specials = Specials { nan: Some(b"nan"), inf: Some(b"nan"), infinity: Some("\u{221E}".as_bytes()) };
    let signed = NumberFormatBuilder::new().required_mantissa_sign(true).build_format_or_panic();
    for (sign, shown) in [(None, "+"), (Some(Sign::Plus), "+"), (Some(Sign::Minus), "-")] {
        for (spelling, word) in [(Spelling::Nan, "nan"), (Spelling::Inf, "\u{221E}")] {
            let written = specials.format(&Syntax::integers(signed), Special { sign, spelling }).unwrap();
            let text = format!("{shown}{word}");
            assert_eq!((written.to_string(), written.write_into(&mut [0; 8])), (text.clone(), Ok(&*text)));
        }
    }
}
