//! What literals are worth by the kind of their form and of their suffix. Expected values are those of the languages'
//! tools. Those of recorded texts are in `literals.rs`. `c/tests/test_python.py` has the limits of kinds of integers in
//! each radix.

#[path = "known/limits.rs"]
mod limits;

use limits::{whole, Limits, KINDS};
use peltzivar::literal::{Condition, ExponentStyle, Form, Language, Literal, Style, ValueErrorKind, WriteError};
use std::collections::{BTreeSet, HashMap};

/// A language, a token, and the integer that it is.
const INTEGERS: &[(Language, &str, i128)] = &[
    (Language::JAVA, "0x00000000ffffffff", -1),
    (Language::LUA, "0x100080000000000001", 36028797018963969),
    (Language::LUA, "9223372036854775808", 9223372036854775808),
    (Language::JAVASCRIPT, "9007199254740993", 9007199254740993),
];

/// A language, a token, and the float that it is.
const FLOATS: &[(Language, &str, f64)] = &[
    (Language::JAVA, "16777217f", 16777216.0),
    (Language::JAVA, "08f", 8.0),
    (Language::KOTLIN, "016777217f", 16777216.0),
    // Rounded to a double first, it would be between two singles, and then the lower one.
    (Language::JAVA, "1.000000059604644775390626f", 1.0000001_f32 as f64),
    (Language::JAVA, "0x1.0000010000000000000001p0f", 1.0000001_f32 as f64),
    (Language::JAVA, "0xffffffff", -1.0),
    (Language::LUA, "9223372036854775808", 9223372036854775808.0),
    (Language::LUA, "0x1p64", 18446744073709551616.0),
    (Language::FORTRAN, "1.000000059604644775390626", 1.0000001_f32 as f64),
    (Language::JULIA, "0.1f0", 0.1_f32 as f64),
    (Language::C, "1e400", f64::INFINITY),
    (Language::C, "1e-400", 0.0),
    (Language::RUST, "1e-400", 0.0),
    (Language::JAVA, "0e-400", 0.0),
    (Language::FORTRAN, "-1e-50", -0.0),
];

/// A language, and a token that its tool refuses for its value, which is too large, too small, or 0 for digits that are not.
const BEYOND: &[(Language, &str, ValueErrorKind)] = &[
    (Language::JAVA, "1e-400", ValueErrorKind::Vanishes),
    (Language::JAVA, "1e-46f", ValueErrorKind::Vanishes),
    (Language::JAVA, "2e-324d", ValueErrorKind::Vanishes),
    (Language::JAVA, "0x1p-2000", ValueErrorKind::Vanishes),
    (Language::FORTRAN, "-1.5e39", ValueErrorKind::TooSmall),
    (Language::FORTRAN, "1d400", ValueErrorKind::TooLarge),
];

/// Returns the literal that a token begins with, of a language that has no tokens the whole text.
fn literal(language: Language, text: &str) -> Literal<'_> {
    match language.token(text) {
        Ok(token) => token.literal,
        Err(_) => language.read(text).unwrap().literal().unwrap(),
    }
}

#[test]
fn values_are_those_of_the_language() {
    for (language, text, wanted) in INTEGERS {
        let literal = literal(*language, text);
        assert_eq!(literal.to_i128(), Ok(*wanted), "{language}: {text}");
        assert_eq!(literal.to_f64(), Ok(*wanted as f64), "{language}: {text}");
    }
    for (language, text, wanted) in FLOATS {
        let literal = literal(*language, text);
        assert_eq!(literal.to_f64(), Ok(*wanted), "{language}: {text}");
        assert_eq!(literal.to_f32(), Ok(*wanted as f32), "{language}: {text}");
    }
    for (language, text, wanted) in BEYOND {
        let literal = literal(*language, text);
        assert_eq!(literal.to_f64().unwrap_err().kind(), *wanted, "{language}: {text}");
        assert_eq!(literal.to_f64(), f64::try_from(literal), "{language}: {text}");
        assert_eq!(literal.to_f32(), f32::try_from(literal), "{language}: {text}");
    }
    // It is below 0, in each call alike.
    assert_eq!(Language::JAVA.parse::<u32>("0xffffffff").unwrap_err().to_string(), "below 0, the least u32");
    assert_eq!(Language::JAVA.parse_prefix::<i64>("0xffffffff;"), Ok((-1, ";")));
    assert_eq!(Language::JAVA.parse("4.9e-324"), Ok(5e-324));
    let error = Language::JAVA.parse::<f64>("1e400").unwrap_err();
    assert_eq!(error.to_string(), "above the largest f64");
    let error = Language::JAVA.parse::<f32>("1e-300").unwrap_err();
    assert_eq!(error.to_string(), "too near to 0 for an f32");
    assert!(Language::JAVA.read("3000000000").unwrap().to_f64().is_nan());
    let digits = Language::JAVA.read("0xffffffff").unwrap().literal().unwrap();
    assert_eq!(digits.plain().unwrap().to_string(), "ffffffff");
}

/// A number: how many ones its bits are, how many zeros behind them, and how many ones behind these.
type Bits = [u32; 3];

fn bits([ones, zeros, more]: Bits) -> impl Iterator<Item = u32> {
    (0..ones + zeros + more).map(move |at| u32::from(at < ones || at >= ones + zeros))
}

/// The digits of numbers in radixes.
type Digits = HashMap<(Bits, u32), String>;

/// Returns the digits of a number, behind a zero if the first one is a letter.
fn digits(number: Bits, radix: u32) -> String {
    let mut digits = vec![0];
    for mut carry in bits(number) {
        for digit in &mut digits {
            (*digit, carry) = ((2 * *digit + carry) % radix, (2 * *digit + carry) / radix);
        }
        digits.extend((carry > 0).then_some(carry));
    }
    let zero = digits.last().filter(|it| **it > 9).map(|_| '0');
    zero.into_iter().chain(digits.iter().rev().filter_map(|it| char::from_digit(*it, radix))).collect()
}

/// A sign, a number, and what the integer is worth: its sign and its size, of at most 128 bits, or nothing.
type Integer = (&'static str, Bits, Option<(bool, u128)>);

/// Returns the largest and the least integer of a kind, and the next ones.
fn integers(kind: Option<(char, u32)>) -> Vec<Integer> {
    let size = |number| bits(number).fold(0, |all, bit| all << 1 | u128::from(bit));
    let own = |sign, number: Bits| (sign, number, Some((sign == "-" && number[0] > 0, size(number))));
    let Some((of, bits)) = kind else { return vec![own("", [128, 0, 0]), own("-", [1, 127, 0])] };
    let (most, half, power) = ([bits - 1, 0, 0], [1, bits - 1, 0], [1, bits, 0]);
    let past = if bits > 1 { [1, bits - 2, 1] } else { [1, 1, 0] };
    let wrapped = (of == 'm').then_some((false, 0));
    match of {
        'i' => vec![own("", most), ("", half, None), own("-", half), ("-", past, None)],
        'u' => vec![own("", [bits, 0, 0]), ("", power, None), own("-", [0, 1, 0]), ("-", [1, 0, 0], None)],
        _ => vec![
            own("", most),
            ("", half, Some((true, size(half)))),
            ("", [bits, 0, 0], Some((true, 1))),
            ("", power, wrapped),
            own("-", half),
            ("-", past, Some((false, size(most)))),
            ("-", [bits, 0, 0], Some((false, 1))),
            ("-", power, wrapped),
        ],
    }
}

/// Returns the largest digits that are a finite float, with it, and the next ones.
fn floats(limits: &Limits) -> [(Bits, Result<f64, ValueErrorKind>); 2] {
    let (digits, exponent, most) = if limits.single { (24, 128, f32::MAX.into()) } else { (53, 1024, f64::MAX) };
    let wide = if limits.finite { Err(ValueErrorKind::TooLarge) } else { Ok(f64::INFINITY) };
    [([digits, 1, exponent - digits - 1], Ok(most)), ([digits + 1, exponent - digits - 1, 0], wide)]
}

/// Returns the suffixes of a form that are tried, and none.
fn suffixes(language: Language, form: &Form) -> BTreeSet<String> {
    let Some(suffixes) = form.suffixes() else { return [String::new()].into() };
    let rows = KINDS.iter().filter(|row| row[0].split(' ').any(|it| it == language.name()));
    let any =
        rows.flat_map(|row| row[2].split(' ')).filter(|it| suffixes.begins_any_word().contains(&it.as_bytes()[0]));
    let listed =
        [suffixes.integers(), suffixes.floats()].concat().into_iter().map(|it| std::str::from_utf8(it).unwrap());
    let all = BTreeSet::from_iter(any.chain(listed).chain([""]).map(str::to_string));
    let upper = all.iter().filter(|_| suffixes.is_either_case()).map(|it| it.to_uppercase());
    upper.chain(all.iter().cloned()).collect()
}

/// Returns the texts of 1 that are tried in a form: integers, also with a leading zero, and floats.
fn ones(form: &Form) -> Vec<String> {
    let integer = form.syntax().format_integer(1, Style::PLAIN).map(|it| it.to_string());
    let float = form.syntax().format_float(1.0, Style::PLAIN.exponent(ExponentStyle::Always)).map(|it| it.to_string());
    let others = [integer.clone().map(|it| format!("0{it}")), float.clone().map(|it| it.replace(".0", "."))];
    [integer, float].into_iter().chain(others).flatten().collect()
}

/// Compares the values of numbers, in the place of the `1` of a text of a form: of the last one that is not too large,
/// and of the next one. Returns the row of the limits, if a form reads such a text, and if there is a row.
fn has_limits(language: Language, form: &Form, one: &str, suffix: &str, known: &mut Digits) -> Option<usize> {
    let (before, behind) = one.split_once('1').unwrap();
    let opening = form.opening();
    let opening = std::str::from_utf8(opening.as_bytes()).unwrap();
    let text_of = |sign, digits: &str| format!("{opening}{sign}{before}{digits}{behind}{suffix}");
    let text = text_of("", "1");
    let (literal, form) = whole(language, &text, suffix)?;
    let (limits, is_float) = (Limits::of(language, form, suffix), literal.is_float());
    let radix = form.syntax().format().mantissa_radix();
    let mut text_of =
        |sign, number| text_of(sign, known.entry((number, radix)).or_insert_with(|| digits(number, radix)));
    let is_signed = !form.syntax().conditions().has(Condition::NegativeSign);
    let signed = integers(limits.integers).into_iter().filter(|it| !is_float && (is_signed || it.0.is_empty()));
    for (sign, number, wanted) in signed {
        let text = text_of(sign, number);
        let literal = whole(language, &text, suffix).unwrap().0;
        let below = || literal.to_i128().map(|it| (it < 0, it.unsigned_abs()));
        let found = literal.to_u128().map(|it| (false, it)).or_else(|_| below());
        let error = if sign == "-" { ValueErrorKind::TooSmall } else { ValueErrorKind::TooLarge };
        assert_eq!(found.map_err(|it| it.kind()), wanted.ok_or(error), "{language}: {text}");
        assert_eq!(i128::try_from(literal), literal.to_i128(), "{language}: {text}");
        assert!(wanted.is_some() || literal.to_f64().is_err(), "{language}: {text}");
    }
    let has_floats = form.syntax().supports_floats() && (is_float || limits.integers.is_none());
    for (number, wanted) in floats(&limits).into_iter().filter(|_| has_floats) {
        let text = text_of("", number);
        let literal = whole(language, &text, suffix).unwrap().0;
        assert_eq!(literal.to_f64().map_err(|it| it.kind()), wanted, "{language}: {text}");
    }
    limits.row
}

/// Each form of each language has the numbers of its kind, alone and with each suffix, up to the last one.
#[test]
fn numbers_have_the_limits_of_their_forms_and_suffixes() {
    let (mut known, mut met) = (HashMap::new(), BTreeSet::new());
    for language in Language::ALL {
        let behind = language.forms().tokens().map_or(&[][..], |it| it.forms());
        for form in language.forms().into_iter().chain(behind) {
            for (one, suffix) in
                ones(form).iter().flat_map(|one| suffixes(*language, form).into_iter().map(move |it| (one, it)))
            {
                let row = has_limits(*language, form, one, &suffix, &mut known);
                met.extend(row.map(|row| (row, language.name(), suffix.to_lowercase())));
            }
        }
    }
    for (row, [languages, _, suffixes, _]) in KINDS.iter().enumerate() {
        for (language, suffix) in
            languages.split(' ').flat_map(|it| suffixes.split(' ').map(move |suffix| (it, suffix)))
        {
            assert!(met.contains(&(row, language, suffix.trim_matches('-').to_lowercase())), "{language}: {suffix}");
        }
    }
}

/// What is written has the value, and not the digits.
#[test]
fn values_are_written() {
    #[rustfmt::skip]
    let rows = [
        (Language::JAVA, "0xffffffff", Language::RUBY, Ok("-1")),
        (Language::JAVA, "0xffffffff", Language::C, Err(WriteError::Negative)),
        (Language::JAVA, "0x7fffffff", Language::C, Ok("2147483647")),
        (Language::JAVA, "3000000000", Language::C, Err(WriteError::TooLarge)),
        (Language::FORTRAN, "0.1", Language::PYTHON, Ok("0.10000000149011612")),
        (Language::FORTRAN, "0.50", Language::PYTHON, Ok("0.50")),
        (Language::FORTRAN, "0.1d0", Language::PYTHON, Ok("0.1e0")),
        (Language::JAVA, "0.1f", Language::JAVASCRIPT, Ok("0.10000000149011612")),
        (Language::FORTRAN, "1e39", Language::PYTHON, Err(WriteError::TooLarge)),
        (Language::C, "1e400", Language::PYTHON, Ok("1e400")),
    ];
    for (source, text, target, wanted) in rows {
        let written = target.forms()[0].syntax().format_literal(&literal(source, text), Style::PLAIN);
        assert_eq!(written.map(|it| it.to_string()), wanted.map(str::to_string), "{source}: {text}");
    }
    let json = Language::JSON.forms();
    for (source, text, wanted) in FLOATS.iter().filter(|it| it.2.is_finite()) {
        let (value, style) = (literal(*source, text).to_f64().unwrap(), Style::PLAIN);
        for written in [json[0].syntax().format_float(value, style), json.format_float(value, style)] {
            assert_eq!(json.parse(written.unwrap().to_string()), Ok(*wanted), "{source}: {text}");
        }
    }
}
