//! What lists write: the text that they read back as the number, with its opening and its word.

#[path = "../../compare/rust/src/random.rs"]
mod random;

use peltzivar::literal::{
    ExponentStyle, FloatKind, Form, Forms, IntegerKind, Kind, Language, Literal, Number, Style, Suffixes, Syntax,
    Token, Tokens, ValueErrorKind, WriteError, Written,
};
use peltzivar::Part;
use random::Random;
use std::collections::BTreeSet;
use std::num::NonZeroU8;

/// Styles that do not round.
const STYLES: [Style; 5] = [
    Style::PLAIN,
    Style::PLAIN.group(3).lowercase(),
    Style::PLAIN.without_base().min_digits(5),
    Style::PLAIN.exponent(ExponentStyle::Never),
    Style::PLAIN.exponent(ExponentStyle::Always),
];

/// A literal and its exact number: the sign, and the size of a whole number of up to 128 bits, or else the radix, the digits
/// without zeros at both ends, and the exponent of the last one. Digits of a radix that is a power of two are bits or, if these
/// are a number of up to 128 bits in units of the last one, decimal.
type Given<'a> = (Literal<'a>, (bool, Result<u128, (u32, Vec<u32>, i128)>));

/// Returns the literal of a language that a text is, maybe with a word that is written.
fn read(language: Language, text: &str) -> Option<Given<'_>> {
    let (literal, form) = match language.read(text) {
        Ok(Number::Literal { literal, form }) => (literal, form),
        Ok(Number::Special(_)) => return None,
        Err(_) => {
            let is_written = |it: &Token| {
                let suffixes = language.forms().as_slice().get(it.form).and_then(Form::suffixes);
                it.rest.is_empty() && suffixes.is_some_and(|words| words.written().contains(&it.suffix))
            };
            let token = language.token(text).ok().filter(is_written)?;
            (token.literal, token.form)
        }
    };
    let (own, base) = (literal.radix(Part::Integer), language.forms()[form].syntax().format().exponent_base());
    let (radix, width) = if own.is_power_of_two() { (2, own.ilog2()) } else { (own, 1) };
    let split = |digit: u8| (0..width).rev().map(move |it| u32::from(digit) / radix.pow(it) % radix);
    let digits = literal.digits(Part::Integer).chain(literal.digits(Part::Fraction)).flat_map(split);
    let mut digits = Vec::from_iter(digits.skip_while(|digit| *digit == 0));
    let zeros = digits.iter().rev().take_while(|digit| **digit == 0).count();
    digits.truncate(digits.len() - zeros);
    let (places, ten) = (literal.digits(Part::Fraction).count() as i128, i128::from(literal.radix(Part::Exponent)));
    let power = literal.digits(Part::Exponent).fold(0, |power, digit| power * ten + i128::from(digit));
    assert!(power == 0 || radix.pow(base.ilog(radix)) == base, "{text} of {language}");
    let power = if literal.exponent_sign() == b"-" { -power } else { power } * i128::from(base.ilog(radix));
    let last = if digits.is_empty() { 0 } else { power + zeros as i128 - places * i128::from(width) };
    let unit = u32::try_from(last).ok().and_then(|last| u128::from(radix).checked_pow(last));
    let add = |size: u128, digit: &u32| size.checked_mul(radix.into())?.checked_add((*digit).into());
    let size = digits.iter().try_fold(0, add);
    let fives = u32::try_from(-last).ok().filter(|_| radix == 2).and_then(|places| 5_u128.checked_pow(places));
    let (radix, digits) = match size.and_then(|size| size.checked_mul(fives?)) {
        Some(units) => (10, units.to_string().bytes().map(|digit| u32::from(digit - b'0')).collect()),
        None => (radix, digits),
    };
    let whole = size.and_then(|size| size.checked_mul(unit?));
    Some((literal, (literal.is_negative(), whole.ok_or((radix, digits, last)))))
}

/// Returns whether a literal that a language writes for another one is the same number: exactly, or as its `f64` if its kind makes
/// it another number, or as its `f32` in PostScript, whose floats are all singles. The kinds of both count. A float that is written
/// for an integer is worth it.
fn is_same(language: Language, (own, number): &Given, (back, other): &Given) -> bool {
    match (own.to_i128(), back.to_i128()) {
        (Ok(own), Ok(back)) => return own == back,
        (Ok(_), Err(_)) if !back.is_float() => return false,
        (Ok(own), Err(_)) if own != 0 && Ok(own.to_string()) != back.to_f64().map(|it| format!("{it:.0}")) => {
            return false
        }
        _ => {}
    }
    let float = |literal: Literal, is_single| {
        let value = if is_single { literal.to_f32().map(f64::from) } else { literal.to_f64() };
        value.map(f64::to_bits).map_err(|error| error.kind())
    };
    let floats = [*own, *back].map(|literal| float(literal, language == Language::POSTSCRIPT));
    if floats[0].is_ok() && floats[0] == floats[1] {
        number == other || float(own.with_kind(Kind::EXACT), false) != float(*own, false)
    } else {
        number == other && floats.contains(&Err(ValueErrorKind::UnsupportedRadix))
    }
}

/// Returns how a language writes a number of `written.txt`.
fn text_of(language: Language, source: &str, number: &str) -> Result<String, WriteError> {
    let forms = language.forms();
    match source {
        "integer" => {
            let Ok(Number::Literal { literal, .. }) = Language::CLOJURE.read(number) else { panic!("{number}") };
            forms.format_literal(&literal, Style::PLAIN).map(|it| it.to_string())
        }
        "f32" => forms.format_float(number.parse::<f32>().unwrap(), Style::PLAIN).map(|it| it.to_string()),
        "f64" => forms.format_float(number.parse::<f64>().unwrap(), Style::PLAIN).map(|it| it.to_string()),
        "amount" => {
            let style = Style::PLAIN.decimals(2);
            forms.format_float(number.parse::<f64>().unwrap(), style).map(|it| it.to_string())
        }
        _ => panic!("{source}"),
    }
}

/// A text that is not recorded may be another number to the tool: `compare/languages/run --written --record` asks it.
#[test]
fn numbers_are_written_as_the_tools_read_them() {
    let rows = include_str!("known/written.txt").lines().filter(|row| !row.starts_with('#'));
    let differs = |row: &&str| {
        let &[name, source, number, text] = &*row.split(' ').collect::<Vec<_>>() else { panic!("{row}") };
        let written = text_of(Language::from_name(name).expect(name), source, number);
        (written.as_deref() != Ok(text)).then(|| format!("{row}: the library writes {written:?}"))
    };
    let wrong = Vec::from_iter(rows.filter_map(|row| differs(&row)));
    assert!(wrong.is_empty(), "{}", wrong.join("\n"));
}

/// Returns whether a text fits a buffer of its size, and is refused with its size by a buffer of one byte less.
fn fits(written: &Written, text: &[u8]) -> bool {
    let buffer = &mut vec![0; text.len()];
    written.write_into(&mut buffer[1..]) == Err(WriteError::Buffer(text.len()))
        && written.write_into(buffer).map(str::as_bytes) == Ok(text)
}

/// Returns how a language writes a literal, where it does not read this back as the number, or where calls differ.
fn faults(given: &Given, language: Language) -> Vec<String> {
    let fault = |style: Style| {
        let written = language.forms().format_literal(&given.0, style).ok()?;
        let text = written.to_string();
        let is_same = read(language, &text).is_some_and(|back| is_same(language, given, &back));
        let is_right = is_same && format!("{written:>40}") == format!("{text:>40}") && fits(&written, text.as_bytes());
        (!is_right).then(|| format!("{:?} is {text} in {language}, by {style:?}", given.0))
    };
    STYLES.into_iter().filter_map(fault).collect()
}

/// Returns the recorded texts.
fn texts() -> impl Iterator<Item = &'static str> {
    include_str!("known/languages.txt").lines().filter_map(|row| row.split(' ').nth(2))
}

#[test]
fn some_texts_are_read_back_as_the_number() {
    let (random, texts) = (&mut Random::new(20_261_203), Vec::from_iter(texts()));
    for _ in 0..80_000 {
        let given = read(random.pick(Language::ALL), random.pick(&texts));
        assert_eq!(given.map_or(vec![], |given| faults(&given, random.pick(Language::ALL))), [""; 0]);
    }
}

/// Each error for a literal of the rows is that of the form that is asked first: of the literal's radix and, for a float, with
/// floats, or else of the first form. No form writes what is read back as the number.
#[test]
fn languages_write_what_they_can() {
    let rows = include_str!("literals.txt").lines().map(|row| Vec::from_iter(row.split_whitespace()));
    let given = |row: Vec<&'static str>| read(Language::from_name(row.first()?)?, row.get(2)?);
    for (given, target) in
        rows.filter_map(given).flat_map(|it| Language::ALL.iter().map(move |target| (it.clone(), *target)))
    {
        assert_eq!(faults(&given, target), [""; 0]);
        let literal = given.0;
        let Err(error) = target.forms().format_literal(&literal, Style::PLAIN) else { continue };
        let forms = || target.forms().into_iter().filter(|it| !it.is_only_read());
        let text_in = |form: &Form| {
            let written = form.syntax().format_literal(&literal, Style::PLAIN);
            written.map(|it| format!("{}{it}", String::from_utf8_lossy(form.opening().as_bytes())))
        };
        let is_written = |text: String| is_same(target, &given, &read(target, &text).unwrap());
        assert!(!forms().any(|it| text_in(it).is_ok_and(is_written)), "{literal:?} in {target}: {error}");
        let is_own = |form: &Form| {
            let syntax = form.syntax();
            syntax.format().mantissa_radix() == literal.radix(Part::Integer)
                && (!literal.is_float() || syntax.point().is_some())
        };
        let first = forms().find(|it| is_own(it)).or(forms().next()).unwrap();
        let wanted = match text_in(first) {
            Ok(text) if target.read(&text).unwrap().to_f64().is_nan() => WriteError::TooLarge,
            Ok(_) => WriteError::ReadBack,
            Err(error) => error,
        };
        assert_eq!(error, wanted, "{literal:?} in {target}");
    }
}

#[test]
#[ignore = "two minutes in release"]
fn all_texts_are_read_back_as_the_number() {
    let mut all = Vec::new();
    for text in BTreeSet::from_iter(texts()) {
        for given in Language::ALL.iter().filter_map(|it| read(*it, text)) {
            all.extend(Language::ALL.iter().flat_map(|language| faults(&given, *language)));
        }
    }
    assert!(all.is_empty(), "{} texts: {all:#?}", all.len());
}

/// Lists write to buffers of 40 bytes and of 4,096.
#[test]
fn a_text_with_an_opening_may_fill_a_buffer() {
    for form in Language::ALL.iter().flat_map(Language::forms).filter(|it| it.has_opening()) {
        let forms = [form.only_read(false).with_kind(Kind::EXACT)];
        let list = Forms::new_or_panic(&forms);
        let opening = form.opening().as_bytes().to_vec();
        let suffix = Vec::from_iter(form.syntax().format().base_suffix().map(NonZeroU8::get));
        for size in [40, 41, 4096] {
            let text = [&opening, &*b"1".repeat(size - opening.len() - suffix.len()), &suffix].concat();
            let literal = list.read(&text).unwrap().literal().unwrap();
            assert!(fits(&list.format_literal(&literal, Style::PLAIN).unwrap(), &text));
            assert_eq!(list.written(&literal, Style::PLAIN, |text| text.to_vec()), Ok(text.clone()));
        }
    }
}

#[test]
fn an_amount_is_written_as_the_literal_with_its_digits() {
    let values = [0, 7, -1, 100, 1200, -123_456, i64::MIN.into(), u64::MAX.into(), i128::MAX, i128::MIN];
    for (value, places) in values.into_iter().flat_map(|it| [0, 1, 2, 9, 40, 255].map(|places| (it, places))) {
        let digits = format!("{:0>width$}", value.unsigned_abs(), width = usize::from(places) + 1);
        let (integer, fraction) = digits.split_at(digits.len() - usize::from(places));
        let (sign, point) = (if value < 0 { "-" } else { "" }, if places > 0 { "." } else { "" });
        let text = [sign, integer, point, fraction].concat();
        let literal = Language::JSON.read(&text).unwrap().literal().unwrap();
        assert_eq!(Language::JSON.forms().format_scaled(value, places, Style::PLAIN).unwrap().to_string(), text);
        for (forms, style) in Language::ALL.iter().flat_map(|it| STYLES.map(|style| (it.forms(), style))) {
            let written = forms.format_scaled(value, places, style);
            let wanted = forms.format_literal(&literal, style).map(|it| (it.to_string(), format!("{it:>+400}")));
            assert_eq!(written.map(|it| (it.to_string(), format!("{it:>+400}"))), wanted, "{text} of {forms:?}");
            assert!(written.is_ok_and(|it| fits(&it, it.to_string().as_bytes())) || wanted.is_err());
        }
    }
}

/// Returns the kind of integers that wrap at so many bits.
const fn wraps(bits: u8) -> Kind {
    Kind::new(IntegerKind::Wraps(bits), FloatKind::Nearest).unwrap()
}

#[test]
fn an_integer_has_the_first_word_with_which_it_is_the_number() {
    const WORDS: Suffixes = Suffixes::new(&[b"s", b"l"], &[], &[]).with_kinds(&[(b"s", wraps(16)), (b"l", wraps(32))]);
    static ORDERS: [Suffixes; 2] = [WORDS.with_written(&[b"s", b"l"]), WORDS.with_written(&[b"l", b"s"])];
    let tokens = Tokens::new(&[], &[]);
    for (suffixes, first) in ORDERS.iter().zip(["s", "l"]) {
        let form = [Form::new("", Syntax::default()).with_kind(wraps(8)).with_suffixes(suffixes)];
        let list = Forms::new_or_panic(&form).with_tokens(&tokens);
        for (value, word) in [(127, ""), (128, first), (32_768, "l")] {
            assert_eq!(list.format_integer(value, Style::PLAIN).unwrap().to_string(), format!("{value}{word}"));
        }
    }
}
