//! The rows of literals: calls of the library that read and write beside other calls over the same texts or numbers. A
//! loop counts the texts that a call accepts, or in one loop those that it refuses.

use crate::calls::*;
use crate::list;
use crate::measure::Row;
use crate::random::Random;
use peltzivar::literal::Language;
use std::fmt::Write;
use std::hint::black_box;

/// Texts of a form of a language.
pub struct Group {
    pub language: Language,
    pub form: usize,
    texts: Vec<String>,
}

pub type Texts = &'static [Group];

impl Group {
    /// Returns `count` texts that have a property.
    pub fn new(
        (language, form): (Language, usize),
        count: usize,
        text: impl FnMut() -> String,
        is_kept: impl Fn(&Group, &str) -> bool,
    ) -> Group {
        let group = Group { language, form, texts: vec![] };
        let texts = std::iter::repeat_with(text).filter(|text| is_kept(&group, text)).take(count).collect();
        Group { texts, ..group }
    }
}

/// Returns 100,000 texts of a form.
fn of_form(language: Language, form: usize, text: impl FnMut() -> String) -> Texts {
    vec![Group::new((language, form), 100_000, text, |_, _| true)].leak()
}

/// Returns 100,000 texts of each of three languages that have a property.
fn texts(
    random: &mut Random,
    text: fn(&mut Random, Language) -> String,
    is_kept: impl Fn(&Group, &str) -> bool,
) -> Texts {
    let languages = [Language::JSON, Language::TOML, Language::C];
    let groups = languages.map(|it| Group::new((it, 0), 100_000, || text(random, it), &is_kept));
    Vec::from(groups).leak()
}

/// A number of digits from 1 to `most`, in groups if there is a separator.
fn digits(random: &mut Random, most: u8, separator: Option<char>) -> String {
    let count = random.byte(1, most);
    let mut text = String::new();
    for left in (0..count).rev() {
        text.push(random.byte(b'0', b'9') as char);
        text.extend(separator.filter(|_| left > 0 && left % 3 == 0));
    }
    text
}

/// As many digits.
pub fn fixed(random: &mut Random, count: u8) -> String {
    (0..count).map(|_| random.byte(b'0', b'9') as char).collect()
}

/// An integer of 1 to 9 digits, of which the first is not 0.
pub fn integer(random: &mut Random, separator: Option<char>) -> String {
    let first = random.byte(b'1', b'9') as char;
    format!("{first}{}", &digits(random, 9, separator)[1..])
}

/// A literal of JSON, TOML or C. Half have a fraction, a third has an exponent, and in TOML and C, a quarter has separators.
pub fn literal(random: &mut Random, language: Language) -> String {
    let (signs, own) = match language.name() {
        "TOML" => (["-", "", "+"], Some('_')),
        "JSON" => (["-", "", ""], None),
        _ => ([""; 3], Some('\'')),
    };
    let separator = own.filter(|_| random.one_in(4));
    let integer = digits(random, 9, separator);
    let zeros = integer.bytes().take_while(|it| !(b'1'..=b'9').contains(it)).count();
    let mut text = format!("{}{}", random.pick(&signs), if zeros < integer.len() { &integer[zeros..] } else { "0" });
    if random.one_in(2) {
        text = text + "." + &digits(random, 8, separator);
    }
    if random.one_in(3) {
        text = text + random.pick(&["e", "E", "e-", "e+"]) + &digits(random, 2, None);
    }
    text
}

pub fn shape(random: &mut Random) -> String {
    format!("{}.{}", 100 + random.below(900), fixed(random, 6))
}

pub fn money(random: &mut Random) -> String {
    let limit = random.pick(&[10, 100, 1000, 10_000]);
    format!("{}.{}", random.below(limit), fixed(random, 2))
}

/// A float of 17 digits with an exponent.
pub fn exponent(random: &mut Random) -> String {
    format!("1.{}e{}", fixed(random, 16), random.below(600) as i64 - 300)
}

/// A literal with one byte more, anywhere.
fn inserted(random: &mut Random, language: Language) -> String {
    let mut text = literal(random, language);
    let index = random.below(text.len() as u64 + 1) as usize;
    text.insert(index, random.pick(b".-+e_x0 ") as char);
    text
}

/// A literal with one byte more behind it.
fn appended(random: &mut Random, language: Language) -> String {
    literal(random, language) + random.pick(&[";", " ", "x"])
}

/// Calls of a group, each with a text.
macro_rules! calls {
    ($($name:ident: |$group:ident| $call:expr;)*) => {
        $(pub fn $name($group: &crate::literals::Group) -> impl Fn(&str) -> bool + use<> { $call })*
    };
}
pub(crate) use calls;

calls! {
    parse: |_group| |text| black_box(text.parse::<f64>()).is_ok();
    parse_integer: |_group| |text| black_box(text.parse::<i64>()).is_ok();
    token: |group| { let it = group.language; move |text| black_box(it.token(text)).is_ok() };
    list_float: |group| { let it = group.language; move |text| black_box(it.parse::<f64>(text)).is_ok() };
}

#[cfg(peers)]
calls! {
    peer_integer: |_group| |text| black_box(lexical_core::parse::<i64>(text.as_bytes())).is_ok();
    peer_float: |_group| |text| black_box(lexical_core::parse::<f64>(text.as_bytes())).is_ok();
}

/// Returns how many texts a call returns `true` for.
fn count<F: Fn(&str) -> bool>(texts: Texts, call_of: impl Fn(&Group) -> F) -> u64 {
    let counts = texts.iter().map(|group| {
        let call = call_of(group);
        group.texts.iter().filter(|text| call(text)).count()
    });
    counts.sum::<usize>() as u64
}

/// Returns the row of a call beside another one.
pub fn row<F: Fn(&str) -> bool, G: Fn(&str) -> bool>(
    name: &'static str,
    texts: Texts,
    call: impl Fn(&Group) -> F + 'static,
    others: Texts,
    other: impl Fn(&Group) -> G + 'static,
) -> Row {
    Row {
        name,
        calls: texts.iter().map(|group| group.texts.len()).sum(),
        ours: Box::new(move || count(black_box(texts), &call)),
        theirs: Box::new(move || count(black_box(others), &other)),
    }
}

/// Returns a row of writers. Each loop returns the number of bytes that it writes. `theirs` writes a number by std.
pub fn written<T: Copy>(
    name: &'static str,
    values: &'static [T],
    write: impl Fn(T) -> usize + 'static,
    theirs: impl Fn(&mut String, T) + 'static,
) -> Row {
    Row {
        name,
        calls: values.len(),
        ours: Box::new(move || values.iter().map(|value| write(*black_box(value)) as u64).sum()),
        theirs: Box::new(move || {
            let mut text = String::new();
            let sizes = values.iter().map(|value| {
                text.clear();
                theirs(&mut text, *black_box(value));
                black_box(&text).len() as u64
            });
            sizes.sum()
        }),
    }
}

#[rustfmt::skip]
pub fn rows() -> Vec<Row> {
    let random = &mut Random::new(20_261_126);
    let mixed = texts(random, literal, |_, text| text.parse::<f64>().is_ok());
    let shape = texts(random, |it, _| shape(it), |_, _| true);
    let is_refused = |group: &Group, text: &str| refuses(group)(text);
    let (inserted, appended) = (texts(random, inserted, is_refused), texts(random, appended, is_refused));
    let accepted = texts(random, literal, |_, _| true);
    let integers = texts(random, |it, _| integer(it, None), |_, _| true);
    let grouped = of_form(Language::TOML, 0, || integer(random, Some('_')));
    let prefixed = of_form(Language::RUST, 2, || format!("0x{:X}", random.below(1 << 36)));
    let money = of_form(Language::JSON, 0, || money(random));
    let exponents = of_form(Language::JSON, 0, || exponent(random));
    let fractions = of_form(Language::JSON, 0, || format!("0.{}", fixed(random, 17)));
    let long = of_form(Language::JSON, 0, || format!("1.{}", fixed(random, 99)));
    let hexadecimal = of_form(Language::C, 4, || format!("0x1.{}p{}", fixed(random, 13), random.below(100)));
    let long_integers = of_form(Language::JSON, 0, || 1.to_string() + &fixed(random, 17));
    let wrong_integers = of_form(Language::JSON, 0, || {
        let mut text = integer(random, None);
        text.insert(random.below(text.len() as u64 + 1) as usize, random.pick(b"_x; ") as char);
        text
    });
    let decimals = of_form(Language::TOML, 0, || integer(random, Some('_')) + "." + &fixed(random, 2));
    macro_rules! rows {
        ($($name:expr, $texts:ident.$call:ident, $others:ident.$other:ident;)*) => {
            vec![$(row($name, $texts, $call, $others, $other)),*]
        };
    }
    let mut rows = rows! {
        "Syntax::read, mixed, over parse", mixed.reader, mixed.parse;
        "Syntax::read, one shape, over parse", shape.reader, shape.parse;
        "Syntax::read, money, over parse", money.reader, money.parse;
        "Syntax::read, 17 digits, over parse", exponents.reader, exponents.parse;
        "Syntax::read, grouped, over 17 digits", grouped.reader, exponents.reader;
        "Syntax::read, prefixed, over 17 digits", prefixed.reader, exponents.reader;
        "Syntax::read, byte inserted, over accepted", inserted.refuses, accepted.reader;
        "Syntax::read, byte appended, over accepted", appended.refuses, accepted.reader;
        "Syntax::read and text, inserted, over accepted", inserted.prints, accepted.reader;
        "Syntax::parse, 1 to 9 digits, over parse", integers.value, integers.parse_integer;
        "Syntax::parse, 18 digits, over parse", long_integers.value, long_integers.parse_integer;
        "Syntax::parse, refused, over parse", wrong_integers.value, wrong_integers.parse_integer;
        "Syntax::parse, grouped, over Syntax::read", grouped.value, grouped.reader;
        "Syntax::parse, prefixed, over Syntax::read", prefixed.value, prefixed.reader;
        "Syntax::parse::<f64>, mixed, over parse", mixed.float, mixed.parse;
        "Syntax::parse::<f64>, one shape, over parse", shape.float, shape.parse;
        "Syntax::parse::<f64>, money, over parse", money.float, money.parse;
        "Syntax::parse::<f64>, grouped, over Syntax::read", decimals.float, decimals.reader;
        "Syntax::parse::<f64>, 17 digits, over parse", exponents.float, exponents.parse;
        "Syntax::parse::<f64>, fractions, over parse", fractions.float, fractions.parse;
        "Syntax::parse::<f64>, 100 digits, over parse", long.float, long.parse;
        "Syntax::parse::<f64>, hexadecimal, over Syntax::read", hexadecimal.float, hexadecimal.reader;
    };
    // Integers of which each number of bits is as frequent, and floats that are not whole, of which a half are amounts of money.
    let values: &[i64] = list(random, 100_000, |random| (random.next() as i64) >> random.below(64));
    let floats: &[f64] = list(random, 100_000, |random| match random.below(2) {
        0 => (random.below(100_000_000) * 100 + 1 + random.below(99)) as f64 / 100.0,
        _ => (random.next() >> 11) as f64 / (1_u64 << 53) as f64 * 1000.0 + 1.0,
    });
    rows.extend([
        written("Syntax::format_integer, i64, over Display", values, writer(), |text, it| write!(text, "{it}").expect("memory")),
        written("Syntax::format_float, shortest, over Display", floats, float_writer(None), |text, it| write!(text, "{it}").expect("memory")),
        written("Syntax::format_float, decimals(2), over {:.2}", floats, float_writer(Some(2)), |text, it| write!(text, "{it:.2}").expect("memory")),
    ]);
    rows.extend(crate::languages::rows(random));
    rows
}
