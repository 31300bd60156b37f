//! The rows of languages: calls of a list of forms beside those of the form that reads the text, or beside std.

use crate::calls::*;
use crate::list;
use crate::literals::*;
use crate::measure::Row;
use crate::random::Random;
use peltzivar::literal::{Forms, Language, Literal, Style, Syntax, WriteError, Written};
use std::fmt::Write;
use std::hint::black_box;

calls! {
    list_refuses_float: |group| { let it = group.language; move |text| black_box(it.parse::<f64>(text)).is_err() };
    refuses_float: |group| { let it = syntax(group); move |text| black_box(it.parse::<f64>(text)).is_err() };
    std_refuses: |_group| |text| black_box(text.parse::<f64>()).is_err();
    std_returns: |_group| |text| matches!(black_box(text.parse::<f64>()), Ok(_) | Err(_));
    prefix: |group| { let it = syntax(group); move |text| black_box(it.read_prefix(text)).is_ok() };
    list_prefix: |group| { let it = group.language; move |text| black_box(it.read_prefix(text)).is_ok() };
    value_prefix: |group| { let it = group.language; move |text| black_box(it.parse_prefix::<i64>(text)).is_ok() };
    made: |group| {
        let forms = group.language.forms().as_slice().to_vec();
        move |text| Forms::new(black_box(&forms)).is_some_and(|it| black_box(it.parse::<i64>(text)).is_ok())
    };
    scaled: |group| {
        let it = group.language;
        move |text| it.read(text).is_ok_and(|it| it.literal().is_some_and(|it| black_box(it.to_scaled::<i64>(2)).is_ok()))
    };
    front_by_hand: |_group| |text| {
        let size = text.bytes().take_while(u8::is_ascii_digit).count();
        black_box(text[..size].parse::<i64>()).is_ok()
    };
    digits_by_hand: |_group| |text| black_box(digits_of(text)).is_some();
}

/// Returns the integer of the digits of a text. So it is an amount of money in cents.
fn digits_of(text: &str) -> Option<i64> {
    let digits = text.bytes().filter(|it| !matches!(it, b'.' | b',' | b'_' | b'\''));
    digits.map(|it| (it as char).to_digit(10)).try_fold(0_i64, |sum, it| sum.checked_mul(10)?.checked_add(it?.into()))
}

#[cfg(peers)]
calls! {
    peer_refuses: |_group| |text| black_box(lexical_core::parse::<f64>(text.as_bytes())).is_err();
}

fn syntax(group: &Group) -> Syntax {
    group.language.forms()[group.form].syntax()
}

/// A mixed literal of all these languages.
fn mixed(random: &mut Random) -> String {
    literal(random, Language::JSON).trim_start_matches('-').to_string()
}

fn hexadecimal(random: &mut Random) -> String {
    format!("0x{:X}", random.below(1 << 36))
}

/// A word with which no number begins.
fn word(random: &mut Random) -> String {
    let more = random.byte(1, 8);
    (0..more).fold("q".to_string(), |word, _| format!("{word}{}", random.byte(b'a', b'z') as char))
}

/// Returns texts of a form, with the decimal point of the language for `.`, and its separator for `_`.
fn texts(language: Language, form: usize, count: usize, mut text: impl FnMut() -> String) -> Texts {
    let (separator, point) = match language.name() {
        "C" => ("'", "."),
        "CSV_DE" => (".", ","),
        _ => ("_", "."),
    };
    let own = || text().replace('.', point).replace('_', separator);
    vec![Group::new((language, form), count, own, |_, _| true)].leak()
}

/// Rows, each of a name, the languages with the index of the form, the call and that beside it, and a text.
macro_rules! of_languages {
    ($random:ident; $($name:literal, [$($language:ident $form:literal)*], $call:ident, $other:ident, |$it:ident| $text:expr;)*) => {
        vec![$($({
            let $it = Language::$language;
            let texts = texts($it, $form, 20_000, || $text);
            row(concat!(stringify!($language), "::", $name), texts, $call, texts, $other)
        }),*),*]
    };
}

/// Returns the rows of calls that read.
#[rustfmt::skip]
fn readers(random: &mut Random) -> Vec<Row> {
    let megabyte = "; ".repeat(1 << 19);
    let mut rows = of_languages! { random;
        "parse::<i64>, 1 to 9 digits, over Syntax::parse", [JSON 0 RUST 0 C 0 CSV_DE 0], list_value, value, |_it| integer(random, None);
        "parse::<i64>, 18 digits, over Syntax::parse", [JSON 0 RUST 0 C 0 CSV_DE 0], list_value, value, |_it| 1.to_string() + &fixed(random, 17);
        "parse::<i64>, made list, over parse::<i64>", [JSON 0 RUST 0 C 0 CSV_DE 0], made, list_value, |_it| integer(random, None);
        "parse::<f64>, mixed, over Syntax::parse", [JSON 0 RUST 0 C 0 CSV_DE 0], list_float, float, |_it| mixed(random);
        "parse::<f64>, one shape, over Syntax::parse", [JSON 0 RUST 0 C 0 CSV_DE 0], list_float, float, |_it| shape(random);
        "parse::<f64>, money, over Syntax::parse", [JSON 0 RUST 0 C 0 CSV_DE 0], list_float, float, |_it| money(random);
        "parse::<f64>, 17 digits, over Syntax::parse", [JSON 0 RUST 0 C 0 CSV_DE 0], list_float, float, |_it| exponent(random);
        "parse::<i64>, prefixed, over Syntax::parse", [RUST 2 C 2], list_value, value, |_it| hexadecimal(random);
        "parse::<i64>, grouped, over Syntax::parse", [RUST 0 C 0 CSV_DE 0], list_value, value, |_it| integer(random, Some('_'));
        "read, mixed, over Syntax::read", [JSON 0 RUST 0 C 0 CSV_DE 0], listed, reader, |_it| mixed(random);
        "read, prefixed, over Syntax::read", [RUST 2 C 2], listed, reader, |_it| hexadecimal(random);
        "parse::<f64>, word, over Syntax::parse", [JSON 0 RUST 0 C 0 CSV_DE 0], list_refuses_float, refuses_float, |_it| word(random);
        "parse::<f64>, word, over parse", [JSON 0 RUST 0 C 0 CSV_DE 0], list_refuses_float, std_refuses, |_it| word(random);
        "parse::<f64>, 12x, over parse", [JSON 0 RUST 0 C 0 CSV_DE 0], list_refuses_float, std_refuses, |_it| integer(random, None) + "x";
        "parse::<f64>, 1.5.1, over parse", [JSON 0 RUST 0 C 0 CSV_DE 0], list_refuses_float, std_refuses, |_it| money(random) + ".1";
        "parse::<f64>, 0x1FG, over parse", [JSON 0 RUST 0 C 0 CSV_DE 0], list_refuses_float, std_refuses, |_it| hexadecimal(random) + "G";
        "parse::<f64>, -12.50, over parse", [RUST 0 C 0], list_refuses_float, std_returns, |_it| "-".to_string() + &money(random);
        "parse::<i64>, grouped, over by hand", [RUST 0 C 0 CSV_DE 0], list_value, digits_by_hand, |_it| integer(random, Some('_'));
        "to_scaled, money, over by hand", [JSON 0 RUST 0 C 0 CSV_DE 0], scaled, digits_by_hand, |_it| money(random);
        "to_scaled, grouped, over by hand", [RUST 0 C 0 CSV_DE 0], scaled, digits_by_hand, |_it| integer(random, Some('_')) + "." + &fixed(random, 2);
        "read_prefix, 1 to 9 digits, over by hand", [JSON 0 RUST 0 C 0 CSV_DE 0], list_prefix, front_by_hand, |_it| integer(random, None) + " + x;";
        "parse_prefix::<i64>, 1 to 9 digits, over by hand", [JSON 0 RUST 0 C 0 CSV_DE 0], value_prefix, front_by_hand, |_it| integer(random, None) + " + x;";
        "token, 1 to 9 digits, over by hand", [RUST 0 C 0], token, front_by_hand, |_it| integer(random, None) + " + x;";
        "token, decimal, over read_prefix", [RUST 0 C 0], token, prefix, |_it| mixed(random) + random.pick(&[";", " ", ")"]);
        "token, prefixed, over read_prefix", [RUST 2 C 2], token, prefix, |_it| hexadecimal(random) + random.pick(&[";", " ", ")"]);
        "token, suffix, over read_prefix", [RUST 0 C 0], token, prefix, |it| {
            integer(random, None) + random.pick(if it.name() == "C" { &["u", "ul", "LL"] } else { &["u8", "i64", "f32"] }) + ";"
        };
        "token, point given back, over read_prefix", [RUST 0 JAVASCRIPT 0], token, prefix, |_it| integer(random, None) + "..";
    };
    for language in [Language::RUST, Language::C] {
        let name = [language.name(), "::token, before a megabyte, over read_prefix"].concat().leak();
        let texts = texts(language, 0, 8, || integer(random, None) + &megabyte);
        rows.push(row(name, texts, token, texts, prefix));
    }
    rows
}

fn size(written: Result<Written, WriteError>) -> usize {
    let written = written.expect("a number");
    black_box(written.write_into(&mut [0; 400]).expect("400 bytes")).len()
}

/// Returns the rows of calls that write over those of the first form or, for integers with two places, over std.
fn writers(random: &mut Random) -> Vec<Row> {
    let integers: &[i64] = list(random, 20_000, |random| (random.next() >> 1) as i64 >> random.below(63));
    let floats: &[f64] =
        list(random, 20_000, |random| (random.below(100_000_000) * 100 + 1 + random.below(99)) as f64 / 100.0);
    let literals: &[&Literal] = list(random, 20_000, |random| {
        let literal = Language::JSON.forms()[0].syntax().read(money(random).leak());
        &*Box::leak(Box::new(literal.expect("a literal")))
    });
    let mut rows = vec![];
    for language in [Language::JSON, Language::RUST, Language::C, Language::CSV_DE] {
        let (forms, syntax) = (language.forms(), language.forms()[0].syntax());
        let name = |call| &*[language.name(), call].concat().leak();
        macro_rules! push {
            ($call:ident, $values:ident) => {
                rows.push(Row {
                    name: name(concat!("::", stringify!($call), ", over Syntax::", stringify!($call))),
                    calls: $values.len(),
                    ours: Box::new(move || $values.iter().map(|it| size(forms.$call(*it, Style::PLAIN)) as u64).sum()),
                    theirs: Box::new(move || {
                        $values.iter().map(|it| size(syntax.$call(*it, Style::PLAIN)) as u64).sum()
                    }),
                })
            };
        }
        push!(format_integer, integers);
        push!(format_float, floats);
        push!(format_literal, literals);
        let scaled = move |it| size(forms.format_scaled(it, 2, Style::PLAIN.group(0)));
        let by_hand = |text: &mut String, it| write!(text, "{}.{:02}", it / 100, it % 100).expect("memory");
        rows.push(written(name("::format_scaled, over by hand"), integers, scaled, by_hand));
    }
    rows
}

pub fn rows(random: &mut Random) -> Vec<Row> {
    let mut rows = readers(random);
    rows.extend(writers(random));
    #[cfg(peers)]
    rows.extend(of_languages! { random;
        "parse::<i64>, 1 to 9 digits, over lexical-core", [JSON 0 RUST 0 C 0], list_value, peer_integer, |_it| integer(random, None);
        "parse::<i64>, 18 digits, over lexical-core", [JSON 0 RUST 0 C 0], list_value, peer_integer, |_it| 1.to_string() + &fixed(random, 17);
        "parse::<f64>, mixed, over lexical-core", [JSON 0 RUST 0 C 0], list_float, peer_float, |_it| mixed(random);
        "parse::<f64>, one shape, over lexical-core", [JSON 0 RUST 0 C 0], list_float, peer_float, |_it| shape(random);
        "parse::<f64>, money, over lexical-core", [JSON 0 RUST 0 C 0], list_float, peer_float, |_it| money(random);
        "parse::<f64>, 17 digits, over lexical-core", [JSON 0 RUST 0 C 0], list_float, peer_float, |_it| exponent(random);
        "parse::<f64>, 12x, over lexical-core", [JSON 0 RUST 0 C 0], list_refuses_float, peer_refuses, |_it| integer(random, None) + "x";
    });
    rows
}
