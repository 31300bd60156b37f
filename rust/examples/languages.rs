//! Prints how each language reads a text: the form and the value, or why it is not a number.
//!
//!     cargo run --example languages -- 0x1F
//!
//! Without a text, prints the forms of all languages: the language, the form, a sentence on its numbers, its kind, its
//! suffixes, its syntax and the settings of its format, with tabs between them.

use peltzivar::literal::{FloatKind, FloatLimits, Form, IntegerKind, Kind, Language, Number, Suffixes};

fn answer(language: Language, text: &[u8]) -> String {
    let form = |index: usize| language.forms()[index].name();
    match language.read(text) {
        Ok(Number::Literal { literal, form: index }) => match literal.to_i128() {
            Ok(value) => format!("{value}, {}", form(index)),
            Err(_) => format!("{:?}, {}", literal.to_f64().unwrap_or(f64::NAN), form(index)),
        },
        Ok(special) => format!("{:?}", special.to_f64()),
        Err(error) => format!("none: {error}, {}", error.name),
    }
}

/// Returns what the values of a kind are, if they are not the numbers that digits represent.
fn words(kind: Kind) -> String {
    let integers = match kind.integers() {
        IntegerKind::Signed(bits) => format!("signed integers of {bits} bits"),
        IntegerKind::Unsigned(bits) => format!("unsigned integers of {bits} bits"),
        IntegerKind::Wraps(bits) => format!("integers of {bits} bits, with a sign"),
        IntegerKind::WrapsModulo(bits) => format!("the last {bits} bits of integers, with a sign"),
        _ => String::new(),
    };
    let floats = match (kind.floats(), kind.limits()) {
        (FloatKind::Single, FloatLimits::None) => "singles",
        (FloatKind::Single, FloatLimits::Largest) => "singles that are finite",
        (FloatKind::Single, _) => "singles that are finite, and 0 only by zeros",
        (_, FloatLimits::None) => "",
        (_, FloatLimits::Largest) => "floats that are finite",
        _ => "floats that are finite, and 0 only by zeros",
    };
    [integers.as_str(), floats].into_iter().filter(|it| !it.is_empty()).collect::<Vec<_>>().join("; ")
}

/// Returns the words of suffixes.
fn suffixes(of: &Suffixes) -> String {
    let of_integers = of.integers().iter();
    let mut words = Vec::from_iter(of_integers.chain(of.floats().iter().filter(|it| !of.integers().contains(it))));
    words.sort();
    let mut words = Vec::from_iter(words.iter().map(|it| format!("`{}`", String::from_utf8_lossy(it))));
    if of.is_either_case() {
        words.push(String::from("in either case"));
    }
    match of.begins_any_word() {
        [] => {}
        [byte] => words.push(format!("words that begin with `{}`", *byte as char)),
        _ => words.push(String::from("any word")),
    }
    words.extend((!of.word_bytes().is_empty()).then(|| format!("with `{}` in words", of.word_bytes().escape_ascii())));
    words.extend(of.written().iter().map(|it| format!("written with `{}`", String::from_utf8_lossy(it))));
    words.join(", ")
}

/// Prints a form of a language. If `needs` is true, it is one of tokens, and needs a suffix.
fn print(language: &Language, form: &Form, needs: bool) {
    let syntax = form.syntax();
    let settings = Vec::from_iter(syntax.format().edits().map(|edit| edit.to_string()));
    let (name, kind) = (form.name(), words(form.kind()));
    let opening = form.opening();
    let opening = match opening.as_bytes() {
        [] => String::new(),
        bytes => format!("; opening `{}`", String::from_utf8_lossy(bytes)),
    };
    let sentence = format!("{}{opening}{}", syntax.sentence(), if form.is_only_read() { "; not written" } else { "" });
    let words = form.suffixes().map(suffixes).unwrap_or_default() + if needs { ", required" } else { "" };
    println!("{language}\t{name}\t{sentence}\t{kind}\t{words}\t{syntax}\t{}", settings.join(" "));
}

fn main() {
    if let Some(text) = std::env::args_os().nth(1) {
        for language in Language::ALL {
            println!("{language}: {}", answer(*language, text.as_encoded_bytes()));
        }
        return;
    }
    for language in Language::ALL {
        language.forms().into_iter().for_each(|form| print(language, form, false));
        let tokens = language.forms().tokens().map_or(&[][..], |it| it.forms());
        tokens.iter().for_each(|form| print(language, form, true));
    }
}
