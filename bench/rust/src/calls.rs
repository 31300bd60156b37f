//! The calls of the library that the rows of literals make. `bench/run --against` builds the library of a commit with
//! the commit's own copy of this file.

use crate::literals::{calls, Group};
use peltzivar::literal::{Language, Style, Syntax};
use std::hint::black_box;

fn of(group: &Group) -> Syntax {
    group.language.forms()[group.form].syntax()
}

calls! {
    reader: |group| { let it = of(group); move |text| black_box(it.read(text.as_bytes())).is_ok() };
    refuses: |group| { let it = of(group); move |text| black_box(it.read(text.as_bytes())).is_err() };
    listed: |group| { let it = group.language; move |text| black_box(it.read(text.as_bytes())).is_ok() };
    list_value: |group| { let it = group.language; move |text| black_box(it.parse::<i64>(text)).is_ok() };
    value: |group| { let it = of(group); move |text| black_box(it.parse::<i64>(text)).is_ok() };
    float: |group| { let it = of(group); move |text| black_box(it.parse::<f64>(text)).is_ok() };
    prints: |group| {
        let it = of(group);
        move |text| it.read(text.as_bytes()).is_err_and(|error| !black_box(error.text()).as_str().is_empty())
    };
}

/// Writes a float of JSON with all its digits or with two decimals, and returns the number of bytes.
pub fn float_writer(decimals: Option<u8>) -> impl Fn(f64) -> usize {
    let syntax = Language::JSON.forms()[0].syntax();
    let mut style = Style::PLAIN;
    style.decimals = decimals;
    move |value| {
        let written = syntax.format_float(value, style).expect("a float");
        black_box(written.write_into(&mut [0; 400]).expect("400 bytes")).len()
    }
}

/// Writes an integer of JSON, and returns the number of bytes.
pub fn writer() -> impl Fn(i64) -> usize {
    let syntax = Language::JSON.forms()[0].syntax();
    move |value| {
        let written = syntax.format_integer(value, Style::PLAIN).expect("an integer");
        black_box(written.write_into(&mut [0; 20]).expect("20 bytes")).len()
    }
}
