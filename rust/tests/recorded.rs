//! Compares the plain Rust with results that `lexical-util` 1.0.7 returned, which are also those of the definitions, since
//! the code is proved and the same. `replayed` has the form of each line, where a word has 32 hexadecimal digits, and 0
//! is an absent byte.

use peltzivar::ascii::{is_valid_ascii, is_valid_letter};
use peltzivar::digit::{char_is_digit, char_is_digit_const, char_to_digit, char_to_digit_const, digit_to_char};
use peltzivar::edits::{apply_all, edit_word, edits_of, is_built, normal_form, same_format, Edit};
use peltzivar::error::Error;
use peltzivar::format_builder::{NonZeroU8, NumberFormatBuilder};
use peltzivar::format_flags::is_valid_options_punctuation;
use peltzivar::word::{format_error, format_is_valid, FormatView};
use std::str::FromStr;

fn read<T: FromStr>(text: &str) -> Option<T> {
    text.parse().ok()
}

fn word(text: &str) -> Option<u128> {
    u128::from_str_radix(text, 16).ok()
}

/// Returns the outcome with a name, and with an index if it holds one.
fn outcome(name: &str, index: usize) -> Option<Error> {
    let is_named = |error: &Error| format!("{error:?}").split('(').next() == Some(name);
    (0..49).filter_map(|rank| Error::from_rank(rank, index)).find(is_named)
}

fn fields(format: &str, view: FormatView) -> String {
    let bytes = [view.digit_separator(), view.base_prefix(), view.base_suffix()];
    let [separator, prefix, suffix] = bytes.map(|byte| byte.map_or(0, NonZeroU8::get));
    let [radix, base, exponent_radix] = [view.mantissa_radix(), view.exponent_base(), view.exponent_radix()];
    format!("fields {format} {:032X} {separator} {prefix} {suffix} {radix} {base} {exponent_radix}", view.flags())
}

/// Returns a line with what the library returns now, or `None` if the line cannot be read or calls that say the same differ.
fn replayed(line: &str) -> Option<String> {
    let parts: Vec<&str> = line.split(' ').collect();
    let edits = |calls: &[&str]| calls.iter().map(|call| read(call)).collect::<Option<Vec<Edit>>>();
    Some(match parts[..] {
        // A width changes no text.
        ["printed", index, name, ..] => format!("printed {index} {name} {:*^200}", outcome(name, read(index)?)?),
        ["byte", byte, ..] => format!("byte {byte} {} {}", is_valid_ascii(read(byte)?), is_valid_letter(read(byte)?)),
        ["digit", byte, radix, ..] => {
            let (c, base) = (read(byte)?, read(radix)?);
            let digit = char_to_digit(c, base);
            let are_digits = [char_is_digit(c, base), char_is_digit_const(c, base)] == [digit.is_some(); 2];
            let is_its_character = digit.is_none_or(|it| it > 35 || digit_to_char(it) == c.to_ascii_uppercase());
            (digit == char_to_digit_const(c, base) && are_digits && is_its_character).then_some(())?;
            format!("digit {byte} {radix} {}", digit.map_or("none".into(), |digit| digit.to_string()))
        }
        ["fields", format, ..] => fields(format, FormatView::new(word(format)?)),
        ["check", format, ..] => {
            let (word, view) = (word(format)?, FormatView::new(word(format)?));
            let (error, (edits, count)) = (format_error(word), edits_of(word));
            let built =
                [&edits[..], &edits[..count]].map(|it| apply_all(NumberFormatBuilder::new(), it).build_unchecked());
            let are_valid = [format_is_valid(word), view.is_valid()] == [error.is_success(); 2];
            let are_built = built == [built[0]; 2] && is_built(word) == (built[0] == word);
            let is_normal = normal_form(word) == edit_word(word, &[]) && same_format(word, normal_form(word));
            (view.error() == error && are_valid && are_built && is_normal).then_some(())?;
            format!("check {format} {error:?}")
        }
        ["options", format, exponent, point, ..] => {
            let is_valid = is_valid_options_punctuation(word(format)?, read(exponent)?, read(point)?);
            format!("options {format} {exponent} {point} {is_valid}")
        }
        ["edit", format, _, ref calls @ ..] => {
            format!("edit {format} {:032X} {}", edit_word(word(format)?, &edits(calls)?), calls.join(" "))
        }
        ["build", _, _, ref calls @ ..] => {
            let builder = apply_all(NumberFormatBuilder::new(), &edits(calls)?);
            let packed = builder.build_unchecked();
            let error = builder.build_strict().map_or_else(Some, |word| (word == packed).then_some(Error::Success));
            format!("build {packed:032X} {:?} {}", error?, calls.join(" "))
        }
        _ => return None,
    })
}

#[test]
fn recorded_results_are_kept() {
    for line in include_str!("known/results.txt").lines() {
        // After ` crate: `, the line has what `lexical-util` returns where this library differs on purpose.
        let fact = line.split_once(" crate: ").map_or(line, |(fact, _)| fact);
        assert_eq!(replayed(fact).expect(line).trim_end(), fact);
    }
}
