//! Writes the results of `lexical-util`, one a line, for `rust/tests/recorded.rs`, which describes the lines.
//!
//! Where the library differs on purpose, a line has the result that the rules demand, then ` crate: ` and the result of
//! `lexical-util`.

use crate::inputs::{single_calls, SetterCall, BASES};
use crate::random::Random;
use crate::{rules, theirs};
use upstream::ascii::{is_valid_ascii, is_valid_letter};
use upstream::digit::char_to_digit;
use upstream::format_flags::FLAG_MASK;

/// The name of the outcome at a position.
fn name(position: u128) -> String {
    let text = format!("{:?}", theirs::error_at(position, 0));
    text.trim_end_matches("(0)").to_string()
}

/// Setter calls as text, each after a space.
fn text_of(calls: &[SetterCall]) -> String {
    calls.iter().map(|call| format!(" {call:?}")).collect()
}

/// Returns the text of the result of `lexical-util` if it differs from the result of the library.
fn original<T: PartialEq>(ours: T, theirs: T, text: impl FnOnce(T) -> String) -> String {
    (ours != theirs).then(|| format!(" crate: {}", text(theirs))).unwrap_or_default()
}

/// The bits that are reserved in both libraries.
const RESERVED: u128 = rules::RESERVED & !peltzivar::format_flags::FLAG_MASK;

/// All lines, some 20,000. The words of the last section have reserved bits. All others have none, so that a library
/// with a flag at one of these bits returns the same results for them.
pub fn lines(seed: u64) -> Vec<String> {
    let random = &mut Random::new(seed);
    let mut lines = vec![];
    lines.extend((0..=255).map(|c| format!("byte {c} {} {}", is_valid_ascii(c), is_valid_letter(c))));
    lines.extend(digits());
    lines.extend(outcomes());
    lines.extend(words(random, 3000).iter().map(|word| fields(*word)));
    lines.extend(words(random, 5000).iter().map(|word| check(*word)));
    lines.extend((0..2000).map(|_| options(clean(random), random)));
    lines.extend(single_calls(2).map(|call| edit(BASES[3], &[call])));
    lines.extend((0..2000).map(|_| edit(clean(random), &random.calls(6))));
    lines.extend((0..2500).map(|_| build(&random.calls(6))));
    for word in reserved_words(random, 1000) {
        lines.extend([fields(word), check(word), options(word, random), edit(word, &random.calls(6))]);
    }
    lines
}

fn digits() -> impl Iterator<Item = String> {
    const RADIXES: [u32; 8] = [0, 2, 10, 11, 16, 35, 36, 256];
    let pairs = RADIXES.into_iter().flat_map(|radix| (0..=255).map(move |c| (c, radix)));
    pairs.map(|(c, radix)| match char_to_digit(c, radix) {
        None => format!("digit {c} {radix} none"),
        Some(digit) => format!("digit {c} {radix} {digit}"),
    })
}

fn outcomes() -> impl Iterator<Item = String> {
    let indexes = |position| [0, 7, usize::MAX].into_iter().take(if position < 19 { 3 } else { 1 });
    let pairs = (0..49).flat_map(move |position| indexes(position).map(move |index| (position, index)));
    pairs.map(|(position, index)| {
        let [_, text, ..] = theirs::texts(position, index);
        format!("printed {index} {} {text}", name(position))
    })
}

fn clean(random: &mut Random) -> u128 {
    random.word() & !rules::RESERVED
}

/// Returns clean words: bases, bases with one bit flipped, and random words.
fn words(random: &mut Random, count: usize) -> Vec<u128> {
    let turned = BASES[2..].iter().flat_map(|base| (0..128).map(move |bit| base ^ 1 << bit));
    let turned = turned.filter(|word| word & rules::RESERVED == 0);
    let bases = BASES.into_iter().map(|base| base & !rules::RESERVED).chain(turned);
    bases.chain(std::iter::repeat_with(|| clean(random))).take(count).collect()
}

/// Returns words with reserved bits: a lawful word with each single one, bases with all, and random words with some.
fn reserved_words(random: &mut Random, count: usize) -> Vec<u128> {
    let bits = (0..128).map(|bit| 1 << bit).filter(|bit| RESERVED & bit != 0);
    let single = bits.map(|bit| BASES[3] | bit);
    let all = BASES.into_iter().map(|base| base & !rules::RESERVED | RESERVED);
    let some = || clean(random) | RESERVED & random.bits() & random.bits() & random.bits();
    single.chain(all).chain(std::iter::repeat_with(some).filter(|word| word & RESERVED != 0)).take(count).collect()
}

fn fields(word: u128) -> String {
    let bytes = theirs::word(word).values[9..15].iter().map(|value| format!(" {value}")).collect::<String>();
    format!("fields {word:032X} {:032X}{bytes}", word & FLAG_MASK)
}

fn check(word: u128) -> String {
    let theirs = theirs::word(word);
    let (ours, theirs) = (rules::word(word, theirs).values[0], theirs.values[0]);
    format!("check {word:032X} {}{}", name(ours), original(ours, theirs, name))
}

/// Takes two bytes as options, which are often bytes of the word or their other case.
fn options(word: u128, random: &mut Random) -> String {
    let mut byte = || match random.below(4) {
        0 => (word >> random.pick(&[64, 88, 96])) as u8,
        1 => (word >> random.pick(&[64, 88, 96])) as u8 ^ 0x20,
        _ => random.pick(b"eEpP^@.,;|xXhH0z"),
    };
    let (exponent, point) = (byte(), byte());
    let theirs = theirs::options(word, exponent, point);
    let ours = rules::options(word, exponent, point, theirs);
    let original = original(ours, theirs, |accepted| accepted.to_string());
    format!("options {word:032X} {exponent} {point} {ours}{original}")
}

fn edit(word: u128, calls: &[SetterCall]) -> String {
    let made = theirs::builder(Some(word), calls).build_unchecked();
    format!("edit {word:032X} {made:032X}{}", text_of(calls))
}

fn build(calls: &[SetterCall]) -> String {
    let [theirs, _] = theirs::built(None, calls);
    let ours = rules::strict(theirs).values[2];
    let ([packed, ..], their_error) = (theirs.values, theirs.values[2]);
    let original = original(ours, their_error, name);
    format!("build {packed:032X} {}{}{original}", name(ours), text_of(calls))
}
