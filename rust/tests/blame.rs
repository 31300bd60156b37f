//! What masks mean, by search: a reason stays while the bits under its mask stay, and so does a note. What a note names
//! can be cleared without effect.

#[path = "../../compare/rust/src/random.rs"]
mod random;

use peltzivar::format::{
    BASE_PREFIX, BASE_SUFFIX, DIGIT_SEPARATOR, EXPONENT_BASE, EXPONENT_RADIX, FLAG_MASK, MANTISSA_RADIX,
};
use peltzivar::format_flags::is_valid_options_punctuation;
use peltzivar::reasons::Note;
use peltzivar::{FormatView, Reason, Rule};
use random::Random;
use std::collections::BTreeSet;
use std::iter;

const BYTES: [u128; 6] = [DIGIT_SEPARATOR, BASE_PREFIX, BASE_SUFFIX, MANTISSA_RADIX, EXPONENT_BASE, EXPONENT_RADIX];

/// Values of bytes: absent, radixes, signs, digits, letters of both cases, other punctuation, and no ASCII.
const VALUES: [u8; 20] = *b"\0\x01\x02\x0A\x10\x24\x25+-5fFhHxX_$e\xC8";

/// Exponent characters and decimal points.
const OPTIONS: [[u8; 2]; 5] = [*b"h_", *b"xX", *b"$$", *b"5-", *b"ef"];

/// Returns a word with a quarter of the flags and, often, lawful radixes, no punctuation and no reserved bits.
fn random_word(random: &mut Random) -> u128 {
    let values = BYTES.map(|field| match (field, random.one_in(2)) {
        (MANTISSA_RADIX, true) => 10,
        (_, true) => 0,
        _ => random.pick(&VALUES),
    });
    let reserved = if random.one_in(4) { random.bits() & Rule::ReservedBitsAreZero.mask() } else { 0 };
    let flags = random.bits() & random.bits() & FLAG_MASK;
    BYTES.iter().zip(values).fold(flags | reserved, |word, (field, value)| with(word, *field, value))
}

/// Returns a word with another value of a byte.
fn with(word: u128, field: u128, value: u8) -> u128 {
    word & !field | u128::from(value) << field.trailing_zeros()
}

/// Returns words that agree with a word under a mask: each with another bit or byte, and random ones.
fn alike(word: u128, mask: u128) -> impl Iterator<Item = u128> {
    let mut random = Random::new(word as u64);
    let bits = (0..128).map(move |bit| word ^ 1 << bit);
    let bytes = BYTES.iter().flat_map(move |field| VALUES.iter().map(move |value| with(word, *field, *value)));
    let others = (0..32).map(move |_| random_word(&mut random));
    bits.chain(bytes).chain(others).map(move |other| word & mask | other & !mask)
}

/// Returns whether one of `reasons` has the bytes of `reason` and breaks its rules.
fn stays(reason: Reason, mut reasons: impl Iterator<Item = Reason>) -> bool {
    let breaks = |it: Reason, rule: &Rule| it.breaks(*rule);
    reasons.any(|it| {
        let is_same = (it.rule(), it.cause().bytes()) == (reason.rule(), reason.cause().bytes());
        is_same && Rule::ALL.iter().all(|rule| breaks(it, rule) || !breaks(reason, rule))
    })
}

fn reasons_stay(word: u128) {
    let view = FormatView::new(word);
    for reason in view.reasons() {
        for other in alike(word, reason.mask()) {
            assert!(stays(reason, FormatView::new(other).reasons()), "{word:#034X}, {other:#034X}: {reason}");
        }
    }
    for [exponent, point] in OPTIONS {
        for reason in view.options_reasons(exponent, point) {
            for other in alike(word, reason.mask()) {
                let reasons = FormatView::new(other).options_reasons(exponent, point);
                assert!(stays(reason, reasons), "{word:#034X}, {other:#034X}: {reason}");
            }
        }
    }
}

/// A note stays, too, unless a reason blames what it names.
fn notes_stay(word: u128) {
    for note in FormatView::new(word).notes() {
        for other in alike(word, note.mask()) {
            let view = FormatView::new(other);
            let is_blamed = view.reasons().any(|reason| reason.mask() & note.mask() != 0);
            assert!(is_blamed || view.notes().any(|it| it == note), "{word:#034X}, {other:#034X}: {note}");
        }
    }
}

/// If what a note finds without effect is cleared, each rule is kept as before, and each byte has the same role. A word
/// without a digit separator may accept more options.
fn what_notes_name_has_no_effect(word: u128) {
    for note in FormatView::new(word).notes() {
        let is_separator = matches!(note, Note::SeparatorWithoutFlag(_));
        let other = word & !(note.mask() & if is_separator { DIGIT_SEPARATOR } else { FLAG_MASK });
        let rules = Rule::ALL.iter().filter(|rule| rule.is_kept(word));
        assert!(rules.eq(Rule::ALL.iter().filter(|rule| rule.is_kept(other))), "{word:#034X}: {note}");
        for [exponent, point] in OPTIONS {
            let role = |word: u128, byte: u8| FormatView::new(word).role_of(exponent, point, byte);
            assert!((0..=255).all(|byte| role(word, byte) == role(other, byte)), "{word:#034X}: {note}");
            let accepts = |word: u128| is_valid_options_punctuation(word, exponent, point);
            let as_before = accepts(word) == accepts(other) || is_separator && accepts(other);
            assert!(as_before, "{word:#034X}: {note}");
        }
    }
}

/// Tests a word for each way to break at most two rules, and for each pair of rules if more are broken.
#[test]
fn masks_have_what_reasons_and_notes_depend_on() {
    let (mut random, mut seen) = (Random::new(1), BTreeSet::new());
    for word in iter::repeat_with(|| random_word(&mut random)).take(50_000) {
        let broken = Vec::from_iter(FormatView::new(word).broken_rules());
        if seen.insert((broken.len() > 2, broken.into_iter().take(2).collect::<Vec<_>>())) {
            reasons_stay(word);
            notes_stay(word);
            what_notes_name_has_no_effect(word);
        }
    }
}
