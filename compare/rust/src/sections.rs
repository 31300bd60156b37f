//! The comparisons, by their inputs. Each is cut into tasks that can run in parallel.

use crate::inputs::{bits_turned, single_calls, SetterCall, BASES};
use crate::random::Random;
use crate::results::{results, Number, Results};
use crate::tally::Tally;
use crate::{ours, rules, theirs};

/// A part of a section.
pub struct Task {
    pub section: &'static str,
    pub run: Box<dyn Fn(&mut Tally) + Send + Sync>,
}

type Section = fn(&mut Tally, &mut Random);

/// Sections over random inputs: the first of eight seeds.
const RANDOM: [(&str, Section, u64); 6] = [
    ("slices", slices, 0),
    ("reserved bits", reserved_bits, 100),
    ("random words", random_words, 200),
    ("masked radixes", masked, 300),
    ("options", options, 400),
    ("builders and edits", builders, 500),
];

/// All tasks.
pub fn tasks(seed: u64) -> Vec<Task> {
    let mut tasks = vec![];
    let mut add = |section, run: Box<dyn Fn(&mut Tally) + Send + Sync>| tasks.push(Task { section, run });
    add("bytes and digits", Box::new(bytes_and_digits));
    add("outcomes", Box::new(outcomes));
    add("constants and standard formats", Box::new(constants));
    for base in BASES {
        let run = move |tally: &mut Tally| bits_turned(base).for_each(|word| whole_word(tally, word, base));
        add("single bits and pairs of bits", Box::new(run));
    }
    for radix in [2, 10, 11, 16, 24, 36] {
        add("punctuation bytes", Box::new(move |tally| punctuation(tally, radix)));
    }
    for (section, run, first) in RANDOM {
        for seed in seed + first..seed + first + 8 {
            add(section, Box::new(move |tally| run(tally, &mut Random::new(seed))));
        }
    }
    tasks
}

/// Compares a call of both libraries on the same arguments, which are the input.
macro_rules! same {
    ($tally:ident, $call:ident($($argument:expr),*)) => {
        $tally.same((stringify!($call), $(&$argument),*), ours::$call($($argument),*), theirs::$call($($argument),*))
    };
}

fn bytes_and_digits(tally: &mut Tally) {
    const LARGE: [u32; 6] = [1000, 65_535, 65_536, 1 << 24, 1 << 31, u32::MAX];
    for c in 0..=255 {
        same!(tally, byte(c));
    }
    for radix in (0..=300).chain(LARGE) {
        for c in 0..=255 {
            same!(tally, digit(c, radix));
        }
        for digit in 0..36 {
            same!(tally, digit_char(digit, radix));
        }
        same!(tally, is_valid_radix(radix));
    }
}

fn slices(tally: &mut Tally, random: &mut Random) {
    const OTHERS: &[u8] = &[0, 8, 0x0E, 0x1F, b' ', b'@', b'[', b'`', b'{', 0x7F, 0x80, 0xFF];
    let lens = (0..=330).chain([511, 512, 513, 1023, 1024, 1025, 4095, 4096, 4097, 8192, 12_345]);
    for len in lens {
        let letters: Vec<u8> = (0..len).map(|_| random.pick(b"AZaz")).collect();
        for position in 0..len {
            let others = if len <= 330 { OTHERS } else { &OTHERS[position % OTHERS.len()..][..1] };
            for other in others {
                let mut spoiled = letters.clone();
                spoiled[position] = *other;
                same!(tally, slice(&spoiled));
            }
        }
        // Slices that begin anywhere.
        for start in 0..=len.min(31) {
            same!(tally, slice(&letters[start..]));
        }
    }
    for _ in 0..100_000 {
        let any: Vec<u8> = (0..random.below(150)).map(|_| random.next() as u8 & 0x7F | 0x20).collect();
        same!(tally, slice(&any));
    }
}

fn outcomes(tally: &mut Tally) {
    let all = || (0..49).flat_map(|position| [0, 1, 7, 9, 10, usize::MAX].map(|index| (position, index)));
    for (position, index) in all() {
        same!(tally, outcome(position, index));
        for (ours, theirs) in ours::texts(position, index).into_iter().zip(theirs::texts(position, index)) {
            tally.equal(("texts", position, index), ours, theirs);
        }
        for other in all() {
            same!(tally, order((position, index), other));
        }
    }
}

fn constants(tally: &mut Tally) {
    for ((name, ours), (_, theirs)) in ours::CONSTANTS.iter().zip(theirs::CONSTANTS) {
        tally.equal(name, ours, theirs);
    }
    same!(tally, standards());
    for radix in 0..=255 {
        same!(tally, from_radix(radix));
    }
}

/// Compares the calls that depend only on a word: its rules and fields.
fn rules_of(tally: &mut Tally, word: u128) {
    let theirs = theirs::word(word);
    tally.expect(("word", word), [ours::word(word), rules::word(word, theirs), theirs]);
}

/// All calls on a word, and on two.
fn whole_word(tally: &mut Tally, word: u128, other: u128) {
    rules_of(tally, word);
    same!(tally, view(word));
    same!(tally, rebuild(word));
    let theirs = theirs::forms(word, other);
    tally.expect(("words", word, other), [ours::forms(word, other), rules::strict(theirs), theirs]);
    for listed in ours::listed(word) {
        tally.same(("edits_of", word), listed, theirs::fields(&theirs::raw(word)));
    }
}

fn reserved_bits(tally: &mut Tally, random: &mut Random) {
    let reserved = (0..128).filter(|bit| rules::RESERVED >> bit & 1 == 1);
    let reserved: Vec<u32> = reserved.collect();
    for _ in 0..50 {
        let word = random.word() & !rules::RESERVED;
        for one in &reserved {
            for other in &reserved {
                whole_word(tally, word | 1 << one | 1 << other, word);
            }
        }
        for _ in 0..1000 {
            whole_word(tally, word | random.bits() & rules::RESERVED, word);
        }
    }
}

/// Compares all values of the three bytes in one radix. The flags for case change from one value to the next.
fn punctuation(tally: &mut Tally, radix: u8) {
    let rest = 0xC | (radix as u128) << 104;
    for bytes in 0..1u128 << 24 {
        let (separator, others) = (bytes & 0xFF, bytes >> 8);
        let case_flags = (bytes ^ bytes >> 7 ^ bytes >> 15) & 3;
        rules_of(tally, rest | separator << 64 | others << 88 | case_flags << 16);
    }
}

fn random_words(tally: &mut Tally, random: &mut Random) {
    for _ in 0..250_000 {
        let word = random.word();
        let others = [random.word(), theirs::normal_form(word), word ^ 1 << random.below(128)];
        whole_word(tally, word, random.pick(&others));
    }
}

fn masked(tally: &mut Tally, random: &mut Random) {
    for _ in 0..40 {
        let word = random.word();
        for (_, mask) in theirs::CONSTANTS.iter().copied().chain([("", random.bits())]) {
            for shift in 0..128 {
                same!(tally, radix_from_flags(word, mask, shift));
            }
        }
    }
}

/// Compares all pairs of bytes as options of some words: bases, and random words with letters in both cases.
fn options(tally: &mut Tally, random: &mut Random) {
    let bases: Vec<u128> = BASES.iter().map(|base| base ^ (random.below(8) as u128) << 15).collect();
    for word in bases.into_iter().chain((0..8).map(|_| random.word())) {
        (0..=255).for_each(|byte| same!(tally, digits(word, byte)));
        for (exponent, point) in (0..=255).flat_map(|exponent| (0..=255).map(move |point| (exponent, point))) {
            let theirs = theirs::options(word, exponent, point);
            let sides = [ours::options(word, exponent, point), rules::options(word, exponent, point, theirs), theirs];
            let fits = |accepted: bool| results! { is_valid_options_punctuation: accepted, };
            tally.expect(("word, exponent, point", word, exponent, point), sides.map(fits));
        }
    }
}

fn builders(tally: &mut Tally, random: &mut Random) {
    let mut compare = |start: Option<u128>, calls: &[SetterCall]| {
        let input = ("start, calls", start, calls);
        same!(tally, builder_fields(start, calls));
        for (ours, theirs) in ours::built(start, calls).into_iter().zip(theirs::built(start, calls)) {
            tally.expect(input, [ours, rules::strict(theirs), theirs]);
        }
        let word = start.unwrap_or(BASES[2]);
        let edited = theirs::builder(Some(word), calls).build_unchecked();
        tally.equal(("edit_word, apply_all, apply", word, calls), ours::edits(word, calls), [edited; 3]);
    };
    for call in single_calls(256) {
        compare(None, &[call]);
        compare(Some(random.word()), &[call]);
    }
    for _ in 0..100_000 {
        let start = if random.one_in(2) { None } else { Some(random.word()) };
        compare(start, &random.calls(40));
    }
}
