//! A recogniser of literals, written from docs/FORMAT.md and docs/EXPLANATIONS.md alone, and the comparison of the
//! library with it. The recogniser tries all splits of a text into parts, all fronts of a text, and all flags.
//!
//! `cargo test` compares a sample, in 25 seconds. To compare all texts, which takes a quarter of an hour:
//!
//!     cargo test --release --test recogniser -- --ignored

#[path = "../../compare/rust/src/random.rs"]
mod random;

use core::{array, iter, mem, ops::Range};
use peltzivar::literal::{self, Condition, Conditions, Form, Language, Literal, Place, ReadError, ReadErrorKind};
use peltzivar::{format::FLAG_MASK, Error, Format, Part, Role};
use random::Random;
use std::collections::BTreeSet;
use {Error::*, Piece::*};

#[rustfmt::skip]
#[derive(Clone, Copy)]
enum Piece { Sign, Prefix, Integer, Point, Fraction, Character, ExponentSign, Exponent, Suffix }
const PIECES: [Piece; 9] = [Sign, Prefix, Integer, Point, Fraction, Character, ExponentSign, Exponent, Suffix];

/// The parts of flags 32, 33 and 34, and so on, and the places of flags 32, 35, 38 and 41.
const PARTS: [Part; 3] = [Part::Integer, Part::Fraction, Part::Exponent];
const PLACES: [Place; 4] = [Place::AfterDigit, Place::BeforeDigits, Place::AfterDigit, Place::Consecutive];

/// Where each part of a text is. An absent part is empty.
type Pieces = [Range<usize>; 9];

/// Why a text is not a literal: `valid_up_to`, the cause, its mask and conditions, its span, its code and the wrong byte.
type Failure = (usize, ReadErrorKind, u128, Conditions, Range<usize>, Error, Option<u8>);

/// The numbers that the conditions have in a word of this file, as if they were flags. A size has four bits.
const CONDITIONS: [u32; Condition::ALL.len()] = [45, 46, 47, GROUPS, HIGHER, 48, 49];
const GROUPS: u32 = 50;
const HIGHER: u32 = 54;

/// Returns the conditions in a mask.
fn conditions(word: u128) -> Conditions {
    let set = |all: Conditions, (&number, &it)| all.with(it, size(word, number) as u8);
    CONDITIONS.iter().zip(Condition::ALL).fold(Conditions::NONE, set)
}

/// Returns the bits of a flag or a condition.
fn bits(number: u32) -> u128 {
    (if number < GROUPS { 1 } else { 15 }) << number
}

/// Returns the size that a word has, or 0.
fn size(word: u128, number: u32) -> usize {
    ((word & bits(number)) >> number) as usize
}

fn is_set(word: u128, number: u32) -> bool {
    word & bits(number) != 0
}

/// Returns the mask of the flags or conditions with the property `has`.
fn mask(numbers: impl IntoIterator<Item = u32>, mut has: impl FnMut(u32) -> bool) -> u128 {
    numbers.into_iter().filter(|&number| has(number)).map(bits).sum()
}

/// Returns whether `byte` is a digit of the mantissa or the exponent.
fn is_digit(word: u128, byte: u8, piece: Piece) -> bool {
    let radix = (word >> if let Exponent = piece { 120 } else { 104 }) as u8;
    char::from(byte).to_digit(36).is_some_and(|value| value < radix.into())
}

/// A lawful word in its normal form, with conditions, and whether literals are integers alone.
struct Syntax {
    word: u128,
    is_integers: bool,
    roles: [Option<Role>; 256],
    /// What can complete a front, the empty text first. No front needs a prefix or a suffix that is not required for this.
    more: Vec<Vec<u8>>,
}

/// Returns what can complete a front by the conditions of `required`.
fn completions(required: u128, [separator, prefix, suffix, exponent, point]: [u8; 5]) -> Vec<Vec<u8>> {
    let [has_prefix, has_suffix, is_positive, ..] = CONDITIONS.map(|number| is_set(required, number));
    let mut more: Vec<Vec<u8>> = vec![vec![]];
    let mut extend = |pieces: &[&[u8]]| {
        let longer = |text: &Vec<u8>| pieces.iter().map(|piece| [text, *piece].concat()).collect::<Vec<_>>();
        more.extend(more.iter().flat_map(longer).collect::<Vec<_>>());
    };
    extend(&[if is_positive { b"+" } else { b"-" }]);
    if has_prefix {
        extend(&[&[prefix], &[b'0', prefix]]);
    }
    // The digits of the last group of an integer, or of the one before it, which the last follows.
    let groups = [GROUPS, HIGHER].map(|number| size(required, number));
    let digits: Vec<_> = (1..=groups[0].max(groups[1]).max(1)).map(|count| vec![b'0'; count]).collect();
    extend(&digits.iter().map(Vec::as_slice).collect::<Vec<_>>());
    if groups[0] > 0 {
        extend(&[&[&[separator], &vec![b'0'; groups[0]][..]].concat()]);
    }
    for byte in [point, b'0', exponent, b'-', b'0'].into_iter().filter(|&byte| byte != 0) {
        extend(&[&[byte]]);
    }
    if has_suffix {
        let ended = more.iter().map(|text| [text, &[suffix][..]].concat());
        more = iter::once(vec![]).chain(ended).collect();
    }
    more.sort_by_key(|text| (text.len(), text.clone()));
    more.dedup();
    more
}

impl Syntax {
    fn new(word: u128, options: Option<(u8, u8)>, required: u128) -> Self {
        let word = Format::new(word).unwrap().normal_form().word() | required;
        let (exponent, point) = options.unwrap_or_default();
        let [separator, prefix, suffix] = [64, 88, 96].map(|bit| (word >> bit) as u8);
        let matches = |byte: u8, own: u8, case| byte == own || !is_set(word, case) && byte.eq_ignore_ascii_case(&own);
        let role_of = |byte| match byte {
            0 => None,
            b'+' | b'-' => Some(Role::Sign),
            _ if is_digit(word, byte, Integer) || is_digit(word, byte, Exponent) => Some(Role::Digit),
            _ if byte == separator => Some(Role::Separator),
            _ if byte == point => Some(Role::Point),
            _ if matches(byte, exponent, 15) => Some(Role::Exponent),
            _ if matches(byte, prefix, 16) => Some(Role::Prefix),
            _ if matches(byte, suffix, 17) => Some(Role::Suffix),
            _ => None,
        };
        let more = completions(required, [separator, prefix, suffix, exponent, point]);
        Self { word, is_integers: options.is_none(), roles: array::from_fn(|byte| role_of(byte as u8)), more }
    }

    fn plays(&self, byte: u8, role: Role) -> bool {
        self.roles[usize::from(byte)] == Some(role)
    }

    /// Returns whether `run` is a run. Its flags are 32, 35, 38 and 41, plus `part`.
    fn is_run(&self, word: u128, run: &[u8], piece: Piece, part: u32) -> bool {
        let is_digit = |&byte: &u8| is_digit(word, byte, piece);
        let is_separator = |at: usize| self.plays(run[at], Role::Separator);
        let Some(first) = run.iter().position(is_digit) else { return false };
        let last = run.iter().rposition(is_digit).unwrap_or(first);
        let is_allowed = |at: usize| {
            let place = [32, 35, 38][usize::from(at < first) + 2 * usize::from(at > last)];
            is_set(word, place + part) && (at == 0 || !is_separator(at - 1) || is_set(word, 41 + part))
        };
        (0..run.len()).all(|at| is_digit(&run[at]) || is_separator(at) && is_allowed(at))
    }

    /// Returns whether `text` can be the part `piece` after the parts `before`.
    fn is_piece(&self, word: u128, before: &Pieces, piece: Piece, text: &[u8]) -> bool {
        let has = |piece: Piece| !before[piece as usize].is_empty();
        match (piece, text) {
            (_, []) => true,
            (Sign, &[byte]) => self.plays(byte, Role::Sign),
            (Prefix, &[b'0', byte]) => self.plays(byte, Role::Prefix),
            (Integer, run) => self.is_run(word, run, piece, 0),
            (Point, &[byte]) => self.plays(byte, Role::Point),
            (Fraction, run) => has(Point) && self.is_run(word, run, piece, 1),
            (Character, &[byte]) => self.plays(byte, Role::Exponent),
            (ExponentSign, &[byte]) => has(Character) && self.plays(byte, Role::Sign),
            (Exponent, run) => has(Character) && self.is_run(word, run, piece, 2),
            (Suffix, &[byte]) => self.plays(byte, Role::Suffix),
            _ => false,
        }
    }

    /// Finds the literals of `word` that are `text` and have the parts of `pieces` before `start`.
    fn split(&self, word: u128, text: &[u8], at: usize, start: usize, pieces: &mut Pieces, found: &mut Vec<Pieces>) {
        let Some(&piece) = PIECES.get(at) else {
            let has_number = [Integer, Point, Character].iter().any(|&piece| !pieces[piece as usize].is_empty());
            let satisfies = || self.requirements(word, text, pieces, 0).iter().all(|row| row.1 || !is_set(word, row.0));
            let is_literal = start == text.len() && has_number && satisfies();
            return found.extend(is_literal.then(|| pieces.clone()));
        };
        // Other parts than runs have at most two bytes.
        let most = if let Integer | Fraction | Exponent = piece { text.len() } else { text.len().min(start + 2) };
        for end in start..=most {
            if self.is_piece(word, pieces, piece, &text[start..end]) {
                pieces[at] = start..end;
                self.split(word, text, at + 1, end, pieces, found);
            }
        }
    }

    /// Returns whether the separators of an integer, if it has any, are between groups of the sizes of `word`: that of the
    /// last group, and that of the others.
    fn is_grouped(&self, word: u128, run: &[u8]) -> bool {
        let sizes = Vec::from_iter(run.split(|&byte| self.plays(byte, Role::Separator)).map(<[u8]>::len));
        let most = match size(word, HIGHER) {
            0 => size(word, GROUPS),
            higher => higher,
        };
        match &sizes[..] {
            [] | [_] => true,
            [first, inner @ .., last] => {
                (1..=most).contains(first) && inner.iter().all(|&it| it == most) && *last == size(word, GROUPS)
            }
        }
    }

    /// Returns the group of the run `run` before `end`, with the byte there if that is a digit.
    fn group(&self, text: &[u8], run: &Range<usize>, end: usize) -> Range<usize> {
        let is_separator = |&at: &usize| self.plays(text[at], Role::Separator);
        let start = (run.start..run.end.min(end)).rev().find(is_separator).map_or(run.start, |at| at + 1);
        let digits = (start..run.end.min(end + 1)).take_while(|at| !is_separator(at)).count();
        start..start + digits
    }

    /// Returns the flag of each requirement, whether the parts of `text` satisfy it, and the span and the code if they do
    /// not and `end` is `valid_up_to`.
    fn requirements(
        &self,
        word: u128,
        text: &[u8],
        pieces: &Pieces,
        end: usize,
    ) -> [(u32, bool, Range<usize>, Error); 19] {
        let [sign, prefix, integer, point, fraction, character, exponent_sign, exponent, suffix] = pieces;
        let (is_plus, here) = (|sign: &Range<usize>| &text[sign.clone()] == b"+", || end..end);
        let [has_point, has_exponent] = [!point.is_empty(), !character.is_empty()];
        let digits = Vec::from_iter(integer.clone().filter(|&at| is_digit(self.word, text[at], Integer)));
        let has_leading_zero = prefix.is_empty() && digits.len() > 1 && text[digits[0]] == b'0';
        let is_float = has_point || has_exponent;
        let first = digits.first().copied().unwrap_or_default();
        let zeros = || first..digits.iter().rfind(|&&at| at <= end).map_or(first, |last| last + 1);
        let positive = if self.is_integers { InvalidPositiveSign } else { InvalidPositiveMantissaSign };
        let missing = if self.is_integers { MissingSign } else { MissingMantissaSign };
        let begins = |most| text.get(sign.end).is_some_and(|&byte| byte <= most && is_digit(self.word, byte, Integer));
        let is_grouped = !is_set(word, GROUPS) || self.is_grouped(word, &text[integer.clone()]);
        let group = if is_grouped { here() } else { self.group(text, integer, end) };
        [
            (0, !integer.is_empty(), here(), EmptyInteger(end)),
            (1, !has_point || !fraction.is_empty(), here(), EmptyFraction(end)),
            (2, !has_exponent || !exponent.is_empty(), character.end..end, EmptyExponent(end)),
            (3, !integer.is_empty() || !fraction.is_empty(), here(), EmptyMantissa(end)),
            (4, !is_plus(sign), sign.clone(), positive(sign.start)),
            (5, !sign.is_empty(), here(), missing(end)),
            (6, !has_exponent, character.clone(), InvalidExponent(character.start)),
            (7, !is_plus(exponent_sign), exponent_sign.clone(), InvalidPositiveExponentSign(exponent_sign.start)),
            (8, !has_exponent || !exponent_sign.is_empty(), here(), MissingExponentSign(end)),
            (9, !has_exponent || has_point, character.clone(), ExponentWithoutFraction(character.start)),
            (12, is_float || !has_leading_zero, zeros(), InvalidLeadingZeros(first)),
            (13, !is_float || !has_leading_zero, zeros(), InvalidLeadingZeros(first)),
            (14, has_exponent || self.is_integers, here(), MissingExponent(end)),
            (45, !prefix.is_empty(), sign.end..sign.end, InvalidDigit(sign.end)),
            (46, !suffix.is_empty(), here(), InvalidDigit(end)),
            (47, &text[sign.clone()] != b"-", sign.clone(), InvalidNegativeSign(sign.start)),
            (GROUPS, is_grouped, group.clone(), InvalidDigit(group.start)),
            (48, begins(b'0'), sign.end..sign.end + 1, InvalidDigit(sign.end)),
            (49, begins(b'9'), sign.end..sign.end + 1, InvalidDigit(sign.end)),
        ]
    }

    /// Returns the parts of `text` if it is a literal of `word`.
    fn literal(&self, word: u128, text: &[u8]) -> Option<Pieces> {
        let mut found = Vec::new();
        self.split(word, text, 0, 0, &mut array::from_fn(|_| 0..0), &mut found);
        assert!(found.len() < 2, "{} in {word:#034X} has the parts {found:?}", text.escape_ascii());
        found.pop()
    }

    /// Returns a literal of `word` that is `front` and one of `more`, and its parts.
    fn begun(&self, word: u128, front: &[u8], more: &[Vec<u8>]) -> Option<(Vec<u8>, Pieces)> {
        let mut texts = more.iter().map(|rest| [front, rest].concat());
        texts.find_map(|text| self.literal(word, &text).map(|pieces| (text, pieces)))
    }

    /// Returns why `stop` is not a literal. If `is_missing`, a literal begins with it. Otherwise, none does, but one begins
    /// with it without its last byte. The page names it S, and the syntax of the word `bare` B.
    fn failure(&self, stop: &[u8], is_missing: bool) -> Failure {
        let more = if is_missing { &self.more[..1] } else { &self.more };
        let bare = self.word & !0x7FFF & !mask(CONDITIONS, |_| true); // Flags 10 and 11 do nothing to literals.
        let Some((text, pieces)) = self.begun(bare, stop, more) else {
            return if is_missing { self.missing(stop) } else { self.misplaced(stop, bare) };
        };
        // With the size of the integer's groups is that of its higher groups.
        let required = |number| self.word & (bits(number) | if number == GROUPS { bits(HIGHER) } else { 0 });
        let begins = |number| self.begun(bare | required(number), stop, more).is_some();
        let refuses = |number| is_set(self.word, number) && !begins(number);
        let (alone, unmet) = (mask(0..15, refuses), self.word & mask(CONDITIONS, refuses));
        let zeros = || mask(12..14, |flag| is_set(self.word, flag));
        let hidden = u128::from(is_set(self.word, 14) && !self.is_integers) << 12;
        let blamed = if alone | unmet == 0 { zeros() } else { alone } & !hidden;
        let end = if is_missing { stop.len() } else { stop.len() - 1 };
        let mut requirements = self.requirements(self.word, &text, &pieces, end).into_iter();
        let (_, _, span, code) = requirements.find(|row| is_set(blamed | unmet, row.0)).unwrap();
        (end, ReadErrorKind::Requirement, blamed, conditions(unmet), span, code, stop.get(end).copied())
    }

    /// Returns why `text`, with which a literal begins, is not one of B.
    fn missing(&self, text: &[u8]) -> Failure {
        let has = |role: Role| text.iter().any(|&byte| self.plays(byte, role));
        let mut parts = [(Role::Exponent, Part::Exponent), (Role::Point, Part::Fraction)].into_iter();
        let part = parts.find(|&(role, _)| has(role)).map_or(Part::Integer, |(_, part)| part);
        let unsigned = text.strip_prefix(b"+").or(text.strip_prefix(b"-")).unwrap_or(text);
        let is_empty = self.is_piece(self.word, &array::from_fn(|_| 0..0), Prefix, unsigned);
        let (end, code) = (text.len(), if is_empty { Empty } else { InvalidDigit });
        (end, ReadErrorKind::Missing(part), 0, Conditions::NONE, end..end, code(end), None)
    }

    /// Returns why no literal of B begins with `stop`.
    fn misplaced(&self, stop: &[u8], bare: u128) -> Failure {
        let (last, begins) = (stop.len() - 1, |word, text: &[u8]| self.begun(word, text, &self.more).is_some());
        // Without a separator in `stop`, no flag allows it: a literal is one of B if you leave out its separators.
        let has_separator = stop.iter().any(|&byte| self.plays(byte, Role::Separator));
        let allowing = mask(32..44, |flag| has_separator && begins(bare | 1 << flag, stop));
        let mut changed = stop.to_vec();
        changed[last] ^= if stop[last].is_ascii_alphabetic() { 0x20 } else { 0 };
        let roles = [Role::Exponent, Role::Prefix, Role::Suffix];
        let is_case = |flag: u32| self.plays(changed[last], roles[flag as usize - 15]) && begins(bare, &changed);
        let blamed = if allowing == 0 { mask(15..18, is_case) } else { allowing };
        let number = blamed.trailing_zeros() as usize;
        let cause = match number {
            32..44 => ReadErrorKind::Separator(PARTS[(number - 32) % 3], PLACES[(number - 32) / 3]),
            128 => ReadErrorKind::Byte,
            _ => ReadErrorKind::Case,
        };
        let end = if self.plays(stop[last], Role::Separator) { last + 1 } else { last };
        let start = end - stop[..end].iter().rev().take_while(|&&byte| self.plays(byte, Role::Separator)).count();
        let span = if (32..41).contains(&number) { start..end } else { last..last + 1 };
        (last, cause, blamed, Conditions::NONE, span.clone(), InvalidDigit(span.start), Some(stop[last]))
    }
}

/// Returns a pseudo-random word, which is seldom lawful.
fn random_word(state: &mut Random) -> u128 {
    let sparseness = 2 + 2 * state.below(2);
    let flags = mask(0..45, |_| state.below(sparseness) == 0) & FLAG_MASK;
    let [separator, prefix, other] = [(); 3].map(|()| state.below(3).min(1) * state.below(127));
    let suffix = if state.below(8) == 0 { prefix ^ 0x20 } else { other };
    let [radix, base, exponent_radix] = [(); 3].map(|()| state.below(37));
    let bytes = separator | prefix << 24 | suffix << 32 | radix << 40 | base << 48 | exponent_radix << 56;
    u128::from(bytes) << 64 | flags
}

/// Returns bytes of all roles, and others that could have a role.
fn hostile_bytes(word: u128, options: Option<(u8, u8)>) -> Vec<u8> {
    let [separator, prefix, suffix, radix, exponent_radix] = [64, 88, 96, 104, 120].map(|bit| (word >> bit) as u8);
    let digit = |value: u8| char::from_digit(value.into(), 36).map_or(b'[', |digit| digit as u8);
    let last = digit(radix.max(exponent_radix) - 1);
    let (exponent, point) = options.unwrap_or((b'e', b'.'));
    let mut cases = [prefix, suffix, exponent, last].into_iter().filter(u8::is_ascii_alphabetic).map(|own| own ^ 0x20);
    let bytes = [b'0', last, separator, prefix, suffix, exponent, point, b'+', b'-'].into_iter();
    let bytes = bytes.chain(cases.next()).chain([0, b'1']).chain(cases).chain([digit(radix), 0xFF, b'_', b' ']);
    let mut seen = [false; 256];
    bytes.filter(|&byte| !mem::replace(&mut seen[usize::from(byte)], true)).collect()
}

/// Returns the answer of the library.
#[rustfmt::skip]
fn answer(read: Result<Literal<'_>, ReadError>) -> Result<[&[u8]; 9], Failure> {
    let failure =
        |it: ReadError| (it.valid_up_to(), it.kind(), it.mask(), it.conditions(), it.span(), it.code(), it.byte());
    let it = read.map_err(failure)?;
    Ok([
        it.sign(), it.prefix(), it.integer(), it.point(), it.fraction(), it.exponent_character(), it.exponent_sign(),
        it.exponent(), it.suffix(),
    ])
}

/// Compares the answers to texts of up to `longest` of `bytes`: all texts of one byte, and after each text that is compared
/// `eighths` of eight of those with one more byte.
fn compare(word: u128, options: Option<(u8, u8)>, required: u128, bytes: &[u8], longest: usize, eighths: u64) {
    let (syntax, name) = (Syntax::new(word, options, required), format!("{word:#034X} {options:?} {required:#X}"));
    let format = Format::new(word).unwrap();
    let float = |(exponent, point)| literal::Syntax::new(format, exponent, point).unwrap();
    let library = options.map_or_else(|| literal::Syntax::integers(format), float);
    let library = library.with_conditions(conditions(required)).unwrap();
    let differs = |&byte: &u8| library.role_of(byte) != syntax.roles[usize::from(byte)];
    assert_eq!((0..=255).find(differs), None, "the first byte with another role in {name}");
    let mut random = Random::new(1);
    // With each text are the parts of its longest front that is a literal, and why a front begins no literal.
    let mut texts = vec![(Vec::new(), None, None)];
    while let Some((text, front, wrong)) = texts.pop() {
        let literal = syntax.literal(syntax.word, &text);
        let front = literal.clone().or(front);
        let is_wrong = || syntax.begun(syntax.word, &text, &syntax.more).is_none();
        let wrong = wrong.or_else(|| is_wrong().then(|| syntax.failure(&text, false)));
        let failure = || wrong.clone().unwrap_or_else(|| syntax.failure(&text, true));
        let (read, prefix) = (library.read(&text), library.read_prefix_bytes(&text));
        for (read, pieces) in [(read, literal), (prefix.map(|(literal, _)| literal), front.clone())] {
            let wanted = pieces.ok_or_else(failure).map(|pieces| pieces.map(|piece| &text[piece]));
            assert_eq!(answer(read), wanted, "{} in {name}", text.escape_ascii());
        }
        for &byte in bytes {
            if text.len() < longest && (text.is_empty() || random.below(8) < eighths) {
                texts.push(([&text[..], &[byte]].concat(), front.clone(), wrong.clone()));
            }
        }
    }
}

/// Returns those conditions of `required` that a lawful word does not contradict.
fn possible(word: u128, required: u128) -> u128 {
    let has_byte = |bit: u32| word >> bit & 0xFF != 0;
    let separates = |flag| is_set(word, flag) && has_byte(64);
    let (has_groups, may_lead) = (is_set(required, GROUPS), !is_set(word, 12) && !is_set(word, 13));
    let (prefix, suffix, higher) = (has_byte(88), has_byte(96), separates(32) && has_groups);
    let fits: [bool; CONDITIONS.len()] = [prefix, suffix, true, separates(32), higher, may_lead, may_lead];
    required & mask(iter::zip(CONDITIONS, fits).filter(|it| it.1).map(|it| it.0), |_| true)
}

/// Returns conditions of which the sizes are `sizes`.
fn sized(flags: u64, sizes: [u64; 2]) -> u128 {
    let sizes = iter::zip([GROUPS, HIGHER], sizes).map(|(number, size)| u128::from(size) << number);
    u128::from(flags) << CONDITIONS[0] | sizes.sum::<u128>()
}

/// Compares the syntaxes of the languages, with their conditions and with all that are possible, random words with random
/// conditions, and with random options and without, and syntaxes of groups.
fn compare_all(longest: usize, words: usize, eighths: u64) {
    let syntaxes = Language::ALL.iter().flat_map(Language::forms).map(Form::syntax).collect::<BTreeSet<_>>();
    for syntax in syntaxes {
        let (word, options) = (syntax.format().word(), syntax.exponent().zip(syntax.point()));
        let own =
            (0..1 << 9).map(|set| set << CONDITIONS[0]).find(|&set| conditions(set) == syntax.conditions()).unwrap();
        for (required, longest) in [(own, longest), (possible(word, sized(31, [2, 3])), longest - 1)] {
            compare(word, options, required, &hostile_bytes(word, options)[..10], longest, eighths);
        }
    }
    let mut random = Random::new(2);
    for _ in 0..words {
        let format = iter::repeat_with(|| random_word(&mut random)).find_map(|word| Format::new(word).ok()).unwrap();
        let word = format.word();
        let fits = |&(exponent, point): &(u8, u8)| literal::Syntax::new(format, exponent, point).is_ok();
        let some_options = || (random.below(127) as u8, random.below(127) as u8);
        let options = iter::repeat_with(some_options).find(fits);
        for options in [options, None] {
            let sizes = [(); 2].map(|()| [0, 2, 3][random.below(3) as usize]);
            let required = possible(word, sized(random.below(32), sizes));
            let mut pool = hostile_bytes(word, options);
            let bytes: [u8; 10] = array::from_fn(|_| pool.swap_remove(random.below(pool.len() as u64) as usize));
            compare(word, options, required, &bytes, 4, eighths);
        }
    }
    for sizes in [[2, 0], [3, 0], [3, 2], [2, 3], [2, 4]] {
        for _ in 0..words / 25 {
            let format = Format::new(group_word(&mut random)).unwrap();
            compare(format.word(), Some((b'e', b'.')), sized(0, sizes), b"0,.e", longest + 2, eighths);
        }
    }
}

/// Returns a word with the separator `,` and flags 32 to 34, and with random requirements and random flags on separators.
fn group_word(state: &mut Random) -> u128 {
    let flags = mask(0..44, |flag| match flag {
        0..=3 | 6 | 12 | 13 => state.below(4) == 0,
        32..=34 => true,
        35..=43 => state.below(2) == 0,
        _ => false,
    });
    flags | u128::from(b',') << 64 | 0x0A0A0A << 104
}

#[test]
fn some_answers_are_those_of_the_recogniser() {
    compare_all(5, 100, 2);
}

#[test]
#[ignore = "a quarter of an hour in release"]
fn all_answers_are_those_of_the_recogniser() {
    compare_all(6, 500, 8);
}
