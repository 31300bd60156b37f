//! What the page offers for a number that is not as expected: states near the shown one in which it is.

use alloc::vec::Vec;
use core::cmp::Reverse;

use peltzivar::format::*;
use peltzivar::literal::{Condition, Conditions, Form, FormError, Forms, Kind, Opening, ReadErrorKind, Specials, Syntax};
use peltzivar::{Format, FormatView, Rule};

/// How many states are offered for a number.
const MOST: usize = 3;

/// How many roles of bytes a state may change.
const MOST_ROLES: usize = 3;

/// The flags that allow separators between digits, before digits and behind them, and then consecutive ones.
const SEPARATORS: u128 = DIGIT_SEPARATOR_FLAG_MASK & !SPECIAL_DIGIT_SEPARATOR;

/// The flags that require something of all numbers, which few formats do.
const REQUIREMENTS: u128 = REQUIRED_MANTISSA_SIGN | REQUIRED_EXPONENT_SIGN | REQUIRED_EXPONENT_NOTATION;

/// The flags of letters in one case, which refuse the fewest texts, and count as no change.
const CASES: u128 =
    CASE_SENSITIVE_EXPONENT | CASE_SENSITIVE_BASE_PREFIX | CASE_SENSITIVE_BASE_SUFFIX | CASE_SENSITIVE_SPECIAL;

/// The bits of no field.
const RESERVED: u128 = Rule::ReservedBitsAreZero.mask();

/// The usual size of groups of digits.
const USUAL_SIZE: u8 = 3;

/// A form of numbers: a format word, the options of a parser, the conditions, the kind, the opening, whether it is only
/// read, and the spellings of special values, which the first form of a list has. If both options are 0, numbers are
/// integers alone.
#[derive(Clone, Copy, Debug, PartialEq, Eq)]
pub struct State {
    pub word: u128,
    pub exponent: u8,
    pub point: u8,
    pub conditions: Conditions,
    pub kind: Kind,
    pub opening: Opening,
    pub only_read: bool,
    pub specials: Specials<'static>,
}

impl State {
    pub fn is_integers(self) -> bool {
        self.exponent == 0 && self.point == 0
    }

    /// Returns the syntax if the word is lawful, and the options and the conditions fit.
    pub fn syntax(self) -> Option<Syntax> {
        let format = Format::new(self.word).ok()?;
        let options = Some((self.exponent, self.point)).filter(|_| !self.is_integers());
        let syntax =
            options.map_or(Ok(Syntax::integers(format)), |(exponent, point)| Syntax::new(format, exponent, point));
        syntax.ok()?.with_conditions(self.conditions).ok()
    }

    /// Returns the form, without a name.
    pub fn form(self) -> Option<Form> {
        let form = Form::new("", self.syntax()?).with_kind(self.kind).only_read(self.only_read);
        Some(form.with_opening(self.opening))
    }

    fn with_condition(self, condition: Condition, number: u8) -> Self {
        Self { conditions: self.conditions.with(condition, number), ..self }
    }

    /// Returns the states in which the condition has each of its numbers, and the usual size of groups first. Higher groups
    /// need a last one.
    fn with_numbers(self, condition: Condition) -> impl Iterator<Item = Self> {
        let (least, most) = condition.limits();
        let usual = Some(USUAL_SIZE).filter(|&size| least < size && size < most);
        let lacks = condition == Condition::HigherGroupSize && self.conditions.number(Condition::IntegerGroupSize) == 0;
        let whole = if lacks { self.with_condition(Condition::IntegerGroupSize, USUAL_SIZE) } else { self };
        usual.into_iter().chain(least..=most).map(move |number| whole.with_condition(condition, number))
    }

    /// Returns the state with a byte in a field of the word. The reserved bits are cleared, as by any edit.
    fn with(self, field: u128, byte: u8) -> Self {
        Self { word: self.word & !(field | RESERVED) | u128::from(byte) << field.trailing_zeros(), ..self }
    }

    /// Returns the state with another mantissa radix. If the exponent character is a digit in it, hexadecimal floats are
    /// as in C: `p` and a power of two in decimal. If `p` is one, too, numbers are integers alone.
    fn with_radix(self, radix: u8) -> Self {
        let state = self.with(MANTISSA_RADIX, radix);
        match value(self.exponent).filter(|&digit| digit < radix) {
            None => state,
            Some(_) if value(b'p') < Some(radix) => Self { exponent: 0, point: 0, ..state },
            Some(_) => state.with_exponent(b'p'),
        }
    }

    fn with_exponent(self, exponent: u8) -> Self {
        let fields = [(EXPONENT_BASE, 2), (EXPONENT_RADIX, 10)].into_iter().filter(|_| self.radix() == 16);
        fields.fold(Self { exponent, ..self }, |state, (field, byte)| state.with(field, byte))
    }

    fn radix(self) -> u8 {
        FormatView::new(self.word).mantissa_radix() as u8
    }

    /// Returns how many of the lines are as expected.
    pub fn as_expected(self, lines: &[Line<'_>]) -> usize {
        lines.iter().filter(|line| (line.is_read || self.read(line.text).is_ok()) != line.is_refused).count()
    }

    /// Returns why a text is neither a number nor a special value, or no error if this is not a form.
    pub fn read(self, text: &[u8]) -> Result<(), Option<FormError>> {
        let forms = [self.form().ok_or(None)?];
        let read = Forms::new_or_panic(&forms).with_specials(self.specials).read(text).map(|_| ());
        read.map_err(Some)
    }

    /// Returns why what is behind the opening of a text is not a literal, which shows the flags to blame.
    fn read_inside(self, text: &[u8]) -> Option<FormError> {
        let inside = text.strip_prefix(self.opening.as_bytes())?;
        self.with_opening(b"")?.read(inside).err()?
    }

    /// Returns the state with another opening, whose letters have one case if they had before.
    fn with_opening(self, opening: &[u8]) -> Option<Self> {
        let is_case_sensitive = self.opening.is_case_sensitive();
        Some(Self { opening: Opening::new(opening)?.case_sensitive(is_case_sensitive), ..self })
    }

    fn refuses(self, text: &[u8]) -> bool {
        matches!(self.read(text), Err(Some(_)))
    }

    /// Returns how many requirements are set that another state does not have, and then how many fields and conditions differ.
    fn changes(self, other: Self) -> (usize, usize) {
        let bytes = [DIGIT_SEPARATOR, BASE_PREFIX, BASE_SUFFIX, MANTISSA_RADIX, EXPONENT_BASE, EXPONENT_RADIX];
        let flags = (self.word ^ other.word) & FLAG_MASK;
        let fields = bytes.iter().filter(|&it| (self.word ^ other.word) & it != 0).count();
        let conditions = Condition::ALL.iter().filter(|&&it| self.conditions.number(it) != other.conditions.number(it));
        let required = conditions.clone().filter(|it| it.limits().1 == 1 && !it.name().starts_with("no_"));
        let set = (self.word & flags & REQUIREMENTS).count_ones() as usize + required.count();
        let weight = if self.has_free_groups() { MOST } else { 1 };
        let options = 2 * usize::from(self.is_integers() != other.is_integers());
        let count = (flags & !CASES).count_ones() as usize + fields + options + weight * conditions.count();
        (set, count)
    }

    /// Returns whether groups have any size, as in languages, and not an equal one, as in texts for people.
    fn has_free_groups(self) -> bool {
        FormatView::new(self.word).digit_separator().is_some_and(|it| matches!(it.get(), b'_' | b'\''))
    }

    /// Returns the first of some states with which the most lines are as expected.
    fn first_best(states: impl Iterator<Item = Self>, lines: &[Line<'_>]) -> Option<Self> {
        states.reduce(|best, it| if it.as_expected(lines) > best.as_expected(lines) { it } else { best })
    }
}

/// A number, whether it must be refused, whether another form reads it, and whether it is a token with a suffix of a language.
#[derive(Clone, Copy)]
pub struct Line<'a> {
    pub text: &'a [u8],
    pub is_refused: bool,
    pub is_read: bool,
    pub has_suffix: bool,
}

/// Returns the numbers of a text, one a line. A number behind a `!` must be refused.
pub fn lines_of(text: &[u8]) -> impl Iterator<Item = Line<'_>> {
    text.split(|&byte| byte == b'\n').filter(|line| !line.is_empty()).map(|line| {
        let refused = line.strip_prefix(b"!");
        Line { text: refused.unwrap_or(line), is_refused: refused.is_some(), is_read: false, has_suffix: false }
    })
}

/// Returns each flag of a mask of flags, from the lowest.
fn bits_of(flags: u128) -> impl DoubleEndedIterator<Item = u128> {
    (0..64).map(|bit| 1u64 << bit).filter(move |&bit| flags as u64 & bit != 0).map(u128::from)
}

/// Returns the value of a letter or digit.
fn value(byte: u8) -> Option<u8> {
    char::from(byte).to_digit(36).map(|digit| digit as u8)
}

/// Returns the least of the usual radixes, at least `least`, that has all letters and digits of a text.
fn radix_of(text: &[u8], least: u8) -> Option<u8> {
    let largest = text.iter().filter_map(|&byte| value(byte)).max().unwrap_or(0);
    [2, 8, 10, 16].into_iter().find(|&radix| radix >= least && radix > largest)
}

/// Returns a text without its sign.
fn unsigned(text: &[u8]) -> &[u8] {
    text.strip_prefix(b"-").or(text.strip_prefix(b"+")).unwrap_or(text)
}

/// Returns the states that are offered for one of the lines: those that need the fewest new roles to accept it, or those with
/// one other flag or condition that refuse it and with which the most lines are as expected.
pub fn offers(state: State, lines: &[Line<'_>], line: Line<'_>) -> Vec<State> {
    let mut found = if line.is_refused { refusing(state, line, lines) } else { Vec::new() };
    for roles in 0..=MOST_ROLES {
        if found.is_empty() && !line.is_refused {
            accepting(state, line, lines, roles, &mut found);
        }
    }
    let mut offered: Vec<State> = Vec::new();
    found.into_iter().map(|it| without_needless(it, state, line)).for_each(|it| {
        if !offered.contains(&it) {
            offered.push(it)
        }
    });
    // Of what accepts a text, the likeliest is first.
    let changes = |it: &State| if line.is_refused { it.changes(state) } else { (0, 0) };
    offered.sort_by_cached_key(|it| (Reverse(it.as_expected(lines)), changes(it)));
    let most = offered.first().map(|it| it.as_expected(lines));
    offered.retain(|it| !line.is_refused || Some(it.as_expected(lines)) == most);
    offered.truncate(MOST);
    offered
}

fn refusing(state: State, line: Line<'_>, lines: &[Line<'_>]) -> Vec<State> {
    let flags = bits_of(FLAG_MASK).map(|flag| {
        let other = State { word: state.word ^ flag, ..state };
        // Consecutive separators need another flag of their part.
        let single = State { word: other.word & !CONSECUTIVE_DIGIT_SEPARATOR, ..other };
        other.syntax().map_or(single, |_| other)
    });
    let refuses = |it: &State| it.refuses(line.text);
    let best = |&it: &Condition| State::first_best(state.with_numbers(it).filter(refuses), lines);
    let integers = State { exponent: 0, point: 0, ..state };
    let mut found: Vec<_> = flags.chain([integers]).filter(refuses).collect();
    // What refuses `.5` and `5.` refuses a number without a leading zero only by chance.
    let is_of_digits = found.iter().any(|it| it.word & !state.word & REQUIRED_DIGITS != 0);
    let conditions = Condition::ALL.iter().filter(|&&it| it != Condition::LeadingZero || !is_of_digits);
    found.extend(conditions.filter_map(best));
    found
}

/// Returns a state in which a line is as expected with the flags of another one that need no change for this. Those of
/// consecutive separators are tried first, those between digits last, and then again those that others needed.
fn without_needless(found: State, state: State, line: Line<'_>) -> State {
    let is_expected = |it: &State| if line.is_refused { it.refuses(line.text) } else { it.read(line.text).is_ok() };
    let flags = || bits_of((found.word ^ state.word) & FLAG_MASK);
    flags().rev().chain(flags()).fold(found, |it, flag| {
        let with = State { word: it.word & !flag | state.word & flag, ..it };
        Some(with).filter(is_expected).unwrap_or(it)
    })
}

/// Finds states with up to this many new roles that accept the text.
fn accepting(state: State, line: Line<'_>, lines: &[Line<'_>], roles: usize, found: &mut Vec<State>) {
    let text = line.text;
    match settled(state, line) {
        Ok(settled) => {
            // In place of a condition that refuses the text, it or another one may have another number.
            let numbered =
                Condition::ALL.iter().filter(|it| settled.conditions != state.conditions && it.limits().1 > 1);
            let accepts = |it: &State| it.read(text).is_ok();
            found.extend(numbered.filter_map(|&it| State::first_best(state.with_numbers(it).filter(accepts), lines)));
            let grouped = grouped(settled, text).filter(accepts);
            // The state that has no sizes of groups is the likelier one if these are free.
            let (first, second) = if settled.has_free_groups() { (None, grouped) } else { (grouped, None) };
            found.extend(first.into_iter().chain([settled]).chain(second.filter(|_| !text.contains(&b'_'))));
        }
        Err(_) if roles == 0 => {}
        Err(at) => {
            let next = candidates(state, line, at).into_iter().flatten();
            next.for_each(|it| accepting(it, line, lines, roles - 1, found));
        }
    }
}

/// Returns the state with the sizes of the groups of integer digits that a text shows: a usual one, or one that is twice there.
fn grouped(state: State, text: &[u8]) -> Option<State> {
    let separator = FormatView::new(state.word).digit_separator()?.get();
    let is_digit = |&byte: &u8| byte == separator || value(byte).is_some_and(|digit| digit < state.radix());
    let integer = unsigned(text);
    let integer = &integer[..integer.iter().position(|it| !is_digit(it)).unwrap_or(integer.len())];
    let sizes: Vec<_> = integer.split(|&byte| byte == separator).map(<[u8]>::len).collect();
    let [first, higher @ .., last] = &sizes[..] else { return None };
    let size = *higher.first().unwrap_or(last);
    let is_shown = !higher.is_empty() || *last == usize::from(USUAL_SIZE);
    let is_grouped = is_shown && (1..=size).contains(first) && higher.iter().all(|&it| it == size);
    let (least, most) = Condition::IntegerGroupSize.limits();
    let number = |size: usize| u8::try_from(size).ok().filter(|it| (least..=most).contains(it));
    let state = state.with_condition(Condition::IntegerGroupSize, number(*last).filter(|_| is_grouped)?);
    Some(if size == *last { state } else { state.with_condition(Condition::HigherGroupSize, number(size)?) })
}

/// Returns the state with the flags that the line needs: without the requirements that it breaks, and with the fewest flags
/// that allow its separators. Returns the index of the first wrong byte if no flags are to blame.
fn settled(before: State, line: Line<'_>) -> Result<State, usize> {
    let (mut state, text) = (before, line.text);
    if FormatView::new(state.word).digit_separator().is_some_and(|it| text.contains(&it.get())) {
        state.word |= SEPARATORS;
    }
    while let Err(error) = state.read(text) {
        let (error, at) =
            state.read_inside(text).map_or((error, 0), |error| (Some(error), state.opening.as_bytes().len()));
        match error.and_then(|it| it.error()) {
            Some(error) if matches!(error.kind(), ReadErrorKind::Requirement | ReadErrorKind::Case) => {
                state.word &= !error.mask();
                let unmet = Condition::ALL.iter().filter(|&&it| error.conditions().has(it));
                state.conditions = unmet.fold(state.conditions, |all, &it| all.with(it, 0));
            }
            _ => return Err(error.map_or(text.len(), |it| at + it.valid_up_to())),
        }
    }
    Ok(without_needless(state, before, line))
}

/// Returns whether a text has letters that are no digits: a special value, or a prefix before digits alone.
fn has_other_letters(text: &[u8]) -> bool {
    let is_special = |it: &&[u8]| unsigned(text).eq_ignore_ascii_case(it);
    [&b"nan"[..], b"inf", b"infinity"].iter().any(is_special)
        || matches!(unsigned(text), [b'0', letter, digits @ ..]
            if shown_radix(*letter).is_some() && digits.iter().all(u8::is_ascii_digit))
}

/// Returns the states in which the byte at an index, or the last one, gets a role, the likeliest first. Letters of a suffix that a
/// language names are no digits.
fn candidates(state: State, line: Line<'_>, at: usize) -> [Option<State>; 12] {
    let text = line.text;
    let Some((&byte, rest)) = text.get(at..).and_then(<[u8]>::split_first) else { return [None; 12] };
    let before = &text[..at];
    let [shown, same] = suffixes(state, text);
    // A letter that is the last of a fraction is a suffix.
    let is_whole = unsigned(text).iter().all(u8::is_ascii_alphanumeric);
    let is_digit = byte.is_ascii_alphanumeric() && (is_whole || !rest.is_empty()) && !line.has_suffix;
    let radix = radix_of(text, state.radix() + 1).filter(|_| is_digit && !has_other_letters(text));
    let radix = radix.map(|radix| state.with_radix(radix));
    // In `1,234`, the comma separates groups.
    let is_group =
        rest.len() == usize::from(USUAL_SIZE) && rest.iter().all(u8::is_ascii_digit) && unsigned(before).len() <= 3;
    let mark = separator(state, text, byte);
    let usual = State { word: STANDARD, exponent: b'e', point: b'.', conditions: Conditions::NONE, ..state };
    [
        opened(state, text),
        usual.with_opening(b"").filter(|_| !state.opening.is_empty()),
        prefix(state, before, byte),
        exponent(state, before, byte, rest),
        mark.filter(|_| byte == b',' && is_group && !matches!(unsigned(before), b"" | b"0")),
        point(state, before, byte, rest),
        shown,
        radix.filter(|_| is_whole),
        same,
        mark,
        radix,
        state.is_integers().then_some(State { exponent: b'e', point: b'.', ..state }),
    ]
}

/// Returns whether languages have the byte as a digit separator or a decimal point.
fn is_mark(byte: u8) -> bool {
    matches!(byte, b'_' | b'\'' | b',' | b'.' | b' ')
}

/// Returns the radix that the letter of a prefix or a suffix shows.
fn shown_radix(letter: u8) -> Option<u8> {
    match letter.to_ascii_lowercase() {
        b'x' | b'h' => Some(16),
        b'd' | b't' => Some(10),
        b'o' | b'q' => Some(8),
        b'b' | b'y' => Some(2),
        _ => None,
    }
}

/// Returns the radix of literals behind an opening: a mark, such as `$`, a letter of the radix beside a mark, as in `#x`, `8'h`
/// and `X'`, or the radix as a number, as in `16#`, `16r` and `:16<`.
fn opened_radix(opening: &[u8]) -> Option<u8> {
    let number = match *opening {
        [b'%'] => return Some(2),
        [b'$' | b'#'] | [b'Z' | b'z', b'\'' | b'"'] => return Some(16),
        [b'#' | b'&', letter] | [letter, b'\'' | b'"'] => return shown_radix(letter),
        [ref size @ .., b'\'', letter] if size.iter().all(u8::is_ascii_digit) => return shown_radix(letter),
        [b':', ref number @ .., b'<'] | [ref number @ .., b'#' | b'r' | b'R'] => number,
        _ => return None,
    };
    core::str::from_utf8(number).ok()?.parse().ok().filter(|radix| (2..=36).contains(radix))
}

/// The longest front that can be an opening is one before digits of its radix, also of a letter behind `$` and `#`, and a mark at the
/// end is a base suffix then, which is required.
fn opened(state: State, text: &[u8]) -> Option<State> {
    let suffix = text.last().copied().filter(|it| matches!(it, b'#' | b'\'' | b'"' | b'>'));
    let text = &text[..text.len() - usize::from(suffix.is_some())];
    let closed = |it: State, byte| it.with(BASE_SUFFIX, byte).with_condition(Condition::BaseSuffix, 1);
    (1..text.len()).rev().find_map(|size| {
        let (opening, digits) = text.split_at(size);
        let radix = opened_radix(opening)?;
        let has_letter = digits.iter().any(u8::is_ascii_alphabetic) || !matches!(opening, [b'$' | b'#']);
        let is_digit = |&byte: &u8| !byte.is_ascii_alphanumeric() || value(byte) < Some(radix);
        let found = state.with_radix(radix).with_opening(opening)?;
        let found = suffix.map_or(found, |byte| closed(found, byte));
        (has_letter && digits.iter().all(is_digit)).then_some(found)
    })
}

/// A letter behind the first zero is the base prefix, and shows the radix.
fn prefix(state: State, before: &[u8], byte: u8) -> Option<State> {
    let shown = state.with_radix(shown_radix(byte)?);
    (unsigned(before) == b"0").then(|| shown.with(BASE_PREFIX, byte))
}

/// A letter of a known exponent between digits is the exponent character. Others begin a suffix, such as `u8`.
fn exponent(state: State, before: &[u8], byte: u8, rest: &[u8]) -> Option<State> {
    let is_character = matches!(byte.to_ascii_lowercase(), b'd' | b'e' | b'p' | b'q');
    let follows =
        before.last().is_some_and(|&it| it == state.point || it.is_ascii_alphanumeric()) && unsigned(before) != b"0";
    let has_digits = unsigned(rest).first().is_some_and(u8::is_ascii_digit);
    (is_character && follows && has_digits).then(|| state.with_exponent(byte))
}

/// The last comma or point of a number, if there is one of it, is the decimal point. The other one is a separator then.
fn point(state: State, before: &[u8], byte: u8, rest: &[u8]) -> Option<State> {
    let is_last = !before.contains(&byte) && !rest.iter().any(|it| matches!(it, b',' | b'.'));
    let is_separator = before.contains(&state.point);
    let state = if is_separator { state.with(DIGIT_SEPARATOR, state.point) } else { state };
    (matches!(byte, b',' | b'.') && is_last).then_some(State { point: byte, ..state })
}

/// A mark is the digit separator, a comma or a point if the last group behind it has the usual size. If it was the decimal
/// point, that is the other one of comma and point then.
fn separator(state: State, text: &[u8], byte: u8) -> Option<State> {
    let other = if byte == b'.' { b',' } else { b'.' };
    let point = if state.point == byte { other } else { state.point };
    let last = text.rsplit(|&it| it == byte).next().unwrap_or_default();
    let is_group = last.iter().take_while(|it| it.is_ascii_digit()).count() == usize::from(USUAL_SIZE);
    let is_inside = text.trim_ascii() == text;
    let is_separator = is_mark(byte) && is_inside && (is_group || !matches!(byte, b',' | b'.'));
    is_separator.then(|| State { point, ..state.with(DIGIT_SEPARATOR, byte) })
}

/// The last byte is the base suffix, with the radix that its letter shows or the same one, but no factor, and not behind an exponent.
fn suffixes(state: State, text: &[u8]) -> [Option<State>; 2] {
    let Some((&last, digits)) = text.split_last() else { return [None; 2] };
    if last.is_ascii_digit() || is_mark(last) || b"+-xX%kKMGTm".contains(&last) {
        return [None; 2];
    }
    let is_shown = |&radix: &u8| radix != 10 && radix_of(digits, 2).is_some_and(|least| least <= radix);
    let shown = shown_radix(last).filter(is_shown);
    let with = |radix| state.with_radix(radix).with(BASE_SUFFIX, last);
    let has_exponent = digits.last().is_some_and(|it| it.eq_ignore_ascii_case(&state.exponent));
    [shown.map(with), Some(state.with(BASE_SUFFIX, last)).filter(|_| last != b'B' && !has_exponent)]
}
