// Made by rust/tools/erase.py from crates/lexical_literal/src/stop.rt: change that file.

//! Where reading a text stops, and whether that is a literal: what has begun, and what has stopped.

use crate::literal::cause::{ReadError, Spot};
use crate::literal::group_size::{group_after, group_allows, grow, Group, FIRST};
use crate::literal::literal::Sums;
use crate::literal::span::spot;
use crate::literal::step::{
    allows_minus, allows_plus, is_complete, part_of, piece_number, piece_of, step, Piece, Summary, START,
};
use crate::literal::syntax::{has_sizes, Grammar, Syntax};
use crate::word::{Part, Role};

// What has been read of a text part after part. If `complete` is true, it is a literal, its parts have the lengths `counts`, and its
// digits the sums. If `refused` is true, the byte that follows is refused.
#[derive(Clone, Copy)]
pub struct Begun {
    pub at: Stopped,
    pub counts: [usize; 9],
    pub sums: Sums,
    pub complete: bool,
    pub refused: bool,
}

// Where reading a text has stopped, part after part or for good: the number of bytes that have been read, and their summary.
#[derive(Clone, Copy)]
pub struct Stopped {
    pub size: usize,
    pub(crate) read: Summary,
}

// Where no byte has been read.
pub(crate) const BEGIN: Stopped = Stopped { size: 0, read: START };

// A leading piece of a text that is a literal: the number of its bytes, and the lengths of its parts.
#[derive(Clone, Copy)]
pub(crate) struct Found {
    pub size: usize,
    pub counts: [usize; 9],
}

impl Begun {
    // Returns where reading `text` stops.
    #[inline(always)]
    pub(crate) const fn stop(self, syntax: &Syntax, text: &[u8]) -> Stopped {
        if self.refused {
            self.at
        } else {
            self.at.go_on(syntax, text)
        }
    }

    // Returns the lengths of the parts of `text`, or where reading stops if it is not a literal.
    #[inline(always)]
    pub(crate) const fn lengths(self, syntax: &Syntax, text: &[u8]) -> Result<[usize; 9], Stopped> {
        if self.refused {
            Err(self.at)
        } else {
            self.at.all_lengths(syntax, text)
        }
    }
}

impl Stopped {
    // Returns what has been read with another number of bytes, which are counted from the beginning of another text.
    #[inline(always)]
    pub(crate) const fn at(self, size: usize) -> Stopped {
        Stopped { size, ..self }
    }

    // Goes on, and returns the lengths of the parts of `text`, or where reading stops if it is not a literal.
    #[inline(never)]
    const fn all_lengths(self, syntax: &Syntax, text: &[u8]) -> Result<[usize; 9], Stopped> {
        let stop = self.go_on(syntax, text);
        match stop.lengths(syntax, text) {
            Some(counts) => Ok(counts),
            None => Err(stop),
        }
    }

    // Returns where reading `text` stops for good.
    #[inline(never)]
    pub(crate) const fn go_on(self, syntax: &Syntax, text: &[u8]) -> Stopped {
        let group = self.group(syntax, text);
        match self.step(syntax, text, group) {
            None => self,
            Some((_, next, group)) => next.walk(syntax, text, group),
        }
    }

    // Returns where reading `text` stops for good, step by step.
    #[cold]
    #[cfg_attr(peltzivar_small, inline(always))]
    pub(crate) const fn walk(self, syntax: &Syntax, text: &[u8], group: Group) -> Stopped {
        let mut stop = self;
        let mut last = group;
        while let Some((_, next, group)) = stop.step_any(syntax, text, last) {
            stop = next;
            last = group;
        }
        stop
    }

    // Returns the role of the byte that follows, and what has been read with it, or `None` if reading stops here.
    #[cfg_attr(not(peltzivar_small), inline(always))]
    pub(crate) const fn step(self, syntax: &Syntax, text: &[u8], group: Group) -> Option<(Role, Stopped, Group)> {
        let grammar = syntax.as_grammar();
        let Stopped { size, read } = self;
        if size == text.len() {
            return None;
        }
        let Some((role, read)) = step(grammar, read, text[size]) else {
            return None;
        };
        let Some(group) = grow(grammar, group, Some(role)) else {
            return None;
        };
        let size = size + 1;
        Some((role, Stopped { size, read }, group))
    }

    // Returns the last group of the bytes that have been read.
    #[inline(always)]
    const fn group(self, syntax: &Syntax, text: &[u8]) -> Group {
        let grammar = syntax.as_grammar();
        if has_sizes(grammar) {
            match group_after(grammar, text, self.size) {
                Some(group) => group,
                None => FIRST,
            }
        } else {
            FIRST
        }
    }

    // Returns the lengths of the parts of `text`, if it is a literal.
    #[inline(always)]
    pub(crate) const fn lengths(self, syntax: &Syntax, text: &[u8]) -> Option<[usize; 9]> {
        let group = self.group(syntax, text);
        if self.size == text.len() && self.may_end(syntax.as_grammar(), group) {
            Some(syntax.lengths(text))
        } else {
            None
        }
    }

    // Returns whether what has been read, with the last group `group`, is a literal.
    #[inline(always)]
    const fn may_end(self, grammar: &Grammar, group: Group) -> bool {
        is_complete(grammar, self.read) && group_allows(grammar, group, None)
    }

    // Returns why `text` is not a literal, as the result of the caller, which takes less
    // time than to copy an error.
    #[cold]
    pub(crate) const fn refuse<T>(self, syntax: &Syntax, text: &[u8]) -> Result<T, ReadError> {
        let spot = self.spot(syntax, text);
        Err(ReadError { spot })
    }

    // Returns where reading `text` stopped.
    #[inline(always)]
    pub(crate) const fn spot(self, syntax: &Syntax, text: &[u8]) -> Spot {
        let byte = byte_at(text, self.size);
        let front = front_of(text, self.size);
        let tail = tail_at(text, self.size, byte);
        let separated = self.group(syntax, text).separated;
        spot(syntax.as_grammar(), front, self.read, byte, tail, separated)
    }
}

impl Syntax {
    // Returns where reading `text` stops.
    #[cold]
    pub(crate) const fn stop(&self, text: &[u8]) -> Stopped {
        self.begin_any(text, false).stop(self, text)
    }

    // Returns where reading `_text` stops if no literal begins with its first byte.
    #[inline(always)]
    pub(crate) const fn beginning(&self) -> Stopped {
        BEGIN
    }

    // Returns whether `text` begins with a sign with which no literal begins.
    #[inline(always)]
    pub(crate) const fn refuses_sign(&self, text: &[u8]) -> bool {
        let grammar = self.as_grammar();
        if text.len() == 0 {
            false
        } else if text[0] == b'+' {
            !allows_plus(grammar, Part::Integer)
        } else if text[0] == b'-' {
            !allows_minus(grammar, Part::Integer)
        } else {
            false
        }
    }

    // Returns where reading `text` stops, and the longest front that is a literal, if there is one.
    #[cfg_attr(not(peltzivar_small), inline(always))]
    pub(crate) const fn front(&self, text: &[u8]) -> (Stopped, Option<Found>) {
        let begun = self.begin_any(text, true);
        let Begun { at, counts, complete, .. } = begun;
        let stop = begun.stop(self, text);
        if complete && stop.size == at.size {
            let size = stop.size;
            return (stop, Some(Found { size, counts }));
        }
        match self.all_but_last(text, stop) {
            Some(found) => (stop, Some(found)),
            None => (stop, self.longest(text)),
        }
    }

    // Returns all that was read but the last byte, if that is a literal, and what was read is none.
    #[inline(always)]
    const fn all_but_last(&self, text: &[u8], stop: Stopped) -> Option<Found> {
        let group = stop.group(self, text);
        if stop.size == 0 || stop.may_end(self.as_grammar(), group) {
            return None;
        }
        let size = stop.size - 1;
        let shorter = front_of(text, size);
        let begun = self.begin_any(shorter, true);
        if begun.covers(shorter) {
            let Begun { counts, .. } = begun;
            Some(Found { size, counts })
        } else {
            None
        }
    }

    // Returns the longest front of `text` that is a literal, and the lengths of its parts, if there is one.
    #[cold]
    pub(crate) const fn longest(&self, text: &[u8]) -> Option<Found> {
        let grammar = self.as_grammar();
        let mut at = BEGIN;
        let mut last = FIRST;
        let mut counts = [0; 9];
        let mut found = None;
        while let Some((role, next, group)) = at.step_any(self, text, last) {
            let more = count_byte(counts, part_of(at.read.stage), role);
            counts = more;
            at = next;
            last = group;
            if at.may_end(grammar, last) {
                let size = at.size;
                found = Some(Found { size, counts });
            }
        }
        found
    }

    // Returns the lengths of the parts of the literal `text`.
    #[cold]
    const fn lengths(&self, text: &[u8]) -> [usize; 9] {
        match self.longest(text) {
            None => [0; 9],
            Some(found) => found.counts,
        }
    }
}

// Counts one more byte with the role `role` in `part`. Before that of a prefix, its zero has been counted for the integer.
#[inline(always)]
const fn count_byte(counts: [usize; 9], part: Part, role: Role) -> [usize; 9] {
    let mut more = counts;
    if matches!(role, Role::Prefix) {
        more[piece_number(Piece::Prefix)] = 2;
        more[piece_number(Piece::Integer)] = 0;
    } else {
        more[piece_number(piece_of(part, role))] += 1;
    }
    more
}

// Returns the byte behind the first `size`, if there is one.
pub(crate) const fn byte_at(text: &[u8], size: usize) -> Option<u8> {
    if size < text.len() {
        Some(text[size])
    } else {
        None
    }
}

// Returns the number of bytes that follow `byte` in its character, if it begins one in UTF-8.
const fn tail_size(byte: Option<u8>) -> usize {
    match byte {
        Some(0xC2..=0xDF) => 1,
        Some(0xE0..=0xEF) => 2,
        Some(0xF0..=0xF4) => 3,
        _ => 0,
    }
}

// Returns the bytes that follow `byte`, the one behind the first `size`, in its character, and 0 for each that does not.
pub(crate) const fn tail_at(text: &[u8], size: usize, byte: Option<u8>) -> [u8; 3] {
    let tail = tail_size(byte);
    [tail_byte(text, size, tail, 1), tail_byte(text, size, tail, 2), tail_byte(text, size, tail, 3)]
}

// Returns the byte behind the first `size + place` if `place` is at most `tail`, and 0 where there is none.
const fn tail_byte(text: &[u8], size: usize, tail: usize, place: usize) -> u8 {
    if place <= tail && place < text.len() - size {
        text[size + place]
    } else {
        0
    }
}

// Returns the first `size` bytes.
#[inline(always)]
pub(crate) const fn front_of(text: &[u8], size: usize) -> &[u8] {
    text.split_at(size).0
}
