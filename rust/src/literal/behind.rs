// Made by rust/tools/erase.py from crates/lexical_forms/src/behind.rt: change that file.

//! Forms with an opening: what a syntax reads behind it.

use crate::literal::cause::ReadError;
use crate::literal::exclude::{excludes, lacks_longer, reach};
use crate::literal::form::Form;
use crate::literal::list::{FormError, Furthest, Unopened};
use crate::literal::literal::Literal;
use crate::literal::stop::{byte_at, tail_at, Found, Stopped, BEGIN};

impl Form {
    // Returns what is behind the opening, or how far the form goes at most if this is known at once, and `text` is not a literal: by the
    // opening, the sign, the first two bytes behind it, or the byte at `reach`.
    #[cfg_attr(not(peltzivar_small), inline(always))]
    pub(crate) const fn begins<'t>(&self, text: &'t [u8], reach: usize) -> Result<&'t [u8], usize> {
        if self.opening.size == 0 {
            return self.begins_behind(0, text, reach);
        }
        let opened = self.opening.opened(text);
        if opened < self.opening.size() {
            return Err(opened);
        }
        self.begins_behind(opened, text, reach)
    }

    // Returns the same where the opening is there, and has `opened` bytes.
    #[cfg_attr(not(peltzivar_small), inline(always))]
    const fn begins_behind<'t>(&self, opened: usize, text: &'t [u8], reach: usize) -> Result<&'t [u8], usize> {
        let (_, inside) = text.split_at(opened);
        if self.syntax.refuses_sign(inside) {
            return Err(opened);
        }
        match excludes(self.syntax.as_grammar(), inside, reach.saturating_sub(opened)) {
            Some(bound) => Err(opened + bound),
            None => Ok(inside),
        }
    }

    // Returns whether it is known at once that `text` is not a literal, and that the form goes no further than `reach`.
    #[cfg_attr(not(peltzivar_small), inline(always))]
    pub(crate) const fn is_behind(&self, text: &[u8], reach: usize) -> bool {
        match self.begins(text, reach) {
            Err(bound) => bound <= reach,
            Ok(_) => false,
        }
    }

    // Returns whether it is known at once that no literal begins with more than the first `past` bytes of `text`.
    #[cfg_attr(not(peltzivar_small), inline(always))]
    pub(crate) const fn is_passed(&self, text: &[u8], past: usize) -> bool {
        past >= text.len() || self.is_behind(text, past)
    }

    // Returns the literal that `_text` is, where `inside` is behind the opening, or where the form stops.
    #[cfg_attr(not(peltzivar_small), inline(always))]
    pub(crate) const fn read<'t>(&self, inside: &'t [u8]) -> Result<Literal<'t>, Stopped> {
        let syntax = &self.syntax;
        let begun = syntax.begin_small(inside, false);
        if begun.covers(inside) {
            let grammar = syntax.as_grammar();
            let literal = grammar.literal(inside, begun.counts, begun.sums, self.kind);
            return Ok(literal.behind(self.opening.size));
        }
        match begun.lengths(syntax, inside) {
            Ok(counts) => {
                let literal = syntax.summed(inside, counts);
                Ok(literal.with_kind(self.kind).behind(self.opening.size))
            }
            Err(stop) => Err(stop.at(self.opening.size() + stop.size)),
        }
    }

    // Returns the longest front of `text` that is a literal, if it has more than `size` bytes.
    #[cfg_attr(not(peltzivar_small), inline(always))]
    pub(crate) const fn front_past(&self, text: &[u8], size: usize) -> Option<Found> {
        let opened = self.opening.opened(text);
        let (_, rest) = text.split_at(opened);
        let least = size.saturating_sub(opened);
        if opened < self.opening.size() || lacks_longer(self.syntax.as_grammar(), rest, least) {
            return None;
        }
        let (_, found) = self.syntax.front(rest);
        let Some(found) = found else {
            return None;
        };
        if found.size <= least {
            return None;
        }
        let Found { size, counts } = found;
        let size = opened + size;
        Some(Found { size, counts })
    }
}

impl Form {
    // Returns where the form stops, and the longest front of `text` that is a literal, if there is one.
    #[cfg_attr(not(peltzivar_small), inline(always))]
    pub(crate) const fn front(&self, text: &[u8]) -> (usize, Option<Found>) {
        let opened = self.opening.opened(text);
        if opened < self.opening.size() {
            return (opened, None);
        }
        let (_, inside) = text.split_at(opened);
        let (stop, found) = self.syntax.front(inside);
        let stop = opened + stop.size;
        let Some(found) = found else {
            return (stop, None);
        };
        let Found { size, counts } = found;
        let size = opened + size;
        (stop, Some(Found { size, counts }))
    }
}

// Calls for a form in which a text is not a literal.
impl Form {
    // Returns where reading `text` stops.
    #[cold]
    pub(crate) const fn stop(&self, text: &[u8]) -> Stopped {
        let opened = self.opening.opened(text);
        if opened < self.opening.size() {
            return BEGIN.at(opened);
        }
        let (_, rest) = text.split_at(opened);
        let stop = self.syntax.stop(rest);
        stop.at(opened + stop.size)
    }

    // Returns where reading `text` stops, which no literal of the form begins with more than no byte of, if there is no opening.
    #[cfg_attr(not(peltzivar_small), inline(always))]
    pub(crate) const fn beginning(&self) -> Option<Stopped> {
        if self.opening.is_empty() {
            Some(self.syntax.beginning())
        } else {
            None
        }
    }

    // Returns how far the form goes, which has the index `form` and stops at `stop`.
    #[cfg_attr(not(peltzivar_small), inline(always))]
    pub(crate) const fn reached(&self, text: &[u8], form: usize, stop: Stopped) -> Furthest {
        let reach = self.reach(text, stop.size);
        Furthest { form, stop, reach }
    }

    // Returns how far the form goes where `size` bytes are right.
    #[cfg_attr(not(peltzivar_small), inline(always))]
    const fn reach(&self, text: &[u8], size: usize) -> usize {
        let opened = self.opening.size();
        if size < opened {
            return size;
        }
        let (_, rest) = text.split_at(opened);
        opened + reach(self.syntax.as_grammar(), rest, size - opened)
    }

    // Returns why `text` is not a literal of the form, which has the index `form`.
    #[cfg_attr(not(peltzivar_small), inline(always))]
    pub(crate) const fn form_error(&self, text: &[u8], form: usize, stop: Stopped) -> FormError {
        let opened = self.opening.size();
        if stop.size < opened {
            return self.lacks_opening(text, form, stop.size);
        }
        let (_, rest) = text.split_at(opened);
        let error = Ok(self.error_of(rest, stop.at(stop.size - opened)));
        FormError { form, name: self.name, opened: opened as u8, suffix: [0; 7], error }
    }

    // Returns that the opening is not there behind the first `right` bytes of `text`.
    #[cold]
    const fn lacks_opening(&self, text: &[u8], form: usize, right: usize) -> FormError {
        let byte = byte_at(text, right);
        let tail = tail_at(text, right, byte);
        let unopened = Unopened { opening: self.opening, byte, tail };
        FormError { form, name: self.name, opened: right as u8, suffix: [0; 7], error: Err(unopened) }
    }

    // Returns why `text` is not a literal of the syntax, which stops at `stop`.
    #[cfg_attr(not(peltzivar_small), inline(always))]
    const fn error_of(&self, text: &[u8], stop: Stopped) -> ReadError {
        let Err(error) = stop.refuse::<()>(&self.syntax, text) else { unreachable!() };
        error
    }
}
