// Made by rust/tools/erase.py from crates/lexical_forms/src/suffix.rt: change that file.

//! Words that stand directly behind a number, such as `u8`, and bytes that may not follow it.

use crate::literal::kind::Kind;
use crate::literal::stop::byte_at;

/// Bytes that may not follow a number in source text, such as the `+` behind `0xe` in C.
///
/// It has three lists: the last byte of the number is in the first, the next byte in the second, and the one after it in the
/// third. A list that is empty asks for nothing.
#[derive(Debug, Clone, Copy, PartialEq, Eq, Hash)]
#[doc = may_change!()]
pub struct Stop {
    pub(crate) last: &'static [u8],
    pub(crate) next: &'static [u8],
    pub(crate) second: &'static [u8],
}

impl Stop {
    /// Returns a stop: a number that ends in one of the bytes `last`, and is followed by one of the bytes `next`, and then by
    /// one of the bytes `second`, is not a token.
    #[must_use]
    pub const fn new(last: &'static [u8], next: &'static [u8], second: &'static [u8]) -> Stop {
        Stop { last, next, second }
    }
}

/// The suffixes of a form: words that belong to a number directly behind it, such as `u8`, and stops.
///
/// ```
/// use peltzivar::literal::{Form, Forms, Suffixes, Syntax, Tokens};
/// use peltzivar::Format;
///
/// static SUFFIXES: Suffixes = Suffixes::new(&[b"u8", b"i32"], &[], &[]);
/// let forms = [Form::new("decimal", Syntax::integers(Format::default())).with_suffixes(&SUFFIXES)];
/// let tokens = Tokens::new(&[], &[]);
/// let token = Forms::new_or_panic(&forms).with_tokens(&tokens).token("10u8;").unwrap();
/// assert_eq!((token.literal.to_u64(), token.suffix, token.rest), (Ok(10), &b"u8"[..], &b";"[..]));
/// ```
#[derive(Debug, Clone, Copy, PartialEq, Eq, Hash)]
pub struct Suffixes {
    pub(crate) integers: &'static [&'static [u8]],
    pub(crate) floats: &'static [&'static [u8]],
    pub(crate) either_case: bool,
    pub(crate) whole_words: bool,
    pub(crate) any: &'static [u8],
    more: &'static [u8],
    pub(crate) stops: &'static [Stop],
    pub(crate) kinds: &'static [(&'static [u8], Kind)],
    written: &'static [&'static [u8]],
}

impl Suffixes {
    /// Returns suffixes: the words `integers` behind integers, and `floats` behind floats, in this case, with the bytes that
    /// may not follow. Letters, digits, `_` and bytes from 128 up never may. A word that has other bytes is never found.
    #[must_use]
    pub const fn new(
        integers: &'static [&'static [u8]],
        floats: &'static [&'static [u8]],
        stops: &'static [Stop],
    ) -> Suffixes {
        Suffixes {
            integers,
            floats,
            either_case: false,
            whole_words: false,
            any: &[],
            more: &[],
            stops,
            kinds: &[],
            written: &[],
        }
    }

    /// Sets whether the words may be in either case.
    #[must_use]
    pub const fn either_case(self, either: bool) -> Suffixes {
        Suffixes { either_case: either, ..self }
    }

    /// Sets whether a suffix is the whole word behind a number, as in Ruby, where `1i` has the suffix `i`, and `1if` none.
    #[must_use]
    #[doc = may_change!()]
    pub const fn whole_words(self, whole: bool) -> Suffixes {
        Suffixes { whole_words: whole, ..self }
    }

    /// Sets the bytes of which any word that begins with one is a suffix, such as `_` for `1_km`.
    #[must_use]
    pub const fn any_word(self, begins: &'static [u8]) -> Suffixes {
        Suffixes { any: begins, ..self }
    }

    /// Sets the bytes that words of this form have besides letters, digits, `_` and bytes from 128 up, such as `-` for CSS, where `n-1` is the
    /// suffix of `2n-1`. They do not stop a number: `1-1` ends before `-`.
    #[must_use]
    #[doc = may_change!()]
    pub const fn with_word_bytes(self, more: &'static [u8]) -> Suffixes {
        Suffixes { more, ..self }
    }

    /// Sets the kinds of numbers with these suffixes. With others, and without one, a number has the kind of its form.
    #[must_use]
    pub const fn with_kinds(self, kinds: &'static [(&'static [u8], Kind)]) -> Suffixes {
        Suffixes { kinds, ..self }
    }

    /// Sets the words with which a list writes an integer that it does not write without one, in the order in which they are tried. The
    /// first is taken with which the token of the text is this integer, so the kinds decide.
    #[must_use]
    pub const fn with_written(self, written: &'static [&'static [u8]]) -> Suffixes {
        Suffixes { written, ..self }
    }

    /// Returns the words that may be behind integers.
    #[must_use]
    pub const fn integers(&self) -> &'static [&'static [u8]] {
        self.integers
    }

    /// Returns the words that may be behind floats.
    #[must_use]
    pub const fn floats(&self) -> &'static [&'static [u8]] {
        self.floats
    }

    /// Returns the words with which lists write integers.
    #[must_use]
    pub const fn written(&self) -> &'static [&'static [u8]] {
        self.written
    }

    /// Returns whether the words may be in either case.
    #[must_use]
    pub const fn is_either_case(&self) -> bool {
        self.either_case
    }

    /// Returns the bytes of which any word that begins with one is a suffix.
    #[must_use]
    #[doc = may_change!()]
    pub const fn begins_any_word(&self) -> &'static [u8] {
        self.any
    }

    /// Returns the bytes that words have besides letters, digits, `_` and bytes from 128 up.
    #[must_use]
    #[doc = may_change!()]
    pub const fn word_bytes(&self) -> &'static [u8] {
        self.more
    }

    // Returns the length of the longest suffix with which `text` begins, or 0 if there is none.
    const fn size(&self, float: bool, text: &[u8]) -> usize {
        let whole = word_size(self.more, text);
        if whole == 0 {
            return 0;
        }
        if matches!(byte_at(text, 0), Some(byte) if has_byte(self.any, byte)) {
            return whole;
        }
        let words = if float { self.floats } else { self.integers };
        let least = if self.whole_words { whole } else { 0 };
        longest_word(self.either_case, words, text, least, whole)
    }
}

// Returns the length of the longest suffix with which `text` begins, or 0 if there is none.
#[inline(always)]
pub(crate) const fn suffix_size(suffixes: Option<&'static Suffixes>, float: bool, text: &[u8]) -> usize {
    match suffixes {
        None => 0,
        Some(suffixes) => suffixes.size(float, text),
    }
}

// Returns the words that are named as suffixes behind a float or else an integer.
pub(crate) const fn suffix_words(suffixes: Option<&'static Suffixes>, float: bool) -> &'static [&'static [u8]] {
    match suffixes {
        None => &[],
        Some(it) => {
            if float {
                it.floats
            } else {
                it.integers
            }
        }
    }
}

// Returns the kind of a number with the suffix `word`, of a form of the kind `kind`.
pub(crate) const fn kind_with(suffixes: Option<&'static Suffixes>, word: &[u8], kind: Kind) -> Kind {
    match suffixes {
        None => kind,
        Some(it) => {
            if word.len() == 0 {
                kind
            } else {
                kind_among(it.either_case, it.kinds, word, kind)
            }
        }
    }
}

// Returns the kind of the first of `kinds` with the suffix `word`, or `kind` if there is none.
const fn kind_among(either: bool, kinds: &[(&[u8], Kind)], word: &[u8], kind: Kind) -> Kind {
    match kinds {
        [] => kind,
        [(suffix, own), rest @ ..] => {
            if suffix.len() == word.len() && begins(either, suffix, word) {
                *own
            } else {
                kind_among(either, rest, word, kind)
            }
        }
    }
}

// Returns whether what is behind the number that ends at `end` may not follow it, where any word may follow or none.
#[cfg_attr(not(peltzivar_small), inline(always))]
pub(crate) const fn is_stopped(words: bool, suffixes: Option<&'static Suffixes>, text: &[u8], end: usize) -> bool {
    (if words { has_digit_at(text, end) } else { has_word_byte(text, end) })
        || match suffixes {
            None => false,
            Some(suffixes) => is_one_met(suffixes.stops, text, end),
        }
}

// Returns the bytes that words of suffixes have besides.
#[inline(always)]
pub(crate) const fn more_of(suffixes: Option<&'static Suffixes>) -> &'static [u8] {
    match suffixes {
        None => &[],
        Some(it) => it.more,
    }
}

// Returns whether words of suffixes have bytes besides.
pub(crate) const fn is_wide(suffixes: Option<&'static Suffixes>) -> bool {
    match suffixes {
        None => false,
        Some(it) => it.more.len() > 0,
    }
}

// Returns whether the byte at `index` is one of a word.
#[cfg_attr(not(peltzivar_small), inline(always))]
pub(crate) const fn has_word_byte(text: &[u8], index: usize) -> bool {
    matches!(byte_at(text, index), Some(byte) if is_word_byte(byte))
}

// Returns whether the byte at `index` is a digit.
pub(crate) const fn has_digit_at(text: &[u8], index: usize) -> bool {
    matches!(byte_at(text, index), Some(byte) if byte.is_ascii_digit())
}

// Returns whether one of the stops is behind the number that ends at `end`.
const fn is_one_met(stops: &[Stop], text: &[u8], end: usize) -> bool {
    match stops {
        [] => false,
        [stop, rest @ ..] => meets(text, end, stop) || is_one_met(rest, text, end),
    }
}

// Returns whether a stop is behind the number that ends at `end`.
const fn meets(text: &[u8], end: usize, stop: &Stop) -> bool {
    stop_admits(stop.last, byte_before(text, end))
        && stop_admits(stop.next, byte_at(text, end))
        && stop_admits(stop.second, byte_after(text, end))
}

// Returns the byte behind the one at `index`, if there is one.
pub(crate) const fn byte_after(text: &[u8], index: usize) -> Option<u8> {
    if index < text.len() {
        byte_at(text, index + 1)
    } else {
        None
    }
}

// Returns the byte before the one at `index`, if there is one.
pub(crate) const fn byte_before(text: &[u8], index: usize) -> Option<u8> {
    if index == 0 {
        None
    } else {
        byte_at(text, index - 1)
    }
}

// Returns whether `byte` is one of `bytes`, or `bytes` is empty.
const fn stop_admits(bytes: &[u8], byte: Option<u8>) -> bool {
    match bytes {
        [] => true,
        _ => matches!(byte, Some(byte) if has_byte(bytes, byte)),
    }
}

// Returns whether `byte` is one of `bytes`.
pub(crate) const fn has_byte(bytes: &[u8], byte: u8) -> bool {
    match bytes {
        [] => false,
        [first, rest @ ..] => *first == byte || has_byte(rest, byte),
    }
}

// Returns whether `byte` is a digit, a letter, `_` or at least 128.
#[cfg_attr(not(peltzivar_small), inline(always))]
pub(crate) const fn is_word_byte(byte: u8) -> bool {
    matches!(byte, b'0'..=b'9' | b'A'..=b'Z' | b'_' | b'a'..=b'z' | 128..)
}

// Returns whether `byte` is one of a word, or one of `more`.
#[inline(always)]
const fn is_in_word(more: &[u8], byte: u8) -> bool {
    is_word_byte(byte) || has_byte(more, byte)
}

// Returns the number of bytes of a word, which may have the bytes `more`, with which `text` begins.
pub(crate) const fn word_size(more: &[u8], text: &[u8]) -> usize {
    let mut rest = text;
    while let [byte, behind @ ..] = rest {
        if !is_in_word(more, *byte) {
            return text.len() - rest.len();
        }
        rest = behind;
    }
    text.len()
}

// Returns whether `text` begins with `word`, letter case aside if `either` is true.
pub(crate) const fn begins(either: bool, word: &[u8], text: &[u8]) -> bool {
    match word {
        [] => true,
        [letter, word @ ..] => match text {
            [] => false,
            [byte, text @ ..] => is_same(either, *letter, *byte) && begins(either, word, text),
        },
    }
}

// Returns whether two bytes are the same, letter case aside if `either` is true.
const fn is_same(either: bool, letter: u8, byte: u8) -> bool {
    if either {
        letter.eq_ignore_ascii_case(&byte)
    } else {
        letter == byte
    }
}

// Returns the length of the longest of `words`, of `least` to `most` bytes, with which `text` begins, or 0 if it begins with none.
const fn longest_word(either: bool, words: &[&[u8]], text: &[u8], least: usize, most: usize) -> usize {
    let mut longest = 0;
    let mut rest = words;
    while let [word, more @ ..] = rest {
        let size = word.len();
        if longest < size && least <= size && size <= most && begins(either, word, text) {
            longest = size;
        }
        rest = more;
    }
    longest
}

// Returns whether the word with which `text` begins is one of `words`.
pub(crate) const fn is_followed(words: &[&[u8]], text: &[u8]) -> bool {
    match words {
        [] => false,
        [word, rest @ ..] => {
            (begins(false, word, text) && word.len() == word_size(&[], text)) || is_followed(rest, text)
        }
    }
}
