//! Expressions of texts, as a regular expression or a grammar writes them.

use core::cell::Cell;
use core::fmt::{self, Display, Formatter, Write};
use core::ops::{Add, BitOr};

/// What an expression is made of. A `usize` is the index of another one.
#[derive(Clone, Copy)]
enum Node {
    Never,
    Empty,
    Byte(u128),                   // One byte of a set of ASCII bytes.
    Named(&'static str, usize),   // What a grammar names.
    Group(usize),                 // What is in parentheses.
    Both(usize, usize),           // One, and behind it the other.
    Either(usize, usize),         // One or the other.
    Times(usize, u8, Option<u8>), // One, so many times at least and, if there is a limit, at most.
}

/// The expressions of a syntax. No lawful one has more than 169.
pub(super) struct Pool {
    is_regex: bool,
    nodes: [Cell<Node>; 256],
    count: Cell<usize>,
}

/// A set of texts.
#[derive(Clone, Copy)]
pub(super) struct Expression<'a>(&'a Pool, usize);

impl Pool {
    /// Returns no expressions, for a regular expression, which has no names, or for a grammar.
    pub(super) const fn new(is_regex: bool) -> Self {
        Pool { is_regex, nodes: [const { Cell::new(Node::Never) }; 256], count: Cell::new(0) }
    }

    fn make(&self, node: Node) -> Expression<'_> {
        let at = self.count.replace(self.count.get() + 1);
        self.nodes[at].set(node);
        Expression(self, at)
    }

    /// Returns one byte of those for which `is_in` is true, or no text if there is none.
    pub(super) fn byte(&self, is_in: impl Fn(u8) -> bool) -> Expression<'_> {
        let set = (1..127).filter(|&byte| is_in(byte)).fold(0, |set, byte| set | 1 << byte);
        self.make(if set == 0 { Node::Never } else { Node::Byte(set) })
    }

    /// Writes what each name stands for, the last first.
    pub(super) fn write_rules(&self, f: &mut Formatter<'_>) -> fmt::Result {
        self.nodes.iter().rev().try_for_each(|node| match node.get() {
            Node::Named(name, at) => writeln!(f, "{name:8} ::= {}", Expression(self, at)),
            _ => Ok(()),
        })
    }
}

impl Add for Expression<'_> {
    type Output = Self;

    /// Returns the texts that have one of `next` behind one of these.
    fn add(self, next: Self) -> Self {
        let grouped = |it: Self| if let Node::Either(..) = it.node() { it.0.make(Node::Group(it.1)) } else { it };
        match (self.node(), next.node()) {
            (Node::Never, _) | (_, Node::Empty) => self,
            (Node::Empty, _) | (_, Node::Never) => next,
            _ => self.0.make(Node::Both(grouped(self).1, grouped(next).1)),
        }
    }
}

impl BitOr for Expression<'_> {
    type Output = Self;

    /// Returns these texts and those of `other`.
    fn bitor(self, other: Self) -> Self {
        match (self.node(), other.node()) {
            (Node::Never, _) => other,
            (_, Node::Never) => self,
            _ => self.0.make(Node::Either(self.1, other.1)),
        }
    }
}

impl Expression<'_> {
    fn node(self) -> Node {
        self.0.nodes[self.1].get()
    }

    /// Returns these texts, or none unless `is_kept`.
    pub(super) fn when(self, is_kept: bool) -> Self {
        Some(self).filter(|_| is_kept).unwrap_or_else(|| self.0.make(Node::Never))
    }

    /// Returns these texts, and the empty text unless `is_required`.
    pub(super) fn required(self, is_required: bool) -> Self {
        self.times(u8::from(is_required), Some(1))
    }

    pub(super) fn times(self, least: u8, most: Option<u8>) -> Self {
        self.0.make(match (self.node(), least, most) {
            (Node::Never, 0, _) | (_, _, Some(0)) => Node::Empty,
            (Node::Never | Node::Empty, ..) | (_, 1, Some(1)) => return self,
            (Node::Times(at, 1, None), 0, Some(1)) => Node::Times(at, 0, None),
            (Node::Both(..) | Node::Either(..) | Node::Times(..), ..) => {
                Node::Times(self.0.make(Node::Group(self.1)).1, least, most)
            }
            _ => Node::Times(self.1, least, most),
        })
    }

    pub(super) fn named(self, name: &'static str) -> Self {
        match self.node() {
            Node::Never => self,
            _ if self.0.is_regex => self,
            _ => self.0.make(Node::Named(name, self.1)),
        }
    }
}

impl Display for Expression<'_> {
    fn fmt(&self, f: &mut Formatter<'_>) -> fmt::Result {
        let (pool, is_regex) = (self.0, self.0.is_regex);
        let (open, behind, or) = if is_regex { ("(?:", "", "|") } else { ("(", " ", " | ") };
        let of = |at| Expression(pool, at);
        match self.node() {
            Node::Never | Node::Empty => Ok(()),
            Node::Byte(set) => write_set(f, is_regex, set),
            Node::Named(name, _) => f.write_str(name),
            Node::Group(at) => write!(f, "{open}{})", of(at)),
            Node::Both(one, two) => write!(f, "{}{behind}{}", of(one), of(two)),
            Node::Either(one, two) => write!(f, "{}{or}{}", of(one), of(two)),
            Node::Times(at, 0, Some(1)) => write!(f, "{}?", of(at)),
            Node::Times(at, 0, None) => write!(f, "{}*", of(at)),
            Node::Times(at, _, None) => write!(f, "{}+", of(at)),
            Node::Times(at, least, Some(most)) if is_regex && least == most => write!(f, "{}{{{most}}}", of(at)),
            Node::Times(at, least, Some(most)) if is_regex => write!(f, "{}{{{least},{most}}}", of(at)),
            Node::Times(at, least, Some(most)) => (0..most).try_for_each(|index| {
                write!(f, "{}{}{}", if index > 0 { " " } else { "" }, of(at), if index < least { "" } else { "?" })
            }),
        }
    }
}

/// Writes a set of bytes, as ranges or, in a grammar, as a single byte in quotes.
fn write_set(f: &mut Formatter<'_>, is_regex: bool, set: u128) -> fmt::Result {
    match set.trailing_zeros() as u8 {
        _ if is_regex || !set.is_power_of_two() => {}
        byte @ 9..=13 => return write!(f, "#x{byte:X}"),
        b'"' => return f.write_str("'\"'"),
        byte => return write!(f, "\"{}\"", byte as char),
    }
    f.write_char('[')?;
    let has = |byte: u8| set >> byte & 1 == 1;
    for byte in (1..127).filter(|&byte| has(byte)) {
        match byte {
            _ if has(byte - 1) && has(byte + 1) => f.write_str(if has(byte - 2) { "" } else { "-" })?,
            9..=13 => write!(f, "\\{}", b"tnvfr"[usize::from(byte - 9)] as char)?,
            b'[' | b'\\'..=b'^' => write!(f, "\\{}", byte as char)?,
            _ => f.write_char(byte as char)?,
        }
    }
    f.write_char(']')
}
