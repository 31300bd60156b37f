// Made by rust/tools/erase.py from crates/lexical_literal/src/kind.rt: change that file.

//! Kinds of numbers: what the digits of a literal are worth in a language whose integers have few bits, or whose floats are
//! single or have limits.

/// What integers are worth, by the number that their digits represent. Numbers of bits are from 1 to 64, and to 128 of
/// [`Signed`][IntegerKind::Signed] and [`Unsigned`][IntegerKind::Unsigned].
#[derive(Debug, Clone, Copy, PartialEq, Eq, Hash)]
#[non_exhaustive]
pub enum IntegerKind {
    /// The number itself.
    Exact,
    /// The number itself, if it is an integer of so many bits, one of which is its sign: from `-2 ^ (bits - 1)` to `2 ^ (bits - 1) - 1`.
    Signed(u8),
    /// The number itself, if it is an integer of so many bits without a sign: from 0 to `2 ^ bits - 1`.
    Unsigned(u8),
    /// An integer of so many bits, one of which is its sign: from `2 ^ (bits - 1)` on, `2 ^ bits` less than the number. From
    /// `2 ^ bits` on, the number is too large.
    Wraps(u8),
    /// An integer of so many bits, one of which is its sign: the lowest bits of the number, however large it is.
    #[doc = may_change!()]
    WrapsModulo(u8),
}

/// What floats are worth.
#[derive(Debug, Clone, Copy, PartialEq, Eq, Hash)]
#[non_exhaustive]
pub enum FloatKind {
    /// The nearest value of the type that is asked for.
    Nearest,
    /// The nearest `f32`, also as an `f64`. So are integers of the kind [`IntegerKind::Exact`] as floats.
    Single,
}

/// Which floats are errors, where another kind rounds them to infinity or to 0. So are integers of the kind [`IntegerKind::Exact`] as floats.
#[derive(Debug, Clone, Copy, PartialEq, Eq, Hash)]
#[non_exhaustive]
pub enum FloatLimits {
    /// None.
    None,
    /// Those that are too large: their nearest float is infinite.
    Largest,
    /// These, and those that vanish: they are not 0, and their nearest float is.
    Both,
}

/// What the literals of a form, or of a suffix, are worth: the kind of its integers, and of its floats.
///
/// ```
/// use peltzivar::literal::{FloatKind, FloatLimits, Form, Forms, IntegerKind, Kind, Syntax, ValueErrorKind};
/// use peltzivar::NumberFormatBuilder;
///
/// // As in Java, where a hexadecimal `int` of 32 bits can be negative.
/// let int = Kind::new(IntegerKind::Wraps(32), FloatKind::Nearest).unwrap();
/// let syntax = Syntax::integers(NumberFormatBuilder::new().radix(16).build_format_or_panic());
/// let forms = [Form::new("hexadecimal", syntax).with_kind(int)];
/// assert_eq!(Forms::new_or_panic(&forms).parse::<i64>("FFFFFFFF"), Ok(-1));
///
/// // As in Java, where a float that rounds to 0 is an error.
/// let decimal = Syntax::new_or_panic(NumberFormatBuilder::new().build_format_or_panic(), b'e', b'.');
/// let forms = [Form::new("decimal", decimal).with_kind(Kind::EXACT.with_limits(FloatLimits::Both))];
/// let error = Forms::new_or_panic(&forms).read("1e-400").unwrap().literal().unwrap().to_f64().unwrap_err();
/// assert_eq!(error.kind(), ValueErrorKind::Vanishes);
/// ```
#[derive(Debug, Clone, Copy, PartialEq, Eq, Hash)]
pub struct Kind {
    integers: IntegerKind,
    floats: FloatKind,
    limits: FloatLimits,
}

impl Kind {
    /// Literals are worth the number that they represent.
    pub const EXACT: Kind =
        Kind { integers: IntegerKind::Exact, floats: FloatKind::Nearest, limits: FloatLimits::None };

    /// Returns the kind with these kinds of integers and of floats and without limits of floats, or `None` if a number of bits is 0
    /// or too large.
    #[must_use]
    pub const fn new(integers: IntegerKind, floats: FloatKind) -> Option<Kind> {
        match integers {
            IntegerKind::Exact
            | IntegerKind::Signed(1..=128)
            | IntegerKind::Unsigned(1..=128)
            | IntegerKind::Wraps(1..=64)
            | IntegerKind::WrapsModulo(1..=64) => Some(Kind { integers, floats, ..Kind::EXACT }),
            _ => None,
        }
    }

    /// Returns the same kind with limits of floats.
    #[must_use]
    pub const fn with_limits(self, limits: FloatLimits) -> Kind {
        Kind { limits, ..self }
    }

    /// Returns the kind of integers.
    #[must_use]
    pub const fn integers(self) -> IntegerKind {
        self.integers
    }

    /// Returns the kind of floats.
    #[must_use]
    pub const fn floats(self) -> FloatKind {
        self.floats
    }

    /// Returns the limits of floats.
    #[must_use]
    pub const fn limits(self) -> FloatLimits {
        self.limits
    }
}
