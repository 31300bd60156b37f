// Made by rust/tools/erase.py from crates/lexical_forms/src/form.rt: change that file.

//! A form of numbers.

use crate::literal::kind::Kind;
use crate::literal::opening::Opening;
use crate::literal::suffix::Suffixes;
use crate::literal::syntax::Syntax;

/// A form of numbers: its name, such as `hexadecimal`, its opening and syntax, the suffixes of its tokens, and its kind.
#[derive(Debug, Clone, Copy, PartialEq, Eq, Hash)]
pub struct Form {
    pub(crate) name: &'static str,
    pub(crate) opening: Opening,
    pub(crate) syntax: Syntax,
    pub(crate) suffixes: Option<&'static Suffixes>,
    pub(crate) kind: Kind,
    pub(crate) only_read: bool,
}

impl Form {
    /// Returns the form with a name, which may be empty, and a syntax, without an opening and suffixes, of the kind
    /// [`Kind::EXACT`].
    #[must_use]
    pub const fn new(name: &'static str, syntax: Syntax) -> Form {
        Form { name, opening: Opening::NONE, syntax, suffixes: None, kind: Kind::EXACT, only_read: false }
    }

    /// Returns the same form with an opening before each of its literals.
    #[must_use]
    pub const fn with_opening(&self, opening: Opening) -> Form {
        Form {
            name: self.name,
            opening,
            syntax: self.syntax,
            suffixes: self.suffixes,
            kind: self.kind,
            only_read: self.only_read,
        }
    }

    /// Returns the same form with the suffixes that its tokens may have.
    #[must_use]
    pub const fn with_suffixes(&self, suffixes: &'static Suffixes) -> Form {
        Form {
            name: self.name,
            opening: self.opening,
            syntax: self.syntax,
            suffixes: Some(suffixes),
            kind: self.kind,
            only_read: self.only_read,
        }
    }

    /// Returns the same form with another kind, which its literals have.
    #[must_use]
    pub const fn with_kind(&self, kind: Kind) -> Form {
        Form {
            name: self.name,
            opening: self.opening,
            syntax: self.syntax,
            suffixes: self.suffixes,
            kind,
            only_read: self.only_read,
        }
    }

    /// Sets whether lists only read the form, and write numbers in others.
    #[must_use]
    pub const fn only_read(&self, only: bool) -> Form {
        Form {
            name: self.name,
            opening: self.opening,
            syntax: self.syntax,
            suffixes: self.suffixes,
            kind: self.kind,
            only_read: only,
        }
    }

    /// Returns the opening, which is empty if there is none.
    #[must_use]
    pub const fn opening(&self) -> Opening {
        self.opening
    }

    /// Returns the kind.
    #[must_use]
    pub const fn kind(&self) -> Kind {
        self.kind
    }

    /// Returns the suffixes, if there are any.
    #[must_use]
    pub const fn suffixes(&self) -> Option<&'static Suffixes> {
        self.suffixes
    }

    /// Returns whether lists only read the form.
    #[must_use]
    pub const fn is_only_read(&self) -> bool {
        self.only_read
    }

    /// Returns the name.
    #[must_use]
    pub const fn name(&self) -> &'static str {
        self.name
    }

    /// Returns the syntax.
    #[must_use]
    pub const fn syntax(&self) -> Syntax {
        self.syntax
    }

    /// Returns whether there is an opening.
    #[must_use]
    #[inline(always)]
    pub const fn has_opening(&self) -> bool {
        !self.opening.is_empty()
    }
}
