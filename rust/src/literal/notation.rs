//! A syntax as a sentence, a grammar and a regular expression, which are written by hand.

use core::fmt::{self, Display, Formatter};

use crate::literal::Syntax;
use {expression::Pool, parts::literal};

mod expression;
#[allow(clippy::precedence, reason = "as in a grammar, what is behind another binds closest")]
mod parts;
mod sentence;

/// A syntax, and what writes it.
struct Notation(Syntax, fn(Syntax, &mut Formatter<'_>) -> fmt::Result);

impl Display for Notation {
    fn fmt(&self, f: &mut Formatter<'_>) -> fmt::Result {
        self.1(self.0, f)
    }
}

impl Syntax {
    /// Returns a sentence that states what differs from decimal digits with an optional sign, point and exponent: first
    /// digits, other bytes and separators, and then requirements, in the order of the flags. NaN stands for all special
    /// values.
    ///
    /// ```
    /// let json = "decimal; digits required before `.`; digits required after `.`; no `+`; no leading zeros";
    /// assert_eq!(peltzivar::literal::Language::JSON.forms()[0].syntax().sentence().to_string(), json);
    /// ```
    #[must_use]
    pub fn sentence(&self) -> impl Display {
        Notation(*self, sentence::write)
    }

    /// Returns a grammar of the literals in the [notation of W3C](https://www.w3.org/TR/xml/#sec-notation), a rule a
    /// line. The first rule is `Literal`. Special values are left out.
    ///
    /// ```
    /// let json = r#"
    /// Literal  ::= "-"? Integer ("." Fraction)? Exponent?
    /// Integer  ::= [1-9] Digit* | "0"
    /// Fraction ::= Digit+
    /// Exponent ::= [Ee] [+-]? Digit+
    /// Digit    ::= [0-9]
    /// "#;
    /// assert_eq!(format!("\n{}", peltzivar::literal::Language::JSON.forms()[0].syntax().grammar()), json);
    /// ```
    #[must_use]
    pub fn grammar(&self) -> impl Display {
        Notation(*self, |it, f| {
            let pool = Pool::new(false);
            literal(&pool, it.as_grammar()).named("Literal");
            pool.write_rules(f)
        })
    }

    /// Returns a regular expression that matches a whole text if and only if it is a literal. Special values are left
    /// out. It is the same for Python, JavaScript and Rust, and has at most 500 characters.
    ///
    /// It has neither anchors nor flags: call `re.fullmatch` in Python, and elsewhere write it between `^(?:` and `)$`.
    /// It matches a text in at most one way, so the time for a text grows as its length.
    ///
    /// ```
    /// let json = "[-]?(?:[1-9][0-9]*|[0])(?:[.][0-9]+)?(?:[Ee][+-]?[0-9]+)?";
    /// assert_eq!(peltzivar::literal::Language::JSON.forms()[0].syntax().regex().to_string(), json);
    /// ```
    #[must_use]
    pub fn regex(&self) -> impl Display {
        Notation(*self, |it, f| literal(&Pool::new(true), it.as_grammar()).fmt(f))
    }
}
