//! Literals that were read, with their parts and digits, which are written by hand.

use core::fmt::{self, Write};
use core::{iter::FusedIterator, slice};

use crate::digit::char_to_valid_digit_const;
use crate::format_flags::Part;
use crate::literal::forms::rest_of;
use crate::literal::group_size::Group;
use crate::literal::kind::Kind;
use crate::literal::step::{is_complete, step};
use crate::literal::stop::{Begun, Found, Stopped};
use crate::literal::{Literal, ReadError, Syntax};
use crate::word::Role;

impl Syntax {
    /// Returns the exponent character, or `None` if literals are integers.
    #[must_use]
    pub const fn exponent(&self) -> Option<u8> {
        match self.options() {
            Some(options) => Some(options.exponent),
            None => None,
        }
    }

    /// Returns the decimal point, or `None` if literals are integers.
    #[must_use]
    pub const fn point(&self) -> Option<u8> {
        match self.options() {
            Some(options) => Some(options.point),
            None => None,
        }
    }

    /// Returns `text` as a literal.
    ///
    /// ```
    /// use peltzivar::{literal::Syntax, Format};
    ///
    /// let syntax = Syntax::new_or_panic(Format::default(), b'e', b'.');
    /// let literal = syntax.read("-1.25e3").unwrap();
    /// assert_eq!((literal.integer(), literal.fraction(), literal.exponent()), (&b"1"[..], &b"25"[..], &b"3"[..]));
    /// assert_eq!(syntax.read("1.25;").unwrap_err().valid_up_to(), 4);
    /// ```
    ///
    /// # Errors
    ///
    /// If `text` is not a literal, returns why, and how far it is right.
    pub fn read<'t>(&self, text: &'t (impl AsRef<[u8]> + ?Sized)) -> Result<Literal<'t>, ReadError> {
        self.read_bytes(text.as_ref())
    }

    /// Returns what [`read`][Self::read] returns, also in a constant.
    ///
    /// ```
    /// use peltzivar::{format::STANDARD, literal::Syntax, Format};
    ///
    /// const SYNTAX: Syntax = Syntax::new_or_panic(Format::of::<STANDARD>(), b'e', b'.');
    /// const IS_FLOAT: bool = matches!(SYNTAX.read_bytes(b"1e5"), Ok(literal) if literal.is_float());
    /// assert!(IS_FLOAT);
    /// ```
    pub const fn read_bytes<'t>(&self, text: &'t [u8]) -> Result<Literal<'t>, ReadError> {
        if self.is_decimal() {
            let begun = self.begin(true, text, false);
            if begun.covers(text) {
                return Ok(self.usual_grammar().literal(text, begun.counts, begun.sums, Kind::EXACT));
            }
            if begun.refused || begun.at.is_refused(self, text) {
                return begun.at.refuse(self, text);
            }
        }
        self.read_generally(text)
    }

    /// Returns what `then` makes of what [`read`][Self::read] returns. A decimal literal need not be in memory for it.
    #[doc(hidden)]
    #[inline(always)]
    pub fn read_then<'t, R>(&self, text: &'t [u8], then: impl FnOnce(Result<Literal<'t>, ReadError>) -> R) -> R {
        let mut refused = None;
        if self.is_decimal() {
            let begun = self.begin(true, text, false);
            if begun.covers(text) {
                return then(Ok(self.usual_grammar().literal(text, begun.counts, begun.sums, Kind::EXACT)));
            }
            refused = begun.refused.then_some(begun.at);
        }
        then(match refused {
            Some(stop) => self.refuse_literal(text, stop),
            None => self.read_generally(text),
        })
    }

    // Returns why `text`, of which reading stopped at `stop`, is not a literal. A program has this code once.
    #[inline(never)]
    const fn refuse_literal<'t>(&self, text: &'t [u8], stop: Stopped) -> Result<Literal<'t>, ReadError> {
        stop.refuse(self, text)
    }

    // Returns what `read` returns for any syntax.
    #[inline(never)]
    pub(crate) const fn read_generally<'t>(&self, text: &'t [u8]) -> Result<Literal<'t>, ReadError> {
        let begun = self.begin_small(text, false);
        if begun.covers(text) {
            Ok(self.as_grammar().literal(text, begun.counts, begun.sums, Kind::EXACT))
        } else if begun.refused {
            begun.at.refuse(self, text)
        } else {
            self.read_slowly(text, begun.at)
        }
    }

    // Returns what `begin` returns for any syntax. A program has this code once.
    #[inline(never)]
    pub(crate) const fn begin_any(&self, text: &[u8], fronts: bool) -> Begun {
        self.begin(false, text, fronts)
    }

    // Returns what `begin` returns for any syntax. The library for C, which sets `peltzivar_small`, has this code once.
    #[inline(always)]
    pub(crate) const fn begin_small(&self, text: &[u8], fronts: bool) -> Begun {
        if cfg!(peltzivar_small) {
            self.begin_any(text, fronts)
        } else {
            self.begin(false, text, fronts)
        }
    }

    // Returns what `read` returns, where `at` has been read.
    #[inline(never)]
    const fn read_slowly<'t>(&self, text: &'t [u8], at: Stopped) -> Result<Literal<'t>, ReadError> {
        let stop = at.go_on(self, text);
        match stop.lengths(self, text) {
            Some(counts) => Ok(self.summed(text, counts)),
            None => stop.refuse(self, text),
        }
    }

    /// Returns the longest literal that `text` begins with, and the rest of `text`, which may be anything. It looks at
    /// no byte behind the first character that cannot follow.
    ///
    /// ```
    /// use peltzivar::literal::Syntax;
    /// use peltzivar::{format::STANDARD, Format};
    ///
    /// const SYNTAX: Syntax = Syntax::new_or_panic(Format::of::<STANDARD>(), b'e', b'.');
    /// let mut rest = "1.5-3e2+.25-;";
    /// while let Ok((literal, after)) = SYNTAX.read_prefix(rest) {
    ///     println!("{literal}"); // 1.5, then -3e2, then +.25
    ///     rest = after;
    /// }
    /// let error = SYNTAX.read_prefix(rest).unwrap_err();
    /// assert_eq!((error.valid_up_to(), error.to_string()), (1, "unexpected character ';'".into()));
    /// let missing = SYNTAX.read(&rest[..error.valid_up_to()]).unwrap_err();
    /// assert_eq!(missing.to_string(), "expected a digit of the integer");
    /// ```
    ///
    /// # Errors
    ///
    /// If `text` does not begin with a literal, returns the error of [`read`][Self::read]. For a wrong byte, the text
    /// before it may have an error that states what is missing, as above. A text such as `1e;` begins with the literal
    /// `1`. [`Forms::token`][crate::literal::Forms::token] refuses it.
    pub fn read_prefix<'t>(&self, text: &'t str) -> Result<(Literal<'t>, &'t str), ReadError> {
        let (literal, rest) = self.read_prefix_bytes(text.as_bytes())?;
        Ok((literal, rest_of(text, rest)))
    }

    /// Returns what [`read_prefix`][Self::read_prefix] returns, of bytes, also in a constant.
    pub const fn read_prefix_bytes<'t>(&self, text: &'t [u8]) -> Result<(Literal<'t>, &'t [u8]), ReadError> {
        if !cfg!(peltzivar_small) && self.is_decimal() {
            let begun = self.begin(true, text, true);
            if begun.is_front(text) {
                let (front, rest) = text.split_at(begun.at.size);
                return Ok((self.usual_grammar().literal(front, begun.counts, begun.sums, Kind::EXACT), rest));
            }
        }
        self.read_front(text)
    }

    // Returns what `read_prefix` returns for any syntax.
    #[inline(never)]
    const fn read_front<'t>(&self, text: &'t [u8]) -> Result<(Literal<'t>, &'t [u8]), ReadError> {
        match self.front(text) {
            (stop, None) => stop.refuse(self, text),
            (_, Some(Found { size, counts })) => {
                let (text, rest) = text.split_at(size);
                Ok((self.summed(text, counts), rest))
            }
        }
    }
}

impl Begun {
    // Returns whether the parts are those of the longest literal that `text` begins with, and this is known at once.
    #[inline(always)]
    pub(crate) const fn is_front(&self, text: &[u8]) -> bool {
        self.complete && (self.refused || self.at.size == text.len())
    }
}

impl Stopped {
    // Returns whether a usual syntax refuses `text` where reading has come: no step leads on, and it is not a literal.
    #[inline(never)]
    pub(crate) const fn is_refused(self, syntax: &Syntax, text: &[u8]) -> bool {
        let Stopped { size, read } = self;
        if size < text.len() {
            step(syntax.as_grammar(), read, text[size]).is_none()
        } else {
            !is_complete(syntax.as_grammar(), read)
        }
    }

    // Returns why `text` is not a literal, as `refuse` does. The error is made where the caller keeps it, and not copied.
    #[inline(always)]
    pub(crate) const fn error(self, syntax: &Syntax, text: &[u8]) -> ReadError {
        ReadError { spot: self.spot(syntax, text) }
    }

    // Returns what `step` returns. A program has this code once.
    #[inline(never)]
    pub(crate) const fn step_any(self, syntax: &Syntax, text: &[u8], group: Group) -> Option<(Role, Stopped, Group)> {
        self.step(syntax, text, group)
    }
}

impl<'a> Literal<'a> {
    /// Returns the lengths of the nine parts, in the order of the text.
    #[doc(hidden)]
    #[must_use]
    #[inline]
    pub const fn lengths(&self) -> [usize; 9] {
        self.counts
    }

    /// Returns all bytes of the literal, which are behind the [opening][crate::literal::Form::with_opening] of its form, if this has one.
    #[must_use]
    pub const fn as_bytes(&self) -> &'a [u8] {
        self.text
    }

    /// Returns the index behind the literal, in the text that it begins: that of [`read`][Syntax::read], of
    /// [`read_prefix`][Syntax::read_prefix] or of [`token`][crate::literal::Forms::token], with the opening before it.
    #[must_use]
    pub const fn end(&self) -> usize {
        self.opened as usize + self.text.len()
    }

    /// Returns all bytes of the literal, as a string.
    #[must_use]
    pub const fn as_str(&self) -> &'a str {
        match core::str::from_utf8(self.text) {
            Ok(text) => text,
            Err(_) => unreachable!(),
        }
    }

    /// Returns the radix of the digits of a part, a number from 2 to 36.
    #[must_use]
    pub const fn radix(&self, part: Part) -> u32 {
        match part {
            Part::Integer | Part::Fraction => self.format().mantissa_radix(),
            Part::Exponent => self.format().exponent_radix(),
        }
    }

    /// Returns the values of the digits of a part, without digit separators. Each is below the [`radix`][Self::radix].
    ///
    /// ```
    /// use peltzivar::{literal::Language, Part};
    ///
    /// let number = Language::RUST.read("0x1_F")?;
    /// let digits = number.literal().unwrap().digits(Part::Integer); // for a type of numbers of any size
    /// assert_eq!(digits.fold(0, |sum, digit| 16 * sum + u128::from(digit)), 31);
    /// # Ok::<(), peltzivar::literal::FormError>(())
    /// ```
    pub fn digits(&self, part: Part) -> Digits<'a> {
        let bytes = match part {
            Part::Integer => self.integer(),
            Part::Fraction => self.fraction(),
            Part::Exponent => self.exponent(),
        };
        let (bytes, separator) = (bytes.iter(), self.format().digit_separator());
        let separator = separator.map_or(0, |byte| byte.get());
        Digits { bytes, separator }
    }
}

/// Makes the calls that return the parts, and a list of them.
macro_rules! parts {
    ($($(#[$doc:meta])* $name:ident)*) => {
        impl<'a> Literal<'a> {
            $(
                $(#[$doc])*
                #[must_use]
                #[inline]
                pub const fn $name(&self) -> &'a [u8] {
                    self.cut().$name
                }
            )*

            /// Returns the name and the bytes of each part that is present, in the order of the text. The name is that
            /// of the call that returns the part, such as `integer`.
            ///
            /// ```
            /// use peltzivar::literal::Language;
            ///
            /// let literal = Language::C.read("0x1.8p-3")?.literal().unwrap();
            /// let names = literal.parts().map(|(name, _)| name);
            /// assert!(names.eq(["prefix", "integer", "point", "fraction", "exponent_character", "exponent_sign", "exponent"]));
            /// # Ok::<(), peltzivar::literal::FormError>(())
            /// ```
            pub fn parts(&self) -> impl Iterator<Item = (&'static str, &'a [u8])> + Clone {
                let parts = self.cut();
                let all = [$((stringify!($name), parts.$name)),*];
                all.into_iter().filter(|(_, bytes)| !bytes.is_empty())
            }
        }
    };
}

parts! {
    /// Returns the sign, `+` or `-`.
    sign
    /// Returns the base prefix, with the zero before it.
    prefix
    /// Returns the integer digits, with their separators.
    integer
    /// Returns the decimal point.
    point
    /// Returns the fraction digits, with their separators.
    fraction
    /// Returns the exponent character.
    exponent_character
    /// Returns the sign of the exponent, `+` or `-`.
    exponent_sign
    /// Returns the exponent digits, with their separators.
    exponent
    /// Returns the base suffix.
    suffix
}

impl AsRef<[u8]> for Literal<'_> {
    fn as_ref(&self) -> &[u8] {
        self.text
    }
}

/// Prints the text that was read, with the width and the fill of the formatter. A precision is ignored.
impl fmt::Display for Literal<'_> {
    fn fmt(&self, f: &mut fmt::Formatter<'_>) -> fmt::Result {
        let missing = f.width().unwrap_or(0).saturating_sub(self.text.len());
        let before = match f.align() {
            Some(fmt::Alignment::Right) => missing,
            Some(fmt::Alignment::Center) => missing / 2,
            Some(fmt::Alignment::Left) | None => 0,
        };
        let fill = f.fill();
        (0..before).try_for_each(|_| f.write_char(fill))?;
        f.write_str(self.as_str())?;
        (before..missing).try_for_each(|_| f.write_char(fill))
    }
}

/// Writes the parts that are present, such as `Literal { integer: "1", point: ".", fraction: "5" }`.
impl fmt::Debug for Literal<'_> {
    fn fmt(&self, f: &mut fmt::Formatter<'_>) -> fmt::Result {
        let mut text = f.debug_struct("Literal");
        for (name, bytes) in self.parts() {
            text.field(name, &core::str::from_utf8(bytes).unwrap_or_default());
        }
        text.finish()
    }
}

/// The values of the digits of a part, which [`Literal::digits`] returns.
#[derive(Debug, Clone)]
#[must_use = "iterators are lazy"]
pub struct Digits<'a> {
    bytes: slice::Iter<'a, u8>,
    separator: u8,
}

/// Returns the value of a digit.
fn value(byte: &u8) -> u8 {
    char_to_valid_digit_const(*byte, 36) as u8
}

impl Iterator for Digits<'_> {
    type Item = u8;

    fn next(&mut self) -> Option<u8> {
        let separator = self.separator;
        self.bytes.find(|&&byte| byte != separator).map(value)
    }

    fn size_hint(&self) -> (usize, Option<usize>) {
        let bytes = self.bytes.len();
        (if self.separator == 0 { bytes } else { 0 }, Some(bytes))
    }

    fn count(self) -> usize {
        self.bytes.filter(|&&byte| byte != self.separator).count()
    }
}

impl DoubleEndedIterator for Digits<'_> {
    fn next_back(&mut self) -> Option<u8> {
        let separator = self.separator;
        self.bytes.rfind(|&&byte| byte != separator).map(value)
    }
}

impl FusedIterator for Digits<'_> {}
