// Made by rust/tools/erase.py from crates/lexical_forms/src/opening.rt: change that file.

//! What stands before the literals of a form, such as `16#`.

use crate::literal::step::other_case;

/// Up to 8 bytes of ASCII that stand before each literal of a form, such as `$`, `16r` or `#x`. An empty opening is none. Letters are in
/// either case, unless [`case_sensitive`][Self::case_sensitive] says otherwise.
///
/// A text is a literal of a form if it is the opening, and then a literal of the syntax. So a sign stands behind the opening, and a
/// [`Literal`][crate::literal::literal::Literal] is what is behind it. What has to stand behind the digits is a
/// [required base suffix][crate::literal::syntax::Conditions::required_base_suffix].
///
/// ```
/// use core::num::NonZeroU8;
/// use peltzivar::literal::{Conditions, Form, Forms, Opening, Syntax};
/// use peltzivar::NumberFormatBuilder;
///
/// let format = NumberFormatBuilder::new().radix(16).base_suffix(NonZeroU8::new(b'#')).build_format_or_panic();
/// let syntax = Syntax::integers(format).with_conditions_or_panic(Conditions::NONE.required_base_suffix(true));
/// let forms = [Form::new("hexadecimal", syntax).with_opening(Opening::new(b"16#").unwrap())];
/// let list = Forms::new_or_panic(&forms);
/// assert_eq!(list.parse("16#FF#"), Ok(255));
/// let error = list.read("16rFF").unwrap_err();
/// assert_eq!((error.span(), error.to_string()), (2..3, "expected the opening `16#`".into()));
/// let error = list.read("16#FF").unwrap_err();
/// assert_eq!((error.span(), error.to_string()), (5..5, "expected the suffix #".into()));
/// ```
#[derive(Debug, Clone, Copy, PartialEq, Eq, Hash)]
pub struct Opening {
    pub(crate) bytes: [u8; 8],
    pub(crate) size: u8,
    case_sensitive: bool,
}

impl Opening {
    /// No bytes.
    pub const NONE: Opening = Opening { bytes: [0; 8], size: 0, case_sensitive: false };

    /// Returns the opening with these bytes, letters of which are in either case, or `None` if they are more than 8, or not all ASCII.
    #[must_use]
    pub const fn new(bytes: &[u8]) -> Option<Opening> {
        if bytes.len() > 8 || !is_ascii(bytes) {
            return None;
        }
        let mut own = [0; 8];
        let mut size = 0;
        while size < bytes.len() {
            own[size] = bytes[size];
            size += 1;
        }
        Some(Opening { bytes: own, size: size as u8, case_sensitive: false })
    }

    /// Sets whether letters have the case in which they are given.
    #[must_use]
    pub const fn case_sensitive(self, sensitive: bool) -> Opening {
        let bytes = self.bytes;
        Opening { bytes, size: self.size, case_sensitive: sensitive }
    }

    /// Returns whether letters have the case in which they are given.
    #[must_use]
    pub const fn is_case_sensitive(&self) -> bool {
        self.case_sensitive
    }

    /// Returns the bytes.
    #[must_use]
    pub const fn as_bytes(&self) -> &[u8] {
        self.bytes.split_at(self.size()).0
    }

    /// Returns whether there are no bytes.
    #[must_use]
    pub const fn is_empty(&self) -> bool {
        self.size == 0
    }

    // Returns the number of bytes.
    #[inline(always)]
    pub(crate) const fn size(&self) -> usize {
        self.size as usize
    }

    // Returns the number of its bytes that `text` begins with.
    #[cfg_attr(not(peltzivar_small), inline(always))]
    pub(crate) const fn opened(&self, text: &[u8]) -> usize {
        let mut size = 0;
        while size < self.size() && size < text.len() && self.spells(size, text[size]) {
            size += 1;
        }
        size
    }

    // Returns whether `byte` may be the byte with this index.
    #[cfg_attr(peltzivar_small, inline(never))]
    #[cfg_attr(not(peltzivar_small), inline(always))]
    const fn spells(&self, index: usize, byte: u8) -> bool {
        let own = self.bytes[index];
        byte == own || (!self.case_sensitive && byte == other_case(own))
    }
}

// Returns whether all of `bytes` are ASCII.
const fn is_ascii(bytes: &[u8]) -> bool {
    let mut index = 0;
    while index < bytes.len() {
        if bytes[index] > 127 {
            return false;
        }
        index += 1;
    }
    true
}
