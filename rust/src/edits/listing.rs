// Made by rust/tools/erase.py from crates/lexical_util/src/edits/listing.rt: change that file.

//! The edits that build a word, and a test of whether a builder can build it.

use crate::edits::{field_edits_of, Edit, FlagSetter, FIELD_COUNT};
use crate::format_flags as flags;

/// Returns whether a builder can build `format`. This is possible if and only if all reserved bits are 0, and the digit
/// separator is absent or allowed by a flag.
///
/// ```
/// use peltzivar::edits::is_built;
///
/// assert!(is_built(0x00000A00_00000000_00000000_0000000C));
/// assert!(!is_built(0x00000A00_0000005F_00000000_0000000C)); // no flag allows the separator `_`
/// ```
///
/// # Proved of the source
///
/// - The result is true if and only if setter calls on a new builder can build `format`.
#[must_use]
pub const fn is_built(format: u128) -> bool {
    flags::is_clean(format) && is_separator_allowed_or_absent(format)
}

// Returns whether the digit separator is absent or a flag allows one.
const fn is_separator_allowed_or_absent(format: u128) -> bool {
    flags::digit_separator(format) == 0 || flags::is_separator_allowed(format)
}

/// Returns edits that give a new builder the fields of `format`, and the number of edits that are needed for this.
///
/// For each field, the array has one edit, which sets the field to its value in `format`. The needed edits, which
/// change a new builder, come first, and the other edits follow. The returned number is the number of needed edits.
/// Both the needed edits and the other edits are in the order of the bits that they write.
///
/// A new builder to which the needed edits are applied has exactly the fields of `format`. This is also true if all
/// edits are applied. If [`is_built`] returns `true` for `format`, this builder packs its fields into `format`, and a
/// shorter list of edits builds `format` only if it contains an edit of a flag group.
///
/// ```
/// use peltzivar::edits::{edits_of, Edit, FlagSetter};
///
/// // The mantissa radix is 16, and no digits are required after an exponent character.
/// let (edits, count) = edits_of(0x00001000_00000000_00000000_00000008);
/// let needed = [Edit::Flag(FlagSetter::RequiredExponentDigits, false), Edit::MantissaRadix(16)];
/// assert_eq!(edits[..count], needed);
/// ```
#[must_use]
#[doc(hidden)]
pub fn edits_of(format: u128) -> ([Edit; FIELD_COUNT], usize) {
    // In the first array, the needed edits are moved to the front. The other edits are copied from the second array.
    let mut edits = field_edits_of(format);
    let mut others = field_edits_of(format);
    let count = move_to_front(&mut edits, true);
    let rest = move_to_front(&mut others, false);
    let (all, others) = (&mut edits[..], &others[..]);
    all[count..].copy_from_slice(&others[..rest]);
    (edits, count)
}

// Returns whether an edit changes a new builder.
const fn differs_from_new(edit: Edit) -> bool {
    match edit {
        Edit::Flag(setter, flag) => match setter {
            FlagSetter::RequiredDigits => true,
            FlagSetter::RequiredExponentDigits | FlagSetter::RequiredMantissaDigits => !flag,
            _ => flag,
        },
        Edit::DigitSeparator(byte)
        | Edit::BasePrefix(byte)
        | Edit::BaseSuffix(byte)
        | Edit::ExponentBase(byte)
        | Edit::ExponentRadix(byte) => matches!(byte, Some(_)),
        Edit::MantissaRadix(radix) | Edit::Radix(radix) => radix != 10,
    }
}

// Moves some edits to the front without changing their order, and returns their number. If `changed` is true, these are
// the edits that change a new builder. If it is false, they are the other edits.
fn move_to_front(edits: &mut [Edit], changed: bool) -> usize {
    let mut count = 0;
    for index in 0..edits.len() {
        if differs_from_new(edits[index]) == changed {
            edits.swap(count, index);
            count += 1;
        }
    }
    count
}
