// Made by rust/tools/erase.py from crates/lexical_writer/src/patterns.rt: change that file.

//! The groups in which digits are written.

use crate::literal::syntax::{Condition, Conditions};
use crate::literal::writer::layout::{Grouping, Style};
use crate::literal::writer::run::Pattern;
use crate::word::{digit_separator, FormatView};

// Returns the pattern of an integer.
#[inline]
pub(crate) const fn integer_pattern(format: FormatView, conditions: Conditions, style: Style) -> Pattern {
    let last = group_size(conditions.number(Condition::IntegerGroupSize), style.group);
    let higher = either(conditions.number(Condition::HigherGroupSize), last);
    let allowed = format.integer_internal_digit_separator();
    pattern_of(format, allowed, last, higher, style.lowercase)
}

// Returns the pattern of digits in groups, unless there are none, or the format does not allow them.
const fn pattern_of(format: FormatView, allowed: bool, last: usize, higher: usize, lowercase: bool) -> Pattern {
    let separator = digit_separator(format.word());
    if last == 0 || !allowed || separator == 0 {
        return no_groups(lowercase);
    }
    Pattern { last, higher, separator, lowercase }
}

// Returns the pattern of digits without separators.
pub(crate) const fn no_groups(lowercase: bool) -> Pattern {
    Pattern { last: 0, higher: 0, separator: 0, lowercase }
}

// Returns how many digits a group has, where a condition requires `size` digits, or 0 for digits without groups.
const fn group_size(size: u8, group: Grouping) -> usize {
    match group {
        Grouping::AsSyntax => size as usize,
        Grouping::None | Grouping::Of(0) => 0,
        Grouping::Of(other) => either(size, other),
    }
}

// Returns the size that a condition requires, or `other` if it requires none.
const fn either(size: u8, other: usize) -> usize {
    if size == 0 {
        other
    } else {
        size as usize
    }
}
