// Made by rust/tools/erase.py from crates/lexical_util/src/reasons/mask.rt: change that file.

//! The rules that a word breaks because of a reason, and the bits that the reason blames.

use crate::edits::{mask_of, FlagSetter};
use crate::format_flags as flags;
use crate::format_flags::{raw_exponent_base, raw_exponent_radix, Part, Rule};
use crate::reasons::{Byte, Cause, NamedByte, Radixes, Reason};

impl Byte {
    /// Returns the mask of the byte in a format word. The mask of a character that options choose is 0.
    #[must_use]
    pub const fn mask(self) -> u128 {
        match self {
            Byte::DigitSeparator => flags::DIGIT_SEPARATOR,
            Byte::BasePrefix => flags::BASE_PREFIX,
            Byte::BaseSuffix => flags::BASE_SUFFIX,
            Byte::MantissaRadix => flags::MANTISSA_RADIX,
            Byte::ExponentBase => flags::EXPONENT_BASE,
            Byte::ExponentRadix => flags::EXPONENT_RADIX,
            Byte::ExponentCharacter | Byte::DecimalPoint => 0,
        }
    }
}

impl Reason {
    /// Returns the first rule that a word breaks because of this reason. A reason that [`options_reasons`] returns
    /// breaks no rule.
    ///
    /// [`options_reasons`]: crate::reasons::options_reasons
    #[must_use]
    pub const fn rule(&self) -> Option<Rule> {
        self.rule
    }

    /// Returns the cause: the fields that are to blame, with their values.
    #[must_use]
    pub const fn cause(&self) -> Cause {
        self.cause
    }

    /// Returns whether a word breaks `rule` because of this reason. If the mantissa radix is out of range and the
    /// exponent base or the exponent radix is absent, the rule for the absent byte is broken too. Every other reason
    /// explains at most one broken rule.
    #[must_use]
    pub const fn breaks(&self, rule: Rule) -> bool {
        is_rule(self.rule, rule) || is_rule(self.followers.0, rule) || is_rule(self.followers.1, rule)
    }

    /// Returns the mask of the bits that the reason blames. Every format word that has the same values in these bits
    /// has the reason too, for the same options, and breaks every rule of the reason.
    ///
    /// The mask has the bits of every byte and every flag in the cause. For [`Cause::NeedsPosition`], it has the bits
    /// of all flags that allow digit separators in the same part of the number. If the mantissa radix is out of range,
    /// the mask also has the bits of each absent exponent byte. If a byte is a digit in the mantissa radix, it also has
    /// the bits of an absent exponent radix. In a word that was built from settings, a setting is to blame if its
    /// [`Edit::mask`][crate::edits::Edit::mask] and this mask share a bit that no later setting overrides.
    #[must_use]
    pub const fn mask(&self) -> u128 {
        self.mask
    }
}

impl Cause {
    /// Returns the bytes that the cause names, in the order of its sentence. The other slots are `None`.
    #[must_use]
    #[inline(always)]
    pub const fn bytes(&self) -> [Option<NamedByte>; 2] {
        match self {
            Cause::OutOfRange(byte) | Cause::NotText(byte) | Cause::IsSign(byte) | Cause::IsDigit(byte, _) => {
                [Some(*byte), None]
            }
            Cause::Same(first, second) | Cause::DifferInCase { first, second, .. } => [Some(*first), Some(*second)],
            _ => [None, None],
        }
    }

    // Returns the mask of what the cause blames in a word.
    #[inline(always)]
    pub(crate) const fn mask(&self, format: u128) -> u128 {
        let [first, second] = self.bytes();
        mask_if_named(first) | mask_if_named(second) | self.mask_beside(format)
    }

    // Returns the mask of what the cause blames beside the bytes that it names. An absent exponent byte is to blame with
    // the mantissa radix. An edit of this radix alone does not end the cause, since it first stores the old radix in it.
    #[inline(always)]
    const fn mask_beside(&self, format: u128) -> u128 {
        let base = mask_if(raw_exponent_base(format) == 0, flags::EXPONENT_BASE);
        let radix = mask_if(raw_exponent_radix(format) == 0, flags::EXPONENT_RADIX);
        match self {
            Cause::OutOfRange(byte) => match byte.name {
                Byte::MantissaRadix => base | radix,
                _ => 0,
            },
            Cause::IsDigit(_, Radixes::Mantissa(_)) => flags::MANTISSA_RADIX | radix,
            Cause::IsDigit(_, Radixes::Exponent(_)) => flags::EXPONENT_RADIX,
            Cause::IsDigit(_, Radixes::Both { .. }) => flags::MANTISSA_RADIX | flags::EXPONENT_RADIX,
            Cause::DifferInCase { first_flag, second_flag, .. } => flag_mask(*first_flag) | flag_mask(*second_flag),
            Cause::BothSet(first, second) => mask_of(*first) as u128 | mask_of(*second) as u128,
            Cause::NeedsPosition(Part::Integer) => flags::INTEGER_DIGIT_SEPARATOR_FLAG_MASK,
            Cause::NeedsPosition(Part::Fraction) => flags::FRACTION_DIGIT_SEPARATOR_FLAG_MASK,
            Cause::NeedsPosition(Part::Exponent) => flags::EXPONENT_DIGIT_SEPARATOR_FLAG_MASK,
            Cause::ReservedBits(bits) => *bits,
            _ => 0,
        }
    }
}

// Returns the mask of a byte, or 0 if there is none.
const fn mask_if_named(byte: Option<NamedByte>) -> u128 {
    match byte {
        Some(byte) => byte.name.mask(),
        None => 0,
    }
}

// Returns the mask of a flag, or 0 if there is none.
const fn flag_mask(flag: Option<FlagSetter>) -> u128 {
    match flag {
        Some(flag) => mask_of(flag) as u128,
        None => 0,
    }
}

// Returns the mask if the condition is true, and 0 otherwise.
const fn mask_if(condition: bool, mask: u128) -> u128 {
    if condition {
        mask
    } else {
        0
    }
}

// Returns whether `own` is `rule`.
const fn is_rule(own: Option<Rule>, rule: Rule) -> bool {
    match own {
        Some(own) => own as u8 == rule as u8,
        None => false,
    }
}
