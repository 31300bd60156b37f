// Made by rust/tools/erase.py from crates/lexical_number/src/integer.rt: change that file.

//! Integer types, and the values of theirs that digits with a sign represent.

use crate::literal::value::number::numeral::{signed, Numeral};

/// An integer type.
pub trait Integer: Copy {
    /// Returns the value of `numeral`, or `None` if it is not a value of this type.
    fn from_numeral(numeral: &Numeral) -> Option<Self>;

    /// Returns whether the value is below 0, and the value without its sign.
    fn sign_and_size(self) -> (bool, u128);
}

// Returns whether a value is below 0, and the value without its sign.
const fn split(value: i128) -> (bool, u128) {
    (value < 0, value.unsigned_abs())
}

// Returns the value of a numeral as a value of a type that has no sign.
macro_rules! unsigned {
    ($numeral:ident as $type:ident) => {
        match $numeral.size(0, $type::MAX as u64) {
            Some(size) => Some(size as $type),
            None => None,
        }
    };
}

// Returns the value of a numeral as a value of a type that has a sign.
macro_rules! signed {
    ($numeral:ident as $type:ident) => {
        match $numeral.size(1 << ($type::BITS - 1), $type::MAX as u64) {
            Some(size) => Some(signed($numeral.negative, size) as $type),
            None => None,
        }
    };
}

impl Integer for u8 {
    #[inline(always)]
    fn from_numeral(numeral: &Numeral) -> Option<u8> {
        unsigned!(numeral as u8)
    }

    fn sign_and_size(self) -> (bool, u128) {
        (false, self as u128)
    }
}

impl Integer for u16 {
    #[inline(always)]
    fn from_numeral(numeral: &Numeral) -> Option<u16> {
        unsigned!(numeral as u16)
    }

    fn sign_and_size(self) -> (bool, u128) {
        (false, self as u128)
    }
}

impl Integer for u32 {
    #[inline(always)]
    fn from_numeral(numeral: &Numeral) -> Option<u32> {
        unsigned!(numeral as u32)
    }

    fn sign_and_size(self) -> (bool, u128) {
        (false, self as u128)
    }
}

impl Integer for u64 {
    #[inline(always)]
    fn from_numeral(numeral: &Numeral) -> Option<u64> {
        numeral.size(0, u64::MAX)
    }

    fn sign_and_size(self) -> (bool, u128) {
        (false, self as u128)
    }
}

impl Integer for usize {
    #[inline(always)]
    fn from_numeral(numeral: &Numeral) -> Option<usize> {
        unsigned!(numeral as usize)
    }

    fn sign_and_size(self) -> (bool, u128) {
        (false, self as u128)
    }
}

impl Integer for u128 {
    #[inline(always)]
    fn from_numeral(numeral: &Numeral) -> Option<u128> {
        numeral.as_u128()
    }

    fn sign_and_size(self) -> (bool, u128) {
        (false, self)
    }
}

impl Integer for i8 {
    #[inline(always)]
    fn from_numeral(numeral: &Numeral) -> Option<i8> {
        signed!(numeral as i8)
    }

    fn sign_and_size(self) -> (bool, u128) {
        split(self as i128)
    }
}

impl Integer for i16 {
    #[inline(always)]
    fn from_numeral(numeral: &Numeral) -> Option<i16> {
        signed!(numeral as i16)
    }

    fn sign_and_size(self) -> (bool, u128) {
        split(self as i128)
    }
}

impl Integer for i32 {
    #[inline(always)]
    fn from_numeral(numeral: &Numeral) -> Option<i32> {
        signed!(numeral as i32)
    }

    fn sign_and_size(self) -> (bool, u128) {
        split(self as i128)
    }
}

impl Integer for i64 {
    #[inline(always)]
    fn from_numeral(numeral: &Numeral) -> Option<i64> {
        numeral.as_i64()
    }

    fn sign_and_size(self) -> (bool, u128) {
        split(self as i128)
    }
}

impl Integer for isize {
    #[inline(always)]
    fn from_numeral(numeral: &Numeral) -> Option<isize> {
        signed!(numeral as isize)
    }

    fn sign_and_size(self) -> (bool, u128) {
        split(self as i128)
    }
}

impl Integer for i128 {
    #[inline(always)]
    fn from_numeral(numeral: &Numeral) -> Option<i128> {
        numeral.as_i128()
    }

    fn sign_and_size(self) -> (bool, u128) {
        split(self)
    }
}
