//! The results of calls as numbers, with the names of the calls.

use std::num::NonZeroU8;

/// The results of `N` calls on one input.
#[derive(Clone, Copy)]
pub struct Results<const N: usize> {
    pub names: &'static [&'static str; N],
    pub values: [u128; N],
}

/// A result that is compared as a number.
pub trait Number {
    fn number(self) -> u128;
}

macro_rules! numbers {
    ($($type:ty)*) => {$(
        impl Number for $type {
            fn number(self) -> u128 {
                self as u128
            }
        }
    )*};
}

numbers!(bool u8 i32 u32 u64 usize u128);

impl Number for Option<u32> {
    fn number(self) -> u128 {
        self.map_or(u128::MAX, u128::from)
    }
}

impl Number for Option<NonZeroU8> {
    fn number(self) -> u128 {
        self.map_or(0, |byte| byte.get().into())
    }
}

/// The results of calls, each after its name.
macro_rules! results {
    ($($name:ident: $value:expr,)*) => {
        Results { names: &[$(stringify!($name)),*], values: [$(Number::number($value)),*] }
    };
}

pub(crate) use results;
