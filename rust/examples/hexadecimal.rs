//! Reads hexadecimal integers, such as `1_FF`. A format that is not lawful does not compile.

use core::num::NonZeroU8;
use peltzivar::literal::{ParseError, Syntax};
use peltzivar::NumberFormatBuilder;

const INTEGERS: Syntax = Syntax::integers(
    NumberFormatBuilder::new()
        .mantissa_radix(16)
        .digit_separator(NonZeroU8::new(b'_'))
        .internal_digit_separator(true)
        .build_format_or_panic(),
);

fn main() {
    for text in ["1_FF", "1__FF", "1_0000"] {
        match INTEGERS.parse::<u16>(text) {
            Ok(value) => println!("{text} is {value}"),
            Err(ParseError::Value(error)) => println!("{text} is {error}"),
            Err(ParseError::Read(error)) => {
                let (start, len) = (error.span().start, text[error.span()].chars().count().max(1));
                println!("{text}\n{:start$}{:^<len$} {error}", "", "");
            }
        }
    }
}
