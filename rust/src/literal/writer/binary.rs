// Made by rust/tools/erase.py from crates/lexical_writer/src/binary.rt: change that file.

//! Floats as odd numbers times powers of two.

use crate::literal::value::number::shortest::units_of;
use crate::literal::writer::form::Powers;

// What is added to the exponent of a power of two. Each number of bits of a digit divides it.
const RAISED: u64 = 1200;

// Returns the float with these bits as an odd number, or 0, times two to the power of what is returned, less 1200.
fn odd_of(double: bool, size: u64) -> (u64, u64) {
    let units = units_of(double, size);
    if units.size == 0 {
        return (0, RAISED);
    }
    let zeros = units.size.trailing_zeros() as u64 % 64;
    (units.size >> zeros, units.scale + zeros + RAISED - 1074)
}

// Returns the number of bits of a digit of a radix that is a power of two.
const fn bits_in(radix: u32) -> u64 {
    match radix {
        2 => 1,
        4 => 2,
        8 => 3,
        16 => 4,
        _ => 5,
    }
}

// Returns the exponent of two of the first bit of a number times two to a power, or 1200 for the number 0.
fn top_of(number: u64, power: u64) -> u64 {
    if number == 0 {
        RAISED
    } else {
        power + (63 - number.leading_zeros() as u64 % 64)
    }
}

// Returns the float with these bits in a radix and with an exponent base that are powers of two.
pub(crate) fn binary_powers(double: bool, size: u64, radix: u32, base: u32) -> Powers {
    let (number, power) = odd_of(double, size);
    Powers {
        number,
        base: 2,
        power,
        top: top_of(number, power),
        zero: RAISED,
        width: bits_in(radix),
        step: bits_in(base),
    }
}
