//! Floats that are written: they are read back as the same bits, by as few digits as std's.

#[path = "../../compare/rust/src/random.rs"]
mod random;

use peltzivar::literal::{ExponentStyle, FromLiteral, Language, Style, Syntax, WriteError, WriteFloat};
use peltzivar::Format;
use random::Random;
use std::fmt::{Debug, Display, LowerExp};

/// How many floats are written: `FLOATS=1000000 cargo test --release --test floats` writes more.
fn count() -> usize {
    std::env::var("FLOATS").map_or(2_000, |count| count.parse().unwrap())
}

/// A float type, and its bits.
trait Bits: WriteFloat + FromLiteral + LowerExp + Debug {
    const FRACTION: u32;
    fn of(bits: u64) -> Self;
    fn word(self) -> u64;
    fn near(value: f64) -> Self;
}

macro_rules! bits {
    ($($type:ident $fraction:literal)*) => {
        $(impl Bits for $type {
            const FRACTION: u32 = $fraction;
            fn of(bits: u64) -> $type {
                $type::from_bits(bits as _)
            }
            fn word(self) -> u64 {
                self.to_bits().into()
            }
            fn near(value: f64) -> $type {
                value as $type
            }
        })*
    };
}

bits! { f64 52 f32 23 }

/// Returns a float: of any bits, small or large, a power of two or beside one, subnormal, a decimal, or an integer.
fn float<F: Bits>(state: &mut Random) -> F {
    let bits = state.next();
    let [small, large] = [bits % 1_000_000, bits >> 20];
    let sign = if bits >> 63 == 0 { 1.0 } else { -1.0 };
    match state.next() % 10 {
        0 => F::of(bits >> F::FRACTION << F::FRACTION),
        1 => F::of((bits >> F::FRACTION << F::FRACTION).wrapping_add(1)),
        2 => F::of((bits >> F::FRACTION << F::FRACTION).wrapping_sub(1)),
        3 => F::of(bits % (1 << F::FRACTION)),
        4 => F::near(sign * small as f64 / [1.0, 10.0, 100.0, 1e5, 1e20][(bits >> 40) as usize % 5]),
        5 => F::near(sign * large as f64 / 10_f64.powi((bits >> 10) as i32 % 40)),
        6 => F::near(sign * (large >> (bits % 44)) as f64 / 2.0),
        7 => F::near(sign * large as f64 * 10_f64.powi((bits >> 10) as i32 % 40)),
        _ => F::of(bits),
    }
}

/// Writes a float, and compares the text with that of std, which also has NaN and infinity.
fn is_written<F: Bits>(value: F, style: Style, wanted: &str) {
    match Language::JSON.forms()[0].syntax().format_float(value, style) {
        Ok(text) => assert_eq!(text.to_string(), wanted, "{value:e}"),
        Err(error) => {
            assert!(error == WriteError::Special && !wanted.contains(char::is_numeric), "{value:e}: {error}")
        }
    }
}

/// Writes a float with the exponent of the number, with one and with none, as std does.
#[test]
fn floats_are_written_as_std_writes_them() {
    fn compare<F: Bits + Display>(value: F) {
        let plain = format!("{value}");
        let never = if plain.ends_with(char::is_numeric) && !plain.contains('.') { plain + ".0" } else { plain };
        for (wish, wanted) in [
            (ExponentStyle::AsNumber, format!("{value:?}")),
            (ExponentStyle::Always, format!("{value:e}")),
            (ExponentStyle::Never, never),
        ] {
            is_written(value, Style::PLAIN.exponent(wish), &wanted);
        }
    }
    let state = &mut Random::new(20_261_132);
    (-323..=308).for_each(|power| compare(format!("1e{power}").parse::<f64>().unwrap()));
    (-45..=38).for_each(|power| compare(format!("1e{power}").parse::<f32>().unwrap()));
    for _ in 0..10 * count() {
        compare(float::<f64>(state));
        compare(float::<f32>(state));
    }
}

/// Rounds a float to so many digits behind the point, without an exponent and with one, as std does.
fn is_rounded<F: Bits + Display>(value: F, places: usize) {
    let style = Style::PLAIN.decimals(places as u8);
    is_written(value, style, &format!("{value:.places$}"));
    is_written(value, style.exponent(ExponentStyle::Always), &format!("{value:.places$e}"));
}

#[test]
fn floats_are_rounded_as_std_rounds_them() {
    for places in 0..=24 {
        (-323..=308).for_each(|power| is_rounded(format!("1e{power}").parse::<f64>().unwrap(), places));
        (-45..=38).for_each(|power| is_rounded(format!("1e{power}").parse::<f32>().unwrap(), places));
        (1..100).for_each(|bits| is_rounded(f64::from_bits(bits), places));
        (1..100).for_each(|bits| is_rounded(f32::from_bits(bits), places));
    }
    let state = &mut Random::new(20_261_130);
    for index in 0..20 * count() {
        let places = if index % 10 == 0 { state.next() % 256 } else { state.next() % 21 };
        // One more digit than `places`, the last of which is a 5, is a tie.
        let value = match state.next() % 4 {
            0 => (state.next() >> (11 + places % 50) | 1) as f64 / 2_f64.powi(places as i32 + 1),
            _ => float::<f64>(state),
        };
        is_rounded(value, places as usize);
        is_rounded(float::<f32>(state), places as usize);
    }
}

#[test]
fn floats_have_all_their_digits() {
    let json = Language::JSON.forms()[0].syntax();
    let max = json.format_float(f64::MAX, Style::PLAIN.decimals(255)).unwrap();
    assert_eq!(max.to_string(), format!("{:.255}", f64::MAX));
    let binary = Syntax::new(Format::new(0xC | 1 << 6 | 2 << 104).unwrap(), b'e', b'.').unwrap();
    for (value, wanted) in [(2_f64.powi(1023), format!("1{:0<1023}.0", "")), (5e-324, format!("0.{:0>1074}", 1))] {
        assert_eq!(binary.format_float(value, Style::PLAIN.decimals(2)).unwrap().to_string(), wanted);
    }
}

/// In the radixes and bases that are powers of two. `c/tests/test_writing.py` writes floats in any syntax.
#[test]
fn floats_are_read_back_in_powers_of_two() {
    fn compare<F: Bits>(value: F, syntax: &Syntax) {
        match syntax.format_float(value, Style::PLAIN) {
            Ok(text) => assert_eq!(syntax.parse(text.to_string()).map(F::word), Ok(value.word()), "{value:e}: {text}"),
            Err(error) => {
                let is_finite = format!("{value:?}").contains(char::is_numeric);
                assert!(error == WriteError::Special && !is_finite, "{value:e}: {error}");
            }
        }
    }
    let state = &mut Random::new(20_261_129);
    for (radix, base) in (1..=5).flat_map(|radix| (1..=5).map(move |base| (1 << radix, 1 << base))) {
        let format = Format::new(0xC | radix << 104 | base << 112 | 10 << 120).unwrap();
        for _ in 0..count() / 10 {
            compare::<f64>(float(state), &Syntax::new_or_panic(format, b'^', b'.'));
            compare::<f32>(float(state), &Syntax::new_or_panic(format, b'^', b'.'));
        }
    }
}
