//! Calls that find languages, and that read special values.

use crate::arguments::{input, Out, ValueStatus};
use crate::lists::Forms;
use crate::names::{at, texts};
use peltzivar::literal::{Language, Sign, Special};

/// A special value: the number of its spelling, and its sign, or 0 without one.
#[repr(C)]
pub struct NumberedSpecial {
    spelling: u8,
    sign: u8,
    reserved: [u8; 6],
}

const _: () = assert!(size_of::<NumberedSpecial>() == 8, "the size in the header");

impl From<Special> for NumberedSpecial {
    fn from(special: Special) -> NumberedSpecial {
        let sign = special.sign.map_or(0, |sign| if sign == Sign::Plus { b'+' } else { b'-' });
        NumberedSpecial { spelling: special.spelling as u8 + 1, sign, reserved: [0; 6] }
    }
}

/// Defines a call for each language, so that a program that calls one has the forms of this one alone.
macro_rules! languages {
    ($($NAME:ident $call:ident)*) => {
        $(
            #[unsafe(no_mangle)]
            extern "C" fn $call() -> Option<&'static Forms> {
                const { Some(Language::$NAME.forms()) }
            }
        )*

        /// The calls of all languages, in the order of their names.
        static CALLS: [extern "C" fn() -> Option<&'static Forms>; Language::ALL.len()] = [$($call),*];
    };
}

// `languages!` with the name and the call of each language.
include!(concat!(env!("OUT_DIR"), "/calls.rs"));

texts! {
    NAMES: [Language::ALL.len()] = |index| Language::ALL[index].name().as_bytes();
    TITLES: [Language::ALL.len()] = |index| Language::ALL[index].title().as_bytes();
}

calls! {
    fn peltzivar_forms_read_special(
        forms: Option<&Forms>, text: *const u8, len: usize, out: Out<NumberedSpecial>
    ) -> ValueStatus {
        out.write_some(forms.and_then(|it| it.specials().read(&it[0].syntax(), input(text, len)?)))
    }

    fn peltzivar_language(name: *const u8, len: usize) -> Option<&'static Forms> {
        let name = input(name, len).unwrap_or_default();
        // `eq_ignore_ascii_case` has 3 kB of code.
        let upper = u8::to_ascii_uppercase;
        let is_named = |it: &[u8]| it.len() == name.len() && it.iter().zip(name).all(|(a, b)| upper(a) == upper(b));
        let index = |all: &[u8]| all.split(|byte| *byte == 0).position(is_named);
        index(NAMES).or_else(|| index(TITLES)).and_then(|index| CALLS.get(index)?())
    }

    fn peltzivar_language_name(index: usize) -> *const u8 { at(NAMES, index) }

    fn peltzivar_language_title(index: usize) -> *const u8 { at(TITLES, index) }
}
