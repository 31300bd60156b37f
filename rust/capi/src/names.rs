//! Calls that return strings. The strings are constants, and a string is empty if there is no such number.

use crate::arguments::item;
use crate::numbers::{error_of, setter_number, ErrorNumber, Setter};
use peltzivar::edits;

/// Defines texts, by their indices, one after another and with a null byte behind each.
macro_rules! texts {
    ($($NAME:ident: [$COUNT:expr] = |$index:ident| $text:expr;)*) => {
        $(
            static $NAME: &[u8] = &{
                const SIZE: usize = {
                    let (mut size, mut $index) = (0, 0);
                    while $index < $COUNT {
                        let text: &[u8] = $text;
                        size += text.len() + 1;
                        $index += 1;
                    }
                    size
                };
                let (mut texts, mut size, mut $index) = ([0; SIZE], 0, 0);
                while $index < $COUNT {
                    let text: &[u8] = $text;
                    let end = size + text.len();
                    while size < end {
                        texts[size] = text[text.len() + size - end];
                        size += 1;
                    }
                    (size, $index) = (end + 1, $index + 1);
                }
                texts
            };
        )*
    };
}
pub(crate) use texts;

texts! {
    SETTER_NAMES: [edits::Setter::ALL.len()] = |index| edits::Setter::ALL[index].name().as_bytes();
    DESCRIPTIONS: [49] = |number| match error_of(number as ErrorNumber, 0) {
        Some(error) => error.description().as_bytes(),
        None => b"",
    };
}

/// Returns the text with an index, or an empty one.
pub fn at(texts: &'static [u8], index: impl TryInto<usize>) -> *const u8 {
    let index = index.try_into().unwrap_or(usize::MAX);
    item(texts.split_inclusive(|byte| *byte == 0), index).map_or(&[0][..], |it| it).as_ptr()
}

calls! {
    fn peltzivar_setter_name(setter: Setter) -> *const u8 {
        at(SETTER_NAMES, edits::Setter::ALL.iter().position(|it| setter_number(*it) == setter).unwrap_or(usize::MAX))
    }
    fn peltzivar_description(error: ErrorNumber) -> *const u8 { at(DESCRIPTIONS, error) }
}
