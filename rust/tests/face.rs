//! Iterators, text and conversions, which are written by hand over the proved calls, are compared with these calls on many
//! words, and with known texts on a few.

#[path = "../../compare/rust/src/random.rs"]
mod random;

use peltzivar::edits::edits_of;
use peltzivar::format::{NumberFormatBuilder, BASE_PREFIX_SHIFT, BASE_SUFFIX_SHIFT, STANDARD};
use peltzivar::literal::{Condition, Conditions, Form, FormError, Language, Literal, ReadError, Syntax, WriteError};
use peltzivar::{Edit, Error, FlagSetter, Format, FormatView, Settings};
use random::Random;
use std::{iter, num::NonZeroU8, panic};

/// Random words, random words with lawful radixes, and words near the standard format.
fn words() -> impl Iterator<Item = u128> {
    let mut random = Random::new(1);
    (0..20_000).map(move |index| match index % 3 {
        0 => random.bits(),
        1 => random.bits() & random.bits() & random.bits() & !(0xFFFFFF << 104) | 0x101010 << 104,
        _ => STANDARD ^ random.bits() & random.bits() & random.bits() & random.bits(),
    })
}

#[test]
fn a_format_is_made_of_a_word_a_text_a_view_or_a_builder() {
    for word in words() {
        let (format, view) = (Format::new(word), FormatView::new(word));
        let text = view.to_string();
        assert_eq!(format!("{text} {view:x} {view:#X}"), format!("{word:#034X} {word:x} {word:#X}"));
        assert_eq!((Format::try_from(word), text.parse()), (format, format), "{text}");
        assert_eq!(view.check(), format.map_err(Error::from), "{text}");
        assert!(format.err().is_none_or(|error| error.reasons().eq(view.reasons())), "{text}");
        if let Ok(format) = format {
            assert_eq!((format.to_string(), FormatView::from(format), u128::from(format)), (text, view, word));
            assert_eq!(format!("{format:x} {format:#X}"), format!("{word:x} {word:#X}"));
            let builder = NumberFormatBuilder::from(format);
            assert_eq!(builder, NumberFormatBuilder::from_word(word));
            assert!(format.notes().eq(view.notes()) && builder.notes().eq(view.notes()), "{format}");
            assert!(format.edits().eq(view.edits()), "{format}");
        }
    }
    const HEXADECIMAL: u128 = 0x00001000_00000000_00000000_0000000C;
    let built = NumberFormatBuilder::from_word(HEXADECIMAL).build_format();
    assert_eq!((built, Format::of::<HEXADECIMAL>().word()), (Format::new(HEXADECIMAL), HEXADECIMAL));
}

#[test]
fn edits_make_the_fields_of_their_word() {
    for word in words() {
        let (edits, count) = edits_of(word);
        assert!(FormatView::new(word).edits().eq(edits[..count].iter().copied()));
        let builder = NumberFormatBuilder::from_word(word);
        assert_eq!(edits[..count].iter().copied().collect::<NumberFormatBuilder>(), builder);
        // Each edit is of another field, so their order does not matter.
        let mut other: NumberFormatBuilder = edits[2..].iter().collect();
        other.extend(&edits[..1]);
        other.extend(edits[1..2].iter().copied());
        assert_eq!((other, other.view().word()), (builder, builder.build_unchecked()));
    }
}

/// Calls a function, and returns its value, or the text with which it panics.
fn stopped<T>(call: impl FnOnce() -> T + panic::UnwindSafe) -> Result<T, String> {
    panic::catch_unwind(call).map_err(|text| *text.downcast::<String>().expect("a text"))
}

/// The panic for a word has the description of the first broken rule, and the first reason. The panic for a format has
/// the reason alone. A reason may print any byte.
#[test]
fn an_unlawful_constant_stops_with_its_reason() {
    let twice = (0..=255).map(|byte| STANDARD | byte << BASE_PREFIX_SHIFT | byte << BASE_SUFFIX_SHIFT);
    for word in words().step_by(7).chain(twice) {
        let builder = NumberFormatBuilder::from_word(word);
        let reason = builder.view().reasons().next().map(|reason| reason.to_string());
        let format = builder.build_format().map_err(|error| (error.code(), reason.expect("a reason")));
        let with_code = |(code, reason): (Error, String)| format!("{}: {reason}", code.description());
        let wanted = format.clone().map(|format| format.word()).map_err(with_code);
        assert_eq!(stopped(|| builder.build_or_panic()), wanted, "{word:#034X}");
        assert_eq!(stopped(|| builder.build_format_or_panic()), format.map_err(|error| error.1), "{word:#034X}");
    }
}

/// An error displays the first reason. If there is none, it displays that a word begins with `0x`, or its code.
#[test]
fn an_error_states_its_cause() {
    let new = NumberFormatBuilder::new();
    let separator = new.digit_separator(NonZeroU8::new(b'_')).internal_digit_separator(true);
    #[rustfmt::skip]
    let rows = [
        (new.mantissa_radix(37).build_format().err(), Error::InvalidMantissaRadix, 1, "the mantissa radix 37 is not between 2 and 36"),
        (Format::new(0x00000A2B_00000000_00000000_8000003C).err(), Error::InvalidBaseSuffix, 3, "the base suffix '+' is a sign (+ or -)"),
        (separator.base_prefix(NonZeroU8::new(b'_')).build_format().err(), Error::InvalidPunctuation, 1, "the digit separator '_' and the base prefix '_' are the same"),
        ("0x0".parse::<Format>().err(), Error::InvalidMantissaRadix, 1, "the mantissa radix 0 is not between 2 and 36"),
        ("0x".parse::<Format>().err(), Error::Empty(2), 0, "lexical parse error: 'the string to parse was empty' at index 2"),
        ("0X1".parse::<Format>().err(), Error::InvalidDigit(1), 0, "a format word begins with `0x`"),
        (Format::default().check_options(b'e', b'e').err(), Error::InvalidPunctuation, 1, "the exponent character 'e' and the decimal point 'e' are the same"),
    ];
    for (error, code, count, printed) in rows {
        let error = error.expect(printed);
        assert_eq!((error.code(), error.reasons().count(), error.text().as_str()), (code, count, printed));
        assert_eq!(error.to_string(), printed);
        assert_eq!(Error::from(error), code);
        let debug = format!("FormatError {{ code: {code:?}, message: \"{printed}\" }}");
        assert_eq!(format!("{error:?}"), debug);
    }
    let view = FormatView::new(0x2525252B_2B00002B_00001E00_80004DF0);
    let error = Format::new(view.word()).unwrap_err();
    assert!(error.reasons().eq(view.reasons()) && error == Format::new(view.word()).unwrap_err());
    assert_ne!(error, Format::new(0).unwrap_err());
}

#[test]
#[cfg(target_pointer_width = "64")]
fn values_are_small() {
    let sizes =
        [size_of::<Syntax>(), size_of::<Literal>(), size_of::<ReadError>(), size_of::<FormError>(), size_of::<Form>()];
    assert!(sizes.into_iter().zip([32, 160, 80, 112, 96]).all(|(size, most)| size <= most), "{sizes:?}");
}

/// Returns the name of a type, and an error that has it.
fn named<T: std::error::Error + 'static>(error: T) -> (&'static str, Box<dyn std::error::Error>) {
    (std::any::type_name::<T>().rsplit("::").next().unwrap(), Box::new(error))
}

/// Each type of errors, by the list of public items, prints a sentence that its sources do not print again.
#[test]
fn a_chain_of_errors_has_each_sentence_once() {
    let settings = Settings::read(["radix=37"]).unwrap();
    let read = Language::JSON.read("").unwrap_err();
    let misfit =
        Syntax::integers(Format::default()).with_conditions(Conditions::NONE.integer_group_size(Some(9))).unwrap_err();
    let [missing, large] = ["", "256"].map(|text| Language::JSON.parse::<u8>(text).unwrap_err());
    #[rustfmt::skip]
    let errors = [
        named(Error::Empty(1)), named(Format::new(0).unwrap_err()), named(FormatView::new(0).reasons().next().unwrap()),
        named("".parse::<Edit>().unwrap_err()), named(Settings::new().add("x").unwrap_err()), named(WriteError::Radix),
        named(settings.reasons().next().unwrap()), named(misfit), named(read), named(read.error().unwrap()), named("".parse::<Language>().unwrap_err()),
        named(missing), named(large), named(Language::C.token("1e").unwrap_err()), named(i8::try_from(Language::JSON.read("1.5").unwrap()).unwrap_err()),
    ];
    let listed = include_str!("surface.rs").lines().filter_map(|line| line.strip_suffix(": std::error::Error {} };"));
    let mut listed = listed.filter_map(|line| line.split(' ').next_back());
    assert_eq!(listed.find(|name| errors.iter().all(|(it, _)| it != name)), None);
    for (name, error) in &errors {
        let chain = Vec::from_iter(iter::successors(Some(&**error), |it| it.source()).map(ToString::to_string));
        let is_new = |index: usize| chain[..index].iter().all(|it| !it.contains(&chain[index]));
        assert!((1..chain.len()).all(is_new), "{name}: {chain:?}");
    }
}

#[test]
fn setters_of_flags_are_parsed() {
    for setter in FlagSetter::ALL {
        assert_eq!(setter.to_string().parse(), Ok(*setter));
    }
    // Byte setters have no flag.
    const NEAR: &str = "; did you mean `no_special`?";
    for (name, near) in [("digit_separator", ""), ("radix", ""), ("no_special ", NEAR), ("NO_SPECIAL", NEAR), ("", "")]
    {
        let error = name.parse::<FlagSetter>().unwrap_err();
        assert_eq!(error.to_string(), format!("unknown setting name{near}"), "{name}");
    }
}

#[test]
fn a_syntax_is_written_as_its_normal_form_and_its_options() {
    for format in words().filter_map(|word| Format::new(word).ok()) {
        let (normal, integers) = (format.normal_form(), Syntax::integers(format));
        assert_eq!((integers.to_string(), normal.to_string().parse()), (normal.to_string(), Ok(integers)));
        for [exponent, point] in [*b"e.", *b"p,", *b"x.", *b"5.", *b"^-", *b"^^", *b"\0."] {
            let (syntax, text) = (Syntax::new(format, exponent, point), format!("{normal} {exponent} {point}"));
            assert_eq!((text.parse(), syntax.map_or(text.clone(), |it| it.to_string())), (syntax, text));
            let text = syntax.map_err(|error| error.to_string());
            assert_eq!(stopped(|| Syntax::new_or_panic(format, exponent, point)), text);
        }
    }
}

#[test]
fn syntaxes_are_parsed() {
    const OPTION: &str = "each of the two options is a character such as 'e', a number from 0 to 255, or `none`";
    const INTEGERS: &str = "0x0A0A0A0000000000000000000000000C";
    const NUMBERS: &str = "0x0A0A0A0000000000000000000000000C 101 46";
    const WORD: &str = "0x101010687800005F000000070000000C";
    // Each condition is set, with another number than those before it if it takes several.
    let setting = |(index, it): (usize, &Condition)| match it.limits() {
        (1, 1) => format!(" {}=true", it.name()),
        (least, most) => format!(" {}={}", it.name(), least + index as u8 % (most - least + 1)),
    };
    let conditions = WORD.to_string() + &Condition::ALL.iter().enumerate().map(setting).collect::<String>();
    let conditions = conditions.as_str();
    #[rustfmt::skip]
    let rows = [
        ("0x00000A0000000000000000000000000C", Ok(INTEGERS)),
        ("0x00000a0000000000000000000000000c 101 046", Ok(NUMBERS)),
        ("0x00000A0000000000000000000000000C 'e' 0x2e", Ok(NUMBERS)),
        ("0x00000A0000000000000000000000000C none 0", Ok(INTEGERS)),
        (conditions, Ok(conditions)),
        // A space between quotes is a character.
        ("0x00000A0000000000000000000000000C 'e' ' '", Ok("0x0A0A0A0000000000000000000000000C 101 32")),
        ("0x00000A0000000000000000000000000C ' ' '.'", Ok("0x0A0A0A0000000000000000000000000C 32 46")),
        // No flag allows the separator, so that it may be the decimal point.
        ("0x00000A000000002E000000000000000C 101 46", Ok(NUMBERS)),
        ("0x00000A0000000000000000000000000C 101", Err((Error::InvalidDigit(38), OPTION))),
        ("0x00000A0000000000000000000000000C 101 ", Err((Error::InvalidDigit(39), OPTION))),
        ("0x00000A0000000000000000000000000C e .", Err((Error::InvalidDigit(35), OPTION))),
        ("0x00000A0000000000000000000000000C 101 46 1", Err((Error::InvalidDigit(39), OPTION))),
        ("0x00000A0000000000000000000000000C 101 1000", Err((Error::InvalidDigit(39), OPTION))),
        ("0x00000A0000000000000000000000000C none '.'", Err((Error::InvalidExponentSymbol,
            "only one of the exponent character and the decimal point is absent: for numbers without an exponent, keep \
             both, and set no_exponent_notation"))),
        // Only what quotes have may be white space.
        ("0x00000A0000000000000000000000000C 101  46", Err((Error::InvalidDigit(39), OPTION))),
        ("0x00000A0000000000000000000000000C 101\t 46", Err((Error::InvalidDigit(35), OPTION))),
        ("0x0 101", Err((Error::InvalidMantissaRadix, "the mantissa radix 0 is not between 2 and 36"))),
        ("0x00000A0000000000000000000000000C ' ' '.' required_base_prefix=true", Err((Error::InvalidBasePrefix,
            "required_base_prefix is set, and the format has no base prefix"))),
        ("0x0A0A0A0078000000000000000000000C required_base_prefix=1",
            Err((Error::InvalidDigit(35), "required_base_prefix takes `true` or `false`"))),
        ("0x1g 101 46", Err((Error::InvalidDigit(3), "lexical parse error: 'invalid digit found' at index 3"))),
        (" 0xC", Err((Error::Empty(0), "a format word begins with `0x`"))),
    ];
    for (text, wanted) in rows {
        let syntax = text.parse::<Syntax>().map(|syntax| syntax.to_string());
        let wanted = wanted.map_err(|(code, printed)| (code, printed.to_string()));
        let found = syntax.as_deref().map_err(|error| (error.code(), error.to_string()));
        assert_eq!(found, wanted, "{text}");
    }
    let refused = |text: &str| text.parse::<Syntax>().err().map(|error| (error.code(), error.to_string()));
    for size in 0..1000 {
        let sentence = "integer_group_size takes a number from 2 to 8, or `none`".to_string();
        let wanted = (!matches!(size, 0 | 2..=8)).then_some((Error::InvalidDigit(35), sentence));
        assert_eq!(refused(&format!("{WORD} integer_group_size={size}")), wanted, "{size}");
    }
    let [integers, numbers] = [INTEGERS, NUMBERS].map(|text| text.parse::<Syntax>().expect(text));
    assert!(integers < numbers);
}

/// What `{:?}` shows. The span is that which is shown to users.
#[test]
fn syntaxes_and_errors_are_shown() {
    let syntax = Syntax::new_or_panic(Format::new(0xC | 8 << 104).unwrap(), b'e', b',');
    let (shown, front) =
        (format!("{syntax:?}"), "Syntax { format: FormatView { word: 0x0808080000000000000000000000000C, ");
    assert!(shown.starts_with(front), "{shown}");
    assert!(shown.contains(" }, exponent: Some('e'), point: Some(','), conditions: Conditions {"), "{shown}");
    let answers = "valid_up_to: 4, byte: Some(195), kind: Byte, span: 4..6, message: \"unexpected character '\u{E9}'\"";
    assert_eq!(format!("{:?}", syntax.read("+12,\u{E9}").unwrap_err()), format!("ReadError {{ {answers} }}"));
    let parts = r#"sign: "+", integer: "1", point: ",", fraction: "2", exponent_character: "e", exponent: "3""#;
    assert_eq!(format!("{:?}", syntax.read("+1,2e3").unwrap()), format!("Literal {{ {parts} }}"));
}
