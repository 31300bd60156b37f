//! Settings as text.

use peltzivar::edits::{ArgumentKind, Edit, Setter};
use peltzivar::EditErrorKind::{BadValue, NoEquals, UnknownName};

/// Each edit is printed as `NAME=VALUE`, and is parsed from this text.
#[test]
fn edits_are_read_back() {
    for (setter, name) in Setter::ALL.iter().zip(Edit::NAMES) {
        let is_flag = setter.kind() == ArgumentKind::Flag;
        for byte in 0..=if is_flag { 1 } else { 255 } {
            let edit = setter.with_flag(byte == 1).or(setter.with_byte(byte)).unwrap();
            assert_eq!([setter.with_flag(true).is_some(), setter.with_byte(byte).is_none()], [is_flag; 2], "{name}");
            let value = match (setter.kind(), byte) {
                (ArgumentKind::Flag, _) => (byte == 1).to_string(),
                (ArgumentKind::OptionalCharacter | ArgumentKind::OptionalNumber, 0) => "none".to_string(),
                _ => byte.to_string(),
            };
            assert_eq!(edit.to_string(), format!("{name}={value}"));
            assert_eq!((Edit::from_setting(name, &value), setter.parse(&value)), (Ok(edit), Ok(edit)));
            assert_eq!((edit.to_string().parse(), edit.mask()), (Ok(edit), setter.mask()));
        }
    }
}

/// A refused value has a sentence that names the setter and what it takes.
#[test]
fn a_refused_setting_has_a_sentence() {
    for setter in Setter::ALL {
        let name = setter.name();
        let takes = match setter.kind() {
            ArgumentKind::Flag => "`true` or `false`",
            ArgumentKind::OptionalCharacter => "a character such as '_', a number from 0 to 255, or `none`",
            ArgumentKind::OptionalNumber => "a number, 2 to 36 in a lawful format, or `none`",
            _ => "a number, 2 to 36 in a lawful format",
        };
        for value in ["", "_", "True", "true=true", "0010", "256", "0x100"] {
            let error = format!("{name}={value}").parse::<Edit>().unwrap_err();
            let wanted = (BadValue, Some(name), format!("{name} takes {takes}"));
            assert_eq!((error.kind(), error.name(), error.to_string()), wanted, "{value}");
        }
    }
    let near = |name| (UnknownName, format!("unknown setting name; did you mean `{name}`?"));
    for (text, wanted) in [
        ("radix", (NoEquals, "expected NAME=VALUE".into())),
        ("", (NoEquals, "expected NAME=VALUE".into())),
        ("=7", (UnknownName, "unknown setting name".into())),
        ("RADIX=7", near("radix")),
        ("digit_seperator=_", near("digit_separator")),
        ("no-special=true", near("no_special")),
    ] {
        let error = text.parse::<Edit>().unwrap_err();
        assert_eq!(((error.kind(), error.to_string()), error.name()), (wanted, None), "{text}");
    }
}
