//! The modules for serde that RUST shows. `cargo test` runs this program where Debian's packages are installed.

use peltzivar::Format;
use peltzivar::literal::{Language, Syntax};
use serde::{Deserialize, Serialize};

/// Keeps a value as its text: a `Format`, a `FormatView`, a `Syntax` or an `Edit`.
mod as_text {
    use serde::{Deserialize, Deserializer, Serializer, de::Error};
    use std::{borrow::Cow, fmt::Display, str::FromStr};

    pub fn serialize<S: Serializer>(value: &impl Display, to: S) -> Result<S::Ok, S::Error> {
        to.collect_str(value)
    }

    pub fn deserialize<'de, T: FromStr<Err: Display>, D: Deserializer<'de>>(from: D) -> Result<T, D::Error> {
        Cow::<str>::deserialize(from)?.parse().map_err(D::Error::custom)
    }
}

/// Keeps an integer as a number of Rust, such as `0xFF` or `1_000`.
mod as_rust {
    use peltzivar::literal::{FromLiteral, Language, Style, WriteInteger};
    use serde::{Deserialize, Deserializer, Serializer, de::Error as _, ser::Error as _};
    use std::borrow::Cow;

    pub fn serialize<T: WriteInteger + Copy, S: Serializer>(value: &T, to: S) -> Result<S::Ok, S::Error> {
        let text = Language::RUST.forms().format_integer(*value, Style::PLAIN);
        to.collect_str(&text.map_err(S::Error::custom)?)
    }

    pub fn deserialize<'de, T: FromLiteral, D: Deserializer<'de>>(from: D) -> Result<T, D::Error> {
        Language::RUST.parse(&*Cow::<str>::deserialize(from)?).map_err(D::Error::custom)
    }
}

#[derive(Deserialize, Serialize, PartialEq, Debug)]
struct Column {
    #[serde(with = "as_text")]
    format: Format,
    #[serde(with = "as_text")]
    syntax: Syntax,
    #[serde(with = "as_rust")]
    largest: u64,
}

fn main() {
    let syntax = Language::JSON.forms().as_slice()[0].syntax();
    let column = Column { format: syntax.format(), syntax, largest: 255 };
    let text = serde_json::to_string(&column).unwrap();
    assert!(text.ends_with(r#","largest":"255"}"#), "{text}");
    assert_eq!(serde_json::from_str::<Column>(&text).unwrap(), column);
    assert_eq!(serde_json::from_str::<Column>(&text.replace("255", "0xF_F")).unwrap(), column);
    let error = serde_json::from_str::<Column>(&text.replace("255", "-1")).unwrap_err().to_string();
    assert!(error.starts_with("unexpected minus sign"), "{error}");
}
