//! A number format states how numbers may be written: their radix, prefix, signs and digit separators. Here, a format
//! is a `u128` that holds flags and six bytes. This crate is for code that parses, writes or checks numbers. It
//! builds, reads, checks and edits formats, explains why a format is not lawful, and finds the parts and the value of a
//! number, or why a text is not one.
//!
//! The [`u128`] is called the *format word*. It can be a const generic argument. The word is *lawful* if it satisfies
//! every [`Rule`]: each radix is between 2 and 36, no two flags contradict each other, each character is allowed ASCII
//! and has only one role, and the *reserved* bits, which hold no field, are 0.
//!
//! ```
#![doc = include_str!("../examples/hexadecimal.rs")]
//! ```
//!
//! # Where to begin
//!
//! | To | Use |
//! |---|---|
//! | write a format as a constant | [`NumberFormatBuilder`] and its [`build_format_or_panic`][NumberFormatBuilder::build_format_or_panic], or [`build_or_panic`][NumberFormatBuilder::build_or_panic] for the word |
//! | take a checked format as an argument | [`Format`] |
//! | read numbers of a language | [`Language`][literal::Language] |
//! | read numbers of a format | its [`Syntax`][literal::Syntax]; [`Specials`][literal::Specials] for NaN and infinity |
//! | compute values | [`Syntax::parse`][literal::Syntax::parse], and `try_from` of an integer type, `f64` or `f32` |
//! | report why a text is not a number | [`ReadError`][literal::ReadError] |
//! | describe a format to users | [`sentence`][literal::Syntax::sentence], [`grammar`][literal::Syntax::grammar] and [`regex`][literal::Syntax::regex] of its `Syntax` |
//! | write numbers | [`Syntax::format_integer`][literal::Syntax::format_integer], [`Syntax::format_literal`][literal::Syntax::format_literal] |
//! | write a reader of your own | [`FormatView::is_separator`], [`separators`][FormatView::separators], [`role_of`][FormatView::role_of] |
//! | read the fields of any word, lawful or not | [`FormatView`]; [`NumberFormat`] for a word that is known at compile time |
//! | read a configuration | [`Settings`], which knows the lines to blame; [`Edit`] for a single setting, and [`collect`][Iterator::collect] to turn edits into a builder |
//! | report the problems with a word | [`FormatError`], [`FormatView::reasons`], [`Reason::mask`], [`FormatView::notes`] |
//! | derive a format from another | [`NumberFormatBuilder::from`], or [`edits::edit_word`] |
//! | compare two formats | [`Format::normal_form`], [`edits::same_format`] |
//! | store words as text | `Display` and `FromStr` of [`Format`], [`FormatView`] and [`Syntax`][literal::Syntax] |
//! | convert words that `lexical-util` stored | [`edits::migrate`] |
//!
//! [`docs::rust`] has more of each task. [`docs::format`] defines each flag and rule, and which texts are numbers,
//! [`docs::forms`] numbers of several forms, tokens, and what is written, [`docs::explanations`] why a text is not a number,
//! and [`docs::settings`] how settings are written. [`docs::changelog`] lists what does not change until 2.0.
//!
//! # From `lexical-util`
//!
//! Modules, types and methods have the same names as in `lexical-util` 1.0.7. To migrate a program, change the name of
//! the crate in its `use` lines. A word is a `u128`, as there, so it can be the const argument of a call of
//! `lexical-core`. The differences are:
//!
//! - `build_strict` returns a `Result`. In a constant, call `build_or_panic` instead.
//! - A base prefix, base suffix or exponent character that is a letter matches both cases, unless a flag makes it
//!   case-sensitive. A word in which a reserved bit is set is not lawful.
//! - The prebuilt formats of `lexical-util`, such as `JSON`, are not included. [`Language`][literal::Language] has formats
//!   of languages.
//!
//! [`Format`], [`FormatView`], [`FormatError`], [`edits`], [`literal`], [`Settings`], [`Reason`], [`Note`] and
//! [`source`] are new.
//!
//! # What is proved
//!
//! The library is written in Rattle, which is Rust with contracts. A prover verified that every function meets its
//! contract. From this code, a program in the repository generated the files that begin with `Made by`. In the
//! documentation, `Proved of the source` heads what the contracts of a call state.
//!
//! All other files are written by hand: [`Settings`], [`NumberFormat`] with the calls of [`mod@format`],
//! [`Language`][literal::Language], traits, iterators and texts, the tests of slices in [`ascii`], `sentence`, `grammar` and
//! `regex` of a [`Syntax`][literal::Syntax], and what is around proved calls, such as `parse` around those that read and
//! convert. A build of this crate proves nothing. You trust the program that generated the files, the handwritten parts
//! and `rustc`.
#![no_std]
#![forbid(unsafe_code)]
#![allow(clippy::len_zero, clippy::module_inception, clippy::needless_lifetimes)]
#![allow(clippy::redundant_pattern_matching, reason = "code is as it is proved")]

/// What the documentation adds to items that may change in any version. `rust/tools/surface.py` finds it.
macro_rules! may_change {
    () => {
        "\n\n**May change in any version**: see [Until 2.0][crate::docs::changelog#until-20]."
    };
}

/// Defines conversions. A row has a name, the types, and a value of the second one.
macro_rules! conversions {
    ($($(#[$about:meta])* $it:ident: $Source:ident => $Target:ident { $value:expr })*) => {
        $(
            impl From<$Source> for $Target {
                $(#[$about])*
                #[inline]
                fn from($it: $Source) -> Self {
                    $value
                }
            }
        )*
    };
}

// The documentation shows methods in this order, so getters of `feature_format` are after the others.
mod lawful;
mod lists;
mod view;

pub mod ascii;
mod debug;
pub mod digit;
/// Pages, which are in the documentation alone.
#[cfg(all(doc, not(doctest)))]
#[allow(rustdoc::invalid_rust_codeblocks, reason = "pages show programs and what they print")]
pub mod docs {
    #[doc = include_str!("../CHANGELOG.txt")]
    pub mod changelog {}
    #[doc = include_str!("../EXPLANATIONS.txt")]
    pub mod explanations {}
    #[doc = include_str!("../FORMAT.txt")]
    pub mod format {}
    #[doc = include_str!("../FORMS.txt")]
    pub mod forms {}
    #[doc = include_str!("../RUST.txt")]
    pub mod rust {}
    #[doc = include_str!("../SETTINGS.txt")]
    pub mod settings {}
}
pub mod edits;
pub mod error;
pub mod feature_format;
pub mod format;
pub mod format_builder;
mod format_error;
#[doc(hidden)]
pub mod format_flags;
pub mod literal;
mod numeral;
#[doc(hidden)]
pub mod reasons;
mod settings;
#[doc(hidden)]
pub mod short_text;
#[expect(clippy::exhaustive_structs, reason = "written by callers")]
pub mod source;
mod text;
#[doc(hidden)]
pub mod word;
#[doc(hidden)]
pub mod word_text;

#[doc(no_inline)]
pub use edits::{Edit, EditError, EditErrorKind, FlagSetter, Setter};
#[doc(no_inline)]
pub use error::Error;
#[doc(no_inline)]
pub use feature_format::NumberFormat;
#[doc(no_inline)]
pub use format_builder::NumberFormatBuilder;
#[doc(inline)]
pub use format_flags::{Part, Rule};
#[doc(inline)]
pub use lawful::{Format, FormatError};
#[doc(inline)]
pub use reasons::{Byte, Cause, NamedByte, Note, Radixes, Reason};
#[doc(inline)]
pub use settings::{Finding, FindingKind, LineError, Settings};
#[doc(inline)]
pub use short_text::ShortText;
#[doc(inline)]
pub use view::{FormatView, Role, Separators};
