//! Languages as constants, which are written by hand.

use crate::literal::{FormError, Forms, FromLiteral, Number, ParseError, Token, TokenError};
use core::{fmt, hash, str::FromStr};

/// How a language, or a file, writes numbers: the syntax of each form, such as decimal and hexadecimal, and the spellings
/// of NaN and infinity.
///
/// A text is a number if it is one token of the language. So `-1` is one only where the grammar says so. A suffix that names
/// a type, as in `10u`, belongs to no number, but to a [`token`][Self::token] in the middle of source text. Decimal is the
/// first form. The documentation of each language names the section of the grammar that it follows, and what a format
/// cannot express. `compare/languages` holds the languages against their tools. To copy a format, print its setter calls
/// with [`source`][crate::source].
///
/// [`Forms`] are the same for forms of your own.
///
/// ```
/// use peltzivar::literal::{Language, Number};
///
/// let Ok(Number::Literal { literal, .. }) = Language::TOML.read("1_000.5") else { unreachable!() };
/// assert_eq!((literal.integer(), literal.fraction()), (&b"1_000"[..], &b"5"[..]));
/// assert!(matches!(Language::TOML.read("-inf"), Ok(Number::Special(_))));
/// assert_eq!(Language::TOML.parse::<u16>("65_535"), Ok(65535));
///
/// let error = Language::TOML.read("1_000.").unwrap_err();
/// assert_eq!(error.to_string(), "expected a digit after the decimal point");
/// assert!(format!("{error:#}").ends_with(", which required_fraction_digits requires"));
/// ```
#[derive(Clone, Copy)]
pub struct Language(&'static Definition);

/// What a language consists of.
struct Definition {
    name: &'static str,
    title: &'static str,
    forms: Forms<'static>,
}

impl Language {
    /// Returns the language with a [name][Self::name] or a [title][Self::title], such as `c_sharp` or `C#`, whatever the case
    /// of ASCII letters is.
    ///
    /// ```
    /// use peltzivar::literal::Language;
    ///
    /// let language = Language::from_name("c_sharp").unwrap();
    /// assert_eq!(Language::from_name("c#"), Some(language));
    /// assert_eq!(language.parse::<u8>("0b1111_0000"), Ok(0xF0));
    /// assert_eq!("JAVVA".parse::<Language>().unwrap_err().to_string(), "unknown language; did you mean `JAVA`?");
    /// ```
    #[must_use]
    pub const fn from_name(name: &str) -> Option<Language> {
        let mut index = 0;
        while index < Language::ALL.len() {
            let language = Language::ALL[index];
            if is_same(language.name().as_bytes(), name.as_bytes())
                || is_same(language.title().as_bytes(), name.as_bytes())
            {
                return Some(language);
            }
            index += 1;
        }
        None
    }

    /// Returns the name of the constant, such as `C_SHARP`.
    #[must_use]
    pub const fn name(&self) -> &'static str {
        self.0.name
    }

    /// Returns the name for people, such as `C#` or `Haskell 2010`.
    #[must_use]
    pub const fn title(&self) -> &'static str {
        self.0.title
    }

    /// Returns the forms of literals, with the spellings of NaN and infinity. A language in which these are names, or do not
    /// exist, has none. [`Number::form`] and [`FormError::form`] are indexes of the forms.
    ///
    /// ```
    /// use peltzivar::literal::Language;
    ///
    /// let names = Language::C_SHARP.forms().into_iter().map(|form| form.name());
    /// assert!(names.eq(["decimal", "hexadecimal", "binary"]));
    /// ```
    #[must_use]
    pub const fn forms(&self) -> &'static Forms<'static> {
        &self.0.forms
    }

    /// Returns other names of the language that people type.
    #[doc(hidden)]
    pub fn aliases(&self) -> impl Iterator<Item = &'static str> + use<> {
        let language = *self;
        tables::ALIASES.iter().filter(move |it| it.1 == language).map(|it| it.0)
    }

    /// Returns the language that is meant by a text that is not its name: an alias, a part of a name, a name with one letter
    /// wrong, missing or too many or with two exchanged, or a text that begins with a name.
    fn near(text: &str) -> Option<Language> {
        let text = text.as_bytes();
        let find = |is_near: fn(&[u8], &[u8]) -> bool| {
            let names = |it: &Language| [it.name().as_bytes(), it.title().as_bytes()];
            Language::ALL.iter().find(|it| names(it).iter().any(|name| is_near(text, name)))
        };
        let alias = tables::ALIASES.iter().find(|it| is_same(it.0.as_bytes(), text)).map(|it| &it.1);
        alias
            .or_else(|| find(is_part))
            .or_else(|| find(is_misspelt))
            .or_else(|| find(|text, name| is_part(name, text)))
            .copied()
    }
}

/// Defines the calls that forms have, too.
macro_rules! as_forms {
    ($($(#[$about:meta])* [$($const:ident)?] $name:ident [$($generics:tt)*]($Text:ty) -> $Result:ty;)*) => {
        impl Language {
            $(
                #[doc = concat!("Returns what [`Forms::", stringify!($name), "`] returns for the [forms][Self::forms].")]
                $(#[$about])*
                ///
                /// # Errors
                ///
                /// Those of this call.
                pub $($const)? fn $name<$($generics)*>(&self, text: $Text) -> $Result {
                    self.0.forms.$name(text)
                }
            )*
        }
    };
}

as_forms! {
    [] read ['t](&'t (impl AsRef<[u8]> + ?Sized)) -> Result<Number<'t>, FormError>;
    [const] read_bytes ['t](&'t [u8]) -> Result<Number<'t>, FormError>;
    /// In source text, [`token`][Self::token] ends numbers as the language does: of `1..2` in RUST, this is `1.`, and the
    /// token `1`.
    [] read_prefix ['t](&'t str) -> Result<(Number<'t>, &'t str), FormError>;
    [const] read_prefix_bytes ['t](&'t [u8]) -> Result<(Number<'t>, &'t [u8]), FormError>;
    /// Languages of data, such as JSON, have no tokens.
    ///
    /// ```
    /// use peltzivar::literal::Language;
    ///
    /// let token = Language::RUST.token("0xFFu8)").unwrap();
    /// assert_eq!((token.literal.to_u64(), token.suffix, token.rest), (Ok(255), &b"u8"[..], &b")"[..]));
    /// assert_eq!(Language::RUST.token("1..2").unwrap().rest, b"..2");
    /// ```
    [] token ['t](&'t (impl AsRef<[u8]> + ?Sized)) -> Result<Token<'t>, TokenError>;
    [] read_token ['t](&'t (impl AsRef<[u8]> + ?Sized)) -> Result<Token<'t>, TokenError>;
    ///
    /// ```
    /// use peltzivar::literal::Language;
    ///
    /// assert_eq!(Language::C.parse::<u8>("0xFF"), Ok(255));
    /// assert_eq!(Language::C.parse::<f64>("0x1.8p1"), Ok(3.0));
    /// assert_eq!(Language::C.parse::<u8>("0x100").unwrap_err().to_string(), "above 255, the largest u8");
    /// ```
    [] parse [T: FromLiteral](impl AsRef<[u8]>) -> Result<T, ParseError>;
    /// In source text, [`token`][Self::token] ends numbers as the language does.
    [] parse_prefix ['t, T: FromLiteral](&'t str) -> Result<(T, &'t str), ParseError>;
    [] parse_prefix_bytes ['t, T: FromLiteral](&'t [u8]) -> Result<(T, &'t [u8]), ParseError>;
}

/// Returns whether two names differ only in the case of letters.
const fn is_same(name: &[u8], other: &[u8]) -> bool {
    let mut index = 0;
    while index < name.len() && index < other.len() && name[index].eq_ignore_ascii_case(&other[index]) {
        index += 1;
    }
    index == name.len() && index == other.len()
}

/// Returns whether a word of a name begins with at least three bytes.
fn is_part(part: &[u8], name: &[u8]) -> bool {
    let mut words = name.windows(part.len().max(1)).enumerate();
    part.len() >= 3 && words.any(|(at, it)| is_same(it, part) && (at == 0 || !name[at - 1].is_ascii_alphabetic()))
}

/// Returns whether a text is a name but for one byte that is wrong, missing or too many, or for two that are exchanged.
fn is_misspelt(text: &[u8], name: &[u8]) -> bool {
    let same = |it: &(&u8, &u8)| it.0.eq_ignore_ascii_case(it.1);
    let front = text.iter().zip(name).take_while(same).count();
    let (text, name) = (&text[front..], &name[front..]);
    let back = text.iter().rev().zip(name.iter().rev()).take_while(same).count();
    let (text, name) = (&text[..text.len() - back], &name[..name.len() - back]);
    let exchanged = matches!((text, name), ([a, b], [c, d]) if is_same(&[*b, *a], &[*c, *d]));
    front + back >= 2 && (exchanged || text.len().max(name.len()) <= 1)
}

/// Finds the language with a name or a title, as [`Language::from_name`] does.
impl FromStr for Language {
    type Err = LanguageError;

    fn from_str(name: &str) -> Result<Language, LanguageError> {
        Language::from_name(name).ok_or_else(|| LanguageError { near: Language::near(name) })
    }
}

/// Why a text is not the name of a language.
#[derive(Debug, Clone, Copy, PartialEq, Eq, Hash)]
pub struct LanguageError {
    near: Option<Language>,
}

/// Prints the name that is most like the text, if one is, as in ``unknown language; did you mean `JAVA`?``.
impl fmt::Display for LanguageError {
    fn fmt(&self, f: &mut fmt::Formatter<'_>) -> fmt::Result {
        match self.near {
            Some(near) => write!(f, "unknown language; did you mean `{near}`?"),
            None => f.pad("unknown language"),
        }
    }
}

/// Languages are equal if they have the same name.
impl PartialEq for Language {
    fn eq(&self, other: &Self) -> bool {
        self.name() == other.name()
    }
}

impl Eq for Language {}

impl hash::Hash for Language {
    fn hash<H: hash::Hasher>(&self, state: &mut H) {
        self.name().hash(state);
    }
}

/// Prints the name.
impl fmt::Display for Language {
    fn fmt(&self, f: &mut fmt::Formatter<'_>) -> fmt::Result {
        f.pad(self.name())
    }
}

/// Prints the name.
impl fmt::Debug for Language {
    fn fmt(&self, f: &mut fmt::Formatter<'_>) -> fmt::Result {
        f.pad(self.name())
    }
}

/// Defines the constants: documentation, name, title, and forms with their openings, suffixes and kinds; then
/// forms that differ in their radix alone, special values, and rules for tokens, if there are any.
macro_rules! languages {
    ($($(#[$about:meta])+ $name:ident: $title:literal = {
        $($form:literal $(behind $opening:literal)? $(only_read $only:literal)?: $syntax:expr
            $(=> $suffixes:expr)? $(; $kind:expr)?),+ $(,)?
    } $(radixes $before:literal $behind:literal $(to $most:literal)? { $binary:expr $(=> $words:expr)? $(; $values:expr)? })? $(, $specials:expr)? $(=> $tokens:expr)?;)+) => {
        impl Language {
            /// All languages, in alphabetical order.
            pub const ALL: &'static [Language] = &[$(Language::$name),+];

            $($(#[$about])+
            pub const $name: Language = Language(&Definition {
                name: stringify!($name),
                title: $title,
                forms: Forms::new_or_panic(languages!(
                    @[$(Form::new($form, $syntax)$(.with_opening(opening($opening)))?$(.only_read($only))?$(.with_suffixes(&$suffixes))?$(.with_kind($kind))?),+]
                    $(; RADIXES $(+ $most - 36)?, $before $behind, Form::new("radix in front", $binary)
                        $(.with_suffixes(&$words))?$(.with_kind($values))?)?
                ))
                    $(.with_specials($specials))?
                    $(.with_tokens(&$tokens))?,
            });)+
        }
    };
    (@$forms:expr) => { &$forms };
    (@$forms:expr; $radixes:expr, $before:literal $behind:literal, $binary:expr) => {{
        const FORMS: &[Form] = &$forms;
        const ALL: [Form; FORMS.len() + $radixes] = with_radixes(FORMS, $before, $behind, $binary);
        &ALL
    }};
}

mod tables;
