//! Settings that are read from texts, and what they build.
//!
//! [`Settings`] keeps the last setting of each field, and 32 that others override. This is enough to blame settings, and
//! takes the same memory for files of any length.

use core::array;
use core::fmt::{self, Write};
use core::str::from_utf8;

use crate::edits::{
    apply, likeness, nearest, ArgumentKind, Edit, EditError, EditErrorKind, Fault, Setter, FIELD_COUNT,
};
use crate::format::{NumberFormatBuilder, EXPONENT_BASE, EXPONENT_RADIX, MANTISSA_RADIX};
use crate::format_error::ONE_OPTION;
use crate::lawful::Rejected;
use crate::literal::{Condition, Conditions, ConditionsError, Syntax};
use crate::reasons::{Byte, Cause, Note, Reason};
use crate::{Format, FormatError};

/// The settings of options, the exponent character and the decimal point.
const OPTIONS: [&str; 2] = ["exponent", "point"];
const DEFAULTS: [u8; 2] = *b"e.";

/// The number of fields, options and conditions, and thereby the largest number of settings that are not overridden.
const LIVE: usize = FIELD_COUNT + OPTIONS.len() + Condition::ALL.len();

/// The number of overridden settings that are kept.
const OVERRIDDEN: usize = 32;

/// The largest number of settings that one reason or note blames: a digit separator and all flags that allow one.
const BLAMED: usize = 14;

/// The number of bytes of a refused text that are printed.
const SHOWN: usize = 40;

/// Settings that are read from texts, such as the lines of a file, and the format or syntax that they build.
///
/// A setting is what an [`Edit`] is parsed from, or has the name `exponent` or `point`, for the exponent character and the
/// decimal point, and a value that `digit_separator` takes, or the name of a field of [`Conditions`] and its value. A text
/// that is blank or begins with `#` sets nothing. White space is skipped as by [`trim_ascii`][slice::trim_ascii], such as
/// the carriage return at the end of a line. A byte order mark is skipped only at the start of the first text, and `#`
/// begins a comment only at the start of a text.
///
/// A setting overrides those before it. Fields without a setting have the values of a new builder, the exponent
/// character is `e`, and the decimal point is `.`. A radix above 14 needs another exponent character, since `e` is one
/// of its digits. If both options are `none`, literals are integers. One option alone cannot be `none`: for numbers
/// without an exponent, write `no_exponent_notation=true` and, in a radix above 14, an unused character, such as
/// `exponent='~'`.
///
/// The *index* of a text is the number of texts before it, so the index of the first line is 0.
///
/// ```
/// use peltzivar::Settings;
///
/// let file = "# hexadecimal\nradix = 16\nbase_prefix = 'b'\nexponent = 'p'\ndigit_separator = '_'";
/// let mut settings = Settings::read(file.lines())?;
/// let reason = settings.reasons().next().unwrap();
/// assert_eq!(reason.to_string(), "the base prefix 'b' is a digit in radix 16");
/// assert_eq!(reason.indexes(), [1, 2]);
///
/// settings.add("base_prefix = 'x'")?;
/// assert!(settings.build_syntax()?.read("0x1.8p3").is_ok());
/// let notes: Vec<_> = settings.notes().map(|note| (note.to_string(), note.indexes().to_vec())).collect();
/// assert_eq!(notes, [
///     ("a later setting overrides base_prefix".into(), vec![2, 5]),
///     ("no flag allows the digit separator '_'".into(), vec![4]),
/// ]);
/// # Ok::<(), Box<dyn core::error::Error>>(())
/// ```
#[derive(Debug, Clone, PartialEq, Eq, Hash)]
pub struct Settings {
    builder: NumberFormatBuilder,
    /// The exponent character and the decimal point. A character that is `none` is 0.
    options: [u8; 2],
    conditions: Conditions,
    /// What the settings would write that were refused, and no later setting writes.
    refused: Mask,
    /// The number of texts.
    count: usize,
    /// The settings of which a field is not overridden, sorted by their indexes.
    live: [Option<Setting>; LIVE],
    /// Settings that are completely overridden, each with the index of the setting that leaves it no field.
    overridden: [Option<(Setting, usize)>; OVERRIDDEN],
}

/// The index of a text, the name that it sets, and what it writes and no later setting writes.
#[derive(Debug, Clone, Copy, PartialEq, Eq, Hash)]
struct Setting {
    index: usize,
    name: &'static str,
    mask: Mask,
}

/// The bits of fields of a word, and a bit for each option, and then for each condition. A word has no bits to spare: a
/// reserved one may become a field.
#[derive(Debug, Clone, Copy, PartialEq, Eq, Hash)]
struct Mask {
    word: u128,
    options: u32,
}

impl Mask {
    const EMPTY: Mask = Mask::of_word(0);

    const fn of_word(word: u128) -> Mask {
        Mask { word, options: 0 }
    }

    const fn without(self, other: Mask) -> Mask {
        Mask { word: self.word & !other.word, options: self.options & !other.options }
    }

    const fn meets(self, other: Mask) -> bool {
        self.word & other.word != 0 || self.options & other.options != 0
    }
}

impl Default for Settings {
    fn default() -> Self {
        Settings::new()
    }
}

impl Settings {
    /// Returns settings without any text.
    #[must_use]
    pub const fn new() -> Self {
        Settings {
            builder: NumberFormatBuilder::new(),
            options: DEFAULTS,
            conditions: Conditions::NONE,
            refused: Mask::EMPTY,
            count: 0,
            live: [None; LIVE],
            overridden: [None; OVERRIDDEN],
        }
    }

    /// Adds the texts to new settings. To go on after a text that is refused, call [`add`][Self::add] for each text.
    ///
    /// # Errors
    ///
    /// Returns the error of the first text that is refused.
    pub fn read<T: AsRef<[u8]>>(texts: impl IntoIterator<Item = T>) -> Result<Self, LineError> {
        let mut settings = Settings::new();
        let mut texts = texts.into_iter();
        texts.try_for_each(|text| settings.add(text))?;
        Ok(settings)
    }

    /// Adds a text. A text that is refused is counted, and sets nothing. What the other texts build is then not what the
    /// file means, so call this after an error only to find others. If the value is refused, [`reasons`][Self::reasons]
    /// and [`notes`][Self::notes] leave out what blames a field or option of this text, until a later text sets it.
    ///
    /// ```
    /// let error = peltzivar::Settings::new().add("base_suffx = 'h'").unwrap_err();
    /// assert_eq!(error.to_string(), "unknown setting `base_suffx`; did you mean `base_suffix`?");
    /// ```
    ///
    /// # Errors
    ///
    /// Returns an error if the text has no `=`, if its name is unknown, or if the name does not take the value.
    pub fn add(&mut self, text: impl AsRef<[u8]>) -> Result<(), LineError> {
        let (index, text) = (self.count, text.as_ref());
        self.count += 1;
        let text = match text.strip_prefix(b"\xEF\xBB\xBF") {
            Some(rest) if index == 0 => rest.trim_ascii(),
            _ => text.trim_ascii(),
        };
        if matches!(text, [] | [b'#', ..]) {
            return Ok(());
        }
        let (name, value) = parse(index, text).inspect_err(|it| {
            let Mask { word, options } = it.name.map_or(Mask::EMPTY, Name::mask);
            self.refused = Mask { word: self.refused.word | word, options: self.refused.options | options };
        })?;
        self.refused = self.refused.without(name.mask());
        match name {
            Name::Field(setter) => self.builder = apply(self.builder, setter.with_argument(value)),
            Name::Option(option) => self.options[option] = value,
            Name::Condition(condition) => self.conditions = self.conditions.with(condition, value),
        }
        self.push(Setting { index, name: name.text(), mask: name.mask() });
        Ok(())
    }

    /// Adds a setting, and moves the settings that it overrides completely.
    fn push(&mut self, new: Setting) {
        let (mut live, mut overridden) = (0, self.overridden.iter().flatten().count());
        for at in 0..LIVE {
            let Some(old) = self.live[at].take() else { break };
            let old = Setting { mask: old.mask.without(new.mask), ..old };
            if old.mask != Mask::EMPTY {
                self.live[live] = Some(old);
                live += 1;
            } else if let Some(slot) = self.overridden.get_mut(overridden) {
                *slot = Some((old, new.index));
                overridden += 1;
            }
        }
        if let Some(slot) = self.live.get_mut(live) {
            *slot = Some(new);
        }
    }

    /// Returns the format. The exponent character and the decimal point do not matter.
    ///
    /// # Errors
    ///
    /// If the format is not lawful, returns an error, whose reasons [`reasons`][Self::reasons] returns with indexes.
    pub const fn build_format(&self) -> Result<Format, FormatError> {
        self.builder.build_format()
    }

    /// Returns the format with the exponent character, the decimal point and the conditions.
    ///
    /// ```
    /// let syntax = peltzivar::Settings::read(["point = ','", "exponent = 'e'"])?.build_syntax()?;
    /// assert_eq!(syntax.parse::<f64>("1,5"), Ok(1.5));
    /// # Ok::<(), Box<dyn core::error::Error>>(())
    /// ```
    ///
    /// # Errors
    ///
    /// If the format is not lawful, if the options do not fit it, if only one of them is `none`, or if the conditions
    /// contradict the format, returns an error, whose reasons [`reasons`][Self::reasons] returns with indexes.
    pub fn build_syntax(&self) -> Result<Syntax, FormatError> {
        let format = self.build_format()?;
        let syntax = match self.options {
            [0, 0] => Syntax::integers(format),
            [exponent, point] => Syntax::new(format, exponent, point).map_err(|error| {
                // The reasons of the fields as they are set, and not as the normal form has them.
                FormatError::new(error.code(), Rejected::Options(format.word(), exponent, point))
            })?,
        };
        Ok(syntax.with_conditions(self.conditions)?)
    }

    /// Returns the reasons why the settings do not build a syntax: why the format is not lawful or, if it is, why the
    /// exponent character and the decimal point do not fit it, and then each condition that contradicts it.
    pub fn reasons(&self) -> impl Iterator<Item = Finding> + Clone + '_ {
        let reasons = self.build_syntax().err().into_iter().flat_map(|error| error.reasons());
        let reasons = reasons.filter_map(|reason| {
            let mask = Mask { word: reason.mask(), options: options_of(reason.cause()) };
            self.finding(FindingKind::Reason(reason), mask)
        });
        reasons.chain(self.contradictions())
    }

    /// Returns each condition that contradicts the format, if that is lawful.
    fn contradictions(&self) -> impl Iterator<Item = Finding> + Clone + '_ {
        let syntax = self.build_format().ok().map(Syntax::integers);
        let errors = syntax.into_iter().flat_map(|it| it.contradictions(self.conditions));
        errors.filter_map(|error| {
            let mask = Mask { word: error.mask(), ..Name::Condition(error.condition).mask() };
            self.finding(FindingKind::Conditions(error), mask)
        })
    }

    /// Returns notes on the first 32 settings that later ones override completely, and then on fields that are set but
    /// have no effect on any number, as [`NumberFormatBuilder::notes`] does. The format lacks a digit separator that no
    /// flag allows, so [`Format::notes`] lacks the note on it.
    pub fn notes(&self) -> impl Iterator<Item = Finding> + Clone + '_ {
        let overridden = self.overridden.iter().flatten().map(|(old, by)| {
            let kind = FindingKind::Overridden(old.name);
            Finding::new(kind, [old.index, *by].into_iter())
        });
        let notes = self.builder.notes();
        let notes = notes.filter_map(|note| self.finding(FindingKind::Note(note), Mask::of_word(note.mask())));
        overridden.chain(notes)
    }

    /// Returns a finding with the indexes of the settings that write what `mask` has, unless a refused one would do so.
    /// The exponent bytes only follow a mantissa radix that is to blame.
    fn finding(&self, kind: FindingKind, mask: Mask) -> Option<Finding> {
        let blamed = self.live.iter().flatten().filter(|it| it.mask.meets(mask));
        let followers = if mask.word & MANTISSA_RADIX == 0 { 0 } else { EXPONENT_BASE | EXPONENT_RADIX };
        let is_refused = mask.without(Mask::of_word(followers)).meets(self.refused);
        (!is_refused).then(|| Finding::new(kind, blamed.map(|it| it.index)))
    }
}

/// What a text sets: a field or a group, an option by its index in [`OPTIONS`], or a condition.
#[derive(Debug, Clone, Copy, PartialEq, Eq, Hash)]
enum Name {
    Field(Setter),
    Option(usize),
    Condition(Condition),
}

impl Name {
    /// Returns the names of options and conditions.
    fn beside_fields() -> impl Iterator<Item = Name> {
        (0..OPTIONS.len()).map(Name::Option).chain(Condition::ALL.iter().copied().map(Name::Condition))
    }

    const fn text(self) -> &'static str {
        match self {
            Name::Field(setter) => setter.name(),
            Name::Option(option) => OPTIONS[option],
            Name::Condition(condition) => condition.name(),
        }
    }

    const fn mask(self) -> Mask {
        match self {
            Name::Field(setter) => Mask::of_word(setter.mask()),
            Name::Option(option) => Mask { word: 0, options: 1 << option },
            Name::Condition(condition) => Mask { word: 0, options: 4 << condition as u32 },
        }
    }

    /// Parses a value that it takes.
    fn parse(self, value: &str) -> Option<u8> {
        match self {
            Name::Field(setter) => setter.parse(value).ok().map(Edit::argument_byte),
            Name::Option(_) => ArgumentKind::OptionalCharacter.parse(value),
            Name::Condition(condition) => condition.parse(value),
        }
    }
}

/// Returns what a text sets, and its value.
fn parse(index: usize, text: &[u8]) -> Result<(Name, u8), LineError> {
    let refuse = |kind, name, refused: &[u8]| {
        let piece = array::from_fn(|at| refused.get(at).copied().unwrap_or_default());
        let value = text.splitn(2, |byte| *byte == b'=').last().unwrap_or(text).trim_ascii();
        let has_comment = value.windows(2).any(|it| it[0].is_ascii_whitespace() && it[1] == b'#');
        LineError { index, kind, name, piece, length: refused.len(), has_comment }
    };
    let equals = text.iter().position(|byte| *byte == b'=');
    let equals = equals.ok_or_else(|| refuse(EditErrorKind::NoEquals, None, text))?;
    let (name, value) = (text[..equals].trim_ascii(), text[equals + 1..].trim_ascii());
    // Bytes that are not UTF-8 are read as an empty text, which is neither a name nor a value.
    let [word, argument] = [name, value].map(|it| from_utf8(it).unwrap_or_default());
    let known = Name::beside_fields().find(|it| it.text() == word);
    let known = known.or_else(|| Setter::from_name(word).map(Name::Field));
    let known = known.ok_or_else(|| refuse(EditErrorKind::UnknownName, None, name))?;
    let byte = known.parse(argument).ok_or_else(|| refuse(EditErrorKind::BadValue, Some(known), value))?;
    Ok((known, byte))
}

/// Returns whether an option is `none`. This is a cause if the other is not.
const fn is_one_option(cause: Cause) -> bool {
    matches!(cause, Cause::NotText(byte) if byte.value == 0)
}

impl Cause {
    /// Returns whether the cause names the exponent character, and whether the decimal point.
    #[doc(hidden)]
    #[must_use]
    pub fn options(&self) -> [bool; 2] {
        let names = |name| self.bytes().into_iter().flatten().any(|it| it.name == name);
        [Byte::ExponentCharacter, Byte::DecimalPoint].map(names)
    }
}

/// Returns the bits of the options that a cause names, or of both if one is `none`.
fn options_of(cause: Cause) -> u32 {
    let [exponent, point] = cause.options().map(|it| it || is_one_option(cause)).map(u32::from);
    exponent | point << 1
}

/// A reason or a note, and the indexes of the settings that cause it.
///
/// `Display` prints a sentence without the indexes, such as `no flag allows the digit separator '_'`.
#[derive(Debug, Clone, Copy, PartialEq, Eq, Hash)]
pub struct Finding {
    kind: FindingKind,
    indexes: [usize; BLAMED],
    count: usize,
}

/// The kind of a [`Finding`].
#[derive(Debug, Clone, Copy, PartialEq, Eq, Hash)]
#[non_exhaustive]
pub enum FindingKind {
    /// A reason why settings do not build a syntax.
    Reason(Reason),
    /// A condition that contradicts the format, so that the settings do not build a syntax.
    Conditions(ConditionsError),
    /// A note that later settings override the setting with this name completely. The second index is that of the
    /// setting that leaves it no field.
    Overridden(&'static str),
    /// A note that a field is set but has no effect on any number.
    Note(Note),
}

impl Finding {
    fn new(kind: FindingKind, blamed: impl Iterator<Item = usize>) -> Self {
        let (mut indexes, mut count) = ([0; BLAMED], 0);
        for (slot, index) in indexes.iter_mut().zip(blamed) {
            *slot = index;
            count += 1;
        }
        Finding { kind, indexes, count }
    }

    /// Returns the kind.
    #[must_use]
    pub const fn kind(&self) -> FindingKind {
        self.kind
    }

    /// Returns the indexes of the settings that cause it, in ascending order. A reason or note is caused by the last
    /// settings of the fields in its [mask][Reason::mask] and of the options that it names. A default has no index.
    #[must_use]
    pub fn indexes(&self) -> &[usize] {
        &self.indexes[..self.count]
    }
}

impl fmt::Display for Finding {
    fn fmt(&self, f: &mut fmt::Formatter<'_>) -> fmt::Result {
        match &self.kind {
            FindingKind::Reason(it) if is_one_option(it.cause()) => f.write_str(ONE_OPTION),
            FindingKind::Reason(reason) => reason.fmt(f),
            FindingKind::Conditions(error) => error.fmt(f),
            FindingKind::Overridden(name) => write!(f, "a later setting overrides {name}"),
            FindingKind::Note(note) => note.fmt(f),
        }
    }
}

/// Why [`Settings`] refuse a text, such as a line of a file.
///
/// `Display` prints a sentence without the index. It names the text, or the name or value in it that is refused, by at
/// most 40 bytes. A byte that is not printable ASCII is escaped, as in `\x1b`.
///
/// ```
/// let file = "radix=16\nbase_prefix=x\n";
/// let error = peltzivar::Settings::read(file.lines()).unwrap_err();
/// assert_eq!(error.index(), 1); // the second line
/// println!("line {}: {error}", error.index() + 1);
/// ```
#[derive(Debug, Clone, Copy, PartialEq, Eq, Hash)]
pub struct LineError {
    index: usize,
    kind: EditErrorKind,
    /// What does not take a value.
    name: Option<Name>,
    /// The first bytes of what is refused, and its length.
    piece: [u8; SHOWN],
    length: usize,
    /// Whether a `#` follows white space in the text.
    has_comment: bool,
}

impl LineError {
    /// Returns the index of the text.
    #[must_use]
    pub const fn index(&self) -> usize {
        self.index
    }

    /// Returns what is wrong with the text.
    #[must_use]
    pub const fn kind(&self) -> EditErrorKind {
        self.kind
    }

    /// Returns the option or the setter whose name is most like an unknown one.
    fn suggestion(&self, name: &[u8]) -> Option<&'static str> {
        let EditErrorKind::UnknownName = self.kind else { return None };
        let nearest = nearest(from_utf8(name).unwrap_or_default()).map(Setter::name);
        let alike = |other: &&str| likeness(name, other);
        // Of equals, the last counts.
        let names = Name::beside_fields().map(Name::text).chain(nearest).filter(|it| alike(it) >= 50);
        match name {
            _ if name.starts_with(b"decimal") => Some("point"),
            _ if name.starts_with(b"group") => Some(Condition::IntegerGroupSize.name()),
            _ => names.max_by_key(alike).or(nearest),
        }
    }

    /// Returns the character that stands alone or in double quotes where one in single quotes is taken.
    fn character(&self, value: &[u8]) -> Option<char> {
        let ([byte @ b' '..=b'~'] | [b'"', byte @ b' '..=b'~', b'"']) = value else { return None };
        let takes_one = match self.name {
            Some(Name::Field(setter)) => setter.kind() == ArgumentKind::OptionalCharacter,
            Some(Name::Option(_)) => true,
            _ => false,
        };
        takes_one.then_some(char::from(*byte))
    }
}

impl fmt::Display for LineError {
    fn fmt(&self, f: &mut fmt::Formatter<'_>) -> fmt::Result {
        match (self.kind, self.name) {
            (EditErrorKind::UnknownName, _) => f.write_str("unknown setting `")?,
            (_, Some(name)) if self.has_comment => {
                write!(f, "a comment has a line of its own, so {} does not take `", name.text())?;
            }
            (_, None) => write!(f, "{}, not `", EditError(Fault::NoEquals))?,
            (_, Some(Name::Field(setter))) => write!(f, "{}, not `", EditError(Fault::BadValue(setter)))?,
            (_, Some(Name::Condition(condition))) => write!(f, "{}, not `", condition.taken().as_str())?,
            (_, Some(Name::Option(option))) => {
                write!(f, "{} takes a character such as '{}', ", OPTIONS[option], char::from(DEFAULTS[option]))?;
                f.write_str("a number from 0 to 255, or `none`, not `")?;
            }
        }
        let shown = self.piece.get(..self.length).unwrap_or(&self.piece);
        for byte in shown {
            match byte {
                b' '..=b'~' => f.write_char(char::from(*byte))?,
                _ => write!(f, "\\x{byte:02x}")?,
            }
        }
        f.write_str(if self.length > SHOWN { "..`" } else { "`" })?;
        match (self.suggestion(shown), self.character(shown)) {
            (Some(name), _) => write!(f, "; did you mean `{name}`?"),
            (None, Some(character)) => write!(f, "; did you mean `'{character}'`?"),
            _ if self.has_comment && self.kind != EditErrorKind::BadValue => {
                f.write_str("; a comment has a line of its own")
            }
            _ => Ok(()),
        }
    }
}
