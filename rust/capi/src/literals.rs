//! Calls that check syntaxes, that read literals, and that print why a text is not one.
//!
//! A call takes a syntax of any bits: only `peltzivar_check_syntax` tests it, which takes longer than reading a short
//! text, and a stamp that it would leave in the syntax would forbid a constant.

use crate::arguments::{input, write_by, write_text, Out, ValueStatus, REFUSED, SPECIAL};
use crate::lists::Forms;
use crate::numbers::{error_number, ErrorNumber, Setter, Word, NO_PART, NO_SETTER};
use core::fmt::{self, Display, Formatter, Write};
use core::mem::ManuallyDrop;
use core::ops::Range;
use peltzivar::literal::{self, Condition, Conditions, FormError, Number, ReadErrorKind, TokenError};
use peltzivar::{Error, Format, FormatError};

/// A word with an exponent character, a decimal point and conditions, of any values. If both are 0, literals are
/// integers. A condition is 0 if there is none.
#[repr(C)]
#[derive(Clone, Copy)]
pub struct Syntax {
    format: Word,
    exponent: u8,
    decimal_point: u8,
    /// The numbers of conditions, in the order of [`Condition::ALL`], and bytes of which a later version may make conditions.
    numbers: [u8; 14],
}

impl Syntax {
    /// Returns the exponent character and the decimal point, unless literals are integers.
    fn options(&self) -> Option<(u8, u8)> {
        match (self.exponent, self.decimal_point) {
            (0, 0) => None,
            options => Some(options),
        }
    }

    /// Returns the conditions, or `None` if a later version may have others.
    fn conditions(&self) -> Option<Conditions> {
        const COUNT: usize = Condition::ALL.len();
        let all = Condition::ALL.iter().zip(self.numbers);
        let all = all.fold(Conditions::NONE, |all, (it, number)| all.with(*it, number));
        (self.numbers[COUNT..] == [0; 14 - COUNT]).then_some(all)
    }

    /// Returns the syntax, which may not be lawful, or `None` if there is none or if a later version may read it otherwise.
    #[inline(never)]
    pub fn given(syntax: Option<&Syntax>) -> Option<literal::Syntax> {
        Syntax::given_at_once(syntax)
    }

    /// Returns the same in less time.
    #[inline(always)]
    pub fn given_at_once(syntax: Option<&Syntax>) -> Option<literal::Syntax> {
        let syntax = syntax?;
        Some(literal::Syntax::unchecked(syntax.format.number(), syntax.options(), syntax.conditions()?))
    }

    /// Returns the checked syntax.
    pub fn checked(syntax: Option<&Syntax>) -> Result<literal::Syntax, Refusal<FormatError>> {
        let syntax = syntax.ok_or(Refusal::Argument("the syntax is a null pointer"))?;
        let conditions = syntax.conditions();
        let conditions = conditions.ok_or(Refusal::Argument("the reserved bytes of the syntax are not 0"))?;
        let format = Format::new(syntax.format.number())?;
        let made = match syntax.options() {
            None => literal::Syntax::integers(format),
            Some((exponent, point)) => literal::Syntax::new(format, exponent, point)?,
        };
        Ok(made.with_conditions(conditions)?)
    }
}

impl From<literal::Syntax> for Syntax {
    fn from(syntax: literal::Syntax) -> Syntax {
        let mut numbers = [0; 14];
        numbers.iter_mut().zip(Condition::ALL).for_each(|(to, it)| *to = syntax.conditions().number(*it));
        let [exponent, decimal_point] = [syntax.exponent(), syntax.point()].map(Option::unwrap_or_default);
        Syntax { format: syntax.format().word().into(), exponent, decimal_point, numbers }
    }
}

/// A value that calls make, and that C sees as a number that tells it from other memory, what `shown` has, and words.
#[repr(C)]
pub struct Made<Shown, T, const WORDS: usize> {
    magic: u64,
    shown: Shown,
    words: Words<T, WORDS>,
}

/// A value in words of C.
#[repr(C)]
union Words<T, const WORDS: usize> {
    value: ManuallyDrop<T>,
    _words: [u64; WORDS],
}

impl<Shown, T, const WORDS: usize> Made<Shown, T, WORDS> {
    const MAGIC: u64 = u64::from_le_bytes(*b"\0\0zivar\xB6") + WORDS as u64;

    fn new(shown: Shown, value: T) -> Self {
        Made { magic: Self::MAGIC, shown, words: Words { value: ManuallyDrop::new(value) } }
    }

    /// Returns the value, or `None` if no call has made it.
    pub fn value(&self) -> Option<&T> {
        // SAFETY: with this number, `new` made the value, as the header requires.
        (self.magic == Self::MAGIC).then(|| unsafe { &*self.words.value })
    }
}

/// Where reading stopped: the length of what is valid, and the index of the form that goes so far.
#[repr(C)]
pub struct Reached {
    valid_up_to: usize,
    form: u8,
}

/// Where reading stopped, and why.
pub type ReadError = Made<Reached, Refusal<TokenError>, 15>;

impl ReadError {
    /// Returns the error of a form that is valid up to an index.
    pub fn at(valid_up_to: usize, form: usize, refusal: Refusal<TokenError>) -> ReadError {
        Made::new(Reached { valid_up_to, form: form as u8 }, refusal)
    }

    /// Returns the error of a form.
    #[cold]
    #[inline(never)]
    pub fn of(why: FormError) -> ReadError {
        ReadError::at(why.valid_up_to(), why.form, Refusal::Library(TokenError::Literal(why)))
    }
}

/// A literal, with its parts. It borrows its text. Four of the words are for later versions.
pub type Literal<'a> = Made<Parts, literal::Literal<'a>, 22>;

// The sizes and the alignment in the header.
const _: () = assert!(size_of::<Syntax>() == 32);
const _: () = assert!(size_of::<ReadError>() == 144 && align_of::<ReadError>() <= 16);
const _: () = assert!(size_of::<Literal>() == 352 && align_of::<Literal>() <= 16);
const _: () = assert!(size_of::<literal::Literal>() <= 18 * size_of::<u64>());

/// Why a call refuses what it checks: a sentence on its arguments, or the error of the library.
pub enum Refusal<E> {
    Argument(&'static str),
    Library(E),
}

impl<E: Display> Display for Refusal<E> {
    #[inline(never)]
    fn fmt(&self, f: &mut Formatter<'_>) -> fmt::Result {
        match self {
            Refusal::Argument(sentence) => f.write_str(sentence),
            Refusal::Library(error) => error.fmt(f),
        }
    }
}

impl<E: Into<FormatError>> From<E> for Refusal<FormatError> {
    fn from(error: E) -> Self {
        Refusal::Library(error.into())
    }
}

/// The range of a piece of a text.
#[repr(C)]
pub struct Span {
    pub(crate) start: usize,
    pub(crate) end: usize,
}

/// The text of a literal, the ranges of its parts, in the order of the text, and its length.
#[repr(C)]
pub struct Parts {
    text: *const u8,
    parts: [Span; 9],
    size: usize,
    is_float: bool,
    form: u8,
}

impl<'a> Literal<'a> {
    #[inline(always)]
    pub fn of(literal: literal::Literal<'a>, form: usize) -> Literal<'a> {
        let mut size = 0;
        let mut next = |length| {
            let start = size;
            size += length;
            Span { start, end: size }
        };
        // Each in a variable of its own, so that it is not written twice.
        let [a, b, c, point, d, character, e, f, g] = literal.lengths();
        let parts = [next(a), next(b), next(c), next(point), next(d), next(character), next(e), next(f), next(g)];
        let is_float = point | character != 0;
        Made::new(Parts { text: literal.as_bytes().as_ptr(), parts, size, is_float, form: form as u8 }, literal)
    }
}

/// Why a text is not a literal, and the bytes to show.
#[repr(C)]
pub struct Explanation {
    span: Span,
    mask: Word,
    kind: u8,
    number: Setter,
    part: u8,
    reserved: [u8; 5],
    conditions: u64,
}

impl Explanation {
    /// Returns what bytes explain, by the number of a kind, if nothing is to blame.
    fn of_bytes(kind: u8, Range { start, end }: Range<usize>) -> Explanation {
        let span = Span { start, end };
        Explanation { span, mask: 0.into(), kind, number: NO_SETTER, part: NO_PART, reserved: [0; 5], conditions: 0 }
    }
}

impl From<&FormError> for Explanation {
    fn from(error: &FormError) -> Explanation {
        let Some(error) = error.error() else { return Explanation::of_bytes(9, error.span()) };
        let (kind, part) = match error.kind() {
            ReadErrorKind::Requirement => (1, None),
            ReadErrorKind::Separator(part, _) => (2, Some(part)),
            ReadErrorKind::Case => (3, None),
            ReadErrorKind::Byte => (4, None),
            ReadErrorKind::Missing(part) => (5, Some(part)),
            _ => (0, None),
        };
        let (mask, unmet) = (error.mask(), error.conditions());
        Explanation {
            mask: mask.into(),
            number: if mask == 0 { NO_SETTER } else { mask.trailing_zeros() as Setter },
            part: part.map_or(NO_PART, |part| part as u8),
            conditions: Condition::ALL.iter().rev().fold(0, |bits, &it| bits << 1 | u64::from(unmet.has(it))),
            ..Explanation::of_bytes(kind, error.span())
        }
    }
}

/// What reading returns: a number, or why there is none.
type Read<'a> = Result<Number<'a>, FormError>;

/// Writes a number that is a literal, and returns whether there is one.
#[inline(always)]
fn write_literal<'a>(found: Option<Number<'a>>, to: Out<Literal<'a>>) -> ValueStatus {
    match found {
        Some(Number::Literal { literal, form }) => to.write_some(Some(Literal::of(literal, form))),
        Some(Number::Special(_)) => SPECIAL,
        None => REFUSED,
    }
}

/// Returns the number that `read` finds in a text, or writes why there is none, or which argument it refuses.
#[inline(always)]
unsafe fn number<'a>(
    (text, len, error): (*const u8, usize, Out<ReadError>),
    read: impl FnOnce(&'a [u8]) -> Result<Read<'a>, &'static str>,
) -> Option<Number<'a>> {
    match input(text, len).ok_or(TOO_LONG).and_then(read) {
        Ok(Ok(number)) => return Some(number),
        Ok(Err(why)) => error.write(ReadError::of(why)),
        Err(sentence) => error.write(ReadError::at(0, 0, Refusal::Argument(sentence))),
    }
    None
}

/// Returns the number that a text is, or writes why it is not one. It is called in several places, and is large.
#[inline(never)]
pub unsafe fn whole<'a>(
    forms: Option<&Forms>,
    text: *const u8,
    len: usize,
    error: Out<ReadError>,
) -> Option<Number<'a>> {
    number((text, len, error), |text| Ok(forms.ok_or(NO_FORMS)?.read_bytes(text)))
}

/// Why a call refuses a text.
pub const TOO_LONG: &str = "the text has more than PTRDIFF_MAX bytes";

/// Why a call refuses a list.
pub const NO_FORMS: &str = "the forms are a null pointer";

/// Why a call refuses a syntax.
const SYNTAX: &str = "peltzivar_check_syntax refuses this syntax";

calls! {
    fn peltzivar_check_syntax(syntax: Option<&Syntax>) -> ErrorNumber {
        error_number(match Syntax::checked(syntax) {
            Ok(_) => Error::Success,
            Err(Refusal::Library(error)) => error.into(),
            Err(_) => Error::InvalidFlags,
        })
    }

    fn peltzivar_syntax_error_text(syntax: Option<&Syntax>, text: *mut u8, len: usize) -> usize {
        write_text(text, len, Syntax::checked(syntax).err())
    }

    fn peltzivar_sentence(syntax: Option<&Syntax>, text: *mut u8, len: usize) -> usize {
        write_text(text, len, Syntax::checked(syntax).ok().map(|it| it.sentence()))
    }

    fn peltzivar_grammar(syntax: Option<&Syntax>, text: *mut u8, len: usize) -> usize {
        write_text(text, len, Syntax::checked(syntax).ok().map(|it| it.grammar()))
    }

    fn peltzivar_regex(syntax: Option<&Syntax>, text: *mut u8, len: usize) -> usize {
        write_text(text, len, Syntax::checked(syntax).ok().map(|it| it.regex()))
    }

    fn peltzivar_read(
        syntax: Option<&Syntax>, text: *const u8, len: usize, literal: Out<Literal>, error: Out<ReadError>
    ) -> ValueStatus {
        let read = |text| {
            Syntax::given_at_once(syntax).ok_or(SYNTAX).map(|it| it.read_then(text, |read| match read {
                Ok(literal) => Ok(Number::Literal { literal, form: 0 }),
                Err(error) => Err(FormError::alone(error)),
            }))
        };
        write_literal(number((text, len, error), read), literal)
    }

    fn peltzivar_forms_read(
        forms: Option<&Forms>, text: *const u8, len: usize, literal: Out<Literal>, error: Out<ReadError>
    ) -> ValueStatus {
        write_literal(whole(forms, text, len, error), literal)
    }

    fn peltzivar_forms_read_prefix(
        forms: Option<&Forms>, text: *const u8, len: usize, literal: Out<Literal>, error: Out<ReadError>
    ) -> ValueStatus {
        write_literal(number((text, len, error), |text| Ok(forms.ok_or(NO_FORMS)?.read_prefix_bytes(text).map(|(it, _)| it))), literal)
    }

    fn peltzivar_explain(error: &ReadError, out: Out<Explanation>) -> ValueStatus {
        let Some(Refusal::Library(error)) = error.value() else { return REFUSED };
        out.write_some(match *error {
            TokenError::Literal(ref error) => Some(Explanation::from(error)),
            TokenError::UnknownSuffix { start, end, .. } => Some(Explanation::of_bytes(6, start..end)),
            TokenError::NotAToken { end } => Some(Explanation::of_bytes(7, end..end)),
            TokenError::Stopped { start, end, .. } => Some(Explanation::of_bytes(8, start..end)),
            _ => None,
        })
    }

    fn peltzivar_read_error_text(error: &ReadError, text: *mut u8, len: usize) -> usize {
        write_text(text, len, error.value())
    }

    fn peltzivar_read_error_full_text(error: &ReadError, text: *mut u8, len: usize) -> usize {
        write_by(text, len, |text| error.value().map_or(Ok(()), |it| write!(text, "{it:#}")))
    }
}
