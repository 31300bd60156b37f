//! The forms of the numbers that are read, such as decimal and hexadecimal, and the values of numbers.

use alloc::vec::Vec;
use core::array;
use core::str::FromStr;

use peltzivar::literal::{
    Condition, Conditions, FloatKind, FloatLimits, Form, Forms, IntegerKind, Kind, Literal, Number, Opening, Specials,
    ValueError, ValueErrorKind,
};

use crate::suggest::{lines_of, Line, State};

/// The states of forms, at least one, and the forms.
pub struct List {
    pub states: Vec<State>,
    forms: Vec<Form>,
}

impl List {
    /// Returns the list of states, or `None` if one is not a form.
    pub fn of(states: impl IntoIterator<Item = State>) -> Option<Self> {
        let states: Vec<_> = states.into_iter().collect();
        let forms: Vec<_> = states.iter().map(|it| it.form()).collect::<Option<_>>()?;
        Forms::new(&forms)?;
        Some(Self { states, forms })
    }

    pub fn forms(&self) -> Forms<'_> {
        Forms::new_or_panic(&self.forms).with_specials(self.states[0].specials)
    }

    /// Returns lines, each with whether a form other than this one reads its text.
    pub fn lines<'a>(&self, form: usize, text: &'a [u8]) -> Vec<Line<'a>> {
        let others = Self::of([&self.states[..form], &self.states[form + 1..]].concat());
        let is_read = |text| others.as_ref().is_some_and(|it| it.forms().read(text).is_ok());
        lines_of(text).map(|line| Line { is_read: is_read(line.text), ..line }).collect()
    }
}

/// Reads the states of a line. Each is numbers between colons: its word, then bytes, from the lowest the exponent character,
/// the decimal point, the number of each condition, and those of [`numbers_of`], and then the bytes of the opening. The
/// first one has the spellings of special values, which are behind tabs.
pub fn states_of(line: &'static str) -> impl Iterator<Item = State> {
    let mut parts = line.split('\t');
    let states = parts.next().unwrap_or("").split(' ');
    let [nan, inf, infinity] = [(); 3].map(|()| parts.next().map(str::as_bytes));
    states.enumerate().map(move |(form, state)| {
        let mut parts = state.split(':').map(|it| u128::from_str(it).unwrap_or(0));
        let [word, options, opening] = [(); 3].map(|()| parts.next().unwrap_or(0));
        let [exponent, point, numbers @ ..] = options.to_le_bytes();
        let (numbers, of_form) = numbers.split_at(Condition::ALL.len());
        let [single, largest, vanishing, is_case_sensitive, only_read] =
            array::from_fn(|bit| of_form[KINDS.len()] >> bit & 1 == 1);
        let integers = KINDS.iter().zip(of_form).find(|it| *it.1 > 0);
        let integers = integers.map_or(IntegerKind::Exact, |(kind, &bits)| kind(bits));
        let floats = if single { FloatKind::Single } else { FloatKind::Nearest };
        let limits = match (largest, vanishing) {
            (_, true) => FloatLimits::Both,
            (true, _) => FloatLimits::Largest,
            _ => FloatLimits::None,
        };
        let kind = Kind::new(integers, floats).unwrap_or(Kind::EXACT).with_limits(limits);
        let conditions =
            Condition::ALL.iter().zip(numbers).fold(Conditions::NONE, |all, (&it, &number)| all.with(it, number));
        let specials = if form == 0 { Specials { nan, inf, infinity } } else { Specials::default() };
        let opening = opening_of(opening).case_sensitive(is_case_sensitive);
        State { word, exponent, point, conditions, kind, opening, only_read, specials }
    })
}

/// Returns the opening with the bytes of a number, from the lowest.
fn opening_of(number: u128) -> Opening {
    number.to_le_bytes().split(|&byte| byte == 0).next().and_then(Opening::new).unwrap_or(Opening::NONE)
}

pub fn state_of(form: &Form) -> State {
    let (syntax, kind) = (form.syntax(), form.kind());
    let [exponent, point] = [syntax.exponent(), syntax.point()].map(Option::unwrap_or_default);
    let (word, conditions) = (syntax.format().word(), syntax.conditions());
    let (opening, only_read) = (form.opening(), form.is_only_read());
    State { word, exponent, point, conditions, kind, opening, only_read, specials: Specials::default() }
}

/// The kinds of integers, each with its bits.
const KINDS: [fn(u8) -> IntegerKind; 4] =
    [IntegerKind::Signed, IntegerKind::Unsigned, IntegerKind::Wraps, IntegerKind::WrapsModulo];

/// Returns what a form has beside its syntax as numbers: the bits of each kind of integers, of which one is not 0, and the
/// bits that are set if floats are single, too large ones are errors, vanishing ones are, the opening is case-sensitive,
/// and the form is only read.
pub fn numbers_of(State { kind, opening, only_read, .. }: State) -> [u8; KINDS.len() + 1] {
    let bits = |make: fn(u8) -> IntegerKind| (1..=128).find(|&bits| make(bits) == kind.integers()).unwrap_or(0);
    let [signed, unsigned, wraps, modulo] = KINDS.map(bits);
    let (single, limits) = (kind.floats() == FloatKind::Single, kind.limits());
    let limits = [limits == FloatLimits::Largest, limits == FloatLimits::Both];
    let flags = [single, limits[0], limits[1], opening.is_case_sensitive(), only_read];
    [signed, unsigned, wraps, modulo, flags.iter().rev().fold(0, |all, &it| all << 1 | u8::from(it))]
}

/// The value of a number: an integer by its sign and size, and a float by its bits. A number that is too large for its kind
/// is refused, and that of others without a value is unknown.
pub enum Value {
    Integer(bool, u128),
    Float(u64),
    Unknown(ValueError),
    Refused(ValueError),
}

pub fn value_of(number: Number<'_>) -> Value {
    match number {
        Number::Special(special) => Value::Float(special.to_f64().to_bits()),
        Number::Literal { literal, .. } => value_of_literal(literal),
    }
}

pub fn value_of_literal(literal: Literal<'_>) -> Value {
    // The reason names the type.
    let is_single = literal.kind().floats() == FloatKind::Single;
    let typed = |error| literal.to_f32().err().filter(|_| is_single).unwrap_or(error);
    let value = match literal.is_float() {
        true => literal.to_f64().map(|it| Value::Float(it.to_bits())).map_err(typed),
        false => match literal.to_i128() {
            Ok(value) => Ok(Value::Integer(value < 0, value.unsigned_abs())),
            Err(error) if literal.is_negative() => Err(error),
            Err(_) => literal.to_u128().map(|it| Value::Integer(false, it)),
        },
    };
    let is_exact = !literal.is_float() && literal.kind().integers() == IntegerKind::Exact;
    value.unwrap_or_else(|error| match error.kind() {
        ValueErrorKind::UnsupportedRadix => Value::Unknown(error),
        _ if is_exact => Value::Unknown(error),
        _ => Value::Refused(error),
    })
}
