//! The parts of a literal as expressions.

use super::expression::{Expression, Pool};
use crate::literal::step::{self, allows_minus, allows_plus, is_digit, is_separator, needs_exponent};
use crate::literal::syntax::{Condition, Conditions, Grammar};
use crate::word::Part;

/// Returns the sizes of the last group of the integer, and of its others. None is 0.
pub(super) fn group_sizes(conditions: Conditions) -> [u8; 2] {
    let [last, higher] = [Condition::IntegerGroupSize, Condition::HigherGroupSize].map(|it| conditions.number(it));
    [last, if higher == 0 { last } else { higher }]
}

/// Returns whether leading zeros are forbidden in integers, and whether in floats. Both are the same if no literal is
/// an integer, or none a float.
pub(super) fn leading_zeros(grammar: &Grammar) -> [bool; 2] {
    let flags = [grammar.view().no_integer_leading_zeros(), grammar.view().no_float_leading_zeros()];
    let [integers, floats] = flags.map(|is_set| is_set && !grammar.conditions.has(Condition::BasePrefix));
    match grammar.integers_only() {
        true => [integers, integers],
        false if needs_exponent(grammar) => [floats, floats],
        false => [integers, floats],
    }
}

/// Returns the literals.
pub(super) fn literal<'a>(pool: &'a Pool, grammar: &Grammar) -> Expression<'a> {
    let (view, conditions, is_float) = (grammar.view(), grammar.conditions, !grammar.integers_only());
    let has_exponent = is_float && !view.no_exponent_notation();
    let sign =
        |part| pool.byte(|it| it == b'+' && allows_plus(grammar, part) || it == b'-' && allows_minus(grammar, part));
    let digit = pool.byte(|it| is_digit(grammar, Part::Integer, it)).named("Digit");
    let exponent_digit = match view.exponent_radix() == view.mantissa_radix() {
        true => digit,
        false => pool.byte(|it| is_digit(grammar, Part::Exponent, it)).when(has_exponent).named("ExponentDigit"),
    };
    let mark = pool.byte(|it| step::is_exponent_character(grammar, it)).when(has_exponent);
    let prefix = (pool.byte(|it| it == b'0') + pool.byte(|it| view.is_base_prefix(it))).named("Prefix");
    let front = prefix.required(conditions.has(Condition::BasePrefix));
    let [exponent, ..] = runs(pool, grammar, Part::Exponent, [prefix, exponent_digit]);
    let exponent = sign(Part::Exponent).required(view.required_exponent_sign())
        + exponent.required(view.required_exponent_digits());
    let exponent = (mark + exponent).named("Exponent");
    let [fraction, ..] = runs(pool, grammar, Part::Fraction, [prefix, digit]);
    let fraction = fraction.when(is_float).named("Fraction");
    let point = pool.byte(|it| step::is_point(grammar, it));
    let [integer, strict, led, begun] = runs(pool, grammar, Part::Integer, [prefix, digit]);
    let is_first = |it| conditions.has(it) && !conditions.has(Condition::BasePrefix);
    let number = match leading_zeros(grammar) {
        _ if is_first(Condition::LeadingZero) || is_first(Condition::DecimalFirstDigit) => {
            numbers(grammar, [prefix, begun, point, fraction, exponent])
        }
        [false, false] => front + numbers(grammar, [front.times(0, Some(0)), integer, point, fraction, exponent]),
        [true, false] => front + floats(grammar, [integer, point, fraction, exponent]) | strict,
        [zeros, true] => numbers(grammar, [front, strict, point, fraction, exponent]) | led.when(!zeros),
    };
    let suffix = pool.byte(|it| view.is_base_suffix(it)).required(conditions.has(Condition::BaseSuffix));
    sign(Part::Integer).required(view.required_mantissa_sign()) + number + suffix
}

/// Returns the digits of a part with its separators, those without a leading zero or behind the prefix, those with a
/// leading zero, and those that begin with a digit that the conditions allow or behind the prefix.
fn runs<'a>(
    pool: &'a Pool,
    grammar: &Grammar,
    part: Part,
    [prefix, digit]: [Expression<'a>; 2],
) -> [Expression<'a>; 4] {
    let separator = pool.byte(|it| is_separator(grammar, it));
    // What is in groups, and what is behind its first digit.
    let groups = match (part, group_sizes(grammar.conditions)) {
        (Part::Integer, [last @ 1..=u8::MAX, higher]) => {
            let [lowest, others] = [last, higher].map(|size| separator + digit.times(size, Some(size)));
            let behind = if last == higher { lowest.times(1, None) } else { others.times(0, None) + lowest };
            Some([digit.times(1, Some(higher)) + behind, digit.times(0, Some(higher - 1)) + behind])
        }
        _ => None,
    };
    let allowed = grammar.view().separators(part);
    let some = if allowed.consecutive { separator.times(1, None) } else { separator };
    let [before, between, after] = [allowed.leading, allowed.internal, allowed.trailing]
        .map(|is_allowed| some.when(is_allowed && groups.is_none()));
    let (before, after) = (before.required(false), after.required(false));
    let [whole, rest] = groups.unwrap_or([digit.when(false); 2]);
    let digits = |least| digit.times(least, None) + (between + digit.times(1, None)).times(0, None);
    let zero = before + pool.byte(|it| it == b'0');
    let first = prefix + before + digit | before + pool.byte(|it| it != b'0' && is_digit(grammar, part, it));
    let led = zero + between.required(false) + (digits(1) | rest) + after;
    let is_begun = |it| {
        (it == b'0' || !grammar.conditions.has(Condition::LeadingZero))
            && (it <= b'9' || !grammar.conditions.has(Condition::DecimalFirstDigit))
    };
    let begun = prefix + before + digit | pool.byte(|it| is_begun(it) && is_digit(grammar, part, it));
    [
        before + (digits(1) | whole) + after,
        (first + (digits(0) | rest) | zero) + after,
        led,
        begun + (digits(0) | rest) + after,
    ]
}

/// Returns the numbers whose integer is `integer`, and the floats that have none behind `front`.
fn numbers<'a>(grammar: &Grammar, [front, integer, point, fraction, exponent]: [Expression<'a>; 5]) -> Expression<'a> {
    let (view, needs_exponent) = (grammar.view(), needs_exponent(grammar));
    let (needs_point, needs_digits) = (view.no_exponent_without_fraction(), view.required_mantissa_digits());
    let exponents = exponent.required(needs_exponent);
    let none = exponents.times(0, Some(0));
    let (after_point, at_end) = if needs_point { (exponents, none) } else { (none, exponents) };
    let fractions = fraction.required(view.required_fraction_digits());
    let alone = if needs_digits { fraction } else { fractions };
    let rest = (point + fractions + after_point).required(needs_exponent && needs_point);
    let no_integer = (front + point + alone + after_point).when(!view.required_integer_digits());
    let no_digits = (front + exponent).when(!view.required_integer_digits() && !needs_digits && !needs_point);
    (integer.named("Integer") + rest | no_integer) + at_end | no_digits
}

/// Returns the floats without the prefix, if they may have leading zeros.
fn floats<'a>(grammar: &Grammar, [integer, point, fraction, exponent]: [Expression<'a>; 4]) -> Expression<'a> {
    let (view, integer) = (grammar.view(), integer.named("Integer"));
    let no_digit = point.when(!view.required_fraction_digits());
    let no_fraction = match view.no_exponent_without_fraction() {
        true => no_digit + exponent.required(false),
        false => no_digit | no_digit.required(false) + exponent,
    };
    let any = integer.required(view.required_integer_digits());
    let some = integer.required(view.required_integer_digits() || view.required_mantissa_digits());
    any + point + fraction + exponent.required(false) | some + no_fraction
}
