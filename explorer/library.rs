//! The library for the page, as WebAssembly: calls of the crate `peltzivar`. A call reads lines from `INPUT`, the first of
//! which names it, and makes an answer in JSON. Lists are passed as lines, each of the states of one or more forms.
#![no_std]

extern crate alloc;

use alloc::{format, string::String, string::ToString, vec::Vec};
use core::alloc::{GlobalAlloc, Layout};
use core::fmt::Display;
use core::ops::Range;

use forms::{numbers_of, state_of, states_of, value_of, value_of_literal, List, Value};
use peltzivar::edits::{apply, is_built, normal_form};
use peltzivar::literal::{
    Condition, Conditions, ConditionsError, ConditionsErrorKind, Form, FormError, Forms, Language, Literal, Number,
    Special, Specials, Syntax, Token,
};
use peltzivar::{Cause, Edit, Format, FormatView, NumberFormatBuilder, Part, Reason, Setter};
use suggest::{lines_of, offers, Line, State};

mod forms;
mod suggest;

const INPUT_SIZE: usize = 1 << 18;
const HEAP_SIZE: usize = 1 << 26;

/// The text that the page writes between calls, and the memory of a call, with how much of it is in use.
static mut INPUT: [u8; INPUT_SIZE] = [0; INPUT_SIZE];
static mut HEAP: [u8; HEAP_SIZE] = [0; HEAP_SIZE];
static mut USED: usize = 0;

/// Gives memory that only the next call takes again.
struct Memory;

#[global_allocator]
static MEMORY: Memory = Memory;

// SAFETY: WebAssembly has one thread, and no two pieces overlap.
unsafe impl GlobalAlloc for Memory {
    unsafe fn alloc(&self, layout: Layout) -> *mut u8 {
        unsafe {
            let start = (&raw mut HEAP).cast::<u8>().add(USED);
            USED += start.align_offset(layout.align()) + layout.size();
            if USED > HEAP_SIZE {
                core::ptr::null_mut()
            } else {
                start.add(start.align_offset(layout.align()))
            }
        }
    }

    unsafe fn dealloc(&self, _: *mut u8, _: Layout) {}
}

/// Returns the address of the text that the next call reads. The answer of the last one ends.
#[unsafe(no_mangle)]
pub extern "C" fn input() -> *mut u8 {
    // SAFETY: nothing of the last call is alive.
    unsafe { USED = 0 };
    (&raw mut INPUT).cast()
}

/// Answers the call of the input, and returns the address and, above it, the length of the answer.
#[unsafe(no_mangle)]
pub extern "C" fn call(length: usize) -> u64 {
    // SAFETY: WebAssembly has one thread, and the page writes the text only between calls.
    let text = unsafe { core::slice::from_raw_parts((&raw const INPUT).cast(), length.min(INPUT_SIZE)) };
    let (name, lines) = first_line(text);
    let (first, others) = first_line(lines);
    let answer = match name {
        "facts" => facts(),
        "build" => build(utf8(lines)),
        "explain" => explain(first),
        "readers" => readers(lines),
        "numbers" => numbers(first, others),
        _ => offered(first, others),
    };
    let text = answer.leak();
    (text.len() as u64) << 32 | text.as_ptr() as u64
}

/// Returns the first line of a text, and the others.
fn first_line(text: &'static [u8]) -> (&'static str, &'static [u8]) {
    let end = text.iter().position(|&byte| byte == b'\n').unwrap_or(text.len());
    (utf8(&text[..end]), text.get(end + 1..).unwrap_or_default())
}

fn utf8(bytes: &[u8]) -> &str {
    core::str::from_utf8(bytes).unwrap_or("")
}

/// Returns the name and the bits of each setter; the name and the limits of each condition; and the name, the title, the aliases,
/// the spellings of special values, and the forms of each language.
fn facts() -> String {
    let setter = |it: &Setter| format!(r#"{{"name":"{}","mask":{}}}"#, it.name(), word(it.mask()));
    let rule = |it: &Condition| format!(r#"{{"name":"{}","limits":{:?}}}"#, it.name(), <[_; 2]>::from(it.limits()));
    let languages = Language::ALL.iter().map(|language| {
        let title = quoted(language.title());
        let Specials { nan, inf, infinity } = language.forms().specials();
        let specials = list([nan, inf, infinity].map(|it| quoted(utf8(it.unwrap_or_default()))).into_iter());
        let forms = language.forms().as_slice().iter();
        let forms = forms.map(|it| format!(r#"{{{},"name":{}}}"#, parts_of(state_of(it)), quoted(it.name())));
        let aliases = list(language.aliases().map(quoted));
        format!(r#"{{"name":"{language}","title":{title},"aliases":{aliases},"specials":{specials},"forms":{}}}"#, list(forms))
    });
    let [setters, conditions] = [list(Setter::ALL.iter().map(setter)), list(Condition::ALL.iter().map(rule))];
    format!(r#"{{"setters":{setters},"limits":{conditions},"languages":{}}}"#, list(languages))
}

/// Returns what settings, one a line, build: `{"word", "notes"}`, or `{"error", "index"}` for the first that is none.
fn build(settings: &str) -> String {
    let mut builder = NumberFormatBuilder::new();
    for (index, line) in settings.split('\n').filter(|line| !line.is_empty()).enumerate() {
        match line.parse::<Edit>() {
            Ok(edit) => builder = apply(builder, edit),
            Err(error) => return format!(r#"{{"error":{},"index":{index}}}"#, quoted(error)),
        }
    }
    format!(r#"{{"word":{},"notes":{}}}"#, word(builder.build_unchecked()), list(builder.notes().map(quoted)))
}

/// Returns all that the page shows of a state, with a sentence, a grammar and an expression if it is a syntax.
fn explain(state: &'static str) -> String {
    let Some(state) = states_of(state).next() else { return "{}".to_string() };
    let view = FormatView::new(state.word);
    let notation = state.syntax().map_or(String::new(), |it| {
        let [sentence, grammar, regex] = [quoted(it.sentence()), quoted(it.grammar()), quoted(it.regex())];
        format!(r#","sentence":{sentence},"grammar":{grammar},"regex":{regex}"#)
    });
    let put = |text: &dyn Display, mask, names: &str| {
        format!(r#"{{"text":{},"mask":{},"names":"{names}"}}"#, quoted(text), word(mask))
    };
    let misfit = |it: ConditionsError| {
        let other = if it.kind == ConditionsErrorKind::NoIntegerGroupSize { "integer_group_size " } else { "" };
        put(&it, it.mask(), &format!("{other}{}", it.condition.name()))
    };
    let reason = |it: Reason| put(&it, it.mask(), &options_of(it.cause()));
    let lawful = Format::new(state.word).ok().into_iter();
    let misfits = lawful.flat_map(|it| Syntax::integers(it).contradictions(state.conditions));
    let options = view.options_reasons(state.exponent, state.point).filter(|_| !state.is_integers());
    format!(
        r#"{{"normal":{},"isBuilt":{},"fits":{},"reasons":{},"options":{},"misfits":{},"notes":{}{notation}}}"#,
        word(normal_form(state.word)),
        is_built(state.word),
        State { conditions: Conditions::NONE, ..state }.syntax().is_some(),
        list(view.reasons().map(reason)),
        list(options.map(reason)),
        list(misfits.map(misfit)),
        list(view.notes().map(|it| put(&it, it.mask(), ""))),
    )
}

/// Returns the names of the options that a cause blames.
fn options_of(cause: Cause) -> String {
    ["exponent ", "point "].into_iter().zip(cause.options()).filter(|it| it.1).map(|it| it.0).collect()
}

/// Returns why a text is not a literal of a form.
fn reason_of(error: FormError) -> String {
    error.error().map_or_else(|| quoted(error), |it| quoted(it.full_text().as_str()))
}

/// Returns for each line and each language what the line is, as `told` does or, if it is a token, its value and its suffix.
fn readers(lines: &[u8]) -> String {
    let reader = |text, language: &Language| {
        let read = language.read(text);
        match read.is_err().then(|| token_of(language, text)).flatten() {
            Some(it) => format!(r#"{{{},"suffix":{}}}"#, value(value_of_literal(it.literal)), quoted(utf8(it.suffix))),
            None => format!("{{{}}}", told(read, text)),
        }
    };
    list(lines_of(lines).map(|line| list(Language::ALL.iter().map(|language| reader(line.text, language)))))
}

/// Returns the token of a language that a whole text is, if it has a suffix.
fn token_of<'a>(language: &Language, text: &'a [u8]) -> Option<Token<'a>> {
    language.token(text).ok().filter(|it| it.rest.is_empty() && !it.suffix.is_empty())
}

/// Returns whether a text is a token of a language that names its suffix: it is not any word, as in CSS.
fn has_named_suffix(text: &[u8]) -> bool {
    Language::ALL.iter().any(|language| {
        let Some(Token { suffix, .. }) = token_of(language, text) else { return false };
        let mut forms = language.forms().as_slice().iter().filter_map(Form::suffixes);
        forms.any(|it| it.integers().iter().chain(it.floats()).any(|word| word.eq_ignore_ascii_case(suffix)))
    })
}

/// Returns the parts of an object with a state.
fn parts_of(state: State) -> String {
    let State { word: format, exponent, point, opening, .. } = state;
    let numbers = Condition::ALL.iter().map(|&it| state.conditions.number(it)).chain(numbers_of(state));
    let (format, conditions) = (word(format), word(numbers.rev().fold(0, |all, it| all << 8 | u128::from(it))));
    let opening = quoted(utf8(opening.as_bytes()));
    let options = format!(r#""exponent":{exponent},"point":{point},"opening":{opening}"#);
    format!(r#""word":{format},{options},"conditions":{conditions}"#)
}

/// Returns an object for each line, as `reading` does. If a word is not lawful, returns an empty array.
fn numbers(states: &'static str, lines: &[u8]) -> String {
    let forms = List::of(states_of(states));
    let readings = |all| lines_of(lines).map(move |line| format!("{{{}}}", reading(List::forms(all), line.text)));
    list(forms.iter().flat_map(readings))
}

/// Returns the states that are offered of the form of a line that is not as expected, which is the first one, and again
/// among the others.
fn offered(states: &'static str, lines: &[u8]) -> String {
    let (Some(all), Some(line)) = (List::of(states_of(states)), lines_of(lines).next()) else { return "[]".into() };
    let lines = &lines[line.text.len() + usize::from(line.is_refused)..];
    let line = Line { has_suffix: has_named_suffix(line.text), ..line };
    let form = all.forms().read(line.text).map_or_else(|error| error.form, |number| number.form().unwrap_or(0));
    let offers = offers(all.states[form], &all.lines(form, lines), line);
    list(offers.into_iter().map(|state| format!("{{{}}}", parts_of(state))))
}

/// Returns the parts of a text, or of its longest front that is a number, and what `told` does.
fn reading(forms: Forms<'_>, text: &[u8]) -> String {
    let part = |(kind, text): (&str, &[u8])| format!(r#"{{"kind":"{kind}","text":{}}}"#, quoted(utf8(text)));
    let all = |parts: &mut dyn Iterator<Item = _>| list(parts.filter(|it: &(_, &[u8])| !it.1.is_empty()).map(part));
    let read = forms.read(text);
    let parts = match read {
        Ok(Number::Special(Special { sign, .. })) => {
            let (sign, rest) = text.split_at(sign.map_or(0, |_| 1));
            all(&mut [("sign", sign), ("special", rest)].into_iter())
        }
        _ => {
            let front = forms.read_prefix_bytes(text).ok().and_then(|(number, rest)| {
                let (form, literal) = (&forms[number.form()?], number.literal()?);
                let whole = &text[..text.len() - rest.len()];
                let opening = ("opening", &whole[..form.opening().as_bytes().len()]);
                Some([opening].into_iter().chain(literal.parts()))
            });
            all(&mut front.into_iter().flatten())
        }
    };
    format!(r#""parts":{parts},{}"#, told(read, text))
}

/// Returns what a text is, and its value; or why and where it is refused, in UTF-16, and the flags to blame; and the form that
/// accepts it, or to which it is nearest.
fn told(read: Result<Number<'_>, FormError>, text: &[u8]) -> String {
    match read {
        Ok(number) => {
            let is_float = number.literal().map(|it| it.is_float());
            let is = is_float.map_or("special value", |is_float| if is_float { "float" } else { "integer" });
            let is_long = |it: &Literal| !it.is_float() && matches!(value_of_literal(*it), Value::Unknown(_));
            let long = number.literal().filter(is_long).map_or(String::new(), |it| {
                let (sign, radix) = (if it.is_negative() { "-" } else { "" }, it.radix(Part::Integer));
                let digits = it.digits(Part::Integer).filter_map(|it| char::from_digit(it.into(), 36));
                format!(r#""long":["{sign}","{}",{radix}],"#, digits.collect::<String>())
            });
            format!(r#""is":"{is}",{long}{},"form":{}"#, value(value_of(number)), number.form().unwrap_or(0))
        }
        Err(it) => {
            let (form, mask, Range { start, end }) = (it.form, word(it.mask()), it.span());
            let (end, error) = (start + utf8(&text[start..end]).encode_utf16().count(), reason_of(it));
            format!(r#""form":{form},"error":{error},"mask":{mask},"start":{start},"end":{end}"#)
        }
    }
}

/// Returns an integer as digits, a float as the number of its bits, or why a number has no value, as a part of an object.
fn value(value: Value) -> String {
    match value {
        Value::Integer(is_negative, size) => format!(r#""integer":"{}{size}""#, if is_negative { "-" } else { "" }),
        Value::Float(bits) => format!(r#""float":"{bits}""#),
        Value::Unknown(error) => format!(r#""unknown":{}"#, quoted(error)),
        Value::Refused(error) => format!(r#""refused":{}"#, quoted(error)),
    }
}

fn list(items: impl Iterator<Item = String>) -> String {
    format!("[{}]", items.collect::<Vec<_>>().join(","))
}

fn word(word: u128) -> String {
    quoted(FormatView::new(word))
}

fn quoted(text: impl Display) -> String {
    let escape = |it| match it {
        '"' | '\\' => format!("\\{it}"),
        '\0'..' ' => format!("\\u{:04x}", u32::from(it)),
        _ => it.to_string(),
    };
    format!("\"{}\"", text.to_string().chars().map(escape).collect::<String>())
}

#[panic_handler]
fn panic(_: &core::panic::PanicInfo<'_>) -> ! {
    core::arch::wasm32::unreachable()
}
