//! Lists read as FORMS states: the first form of which a text is a literal, then special values, then the error of the form that
//! goes furthest. The rule is written here over what each form alone reads. Lists are those of languages, and others of their forms.

#[path = "../../compare/rust/src/random.rs"]
mod random;

use peltzivar::literal::{
    Form, FormError, Forms, FromLiteral, Kind, Language, Literal, Number, Opening, ParseError, Special, Specials,
    Suffixes, Tokens,
};
use random::Random;
use std::cmp::Reverse;
use std::fmt::{Debug, Display};
use std::ops::Range;

/// Pieces of texts. All forms have a meaning for some, and some have none for any.
#[rustfmt::skip]
const PIECES: [&[u8]; 40] = [
    b"0", b"1", b"7", b"8", b"12", b"1000", b"0x", b"0X", b"0b", b"0o", b"0d", b".", b"..", b"e", b"E", b"p", b"e5",
    b"e-", b"+", b"-", b"_", b"'", b",", b"x", b"h", b"f", b"F", b"u8", b"D0", b"inf", b".inf", b"nan", b"q", b" ",
    b";", b"\xC3\xA9", b"\xFF", b"1.5", b"255", b"18446744073709551616",
];

/// Spellings of special values of the lists.
const SPELLINGS: [&[u8]; 8] = [b"nan", b"inf", b"-inf", b"+nan", b"1x", b"0x", b"q1", b"NaN"];

fn text(random: &mut Random) -> Vec<u8> {
    if random.one_in(10) {
        return random.pick(&SPELLINGS).to_vec();
    }
    let count = if random.one_in(100) { 0 } else { random.byte(1, 5) };
    (0..count).flat_map(|_| random.pick(&PIECES)).copied().collect()
}

/// Openings that overlap literals. Those with a capital letter are case-sensitive.
const OPENINGS: [&[u8]; 9] = [b"0", b"0x", b"x", b"1", b"12", b"0Xe5", b"-", b"e", b"8F.+0001"];

/// Suffixes of half of the forms, and words that may follow numbers.
const WORDS: Suffixes = Suffixes::new(&[b"u8", b"x", b"D0", b"x-", b"-", b"2x"], &[b"f", b"f1", b"f,f"], &[]);
static SUFFIXES: [Suffixes; 4] = [
    WORDS,
    WORDS.whole_words(true),
    WORDS.whole_words(true).with_word_bytes(b"-"),
    WORDS.any_word(b"h,").with_word_bytes(b"-,"),
];
const FOLLOWING: [&[u8]; 2] = [b"inf", b"x"];

/// What points are given back to.
#[derive(Clone, Copy, PartialEq)]
enum Back {
    Never,
    ToWords,
    ToLetters,
}

/// A list, the forms that need a suffix, to what points are given back, and whether any word may follow.
struct Case {
    list: Forms<'static>,
    needing: &'static [Form],
    back: Back,
    any_word_follows: bool,
}

/// Returns a form of any language, with the kind of another one, maybe with an opening and suffixes.
fn form(random: &mut Random, are_opened: bool) -> Form {
    let forms: Vec<Form> = Language::ALL.iter().flat_map(Language::forms).copied().collect();
    let [from, kind] = [random.pick(&forms), random.pick(&forms)];
    let mut form = Form::new(from.name(), from.syntax()).with_kind(kind.kind());
    if random.one_in(2) {
        form = form.with_suffixes(&SUFFIXES[usize::from(random.byte(0, 3))]);
    }
    if are_opened && random.one_in(2) {
        let bytes = random.pick(&OPENINGS);
        let is_case_sensitive = bytes.iter().any(u8::is_ascii_uppercase);
        form = form.with_opening(Opening::new(bytes).unwrap().case_sensitive(is_case_sensitive));
    }
    form
}

/// Returns a list of forms, some with special values that begin as literals do.
fn list(random: &mut Random) -> Case {
    let are_opened = random.one_in(2);
    let mut forms = |least, most| {
        let count = random.byte(least, most);
        &*(0..count).map(|_| form(random, are_opened)).collect::<Vec<_>>().leak()
    };
    let (list, needing) = (forms(1, 5), forms(0, 2));
    let back = random.pick(&[Back::Never, Back::ToWords, Back::ToLetters]);
    let any_word_follows = random.one_in(4);
    let tokens = Tokens::new(needing, &FOLLOWING).gives_points_back(back == Back::ToWords);
    let tokens = if back == Back::ToLetters { tokens.gives_points_to_letters() } else { tokens };
    let tokens = Box::leak(Box::new(tokens.any_word_follows(any_word_follows)));
    let odd = Specials { nan: Some(b"1x"), inf: Some(b"0x"), infinity: Some(b"q1") };
    let specials = random.pick(&[Specials::default(), Language::TOML.forms().specials(), odd]);
    let list = Forms::new_or_panic(list).with_specials(specials).with_tokens(tokens);
    Case { list, needing, back, any_word_follows }
}

/// How many bytes of an opening a text begins with.
fn common(opening: Opening, text: &[u8]) -> usize {
    let same = |(own, byte): &(&u8, &u8)| own == byte || !opening.is_case_sensitive() && own.eq_ignore_ascii_case(byte);
    opening.as_bytes().iter().zip(text).take_while(same).count()
}

/// What is behind the opening of a text, if it is there, and the rest is a literal of the syntax.
fn behind<'t>(form: &Form, text: &'t [u8]) -> Option<Literal<'t>> {
    let size = form.opening().as_bytes().len();
    (common(form.opening(), text) == size).then(|| form.syntax().read(&text[size..]).ok())?
}

/// Whether some literal of a form begins with a text.
fn is_front(form: &Form, text: &[u8]) -> bool {
    let opened = common(form.opening(), text);
    let rest = &text[opened..];
    if opened < form.opening().as_bytes().len() {
        return rest.is_empty();
    }
    form.syntax().read(rest).err().is_none_or(|it| it.valid_up_to() == rest.len())
}

/// The longest front of a text with which some literal of a form begins.
fn right(form: &Form, text: &[u8]) -> usize {
    (0..=text.len()).rev().find(|size| is_front(form, &text[..*size])).unwrap()
}

/// Why a text is not a literal of a form: how many bytes are right, how many if a base prefix is right in either case, the
/// bytes to show, and the sentence.
type Why = (usize, usize, Range<usize>, [String; 2]);

fn why(form: &Form, text: &[u8]) -> Why {
    let right = right(form, text);
    let shown = if text[right..].starts_with("é".as_bytes()) { 2 } else { 1.min(text.len() - right) };
    let opened = form.opening().as_bytes().len();
    if right < opened {
        let opening = form.opening();
        let sentence = format!("expected the opening `{}`", std::str::from_utf8(opening.as_bytes()).unwrap());
        return (right, right, right..right + shown, [sentence.clone(), sentence]);
    }
    let it = form.syntax().read(&text[opened..]).err().unwrap();
    let is_prefix =
        |byte: &u8| form.syntax().format().base_prefix().is_some_and(|it| it.get().eq_ignore_ascii_case(byte));
    let zero = matches!(&text[opened..right], [b'0'] | [b'+' | b'-', b'0']);
    let reach = right + usize::from(zero && text.get(right).is_some_and(is_prefix));
    let span = opened + it.span().start..opened + it.span().end;
    (right, reach, span, [format!("{it}"), format!("{it:#}")])
}

/// Returns the error of the first form that goes furthest, with its index.
fn error_of(errors: &[Why]) -> (usize, Why) {
    let furthest = errors.iter().map(|it| it.1).max().unwrap();
    let first = errors.iter().position(|it| it.1 == furthest).unwrap();
    (first, errors[first].clone())
}

/// A literal of a form, whose index, text and kind it has, or a special value.
type Found = Result<(usize, String, Kind), Special>;

/// The error of a list.
fn error_in(list: &Forms, text: &[u8]) -> (usize, Why) {
    error_of(&list.into_iter().map(|form| why(form, text)).collect::<Vec<_>>())
}

/// What a list reads: the literal of a form, or else a special value, or else an error.
fn read(list: &Forms, text: &[u8]) -> Result<Found, (usize, Why)> {
    let literals = list.into_iter().map(|form| behind(form, text));
    if let Some((form, literal)) = literals.enumerate().find_map(|(form, it)| Some((form, it?))) {
        return Ok(Ok((form, format!("{literal:?}"), list[form].kind())));
    }
    match list.specials().read(&list[0].syntax(), text) {
        Some(special) => Ok(Err(special)),
        None => Err(error_in(list, text)),
    }
}

/// The longest front of a text that is a literal of a form.
fn longest(form: &Form, text: &[u8]) -> Option<usize> {
    (0..=text.len()).rev().find(|size| behind(form, &text[..*size]).is_some())
}

/// The longest front that is a literal of a form, of the first form of equals: its index, and how many bytes follow.
fn read_prefix(list: &Forms, text: &[u8]) -> Result<(usize, usize), (usize, Why)> {
    let fronts = list.into_iter().map(|form| longest(form, text)).enumerate();
    match fronts.filter_map(|(form, it)| Some((form, text.len() - it?))).min_by_key(|(_, rest)| *rest) {
        Some(front) => Ok(front),
        None => Err(error_in(list, text)),
    }
}

fn is_word_byte(byte: u8) -> bool {
    byte.is_ascii_alphanumeric() || byte == b'_' || byte >= 128
}

/// The length of the word with which a text begins. It may have more bytes.
fn word(text: &[u8], more: &[u8]) -> usize {
    text.iter().take_while(|it| is_word_byte(**it) || more.contains(it)).count()
}

/// The bytes that words of a form have besides.
fn more(form: &Form) -> &'static [u8] {
    form.suffixes().map_or(&[][..], Suffixes::word_bytes)
}

/// Whether the byte at an index is the point of a form.
fn is_point(form: &Form, text: &[u8], index: usize) -> bool {
    form.syntax().point().is_some_and(|it| text.get(index) == Some(&it))
}

/// The lengths of the longest literal of a form, without a point that is given back, and of this with its suffix.
fn candidate(form: &Form, needs: bool, back: Back, text: &[u8]) -> Option<(usize, usize)> {
    let mut size = longest(form, text)?;
    let takes = |it: &u8| match back {
        Back::Never => false,
        Back::ToWords => *it == b'.' || is_word_byte(*it),
        Back::ToLetters => it.is_ascii_alphabetic(),
    };
    if text.get(size).is_some_and(takes) && is_point(form, text, size - 1) {
        size -= 1;
    }
    let literal = behind(form, &text[..size])?;
    let words = form.suffixes().map_or(&[][..], |it| if literal.is_float() { it.floats() } else { it.integers() });
    let (behind, whole) = (&text[size..], word(&text[size..], more(form)));
    let is_whole = form.suffixes().is_some_and(|it| SUFFIXES[1..3].contains(it));
    let is_suffix =
        |it: &&&[u8]| behind.starts_with(it) && if is_whole { it.len() == whole } else { it.len() <= whole };
    let any = form.suffixes().is_some_and(|it| behind.first().is_some_and(|byte| it.begins_any_word().contains(byte)));
    let listed = words.iter().filter(is_suffix).map(|it| it.len()).max().unwrap_or(0);
    let suffix = if any { whole } else { listed };
    (suffix > 0 || !needs).then_some((size, size + suffix))
}

/// The index of the form, and the lengths of the literal with its marks and of this with its suffix, or the span and the sentence of an error.
type Ended = Result<(usize, usize, usize), (Range<usize>, String)>;

/// The token by the steps of the page.
fn token(case: &Case, text: &[u8]) -> Ended {
    let Case { list, needing, back, any_word_follows } = case;
    let forms = list.into_iter().map(|it| (it, false)).chain(needing.iter().map(|it| (it, true)));
    let candidates = forms.enumerate().filter_map(|(index, (form, needs))| {
        let (size, end) = candidate(form, needs, *back, text)?;
        Some(((end, size, Reverse(index)), form))
    });
    let chosen = candidates.max_by_key(|it| it.0);
    let fails = || {
        let furthest = list.into_iter().map(|form| right(form, text)).max().unwrap();
        let end = (furthest + word(&text[furthest..], b"")).max(text.len().min(1));
        let part = &text[..end];
        if list.into_iter().any(|form| behind(form, part).is_some()) {
            return Err((end..end, "the decimal point belongs to what follows".into()));
        }
        let (_, (_, _, span, [sentence, _])) = error_in(list, part);
        Err((span, sentence))
    };
    let Some(((end, size, Reverse(index)), form)) = chosen else { return fails() };
    let behind = &text[end..];
    let goes_on = |form: &Form| {
        let right = right(form, text);
        let two = *back == Back::ToLetters && right == end + 2 && text[end + 1].is_ascii_alphabetic();
        let name = two && text.get(right).is_some_and(|it| *it == b'.' || it.is_ascii_alphabetic());
        right > end && !(*back != Back::Never && (right == end + 1 || name) && is_point(form, text, end))
    };
    let follows = word(behind, b"");
    let may = *any_word_follows && !is_point(form, text, end.wrapping_sub(1));
    let stops = follows > 0 && (!may || behind[0].is_ascii_digit());
    if FOLLOWING.contains(&&behind[..follows]) || !(list.into_iter().any(goes_on) || stops) {
        Ok((index, size, end))
    } else if list.into_iter().any(goes_on) || (size == end && behind[0].is_ascii_digit()) {
        fails()
    } else {
        Err((size..end + word(behind, more(form)), "unknown suffix".into()))
    }
}

/// What an error answers.
fn answers(error: FormError) -> (usize, usize, Range<usize>, [String; 2]) {
    let sentences = [format!("{error}"), format!("{error:#}")];
    let without_suffix =
        |it: &str| it.strip_suffix(" is a suffix, which `token` reads")?.rsplit_once("; `").map(|it| it.0.to_string());
    let sentences = sentences.map(|it| without_suffix(&it).unwrap_or(it));
    (error.form, error.valid_up_to(), error.span(), sentences)
}

/// Asserts that two results are the same, and print the same.
fn same<T: PartialEq + Debug, E: PartialEq + Debug + Display>(own: Result<T, E>, rule: Result<T, E>, text: &[u8]) {
    assert_eq!(own, rule, "{text:?}");
    if let (Err(own), Err(rule)) = (own, rule) {
        assert_eq!([format!("{own}"), format!("{own:#}")], [format!("{rule}"), format!("{rule:#}")], "{text:?}");
    }
}

/// Asserts that a text has the value of its number in a type, which `bits` compares.
fn parses<T: FromLiteral, B: PartialEq + Debug>(forms: &Forms, text: &[u8], bits: fn(T) -> B) {
    let rule = match forms.read(text) {
        Ok(number) => number.value::<T>().map_err(ParseError::from),
        Err(error) => Err(ParseError::from(error)),
    };
    let own = forms.parse::<T>(text);
    match (&own, &rule) {
        // An error of a special value that is parsed spans the text.
        (Err(ParseError::Value(own)), Err(ParseError::Value(rule))) => {
            let span = if rule.span().is_empty() { 0..text.len() } else { rule.span() };
            assert_eq!((own.kind(), own.to_string(), own.span()), (rule.kind(), rule.to_string(), span));
        }
        _ => same(own.map(bits), rule.map(bits), text),
    }
}

fn agrees(forms: &Forms, text: &[u8]) {
    let number = forms.read(text).map(|it| match it {
        Number::Literal { literal, form } => Ok((form, format!("{literal:?}"), literal.kind())),
        Number::Special(special) => Err(special),
    });
    let rule = |(form, (right, _, span, sentences)): (usize, Why)| (form, right, span, sentences);
    assert_eq!(number.map_err(answers), read(forms, text).map_err(rule), "{text:?} {forms:?}");
    let front = forms.read_prefix_bytes(text).map(|(it, rest)| (it.form().unwrap(), rest.len()));
    assert_eq!(front.map_err(answers), read_prefix(forms, text).map_err(rule), "{text:?} {forms:?}");
    parses::<i64, _>(forms, text, |it| it);
    parses::<u8, _>(forms, text, |it| it);
    parses::<u128, _>(forms, text, |it| it);
    parses::<f64, _>(forms, text, f64::to_bits);
    parses::<f32, _>(forms, text, f32::to_bits);
}

/// Asserts that a list has the token that the page states.
fn has_token(case: &Case, text: &[u8]) {
    let own = case.list.token(text);
    if let Ok(it) = own {
        let end = text.len() - it.rest.len();
        let literal = behind(&case.list[it.form], &text[..end - it.suffix.len()]).map(|it| format!("{it:?}"));
        assert_eq!(Some(format!("{:?}", it.literal)), literal, "{text:?} {:?}", case.list);
    }
    let own = match own {
        Ok(it) => Ok((it.form, text.len() - it.rest.len() - it.suffix.len(), text.len() - it.rest.len())),
        Err(error) => Err((error.span(), error.to_string().split("; known").next().unwrap().to_string())),
    };
    assert_eq!(own, token(case, text), "{text:?} {:?}", case.list);
}

#[test]
fn languages_and_other_lists_read_as_their_forms_do() {
    let random = &mut Random::new(20_261_128);
    for language in Language::ALL.iter().cycle().take(1_000) {
        let text = text(random);
        agrees(language.forms(), &text);
        let case = list(random);
        let form = case.list[usize::from(random.byte(0, case.list.as_slice().len() as u8 - 1))];
        let opened = [form.opening().as_bytes(), &text, random.pick(&PIECES)].concat();
        for text in [&text, &opened[..usize::from(random.byte(0, opened.len() as u8))]] {
            agrees(&case.list, text);
            has_token(&case, text);
        }
    }
}
