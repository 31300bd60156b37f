//! What users read and set, over the lists that the library has: texts with each padding, sentences at each limit,
//! settings of each setter, limits of each type, and the code of each byte. Expected results are those of std or of a
//! page, or are worked out here.

use peltzivar::literal::*;
use peltzivar::{source::BuilderExpression, *};
use std::{fmt::Display, num::NonZeroU8};

/// Formats a value with a width in some ways.
macro_rules! padded {
    ($value:expr, $width:expr, $($how:literal)*) => { [$(format!(concat!("{:", $how, "1$}"), $value, $width)),*] };
}

/// Makes a list of the names of types and of values.
macro_rules! named {
    ($($Type:ident $value:expr;)*) => { [$((stringify!($Type), Box::new($value) as Box<dyn Display>)),*] };
}

/// The public types whose texts have no padding.
const NOT_PADDED: &str = "BuilderExpression Edit EditError Error Finding LineError Note Plain Reason ValueError";

/// Texts are padded as std pads texts, and NaN, infinity and what is written as it pads numbers.
#[test]
fn paddings_are_those_of_std() {
    let (toml, json, plain) = (Language::TOML, Language::JSON.forms(), Style::PLAIN);
    let misfit = Syntax::default().with_conditions(Conditions::NONE.required_base_prefix(true)).unwrap_err();
    let refused = |text| Language::C.token(text).unwrap_err();
    let texts = named! {
        ConditionsError misfit; FlagSetter FlagSetter::NoSpecial; FormError toml.read("1\u{20AC}").unwrap_err();
        Format Format::default(); FormatError Format::new(0).unwrap_err(); FormatView FormatView::new(1);
        Language toml; LanguageError "?".parse::<Language>().unwrap_err(); Number toml.read("1_0").unwrap();
        Literal toml.read("-1.5").unwrap().literal().unwrap(); ParseError toml.parse::<u8>("1e").unwrap_err();
        Part Part::Integer; ReadError Syntax::default().read("\u{E9}").unwrap_err(); Role Role::Point;
        Rule Rule::ReservedBitsAreZero; ShortText ShortText::of("a\u{E9}\u{1F600}"); Syntax Syntax::default();
        TokenError refused("1e"); TokenError refused("1x"); TokenError toml.token("1").unwrap_err();
        TokenError TokenError::NotAToken { end: 1 }; WriteError WriteError::ReadBack;
    };
    let Ok(Number::Special(special)) = toml.read("-inf") else { unreachable!() };
    let spelled = toml.forms().with_specials(Specials { inf: Some("\u{221E}".as_bytes()), ..Specials::default() });
    let long = Language::JSON.read("-1234567890123456789012345678901234567890e-5").unwrap().literal().unwrap();
    let numbers = named! {
        Special special; Number toml.read("nan").unwrap(); Written json.format_literal(&long, plain).unwrap();
        Written json.format_integer(-15, plain).unwrap(); Written json.format_float(0.1, plain).unwrap();
        Written json.format_float(1e38, plain.decimals(9)).unwrap();
        Written json.format_float(-0.0, plain).unwrap(); Written json.format_float(-0.0_f32, plain).unwrap();
        Written spelled.format_float(f64::NEG_INFINITY, plain).unwrap();
    };
    let listed = include_str!("surface.rs").lines().filter_map(|line| line.strip_suffix(": Display {} };"));
    let known = Vec::from_iter(texts.iter().chain(&numbers).map(|it| it.0).chain(NOT_PADDED.split(' ')));
    let mut listed = listed.filter_map(|line| line.rsplit(' ').next()?.split('<').next());
    assert_eq!(listed.find(|name| !known.contains(name)), None);
    for (index, (name, value)) in texts.iter().chain(&numbers).enumerate() {
        let text = value.to_string();
        for width in (0..=12).flat_map(|more| [more, text.chars().count() + more]) {
            let own = if index < texts.len() { format!("{text:width$}") } else { format!("{text:>width$}") };
            let ways =
                |it: &dyn Display| padded!(it, width, "<" ">" "^" "*<" "*>" "*^" "\u{E9}<" "\u{20AC}>" "\u{1F600}^");
            assert_eq!((format!("{value:width$}"), ways(value)), (own, ways(&text)), "{name}");
        }
    }
}

/// Signs and zeros are where std has them in numbers. With `#`, a sentence that names flags is padded.
#[test]
fn signs_and_zeros_are_those_of_std() {
    let [json, hexadecimal] = [Language::JSON.forms()[0], Language::C.forms()[2]].map(|it| it.syntax());
    let (toml, plain, refused) = (Language::TOML.forms(), Style::PLAIN, Language::JSON.read("+1").unwrap_err());
    let (hexadecimal, full) = (hexadecimal.format_integer(0xAB, plain).unwrap(), format!("{refused:#}"));
    for width in 0..=12 {
        let ways = |it: &dyn Display| padded!(it, width, "+" "0" "+0" "<+" "*^+" "\u{E9}>+" "*^0" "*<+0");
        for value in [0, 7, -7, 123, -1234, 123_456_789] {
            assert_eq!(ways(&json.format_integer(value, plain).unwrap()), ways(&value));
        }
        for value in [0.5, -12.25, 1234.5] {
            assert_eq!(ways(&toml.format_float(value, plain).unwrap()), ways(&value));
        }
        for value in [f64::INFINITY, f64::NEG_INFINITY] {
            let written = toml.format_float(value, plain).unwrap();
            assert_eq!(padded!(written, width, "+" "<+" "*^+"), padded!(value, width, "+" "<+" "*^+"));
        }
        let wanted = [format!("{:#0width$X}", 0xAB), format!("{:+#0width$X}", 0xAB)];
        assert_eq!(padded!(hexadecimal, width, "0" "+0"), wanted);
        assert_eq!(padded!(refused, width + full.len(), "#" "*^#"), padded!(full, width + full.len(), "" "*^"));
    }
}

/// Returns the names of all settings of a file, each with a value that it takes.
fn settings() -> impl Iterator<Item = (&'static str, &'static str)> {
    let value = |is_flag| if is_flag { "true" } else { "8" };
    let fields = Setter::ALL.iter().map(move |it| (it.name(), value(it.with_flag(true).is_some())));
    let conditions = Condition::ALL.iter().map(move |it| (it.name(), value(it.limits().1 == 1)));
    fields.chain(["exponent", "point"].map(|it| (it, "8"))).chain(conditions)
}

/// Sentences on settings show up to 40 bytes of what is refused.
#[test]
fn sentences_on_settings_show_forty_bytes() {
    for value in (0..=42).flat_map(|size| ["", "\u{E9}", "\u{20AC}", "\u{1F600}"].map(|it| "~".repeat(size) + it)) {
        let refused = settings().map(|(name, _)| format!("{name}={value}"));
        for text in refused.chain([format!("{value}=1")]).chain(Some(value.clone()).filter(|it| !it.is_empty())) {
            let sentence = Settings::new().add(&text).unwrap_err().to_string();
            let shown = value.as_bytes()[..value.len().min(40)].escape_ascii();
            let wanted = format!("`{shown}{}`", if value.len() > 40 { ".." } else { "" });
            assert!(sentence.split("; did you mean").next().unwrap().ends_with(&wanted), "{text}: {sentence}");
        }
    }
}

/// Lines that set nothing, and ends of lines as Windows writes them, change no index: of a setting that is overridden,
/// of one that is refused, and of one that contradicts others.
#[test]
fn settings_are_found_in_their_lines() {
    for (name, value) in settings() {
        let set = format!("{name} = {value}");
        let mut lines = ["# about", "", &set, " \t", "  # more", &set].map(|it| format!("{it}\r"));
        let [all, plain] = [Settings::read(&lines), Settings::read([&set])].map(Result::unwrap);
        assert!(all.reasons().map(|it| it.indexes().to_vec()).eq(plain.reasons().map(|_| [5])), "{name}");
        let note = all.notes().next().unwrap();
        assert_eq!((note.kind(), note.indexes()), (FindingKind::Overridden(name), &[2, 5][..]));
        assert_eq!(lines[2].parse::<Edit>().is_ok(), Edit::NAMES.contains(&name));
        lines[4] = format!("{name}=?\r");
        let error = Settings::read(&lines).unwrap_err();
        let (index, sentence) = (error.index(), error.to_string());
        assert!(index == 4 && sentence.starts_with(&format!("{name} takes ")) && sentence.contains(", not `?`"));
        // What is refused is forgotten where a later line sets the same.
        let mut after = Settings::new();
        assert!(after.add(&lines[4]).is_err() && after.add(&set).is_ok());
        let found = |it: &Settings| Vec::from_iter(it.reasons().chain(it.notes()).map(|it| it.to_string()));
        assert_eq!(found(&after), found(&plain), "{name}");
        // An option shares no bit with another setting, so none overrides the other.
        let options = Settings::read(["exponent='p'", "point=','", &set, "exponent='x'", "point='.'"]).unwrap();
        let overridden = options.notes().filter(|it| matches!(it.kind(), FindingKind::Overridden(_)));
        let is_option = ["exponent", "point"].contains(&name);
        assert!(is_option || overridden.map(|it| it.indexes().to_vec()).eq([[0, 3], [1, 4]]), "{name}");
    }
    // A reason of the mantissa radix is left out only where what sets the mantissa radix is refused.
    for setter in Setter::ALL {
        let mut settings = Settings::read(["mantissa_radix=40"]).unwrap();
        assert!(settings.add(format!("{}=?", setter.name())).is_err());
        let is_found = settings.reasons().next().is_some();
        assert_eq!(is_found, setter.mask() & format::MANTISSA_RADIX == 0, "{}", setter.name());
    }
    // One note blames at most a digit separator and all flags that allow one. The first 32 notes on settings are kept.
    let flags = FlagSetter::FLAGS.iter().filter(|it| it.name().ends_with("digit_separator"));
    let lines = Vec::from_iter(flags.map(|it| format!("{}=true", it.name())).chain(["digit_separator=none".into()]));
    let note = Settings::read(&lines).unwrap().notes().next().unwrap();
    assert_eq!(note.indexes(), Vec::from_iter(0..lines.len()), "{note}");
    for count in 30..=35 {
        let notes = Settings::read(vec!["radix=8"; count + 1]).unwrap();
        let notes = notes.notes().map(|it| it.indexes().to_vec());
        assert!(notes.eq((0..count.min(32)).map(|index| [index, index + 1])), "{count}");
    }
}

/// Returns the syntax of integers of a radix, without any other field.
fn integers(radix: u8) -> Syntax {
    Syntax::integers(NumberFormatBuilder::new().mantissa_radix(radix).build_format_or_panic())
}

/// Runs a piece of code for each type of integers.
macro_rules! each_type {
    ($type:ident => $code:block) => { each_type!($type $code u8 u16 u32 u64 usize u128 i8 i16 i32 i64 isize i128) };
    ($type:ident $code:block $($name:ident)*) => { $({ type $type = $name; $code })* };
}

/// A type without limits.
#[derive(Debug)]
struct Unlimited;

impl FromLiteral for Unlimited {
    const TARGET: Target = Target::new("unlimited");

    fn from_literal(literal: Literal<'_>) -> Result<Self, ValueErrorKind> {
        literal.to_i128().map(|_| Unlimited).map_err(|it| it.kind())
    }
}

/// Of two limits, the sentence names that which has fewer numbers, and of equals that of the type.
#[test]
#[allow(clippy::unnecessary_cast, reason = "it is for each type")]
fn sentences_name_the_nearer_limit() {
    let kinds = [IntegerKind::Signed, IntegerKind::Unsigned, IntegerKind::Wraps];
    for (bits, of) in (1..=64).flat_map(|bits| kinds.map(|of| (bits, of(bits)))) {
        let forms = [Form::new("", integers(10)).with_kind(Kind::new(of, FloatKind::Nearest).unwrap())];
        let (forms, power) = (Forms::new_or_panic(&forms), 1_i128 << bits);
        let (least, most, own) = match of {
            IntegerKind::Signed(_) => (-power / 2, power / 2 - 1, format!("i{bits}")),
            IntegerKind::Unsigned(_) => (0, power - 1, format!("u{bits}")),
            _ => (1 - power, power - 1, format!("number of {bits} bits")),
        };
        let limits = [format!("above {most}, the largest {own}"), format!("below {least}, the least {own}")];
        for (number, limit) in [most + 1, least - 1].into_iter().zip(limits) {
            let error = forms.parse::<Unlimited>(number.to_string()).unwrap_err();
            assert_eq!(error.to_string(), limit);
        }
        each_type!(Type => {
            let name = std::any::type_name::<Type>();
            let is_nearer = (most as u128) < Type::MAX as u128;
            let above = if is_nearer { (most as u128, &*own) } else { (Type::MAX as u128, name) };
            let is_nearer = least > Type::MIN as i128;
            let below = if is_nearer { (least, &*own) } else { (Type::MIN as i128, name) };
            let above = format!("above {}, the largest {}", above.0, above.1);
            let below = format!("below {}, the least {}", below.0, below.1);
            for (sign, next, wanted) in [("", most + 1, above), ("-", least - 1, below)] {
                for number in [next.unsigned_abs(), 1 << 100, u128::MAX] {
                    let text = format!("{sign}{number}");
                    let error = forms.parse::<Type>(&text).unwrap_err();
                    assert_eq!((error.to_string(), error.span()), (wanted.clone(), 0..text.len()), "{text}");
                }
            }
        });
    }
}

/// A float has a plain text if its three radixes are 10, and an integer always has one. Floats need two radixes alike.
#[test]
fn plain_texts_are_decimal_and_floats_need_radixes() {
    let some = [2, 10, 36];
    for three in some.into_iter().flat_map(|one| some.into_iter().flat_map(move |two| some.map(|it| [one, two, it]))) {
        let [base, exponent] = [three[1], three[2]].map(std::num::NonZeroU8::new);
        let fields = NumberFormatBuilder::new().mantissa_radix(three[0]).exponent_base(base).exponent_radix(exponent);
        let syntax = Syntax::new_or_panic(fields.build_format_or_panic(), b'^', b'.');
        for text in ["1", "1.1", "1^1", "1.1^-1"] {
            let literal = syntax.read(text).unwrap();
            assert_eq!(literal.plain().is_some(), text == "1" || three == [10; 3], "{three:?} {text}");
            let refused = literal.to_f64().map_err(|it| (it.kind(), it.target()));
            let has_floats = three[0] == three[1] && three[0] != 36;
            let wanted = if has_floats { Ok(()) } else { Err((ValueErrorKind::UnsupportedRadix, "f64")) };
            assert_eq!((syntax.supports_floats(), refused.map(|_| ())), (has_floats, wanted), "{three:?} {text}");
            let told = literal.to_f64().map_or_else(|it| it.to_string(), |_| String::new());
            let sentence = "no f64: the mantissa radix and the exponent base are not both 10 or both";
            assert!(has_floats || told.starts_with(sentence), "{told}");
        }
    }
}

/// A condition is set once in the text of a syntax, whichever of its values it has.
#[test]
fn a_condition_is_set_once() {
    for it in Condition::ALL {
        let values = if it.limits().1 > 1 { ["2", "none"] } else { ["true", "false"] };
        for (one, two) in values.iter().flat_map(|one| values.map(|two| (one, two))) {
            let text = format!("0x0A0A0A6878000000000000070000000C {0}={one} {0}={two}", it.name());
            let error = text.parse::<Syntax>().unwrap_err();
            let wanted = (Error::InvalidDigit(35), format!("{} is set twice", it.name()));
            assert_eq!((error.code(), error.to_string()), wanted);
        }
    }
}

/// A condition blames the lines that set the field which the format lacks, and no other line.
#[test]
fn conditions_blame_the_field_that_is_lacking() {
    for (condition, lacking) in [
        ("required_base_prefix=true", format::BASE_PREFIX),
        ("required_base_suffix=true", format::BASE_SUFFIX),
        ("integer_group_size=3", format::INTEGER_INTERNAL_DIGIT_SEPARATOR),
    ] {
        for setter in Setter::ALL {
            let absent = ["false", "none", "10"].into_iter().find(|it| setter.parse(it).is_ok()).unwrap();
            let found = Settings::read([&format!("{}={absent}", setter.name()), condition]).unwrap();
            let wanted: &[usize] = if setter.mask() & lacking == 0 { &[1] } else { &[0, 1] };
            assert_eq!(found.reasons().next().unwrap().indexes(), wanted, "{condition}: {}", setter.name());
        }
    }
}

/// Code has a byte as a character where EXPLANATIONS says so.
#[test]
fn code_shows_characters() {
    for (name, shift, flag) in [("digit_separator", 64, 1 << 32), ("base_prefix", 88, 0), ("base_suffix", 96, 0)] {
        for byte in 1..=u8::MAX {
            let code = BuilderExpression(format::STANDARD | flag | u128::from(byte) << shift).to_string();
            let is_shown = byte.is_ascii_graphic() && !b"'\\".contains(&byte);
            let argument = if is_shown { format!("b'{}'", char::from(byte)) } else { byte.to_string() };
            assert!(code.contains(&format!(".{name}(NonZeroU8::new({argument}))")), "{code}");
        }
    }
}

/// A wrong character is shown or, if it is white space, a control character or one that cannot be seen, named.
#[test]
fn wrong_characters_are_shown_or_named() {
    let named = [" space", "\ttab", "\nline feed", "\rcarriage return", "'character \"'\"", "\u{A0}no-break space"];
    let marks = ["\u{200B}\u{200C}\u{200D}\u{200E}\u{200F}", "\u{202A}\u{202B}\u{202C}\u{202D}\u{202E}"];
    let hidden = marks.concat() + "\u{AD}\u{2060}\u{FEFF}";
    let sentence = |text: &[u8]| Syntax::default().read(text).unwrap_err().to_string();
    let others = (0x600..0x11_0000).step_by(0x1F1).filter_map(char::from_u32);
    let characters = ('\0'..'\u{600}').chain('\u{2000}'..'\u{2060}').chain(others).chain(hidden.chars());
    for it in characters.filter(|it| !"0123456789.eE\u{202F}".contains(*it)) {
        let wanted = match named.iter().find_map(|named| named.strip_prefix(it)) {
            Some(name) => name.to_string(),
            None if it.is_ascii_control() => format!("byte {}", u32::from(it)),
            None if it.is_control() || it.is_whitespace() || hidden.contains(it) => "invisible character".to_string(),
            None => format!("character '{it}'"),
        };
        assert_eq!(sentence(format!("1{it}2").as_bytes()), format!("unexpected {wanted}"));
    }
    for byte in 0x80..=0xFF {
        assert_eq!(sentence(&[b'1', byte]), format!("unexpected byte {byte}"));
    }
}

/// Names of parts and roles are those of their variants. Errors of writing and of tokens have the sentences of the
/// rows.
#[test]
fn names_and_sentences_are_known() {
    let roles = [Role::Digit, Role::Sign, Role::Separator, Role::Prefix, Role::Suffix, Role::Exponent, Role::Point];
    let parts = [Part::Integer, Part::Fraction, Part::Exponent].map(|it| (it.name(), format!("{it:?}")));
    let mut named = roles.map(|it| (it.name(), format!("{it:?}"))).into_iter().chain(parts);
    assert!(named.all(|(name, variant)| name == variant.to_lowercase()));
    use WriteError::*;
    let written = [Special, TooLarge, Negative, Fraction, Radix, Buffer(12), ReadBack];
    let tokens = [TokenError::NoTokens, TokenError::NotAToken { end: 1 }].map(|it| (format!("{it:?}"), it.to_string()));
    let found = written.map(|it| (format!("{it:?}"), it.to_string())).into_iter().chain(tokens);
    let rows = include_str!("errors.txt").lines().filter(|row| !row.starts_with('#'));
    assert!(rows.eq(found.map(|(name, sentence)| format!("{name} | {sentence}"))));
}

/// Regular expressions and grammars have each byte as their notations write it, and sentences the size of each group.
#[test]
fn notations_show_each_byte_and_size() {
    let builder = NumberFormatBuilder::new().internal_digit_separator(true);
    for byte in 1..=127 {
        let Ok(format) = builder.digit_separator(byte.try_into().ok()).build_format() else { continue };
        let (syntax, it) = (Syntax::integers(format), char::from(byte));
        let [in_set, quoted] = match it {
            '\t'..='\r' => [format!("\\{}", ["t", "n", "v", "f", "r"][usize::from(byte - 9)]), format!("#x{byte:X}")],
            '[' | '\\' | ']' | '^' => [format!("\\{it}"), format!("\"{it}\"")],
            '"' => [it.to_string(), "'\"'".into()],
            _ => [it.to_string(), format!("\"{it}\"")],
        };
        assert_eq!(syntax.regex().to_string(), format!("[+-]?[0-9]+(?:[{in_set}][0-9]+)*"));
        assert!(syntax.grammar().to_string().contains(&format!("({quoted} Digit+)*")), "{}", syntax.grammar());
    }
    let syntax =
        Syntax::new_or_panic(builder.digit_separator(b'_'.try_into().ok()).build_format_or_panic(), b'e', b'.');
    for (size, name) in (2..=8).zip(["two", "three", "four", "five", "six", "seven", "eight"]) {
        for (last, higher) in [(size, 0), (2, size), (size, 2)] {
            let sizes = Conditions::NONE.integer_group_size(Some(last)).higher_group_size(Some(higher));
            let sentence = syntax.with_conditions(sizes).unwrap().sentence().to_string();
            assert!(sentence.contains(name), "{sentence}");
        }
    }
}

/// Each call that has a span counts it from the beginning of the text. That of a value ends with the literal.
#[test]
fn spans_begin_with_the_opening() {
    let all = Language::ALL.iter().flat_map(|it| it.forms().into_iter().map(|form| (it.forms(), form)));
    for (forms, form) in all.filter(|(_, form)| !form.opening().is_empty()) {
        let (opening, digits) = (form.opening(), "1".repeat(150));
        let suffix = Vec::from_iter(form.syntax().format().base_suffix().map(NonZeroU8::get));
        let text = [opening.as_bytes(), digits.as_bytes(), &suffix].concat();
        let (number, front) = (forms.read(&text).unwrap(), forms.read_prefix_bytes(&text).unwrap().0);
        let literal = number.literal().unwrap();
        let values =
            [number.value::<u8>(), front.value(), literal.try_into(), literal.to_scaled(0), number.to_scaled(2)];
        let token = forms.token(&text).ok().map(|it| it.literal.try_into());
        let constant = literal.to_u64().err().map(Err);
        let parsed = [forms.parse(&text), forms.parse_prefix_bytes(&text).map(|it| it.0)];
        let values =
            values.into_iter().chain(token).chain(constant).map(|it| it.map_err(ParseError::from)).chain(parsed);
        let size = opening.as_bytes().len();
        values.for_each(|it| assert_eq!(it.unwrap_err().span(), 0..text.len(), "{form:?}"));
        // Without digits, the syntax refuses what is behind the opening.
        let error = forms.read(&[opening.as_bytes(), &suffix].concat()).unwrap_err();
        let (inner, end) = (error.error().unwrap(), size + suffix.len());
        assert_eq!((inner.span(), inner.valid_up_to(), inner.code().index()), (size..end, size, Some(&size)));
        assert_eq!((error.span(), error.valid_up_to()), (size..end, size));
        for wrong in ["1__1", "_1", "1_", "1.", "1e", "1e__1", "!", "é"] {
            let error = forms.read(&[opening.as_bytes(), wrong.as_bytes()].concat()).err();
            if let Some((error, inner)) = error.and_then(|it| Some((it, it.error()?))) {
                assert_eq!(error.span(), inner.span(), "{wrong} in {form:?}");
            }
        }
    }
}

/// Each type has its limits as scaled values. An error beyond names the limit as it would be in the text.
#[test]
#[allow(clippy::unnecessary_cast, reason = "it is for each type")]
fn limits_of_scaled_values_have_a_point() {
    for places in 0..=45 {
        let limit = |size: u128| {
            let mut digits = format!("{size:0>width$}", width = usize::from(places) + 1);
            digits.insert(digits.len() - usize::from(places), '.');
            digits.trim_end_matches('.').to_string()
        };
        each_type!(Type => {
            let value = |text: &str| Syntax::default().read(text).unwrap().to_scaled::<Type>(places);
            let scaled = |text: &str| value(text).unwrap_err().to_string();
            let name = match places {
                0 => format!(", the largest {}", std::any::type_name::<Type>()),
                _ => String::new(),
            };
            assert_eq!(scaled(&"9".repeat(60)), format!("above {}{name}", limit(Type::MAX as u128)));
            let name = name.replace("largest", "least");
            let least = limit((Type::MIN as i128).unsigned_abs());
            let sign = if Type::MIN != 0 { "-" } else { "" };
            assert_eq!(scaled(&("-".to_string() + &"9".repeat(60))), format!("below {sign}{least}{name}"));
            // Longer numbers may be too long.
            if Type::BITS < 128 {
                let next = [(Type::MIN as i128).unsigned_abs(), Type::MAX as u128].map(|it| limit(it + 1));
                let ends = [format!("{sign}{least}"), limit(Type::MAX as u128), format!("-{}", next[0]), next[1].clone()];
                let found = ends.map(|text| value(&text).map_err(|it| it.kind()));
                let wanted = [Ok(Type::MIN), Ok(Type::MAX), Err(ValueErrorKind::TooSmall), Err(ValueErrorKind::TooLarge)];
                assert_eq!(found, wanted, "{places}");
            }
            let below = match places {
                0 => "not a whole number".to_string(),
                1 => "more than 1 digit after the point".to_string(),
                _ => format!("more than {places} digits after the point"),
            };
            assert_eq!(scaled(&format!("0.{}1", "0".repeat(places.into()))), below);
        });
    }
}
