//! Literals that are read, over the tables of docs/FORMAT.md and docs/EXPLANATIONS.md, and the grammars of languages.

use peltzivar::format::{CASE_SENSITIVE_SPECIAL, DIGIT_SEPARATOR_FLAG_MASK, NO_SPECIAL};
use peltzivar::literal::{
    Condition, Form, Language, Literal, Number, ReadError, ReadErrorKind, Sign, Specials, Spelling, Style, Syntax,
    ValueError, ValueErrorKind,
};
use peltzivar::{edits, Edit, FlagSetter, Format, NumberFormatBuilder, Part, Rule, Settings};
use std::collections::HashSet;

const FORMAT: &str = include_str!("../../docs/FORMAT.md");
const EXPLANATIONS: &str = include_str!("../../docs/EXPLANATIONS.md");

/// Returns the cells of each row of the table in a section of a page.
fn table(page: &'static str, title: &str) -> impl Iterator<Item = Vec<&'static str>> {
    let (_, section) = page.split_once(&format!("## {title}\n")).expect(title);
    let lines = section.lines().take_while(|line| !line.starts_with("## "));
    let rows = lines.filter_map(|line| line.strip_prefix('|')?.strip_suffix('|')).skip(2);
    rows.map(|row| row.split('|').map(|cell| cell.trim_matches([' ', '`'])).collect())
}

/// Returns the texts of a cell.
fn texts(cell: &'static str) -> impl Iterator<Item = &'static str> {
    cell.split("` `")
}

/// Returns the texts of two cells, those that are accepted first.
fn both(accepted: &'static str, rejected: &'static str) -> impl Iterator<Item = (&'static str, bool)> {
    texts(accepted).map(|text| (text, true)).chain(texts(rejected).map(|text| (text, false)))
}

/// Returns a syntax with the options of the page, but for those in `settings`.
fn syntax_of(settings: &str) -> Syntax {
    Settings::read(settings.split_whitespace()).unwrap().build_syntax().expect(settings)
}

/// Returns the parts that are present, one after another.
fn present<'a>(literal: Literal<'a>) -> Vec<&'a [u8]> {
    literal.parts().map(|(_, bytes)| bytes).collect()
}

/// The parts of a literal are its bytes, and its digits have the values that `char::to_digit` of std has.
fn has_parts(literal: Literal<'_>, format: Format) {
    assert_eq!(present(literal).concat(), literal.as_bytes());
    let [mantissa, exponent] = [format.mantissa_radix(), format.exponent_radix()];
    let parts = [(Part::Integer, literal.integer(), mantissa), (Part::Fraction, literal.fraction(), mantissa)];
    for (part, bytes, radix) in parts.into_iter().chain([(Part::Exponent, literal.exponent(), exponent)]) {
        assert_eq!(literal.radix(part), radix, "{literal:?}");
        let values = bytes.iter().filter_map(|&byte| char::from(byte).to_digit(radix));
        let (wanted, digits) = (Vec::from_iter(values), literal.digits(part).map(u32::from));
        let (least, most) = digits.size_hint();
        assert!(least <= wanted.len() && Some(wanted.len()) <= most);
        assert!(digits.clone().eq(wanted.iter().copied()), "{literal:?}");
        assert!(digits.rev().eq(wanted.into_iter().rev()), "{literal:?}");
    }
}

/// Reads a text. Both calls agree.
fn read<'a>(syntax: Syntax, text: &'a (impl AsRef<[u8]> + ?Sized)) -> Result<Literal<'a>, ReadError> {
    let text = text.as_ref();
    let (result, prefix) = (syntax.read(text), syntax.read_prefix_bytes(text));
    let longest = prefix.map_or(0, |(literal, _)| literal.as_bytes().len());
    if let Ok((literal, rest)) = prefix {
        assert_eq!((literal.as_bytes(), rest), text.split_at(longest), "{text:?}");
        has_parts(literal, syntax.format());
    }
    match result {
        Ok(literal) => assert_eq!(prefix, Ok((literal, &[][..]))),
        Err(error) => {
            assert!(longest <= error.valid_up_to() && error.valid_up_to() <= text.len(), "{text:?}");
            assert_eq!(error.is_incomplete(), error.valid_up_to() == text.len(), "{text:?}");
            assert!(text.get(error.span()).is_some(), "{text:?}: {error:?}");
            std::str::from_utf8(text).iter().for_each(|text| characters_are_whole(error, syntax, text));
            settings_end_the_cause(error, syntax, text);
        }
    }
    result
}

/// A character of several bytes behind the wrong byte changes nothing. Where the text is right, it is what cannot follow.
/// All spans have whole characters.
fn characters_are_whole(error: ReadError, syntax: Syntax, text: &str) {
    let answers = |it: ReadError| (it.valid_up_to(), it.kind(), it.span());
    for at in (0..=text.len()).filter(|at| text.is_char_boundary(*at)) {
        for character in ["\u{e9}", "\u{20ac}", "\u{1f600}"] {
            let longer = [&text[..at], character, &text[at..]].concat();
            let found = syntax.read(&longer).unwrap_err();
            assert!(longer.get(found.span()).is_some(), "{longer}: {found:?}");
            let wrong = (at, ReadErrorKind::Byte, at..at + character.len());
            assert_eq!(answers(found), if at > error.valid_up_to() { answers(error) } else { wrong }, "{longer}");
        }
    }
}

/// The settings of an error edit the flags to blame. Each edit of a separator flag ends the cause, and other edits do
/// together: a text that is still refused has another cause.
fn settings_end_the_cause(error: ReadError, syntax: Syntax, text: &[u8]) {
    let settings = Vec::from_iter(error.settings());
    assert_eq!(settings.iter().fold(0, |mask, edit| mask | edit.mask()), error.mask(), "{text:?}");
    let size = if matches!(error.kind(), ReadErrorKind::Separator(..)) { 1 } else { settings.len().max(1) };
    for edits in settings.chunks(size) {
        let builder = edits::apply_all(NumberFormatBuilder::from(syntax.format()), edits);
        // The options and the conditions stay.
        let edited = syntax.to_string().replace(&syntax.format().to_string(), &builder.view().to_string());
        let result = edited.parse::<Syntax>().unwrap().read(text);
        let blames_both = |it: ReadError| it.valid_up_to() == error.valid_up_to() && it.mask() & error.mask() != 0;
        assert!(!result.is_err_and(blames_both), "{text:?}: {edits:?}: {result:?}");
    }
}

/// Each flag, by the texts in its row: with the flag, without it, and that an error blames the flag. A flag that allows
/// digit separators changes the texts that it accepts, and any other flag those that it rejects. The flags of special
/// values are not to blame, and neither is one without which no flag allows the separator.
#[test]
fn flags_accept_and_reject_the_texts_of_the_page() {
    let specials = Specials { nan: Some(b"NaN"), inf: Some(b"inf"), infinity: None };
    let mut flags = FlagSetter::FLAGS.iter();
    for row in table(FORMAT, "The flags") {
        let [bit, name, _, _, with, accepted, rejected] = row[..] else { panic!("{row:?}") };
        let flag = name.parse::<FlagSetter>().unwrap();
        let mask = Edit::Flag(flag, true).mask();
        assert_eq!((Some(&flag), bit), (flags.next(), mask.ilog2().to_string().as_str()));
        let allows = mask >> 32 != 0;
        for (text, is_accepted) in both(accepted, rejected) {
            for (value, wanted) in [(true, is_accepted), (false, !allows)] {
                let syntax = syntax_of(&format!("{with} {name}={value}"));
                let result = read(syntax, text);
                let special = specials.read(&syntax, text.as_bytes());
                assert_eq!(result.is_ok() || special.is_some(), wanted, "{name}={value}: {text}: {result:?}");
                let can_be_blamed = match allows {
                    true => syntax.format().word() & DIGIT_SEPARATOR_FLAG_MASK != 0,
                    false => mask & (NO_SPECIAL | CASE_SENSITIVE_SPECIAL) == 0,
                };
                let blames = |error: ReadError| error.mask() & mask != 0 && error.full_text().as_str().contains(name);
                let is_blamed = result.map_or_else(blames, |_| true);
                let is_changed = is_accepted == allows && can_be_blamed;
                assert!(is_blamed || wanted || !is_changed, "{name}={value}: {text}: {result:?}");
            }
        }
    }
    assert_eq!(flags.next(), None);
}

/// Each condition, by the texts in its row: all are literals without it.
#[test]
fn conditions_accept_and_reject_the_texts_of_the_page() {
    let settings = table(FORMAT, "Conditions").map(|row| row[0].split(' ').next_back().unwrap());
    let names = HashSet::<_>::from_iter(settings.map(|it| it.split('=').next().unwrap()));
    assert_eq!(names, Condition::ALL.iter().map(|it| it.name()).collect());
    for row in table(FORMAT, "Conditions") {
        let [setting, _, with, accepted, rejected, refused] = row[..] else { panic!("{row:?}") };
        // Without other settings, the format contradicts the last condition, unless that is on the first digit.
        let code = refused.rsplit_once(": `").map(|it| it.1);
        for flag in ["", "no_integer_leading_zeros=true", "no_float_leading_zeros=true"] {
            let settings = Settings::read(setting.split(' ').next_back().into_iter().chain([flag])).unwrap();
            let error = settings.build_syntax().err().map(|it| format!("{:?}", it.code()));
            let wanted = code.filter(|it| *it != "InvalidFlags" || !flag.is_empty());
            assert_eq!(error.as_deref(), wanted, "{setting} {flag}");
            let blamed = settings.reasons().next().map(|it| it.indexes().len());
            assert_eq!(blamed, wanted.map(|it| 1 + usize::from(it == "InvalidFlags")), "{setting} {flag}");
        }
        let syntaxes = [syntax_of(with), syntax_of(&format!("{with} {setting}"))];
        for (text, is_accepted) in both(accepted, rejected) {
            let results = syntaxes.map(|syntax| read(syntax, text).is_ok());
            assert_eq!(results, [true, is_accepted], "{setting}: {text}");
        }
    }
}

#[test]
fn rules_are_those_of_the_page() {
    let rules = Rule::ALL.iter().map(|it| [it.condition().to_string(), format!("{:?}", it.error())]);
    assert!(rules.eq(table(FORMAT, "The rules").map(|row| [row[1], row[2]].map(str::to_string))));
}

#[test]
fn questions_have_the_answers_of_the_page() {
    for row in table(FORMAT, "Questions and answers") {
        let [.., settings, accepted, rejected] = row[..] else { panic!("{row:?}") };
        let syntax = syntax_of(&settings.replace("`, no options", " exponent=none point=none"));
        for text in texts(accepted) {
            assert!(read(syntax, text).is_ok(), "{settings}: {text}");
        }
        for (text, code) in texts(rejected).step_by(2).zip(texts(rejected).skip(1).step_by(2)) {
            let found = read(syntax, text).map_err(|error| format!("{:?}", error.code()));
            assert_eq!(found, Err(code.into()), "{settings}: {text}");
        }
    }
}

#[test]
fn causes_are_those_of_the_page() {
    let pages = [EXPLANATIONS, include_str!("causes.txt")].into_iter();
    for row in pages.flat_map(|page| table(page, "Texts and their causes")) {
        let [text, settings, cause, valid_up_to, span] = row[..] else { panic!("{row:?}") };
        let error = read(syntax_of(settings), text).expect_err(text);
        let mut found = match error.kind() {
            ReadErrorKind::Separator(..) => "separator".into(),
            ReadErrorKind::Missing(part) => format!("missing {part:?}").to_lowercase(),
            kind => format!("{kind:?}").to_lowercase(),
        };
        let blamed = (0..128).filter(|bit| error.mask() >> bit & 1 == 1);
        blamed.for_each(|bit| found += &format!(" {bit}"));
        let conditions = Condition::ALL.iter().filter(|&&it| error.conditions().has(it));
        conditions.for_each(|it| found += &format!(" {}", it.name()));
        let found = [found, error.valid_up_to().to_string(), format!("{:?}", error.span())];
        assert_eq!(found, [cause, valid_up_to, span], "{settings}: {text}");
    }
}

/// What users read of refused texts, with what is shown of each. Users of a language read it up to `, which`.
#[test]
fn sentences_name_what_is_seen() {
    let lines = include_str!("sentences.txt").lines().filter(|line| !line.is_empty() && !line.starts_with('#'));
    let lines = lines.map(|line| match Vec::from_iter(line.split('|').map(str::trim))[..] {
        [settings, text, sentence, shown] => (settings, text, sentence, shown),
        _ => panic!("{line}"),
    });
    for (settings, text, sentence, shown) in lines {
        let error = read(syntax_of(settings), text).unwrap_err();
        assert_eq!((format!("{error:#}").as_str(), &text[error.span()]), (sentence, shown), "{text}");
        assert_eq!(Some(error.to_string().as_str()), sentence.split(", which").next(), "{text}");
    }
}

/// An integer is compared exactly, and a float by its bits. If `f` is the end of the value, it is that of an `f32`, also as an `f64`.
/// A word that is not a value names a part of a grammar.
fn has_value(number: Number<'_>, value: &str) -> bool {
    let is_same = |one: f64, other: f64| one.to_bits() == other.to_bits() || one.is_nan() && other.is_nan();
    match (value.parse::<i128>(), value.parse::<f64>(), value.strip_suffix('f').map(str::parse::<f32>)) {
        (Ok(integer), ..) => i128::try_from(number) == Ok(integer),
        (_, Ok(double), _) => is_same(number.to_f64(), double),
        (.., Some(Ok(single))) => {
            is_same(number.to_f64(), single.into()) && is_same(f32::try_from(number).unwrap().into(), single.into())
        }
        _ => true,
    }
}

/// Each text of literals.txt, and of what the tools of languages answered, with its value by its kind if the tool printed one.
#[test]
fn languages_answer_as_their_grammars_and_tools_do() {
    assert!(Language::ALL.is_sorted_by_key(Language::name));
    let tables = [include_str!("literals.txt"), include_str!("known/languages.txt")];
    for row in tables.into_iter().flat_map(str::lines).filter(|row| !row.is_empty() && !row.starts_with('#')) {
        let cells = Vec::from_iter(row.split_whitespace());
        let is_accepted = match cells[1] {
            "+" | "-!" | "=!" => true,
            "-" | "+!" => false,
            _ => panic!("{row}"),
        };
        let language = Language::ALL.iter().find(|it| it.name() == cells[0]).expect(row);
        let text = cells[2];
        let result = language.read(text);
        // Tools refuse a number that is too large for its kind.
        let is_large = |it: ValueError| it.kind() != ValueErrorKind::UnsupportedRadix;
        let is_number = result.is_ok_and(|it| !f64::try_from(it).is_err_and(is_large));
        assert_eq!(is_number, is_accepted, "{row}: {result:?}");
        if let (Ok(number), "+", Some(value)) = (result, cells[1], cells.get(3)) {
            assert!(has_value(number, value), "{row}: not {number:?}");
        }
    }
}

/// Signs, and separators, which may be letters. FORMAT has the rows of the flags on special values alone.
#[test]
fn a_special_value_is_a_sign_and_a_spelling() {
    let specials = Specials { nan: Some(b"NaN"), inf: Some(b"inf"), infinity: Some(b"infinity") };
    let rows = [
        ("", "NaN nan", "+inf", "-INFINITY", "infi na - +-inf"),
        ("no_positive_mantissa_sign=true", "-nan", "inf -inf", "", "+nan"),
        ("required_mantissa_sign=true", "-nan +nan", "", "", "nan"),
        ("digit_separator='_' internal_digit_separator=true", "", "", "", "N_aN"),
        ("digit_separator='_' special_digit_separator=true", "N_aN N__a_N_", "+__inf", "", "_+inf ___"),
        (
            "digit_separator='i' special_digit_separator=true",
            "",
            "inf INF iinf iINiFi",
            "iNfiiInItiy",
            "IINF nf infnity",
        ),
        ("digit_separator='i' special_digit_separator=true case_sensitive_special=true", "", "iinf", "", "iNF"),
        ("digit_separator='n' special_digit_separator=true", "nan nNaN nannN", "iNnfn inf", "", "NNan a inFnN if"),
        ("radix=36", "nan", "inf", "", ""),
    ];
    for (settings, nan, inf, infinity, none) in rows {
        let syntax = Syntax::integers(Settings::read(settings.split(' ')).unwrap().build_format().unwrap());
        let spelled = [(nan, Some(Spelling::Nan)), (inf, Some(Spelling::Inf)), (infinity, Some(Spelling::Infinity))];
        for (texts, wanted) in spelled.into_iter().chain([(none, None)]) {
            for text in texts.split_whitespace() {
                let sign = [("+", Sign::Plus), ("-", Sign::Minus)].into_iter().find(|it| text.starts_with(it.0));
                let wanted = wanted.map(|it| (sign.map(|it| it.1), it));
                assert_eq!(specials.read(&syntax, text).map(|it| (it.sign, it.spelling)), wanted, "{settings}: {text}");
            }
        }
    }
}

#[test]
fn the_first_spelling_that_is_not_empty_matches() {
    let read = |inf: &'static [u8], text| {
        let specials = Specials { nan: None, inf: Some(inf), infinity: Some(b"+oo") };
        specials.read(&Syntax::integers(Format::default()), text).map(|it| (it.sign, it.spelling))
    };
    assert_eq!(["", "+", "+oo"].map(|text| read(b"", text)), [None; 3]);
    assert_eq!(
        [read(b"", "++oo"), read(b"+oo", "++oo")],
        [Spelling::Infinity, Spelling::Inf].map(|it| Some((Some(Sign::Plus), it)))
    );
}

/// Rows of settings, and the phrases that the sentence has beside `decimal` and `NaN`, or lacks.
#[test]
fn sentences_on_syntaxes_state_each_difference() {
    let rows = include_str!("phrases.txt").lines().filter(|row| !row.is_empty() && !row.starts_with('#'));
    for (settings, phrases) in rows.map(|row| row.split_once(" | ").expect(row)) {
        let sentence = syntax_of(settings).sentence().to_string();
        let [found, usual, wanted] =
            [&*sentence, "decimal; NaN", phrases].map(|it| HashSet::<_>::from_iter(it.split("; ")));
        assert_eq!(&found ^ &usual, wanted, "{settings}");
    }
    let settings = "digit_separator=39 integer_internal_digit_separator=true integer_group_size=3 \
        no_integer_leading_zeros=true no_positive_mantissa_sign=true";
    let sentence = "decimal; `'` between groups of three; no `+`; NaN; no leading zeros in integers";
    assert_eq!(syntax_of(settings).sentence().to_string(), sentence);
}

/// Returns what calls answer for texts, roles and numbers.
fn answers(syntax: Syntax) -> impl PartialEq + std::fmt::Debug {
    let texts =
        "|0|007|1_000|1,5|1.5|1e5|1.5e-3|-12|+12|0x1F|1F|12z|1__0|1'0|e5|1.234.567,5|18446744073709551616|1.|.5|0b12";
    let answer = |text| {
        let read = syntax.read(text).map(|it| (it, it.is_float(), it.to_f64(), it.to_i64(), it.radix(Part::Exponent)));
        let cause = read.err().map(|it| (it.span(), it.code(), it.mask(), it.conditions()));
        let values = (syntax.parse::<i64>(text), syntax.parse::<u8>(text), syntax.parse::<f64>(text));
        format!("{text} {read:?} {cause:?} {values:?} {:?}", syntax.read_prefix(text))
    };
    let write = |number| {
        let float = syntax.format_float(number as f64 / 8.0, Style::default()).map(|it| it.to_string());
        (syntax.format_integer(number, Style::default()).map(|it| it.to_string()), float)
    };
    let roles = (0..=255).map(|byte| syntax.role_of(byte));
    (Vec::from_iter(texts.split('|').map(answer)), Vec::from_iter(roles), [0, 1, -255, 1_234_567, i64::MIN].map(write))
}

/// A word that is not in normal form, which C can give, reads and writes what its normal form does: with absent bytes
/// of the exponent, with a separator that no flag allows, or with reserved bits.
#[test]
fn a_word_reads_and_writes_as_its_normal_form() {
    let reserved = Rule::ReservedBitsAreZero.mask();
    for syntax in HashSet::<Syntax>::from_iter(Language::ALL.iter().flat_map(Language::forms).map(Form::syntax)) {
        let (normal, options, wanted) =
            (syntax.format().word(), syntax.exponent().zip(syntax.point()), answers(syntax));
        let changes = [0xFF << 112, 0xFF << 120, 0xFFFF << 112, 0xFF << 64, reserved, 1 << 31, 1 << 72].into_iter();
        let words = changes.flat_map(|mask| [normal & !mask, normal | mask, normal & !mask | 0x5F << 64]);
        for word in words.filter(|&word| edits::normal_form(word) == normal) {
            let same = Syntax::unchecked(word, options, syntax.conditions());
            assert_eq!(answers(same), wanted, "{syntax} {word:#034X}");
        }
    }
}
