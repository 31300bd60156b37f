//! Numbers in the middle of source text: what is the token, and why there is none. Expected results are those of the grammars, and of the
//! scanners of rustc, javac, go/scanner, CPython, node, gcc, ocaml and ripper where these take a word for a number's end.

use peltzivar::literal::{Form, FormError, Forms, Language, Suffixes, Syntax, Token, TokenError, Tokens};
use std::collections::BTreeSet;

/// Returns what a row states.
fn stated(forms: &Forms, text: &str) -> String {
    match forms.token(text) {
        Ok(token) => {
            let opening = forms[token.form].opening();
            let parts = [token.literal.as_bytes(), token.suffix, token.rest].concat();
            assert_eq!(parts, text.as_bytes()[opening.as_bytes().len()..], "{text}");
            assert!(forms[token.form].syntax().read(token.literal.as_bytes()).is_ok(), "{text}");
            format!("{}|{}", token.literal, String::from_utf8_lossy(token.suffix))
        }
        Err(error) => {
            let (sentence, range) = (error.to_string(), error.span());
            format!("{}..{} {}", range.start, range.end, sentence.split(';').next().unwrap())
        }
    }
}

/// Returns the texts of `tokens.txt`, each with a language and what is stated of its token.
fn rows() -> impl Iterator<Item = (Language, &'static str, &'static str)> {
    let rows = include_str!("tokens.txt");
    let back = rows.lines().find_map(|it| it.strip_prefix("# BACK = ")).unwrap();
    rows.lines().filter(|it| !it.is_empty() && !it.starts_with("# ")).flat_map(move |row| {
        let &[text, names, wanted] = &*row.split(" ; ").collect::<Vec<_>>() else { panic!("{row}") };
        let names = if names == "BACK" { back } else { names }.split(' ');
        names.map(move |name| (Language::from_name(name).expect(name), text, wanted))
    })
}

#[test]
fn each_language_ends_its_numbers_as_its_scanner_does() {
    let differs = |(language, text, wanted): (Language, _, _)| {
        let found = stated(language.forms(), text);
        (found != wanted).then(|| format!("{language} {text}: the library has {found:?}, the row {wanted:?}"))
    };
    assert_eq!(rows().filter_map(differs).collect::<Vec<_>>().join("\n"), "", "rows of tokens.txt");
    for (language, text, _) in rows() {
        // What may follow any number ends it.
        let token = language.token(&[text.as_bytes(), b" "].concat()).map(|it| it.literal.as_bytes().to_vec());
        assert_eq!(
            token.ok(),
            language.token(text).ok().map(|it| it.literal.as_bytes().to_vec()),
            "{language}: {text}"
        );
    }
}

/// Where no form goes beyond the first byte, the error is the one that `read` has of this byte, and it is incomplete only
/// if the text ends where it is. The text is each byte, and each one with each byte behind it.
#[test]
fn an_error_is_that_of_the_first_byte_at_least() {
    let of = |error: &FormError| (error.form, error.span(), error.byte(), error.to_string(), format!("{error:#}"));
    let tokens = Language::ALL.iter().filter(|it| it.forms().tokens().is_some());
    for language in tokens {
        for first in 0..=u8::MAX {
            let alone = language.forms().read(&[first][..]).err();
            for size in [1, 2] {
                for second in 0..=if size == 1 { 0 } else { u8::MAX } {
                    let text = &[first, second][..size];
                    let Err(TokenError::Literal(error)) = language.token(text) else { continue };
                    let what = || format!("{language} {:?}: {error}", text.escape_ascii().to_string());
                    assert!(!error.is_incomplete() || error.valid_up_to() == text.len(), "{}", what());
                    let is_word = |it: u8| it == b'_' || it.is_ascii_alphanumeric() || !it.is_ascii();
                    if error.valid_up_to() == 0 && !is_word(first) {
                        assert_eq!(Some(of(&error)), alone.as_ref().map(of), "{}", what());
                    }
                }
            }
        }
    }
}

/// A token ends where its rest begins, and is the token of this text. After an error, a lexer goes on behind a word.
#[test]
fn a_token_has_an_end_and_an_error_a_place_to_go_on() {
    let is_word = |it: Option<char>| it.is_some_and(|it| it.is_ascii_alphanumeric() || it == '_' || !it.is_ascii());
    for (language, text, _) in rows() {
        let text = format!("{text} é");
        match language.token(&text) {
            Ok(token) => {
                let (whole, rest) = text.split_at(token.end());
                assert_eq!(
                    (rest.as_bytes(), token.suffix_str()),
                    (token.rest, str::from_utf8(token.suffix).ok()),
                    "{text}"
                );
                assert_eq!(language.read_token(whole).map(|it| it.end()), Ok(whole.len()), "{language}: {whole}");
                let error = language.read_token(&text).expect_err(&text);
                assert!(token.suffix.is_empty() || error.span().start == token.end(), "{language}: {text}");
            }
            Err(error) => {
                let (word, rest) = text.split_at(error.resume(&text));
                assert!(!word.is_empty() && error.span().end <= word.len(), "{language}: {text}");
                assert!(!is_word(word.chars().next_back()) || !is_word(rest.chars().next()), "{language}: {text}");
            }
        }
        let (front, bytes) = (language.read_prefix(&text), language.read_prefix_bytes(text.as_bytes()));
        assert_eq!(front.map(|it| (it.0, it.1.as_bytes())), bytes, "{language}: {text}");
        let (front, bytes) = (language.parse_prefix(&text), language.parse_prefix_bytes::<f64>(text.as_bytes()));
        assert_eq!(front.map(|it| (it.0, it.1.as_bytes())), bytes, "{language}: {text}");
    }
}

/// Returns the rows of `compare/languages/run --suffixes`: a language, a number, and its suffixes, each with `f32` if 0.1 is a
/// single with it.
fn suffixes() -> impl Iterator<Item = (Language, &'static str, Vec<(&'static str, &'static str)>)> {
    include_str!("known/suffixes.txt").lines().filter(|it| !it.starts_with('#')).map(|row| {
        let &[name, number, ref words @ ..] = &*row.split(' ').collect::<Vec<_>>() else { panic!("{row}") };
        let words = words.iter().map(|it| it.split_once(':').unwrap_or((it, "")));
        (Language::from_name(name).expect(name), number, words.collect())
    })
}

/// The words of all rows are tried behind each number: one that is in other rows alone is no suffix there.
#[test]
fn suffixes_are_those_of_the_tools() {
    let (all, mut wrong) = (BTreeSet::from_iter(suffixes().flat_map(|it| it.2).map(|it| it.0)), Vec::new());
    for (language, number, words) in suffixes() {
        for word in &all {
            let text = format!("{number}{word}");
            let parts = [number, word].map(str::as_bytes);
            let token = language.token(&text).ok().filter(|it| [it.literal.as_bytes(), it.suffix] == parts);
            let found = token.map(|it| if it.literal.to_f64() == Ok(0.1_f32.into()) { "f32" } else { "" });
            let any = token.and_then(|it| Some(language.forms()[it.form].suffixes()?.begins_any_word()));
            let wanted = words.iter().find(|it| it.0 == *word).map(|it| it.1);
            if found != wanted && !any.is_some_and(|it| it.contains(&parts[1][0])) {
                wrong.push(format!("{language} {text}"));
            }
        }
    }
    assert!(wrong.is_empty(), "suffixes of the library or of the tool alone: {wrong:#?}");
}

/// Lengths of tokens by the scanners of the languages' own tools, as `compare/languages/tokens` records them.
#[test]
fn tokens_end_where_scanners_end_them() {
    let rows = include_str!("known/tokens.txt").lines().filter(|it| !it.starts_with('#'));
    for row in rows {
        let &[name, text, size] = &*row.split(' ').collect::<Vec<_>>() else { panic!("{row}") };
        let token = Language::from_name(name).expect(name).token(text).expect(row);
        assert_eq!((text.len() - token.rest.len()).to_string(), size, "{row}");
    }
}

#[test]
fn languages_of_data_have_no_tokens() {
    #[rustfmt::skip]
    let none = ["CSV", "CSV_DE", "CSV_EN", "JSON", "JSON5", "TOML", "XML_SCHEMA", "XML_SCHEMA_DOUBLE", "YAML", "YAML_1_1"];
    let found = Language::ALL.iter().filter(|it| it.token("1") == Err(TokenError::NoTokens)).map(Language::name);
    assert_eq!(Vec::from_iter(found), none);
}

/// An unknown suffix has the words that its form has behind such a literal, and prints six of them.
#[test]
fn an_unknown_suffix_lists_those_that_are_known() {
    let printed = |language: Language, text| language.token(text).unwrap_err().to_string();
    let six = "unknown suffix; known are u8, u16, u32, u64, u128, usize, ..";
    assert_eq!(printed(Language::RUST, "1u9"), six);
    assert_eq!(printed(Language::RUST, "1.5u8"), "unknown suffix; known are f32, f64");
    assert_eq!(printed(Language::SWIFT, "1x"), "unknown suffix");
    const WORDS: [&[u8]; 8] = [b"a", b"b", b"c", b"d", b"f", b"g", b"h", b"i"];
    for count in 0..=WORDS.len() {
        let suffixes = Box::leak(Box::new(Suffixes::new(WORDS[..count].to_vec().leak(), &[], &[])));
        let forms = [Form::new("", Syntax::default()).with_suffixes(suffixes)];
        let error =
            Forms::new(&forms).unwrap().with_tokens(&Tokens::new(&[], &[])).token("1z").unwrap_err().to_string();
        assert_eq!((error.matches(", ").count(), error.ends_with(", ..")), (count.saturating_sub(1).min(6), count > 6));
    }
    for language in Language::ALL {
        for text in ["1zz", "1.5zz", "0x1zz", "0b1zz", "0o1zz"] {
            let Err(TokenError::UnknownSuffix { form, start, suffixes, .. }) = language.token(text) else { continue };
            let float = language.forms()[form].syntax().read(&text[..start]).unwrap().is_float();
            let known = language.forms()[form].suffixes().map(|it| if float { it.floats() } else { it.integers() });
            assert_eq!(suffixes, known.unwrap_or(&[]), "{language}: {text}");
            assert_eq!(printed(*language, text).ends_with(", .."), suffixes.len() > 6, "{language}: {text}");
        }
    }
}

/// Where a list refuses what is behind the literal of a token that the whole text is, the error tells the suffix, and no
/// other error does.
#[test]
fn an_error_tells_a_suffix_that_only_a_token_has() {
    for language in Language::ALL {
        for (_, text, _) in rows() {
            let Err(error) = language.read(text) else { continue };
            let token = language.token(text).ok().filter(|it| it.rest.is_empty());
            let is_behind = |it: Token| it.form == error.form && it.literal.end() == error.valid_up_to();
            let (sentence, told) = (error.to_string(), token.is_some_and(is_behind));
            assert_eq!(sentence.ends_with(" is a suffix, which `token` reads"), told, "{language} {text}: {sentence}");
            assert_eq!(language.parse::<f64>(text).map_err(|it| it.to_string()), Err(sentence));
            assert_eq!(language.read_bytes(text.as_bytes()), Err(error));
        }
    }
    // A suffix that is not UTF-8 is not told.
    for (language, byte) in Language::ALL.iter().flat_map(|it| (0x80..=0xFF).map(move |byte| (it, byte))) {
        for text in [&[b'1', byte][..], &[b'1', b'_', byte], &[b'1', b'.', b'5', byte]] {
            let sentence = language.read(text).unwrap_err().to_string();
            assert!(!sentence.contains("``"), "{language} {text:?}: {sentence}");
        }
    }
    let sentence = |it: &str| Language::RUST.parse::<u8>(it).unwrap_err().to_string();
    assert_eq!(sentence("10u8"), "unexpected character 'u'; `u8` is a suffix, which `token` reads");
    assert_eq!(sentence("10u9"), "unexpected character 'u'");
}
