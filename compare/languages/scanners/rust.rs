//! The lexer of rustc, as macros.
extern crate proc_macro;

use proc_macro::{Literal, TokenStream, TokenTree};
use std::fs;
use std::panic::catch_unwind;

/// Returns the length of the number that a text begins with, or `-`. At texts such as `1r#`, the lexer panics.
fn size(text: &str) -> String {
    match catch_unwind(|| text.parse::<TokenStream>().ok()).ok().flatten().and_then(|it| it.into_iter().next()) {
        Some(TokenTree::Literal(it)) => it.to_string().len().to_string(),
        _ => "-".into(),
    }
}

/// Reads texts in the file `texts`, and writes the length of the number that each begins with, or `-`, into the file `sizes`.
#[proc_macro]
pub fn sizes(_: TokenStream) -> TokenStream {
    let texts = fs::read_to_string("texts").unwrap();
    let sizes: String = texts.lines().map(|text| size(text) + "\n").collect();
    fs::write("sizes", sizes).unwrap();
    TokenStream::new()
}

/// Adds the numbers of a stream.
fn add(stream: TokenStream, found: &mut Vec<Literal>) {
    for tree in stream {
        match tree {
            TokenTree::Group(it) => add(it.stream(), found),
            TokenTree::Literal(it) if it.to_string().starts_with(|it: char| it.is_ascii_digit()) => found.push(it),
            _ => {}
        }
    }
}

/// Writes the length of each number of the source, which is the file `main.rs`, and the line from there into the file `sizes`.
#[proc_macro]
pub fn numbers(source: TokenStream) -> TokenStream {
    let text = fs::read_to_string("main.rs").unwrap();
    let (lines, mut found) = (Vec::from_iter(text.lines()), Vec::new());
    add(source, &mut found);
    let numbers = found.iter().map(|it| {
        let rest: String = lines[it.span().line() - 1].chars().skip(it.span().column() - 1).collect();
        format!("{} {rest}\n", it.to_string().len())
    });
    fs::write("sizes", numbers.collect::<String>()).unwrap();
    TokenStream::new()
}
