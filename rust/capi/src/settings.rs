//! Calls that find setters, and that parse and print settings, one or all of a text.

use crate::arguments::{input, item, write_list, write_text, Out, ValueStatus};
use crate::literals::Syntax;
use crate::numbers::{setter_of, NumberedEdit, Setter, Word};
use core::fmt::Display;
use core::str::from_utf8;
use peltzivar::{Edit, EditError, Finding, FindingKind, LineError, Settings};

/// Parses a setting. A text that is too long or not UTF-8 is read as a setting with an unknown name.
unsafe fn parsed(text: *const u8, len: usize) -> Result<Edit, EditError> {
    input(text, len).and_then(|it| from_utf8(it).ok()).unwrap_or("=").parse()
}

/// What takes a sentence and lines, and returns what a call returns.
type Report<'a> = &'a dyn Fn(Option<&dyn Display>, &[usize]) -> usize;

/// Adds the lines of a text to settings, and returns the error of the refused line with an index, or how many are refused.
/// A text that is too long is read as a line that states this.
#[inline(never)]
unsafe fn add_lines(
    settings: &mut Settings,
    (text, len): (*const u8, usize),
    index: Option<usize>,
) -> Result<usize, LineError> {
    let text = input(text, len).unwrap_or(b"a text of more than PTRDIFF_MAX bytes");
    let mut refused = 0;
    for line in text.split(|byte| *byte == b'\n') {
        match settings.add(line) {
            Ok(()) => (),
            Err(error) if index == Some(refused) => return Err(error),
            Err(_) => refused += 1,
        }
    }
    Ok(refused)
}

/// Returns the reason or note of settings with an index.
#[inline(never)]
fn finding(settings: &Settings, index: usize) -> Option<Finding> {
    item(settings.reasons().chain(settings.notes()), index)
}

/// Passes the sentence and the lines of a problem or note to `report`, or nothing if there is none with this index.
#[inline(never)]
unsafe fn report(text: (*const u8, usize), index: usize, report: Report<'_>) -> usize {
    let mut settings = Settings::new();
    match add_lines(&mut settings, text, Some(index)) {
        Err(error) => report(Some(&error), &[error.index()]),
        Ok(refused) => match finding(&settings, index - refused) {
            Some(finding) => report(Some(&finding), finding.indexes()),
            None => report(None, &[]),
        },
    }
}

calls! {
    fn peltzivar_parse_edit(text: *const u8, len: usize, out: Out<NumberedEdit>) -> ValueStatus {
        out.write_some(parsed(text, len).ok())
    }

    fn peltzivar_setting_error_text(text: *const u8, len: usize, to: *mut u8, to_len: usize) -> usize {
        write_text(to, to_len, parsed(text, len).err())
    }

    fn peltzivar_edit_text(edit: NumberedEdit, text: *mut u8, len: usize) -> usize {
        write_text(text, len, edit.edit())
    }

    fn peltzivar_setter_mask(setter: Setter) -> Word { setter_of(setter).map_or(0, |it| it.mask()).into() }

    fn peltzivar_read_settings(
        text: *const u8, len: usize, out: Out<Syntax>, problems: Out<usize>
    ) -> ValueStatus {
        let mut settings = Settings::new();
        let refused = add_lines(&mut settings, (text, len), None).unwrap_or(0);
        let is_reason = |it: &Finding| matches!(it.kind(), FindingKind::Reason(_) | FindingKind::Conditions(_));
        let reasons = (0..).map_while(|index| finding(&settings, index)).take_while(is_reason);
        let count = refused + reasons.count();
        problems.write(count);
        out.write_some(settings.build_syntax().ok().filter(|_| count == 0))
    }

    fn peltzivar_settings_text(text: *const u8, len: usize, index: usize, to: *mut u8, to_len: usize) -> usize {
        report((text, len), index, &|sentence, _| write_text(to, to_len, sentence))
    }

    fn peltzivar_settings_lines(text: *const u8, len: usize, index: usize, to: *mut usize, to_len: usize) -> usize {
        report((text, len), index, &|_, blamed| {
            write_list(to, to_len, blamed.iter().copied());
            blamed.len()
        })
    }
}
