//! Calls on words: they build, read, edit and compare them, print and parse them, print why they break rules, and read the
//! bytes of a number.

use crate::arguments::{input, item, write_list, write_text, Out, ValueStatus, REFUSED};
use crate::numbers::{blamed_options, broken_rules, error_number, ErrorNumber, Fields, NumberedEdit, Word};
use core::str::from_utf8;
use peltzivar::{edits, Error, FormatView, Note, NumberFormatBuilder, Reason};

/// The result for a byte that is not a digit.
const NO_DIGIT: u32 = u32::MAX;

fn reason_at(format: Word, index: usize) -> Option<Reason> {
    item(format.view().reasons(), index)
}

fn options_reason_at(format: Word, exponent: u8, point: u8, index: usize) -> Option<Reason> {
    item(format.view().options_reasons(exponent, point), index)
}

fn note_at(fields: &Fields, index: usize) -> Option<Note> {
    item(fields.builder().notes(), index)
}

calls! {
    fn peltzivar_version() -> u32 {
        let part = |text: &str| text.parse::<u32>().unwrap_or(0);
        part(env!("CARGO_PKG_VERSION_MAJOR")) << 16
            | part(env!("CARGO_PKG_VERSION_MINOR")) << 8
            | part(env!("CARGO_PKG_VERSION_PATCH"))
    }

    fn peltzivar_check(format: Word) -> ErrorNumber { error_number(format.view().error()) }
    fn peltzivar_normal_form(format: Word) -> Word { edits::normal_form(format.number()).into() }

    fn peltzivar_edits_of(format: Word, out: *mut NumberedEdit, len: usize) -> usize {
        let (list, count) = edits::edits_of(format.number());
        write_list(out, len, list[..count].iter().map(|it| (*it).into()));
        count
    }

    fn peltzivar_fields_of(format: Word) -> Fields { NumberFormatBuilder::rebuild(format.number()).into() }
    fn peltzivar_pack(fields: &Fields) -> Word { fields.builder().build_unchecked().into() }

    fn peltzivar_edit_fields(fields: &mut Fields, edits: *const NumberedEdit, len: usize) -> ValueStatus {
        // There is none if an edit has an unknown setter, or if there are too many.
        let apply = |it, edit: &NumberedEdit| Some(edits::apply(it, edit.edit()?));
        let builder = input(edits, len).and_then(|all| all.iter().try_fold(fields.builder(), apply));
        builder.map_or(REFUSED, |it| {
            *fields = it.into();
            0
        })
    }

    fn peltzivar_word_text(format: Word, text: *mut u8, len: usize) -> usize {
        write_text(text, len, Some(format.view()))
    }

    fn peltzivar_parse_word(text: *const u8, len: usize, out: Out<Word>, index: Out<usize>) -> ErrorNumber {
        let text = input(text, len).ok_or(Error::Overflow(0));
        let text = text.and_then(|it| from_utf8(it).map_err(|_| Error::InvalidDigit(0)));
        match text.and_then(|text| text.parse::<FormatView>()) {
            Ok(view) => out.write(view.word().into()),
            Err(error) => {
                index.write(error.index().copied().unwrap_or(0));
                return error_number(error);
            }
        }
        error_number(Error::Success)
    }

    fn peltzivar_reason_text(format: Word, index: usize, text: *mut u8, len: usize) -> usize {
        write_text(text, len, reason_at(format, index))
    }

    fn peltzivar_reason_mask(format: Word, index: usize) -> Word {
        reason_at(format, index).map_or(0, |it| it.mask()).into()
    }

    fn peltzivar_reason_rules(format: Word, index: usize) -> u32 { reason_at(format, index).map_or(0, broken_rules) }

    fn peltzivar_options_reason_text(
        format: Word, exponent: u8, decimal_point: u8, index: usize, text: *mut u8, len: usize
    ) -> usize {
        let reason = options_reason_at(format, exponent, decimal_point, index);
        write_text(text, len, reason)
    }

    fn peltzivar_options_reason_mask(format: Word, exponent: u8, decimal_point: u8, index: usize) -> Word {
        let reason = options_reason_at(format, exponent, decimal_point, index);
        reason.map_or(0, |it| it.mask()).into()
    }

    fn peltzivar_options_reason_roles(format: Word, exponent: u8, decimal_point: u8, index: usize) -> u32 {
        options_reason_at(format, exponent, decimal_point, index).map_or(0, blamed_options)
    }

    fn peltzivar_note_text(fields: &Fields, index: usize, text: *mut u8, len: usize) -> usize {
        write_text(text, len, note_at(fields, index))
    }

    fn peltzivar_note_mask(fields: &Fields, index: usize) -> Word {
        note_at(fields, index).map_or(0, |it| it.mask()).into()
    }

    fn peltzivar_mantissa_digit(format: Word, byte: u8) -> u32 {
        format.view().mantissa_digit(byte).unwrap_or(NO_DIGIT)
    }

    fn peltzivar_exponent_digit(format: Word, byte: u8) -> u32 {
        format.view().exponent_digit(byte).unwrap_or(NO_DIGIT)
    }

    fn peltzivar_role_of(format: Word, exponent: u8, decimal_point: u8, byte: u8) -> u8 {
        let role = format.view().role_of(exponent, decimal_point, byte);
        role.map_or(0, |role| role as u8 + 1)
    }
}
