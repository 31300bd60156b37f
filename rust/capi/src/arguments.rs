//! The arguments that are pointers: input, output and text. A C caller may leave output uninitialised, so no reference
//! to a value points to it.

use core::fmt::{self, Display, Write};
use core::{ptr, slice};

/// Returns the `len` values that begin at `start`. A null pointer with length 0 becomes an empty slice. Returns `None` if
/// no object in C has so many bytes.
///
/// # Safety
///
/// If `len` is not 0, `start` must point to `len` bytes or edits that a C caller passes. Nothing may write to them
/// during the call that passes them.
pub unsafe fn input<'a, T>(start: *const T, len: usize) -> Option<&'a [T]> {
    if len == 0 {
        return Some(&[]);
    }
    if len > isize::MAX as usize / size_of::<T>() {
        return None;
    }
    // SAFETY: the caller guarantees the values. Bytes and edits need no alignment, and all bit patterns are valid for
    // them.
    Some(unsafe { slice::from_raw_parts(start, len) })
}

/// Whether a call has written what it is asked for: 0, or the index of one of the descriptions in `values`.
pub type ValueStatus = u8;

pub const REFUSED: ValueStatus = 6;
pub const SPECIAL: ValueStatus = 7;

/// Memory for one value that a call only writes, or a null pointer.
///
/// Each is an argument that a C caller passes, or an element of one. The header requires a pointer to an object of type `T`
/// that nothing else reads or writes during the call, or a null pointer.
#[repr(transparent)]
#[derive(Clone, Copy)]
pub struct Out<T>(*mut T);

impl<T> Out<T> {
    /// Returns the value with an index of those that begin here.
    ///
    /// # Safety
    ///
    /// The pointer is null, or a C caller passes so many values.
    #[inline(always)]
    pub unsafe fn at(&self, index: usize) -> Out<T> {
        // SAFETY: the caller guarantees the value.
        Out(if self.0.is_null() { self.0 } else { unsafe { self.0.add(index) } })
    }

    /// Writes the value, unless the pointer is null.
    pub fn write(&self, value: T) {
        if !self.0.is_null() {
            // SAFETY: C passed the pointer, and it points to an object of this type, as the comment of the type states.
            unsafe { self.0.write_unaligned(value) }
        }
    }

    /// Writes the value, if there is one, and returns whether there is.
    pub fn write_some(self, value: Option<impl Into<T>>) -> ValueStatus {
        value.map_or(REFUSED, |value| {
            self.write(value.into());
            0
        })
    }
}

/// Returns the item with an index. The code of `nth` is several times as large.
pub fn item<T>(mut items: impl Iterator<Item = T>, mut index: usize) -> Option<T> {
    loop {
        match (items.next(), index) {
            (Some(_), 1..) => index -= 1,
            (found, _) => return found,
        }
    }
}

/// Writes the first `len` of the values to the array that begins at `start`.
///
/// # Safety
///
/// `start` must point to `len` values that a C caller passes, initialised or not, or to as many as there are. Nothing
/// else may read or write them during the call that passes them.
pub unsafe fn write_list<T>(start: *mut T, len: usize, values: impl Iterator<Item = T>) {
    for (index, value) in values.take(len).enumerate() {
        // SAFETY: the caller guarantees this value.
        unsafe { start.add(index).write(value) };
    }
}

/// Writes what `value` displays, or nothing if it is `None`, and a null terminator to the `len` bytes that begin at
/// `start`, as `snprintf` does. If they do not fit, writes only the beginning and a null terminator. If `len` is 0,
/// writes nothing. Returns the length of the whole text.
///
/// # Safety
///
/// `start` must point to `len` bytes that a C caller passes, initialised or not, or to as many as are written. Nothing
/// else may read or write them during the call that passes them.
pub unsafe fn write_text(start: *mut u8, len: usize, value: Option<impl Display>) -> usize {
    // SAFETY: the caller guarantees the bytes.
    unsafe { write_by(start, len, |text| value.map_or(Ok(()), |value| write!(text, "{value}"))) }
}

/// Writes what `print` writes to a text, as `write_text` does.
///
/// # Safety
///
/// As for `write_text`.
pub unsafe fn write_by(start: *mut u8, len: usize, print: impl FnOnce(&mut Text) -> fmt::Result) -> usize {
    let mut text = Text { start, room: len.saturating_sub(1), len: 0 };
    // `Text` never fails, and nothing that is printed here fails of its own.
    let _ = print(&mut text);
    if len != 0 {
        // SAFETY: the caller guarantees this byte.
        unsafe { start.add(text.len.min(text.room)).write(0) };
    }
    text.len
}

/// Text that is written to `room` bytes as far as it fits. `len` is the length of the whole text.
pub struct Text {
    start: *mut u8,
    room: usize,
    len: usize,
}

impl Write for Text {
    fn write_str(&mut self, piece: &str) -> fmt::Result {
        let size = piece.len().min(self.room.saturating_sub(self.len));
        if size != 0 {
            // SAFETY: the caller of `write_text` guarantees `room` bytes, and these are not behind them.
            unsafe { ptr::copy_nonoverlapping(piece.as_ptr(), self.start.add(self.len), size) };
        }
        self.len += piece.len();
        Ok(())
    }
}
