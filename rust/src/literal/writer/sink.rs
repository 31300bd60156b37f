// Made by rust/tools/erase.py from crates/lexical_writer/src/sink.rt: change that file.

//! What texts are written to, byte by byte.

/// What takes the bytes of a text.
pub trait Sink {
    /// Takes one more byte.
    fn put(&mut self, byte: u8);

    /// Takes more bytes.
    fn put_all(&mut self, bytes: &[u8]);
}

/// A buffer, and the number of bytes that it would have taken if it were long enough.
#[derive(Debug)]
pub struct Window<'a> {
    pub(crate) bytes: &'a mut [u8],
    pub(crate) length: usize,
}

impl Sink for Window<'_> {
    fn put(&mut self, byte: u8) {
        if self.length < self.bytes.len() {
            self.bytes[self.length] = byte;
        }
        self.length = self.length.saturating_add(1);
    }

    fn put_all(&mut self, bytes: &[u8]) {
        let start = self.length;
        self.length = start.saturating_add(bytes.len());
        if self.length <= self.bytes.len() {
            self.bytes[start..self.length].copy_from_slice(bytes);
        }
    }
}
