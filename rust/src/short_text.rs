// Made by rust/tools/erase.py from crates/lexical_base/src/short_text.rt: change that file.

//! The type [`ShortText`]: a text that a `const fn` can make.

use crate::digit::digit_to_char;

// The number of bytes that a text can have.
const CAPACITY: usize = 256;

/// A text of at most 256 bytes. Each call appends a piece to the text. A piece that does not fit is left out.
#[derive(Clone, Copy)]
pub struct ShortText {
    bytes: [u8; CAPACITY],
    length: usize,
}

impl ShortText {
    /// Returns a text that begins with `words`.
    #[must_use]
    pub const fn of(words: &str) -> ShortText {
        let mut text = ShortText { bytes: [0; CAPACITY], length: 0 };
        text.put(words);
        text
    }

    /// Returns the text as a string.
    #[must_use]
    pub const fn as_str(&self) -> &str {
        match core::str::from_utf8(self.bytes.split_at(self.length).0) {
            Ok(text) => text,
            Err(_) => "",
        }
    }

    /// Appends `words`.
    #[must_use]
    pub const fn and(mut self, words: &str) -> ShortText {
        self.put(words);
        self
    }

    /// Appends `n` in decimal, which has at most 20 digits.
    #[must_use]
    pub const fn decimal(mut self, n: usize) -> ShortText {
        self.put_decimal(n);
        self
    }

    /// Appends `0x`, and `n` in hexadecimal with uppercase letters, such as `0x80000000`.
    #[must_use]
    pub const fn hexadecimal(mut self, n: u128) -> ShortText {
        self.put("0x");
        self.put_hexadecimal(n);
        self
    }

    /// Appends `byte` as a character in single quotes, such as `'x'`. If the byte is a single quote, or is not a visible
    /// ASCII character, appends it in decimal.
    #[must_use]
    pub const fn quoted(mut self, byte: u8) -> ShortText {
        if byte.is_ascii_graphic() && byte != b'\'' {
            self.put_byte(b'\'');
            self.put_byte(byte);
            self.put_byte(b'\'');
            self
        } else {
            self.decimal(byte as usize)
        }
    }

    // Appends `words`, if they fit.
    const fn put(&mut self, words: &str) {
        let start = self.length;
        // The length is never above the capacity. A compiler that knows this copies all bytes at once.
        if start > CAPACITY || words.len() > CAPACITY - start {
            return;
        }
        let mut index = 0;
        while index < words.len() {
            self.bytes[start + index] = words.as_bytes()[index];
            index += 1;
        }
        self.length = start + words.len();
    }

    // Appends `byte`, if it is an ASCII character and fits.
    const fn put_byte(&mut self, byte: u8) {
        if byte.is_ascii() && self.length < CAPACITY {
            self.bytes[self.length] = byte;
            self.length += 1;
        }
    }

    // Appends the decimal digits of `n` that fit.
    const fn put_decimal(&mut self, n: usize) {
        let has_front = n >= 10;
        if has_front {
            self.put_decimal(n / 10);
        }
        self.put_byte(b'0' + (n % 10) as u8);
    }

    // Appends the hexadecimal digits of `n` that fit.
    const fn put_hexadecimal(&mut self, n: u128) {
        let has_front = n >= 16;
        if has_front {
            self.put_hexadecimal(n / 16);
        }
        self.put_byte(digit_to_char((n % 16) as u32));
    }
}
