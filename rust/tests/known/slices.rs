//! The tests of slices, which plain Rust has by hand.

use peltzivar::ascii::{is_valid_ascii, is_valid_ascii_slice, is_valid_letter, is_valid_letter_slice};

/// As in `lexical-util`, a constant can call the tests.
const _: () = assert!(is_valid_ascii_slice(&[b'~'; 99]) && !is_valid_letter_slice(b"a0"));

/// Each byte is tested in each lane of two blocks and in the bytes after them, and one byte in many blocks.
#[test]
fn each_byte_is_tested_in_each_lane() {
    let (mut text, mut letters) = ([b'0'; 4140], [b'a'; 4140]);
    let in_blocks = (0..=255).flat_map(|byte| (0..97).map(move |index| (byte, 97, index)));
    let in_many = (0..4140).step_by(7).map(|index| (0xC1, 4140, index));
    for (byte, len, index) in in_blocks.chain(in_many) {
        (text[index], letters[index]) = (byte, byte);
        let tests = [is_valid_ascii_slice(&text[..len]), is_valid_letter_slice(&letters[..len])];
        let wanted = [matches!(byte, 9..=13 | b' '..=b'~'), byte.is_ascii_alphabetic()];
        assert_eq!(tests, wanted, "{byte} at {index} of {len}");
        let tests = [is_valid_ascii(byte), is_valid_letter(byte)];
        assert_eq!(tests, wanted, "{byte}");
        (text[index], letters[index]) = (b'0', b'a');
    }
}
