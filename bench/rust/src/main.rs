//! Times loops over the library and the same loops over `lexical-util`. Both fold the results of the calls into one
//! number, and the program panics if the numbers differ. It prints a line for each row: the name, and the least
//! nanoseconds of a call on both sides.
//!
//!     driver [--rounds N] [--only TEXT]

mod calls;
#[allow(dead_code)]
#[path = "../../../compare/rust/src/inputs.rs"]
mod inputs;
mod languages;
mod literals;
mod measure;
#[path = "../../../compare/rust/src/options.rs"]
mod options;
mod ours;
#[path = "../../../compare/rust/src/random.rs"]
mod random;
#[allow(dead_code, unused_imports, unused_macros)]
#[path = "../../../compare/rust/src/rows.rs"]
mod rows;
mod theirs;

use measure::Row;
use peltzivar::FormatView;
use random::Random;
use std::hint::black_box;

/// A word, and the bits of an exponent character and a decimal point, with others above them.
type Case = (u128, u64);

/// Hexadecimal, with a base prefix and a base suffix, and with separators between digits.
const HEXADECIMAL: u128 = 0x10 << 104 | 0x68_78 << 88 | 0x5F << 64 | 1 << 32 | 0xC;

/// Returns items for the whole program.
fn list<T>(random: &mut Random, len: usize, item: impl Fn(&mut Random) -> T) -> &'static [T] {
    (0..len).map(|_| item(random)).collect::<Vec<T>>().leak()
}

/// Returns a word that is lawful or not, for which the library does not differ from `lexical-util` on purpose.
fn case(random: &mut Random, is_lawful: bool) -> Case {
    loop {
        let options = random.pick(b"ep^@") as u64 | (random.pick(b".;|") as u64) << 8;
        let case = [(random.word(), options | random.next() << 16)];
        let is_alike = ours::format_errors(&case) == theirs::format_errors(&case);
        let is_wanted = FormatView::new(case[0].0).is_valid() == is_lawful;
        if is_wanted && is_alike && ours::options(&case) == theirs::options(&case) {
            return case[0];
        }
    }
}

/// Returns the rows over `lexical-util`. Short slices are timed in a text of 16 KiB, so that a pass takes some time.
#[rustfmt::skip]
fn rows() -> Vec<Row> {
    /// Rows: a name, the number of calls in an item of the input, the loop, the input, and the loop's other argument.
    macro_rules! rows {
        ($($name:expr, $calls:expr, $pass:ident($input:expr $(, $argument:expr)?);)*) => {
            vec![$({
                let input = $input;
                Row {
                    name: $name,
                    calls: (input.len() as f64 * $calls) as usize,
                    ours: Box::new(move || ours::$pass(black_box(input) $(, black_box($argument))?)),
                    theirs: Box::new(move || theirs::$pass(black_box(input) $(, black_box($argument))?)),
                }
            }),*]
        };
    }
    const SIZE: usize = 1 << 16;
    let random = &mut Random::new(20_240_607);
    let alphanumeric: Vec<u8> = (b'0'..=b'z').filter(u8::is_ascii_alphanumeric).collect();
    // Digits of a radix, in both cases. One byte in 32 is not a digit.
    let mut digits = |radix| {
        let own: Vec<u8> = alphanumeric.iter().copied().filter(|c| (*c as char).is_digit(radix)).collect();
        list(random, SIZE, |it| if it.one_in(32) { b'_' } else { it.pick(&own) })
    };
    let (decimal, hexadecimal, in_36) = (digits(10), digits(16), digits(36));
    // Visible text with some tabs and line ends, and the same with one byte in 100 that is not allowed.
    let visible = |it: &mut Random| if it.one_in(20) { it.pick(b"\t\r\n") } else { it.byte(b' ', b'~') };
    let (text, any_bytes) = (list(random, SIZE, visible), list(random, SIZE, |it| it.next() as u8));
    let spoiled = list(random, SIZE, |it| if it.one_in(100) { it.pick(b"\0\x08\x0E\x7F\x80") } else { visible(it) });
    let letters = list(random, SIZE, |it| it.pick(&alphanumeric[10..]));
    let [lawful, broken] = [true, false].map(|is_lawful| list(random, 4096, |it| case(it, is_lawful)));
    let any = list(random, 4096, |it| (it.bits(), it.next()));
    let edit = |it: &mut Random| format!("{:?}", it.call()).parse().expect("a setting");
    let edited = list(random, 4096, |it| (it.bits(), [(); 3].map(|()| edit(it))));
    let byte = |it: &mut Random| it.pick(b"0123456789ABCDEFabcdef0123456789__x..pP+- ,h");
    let numbers = list(random, SIZE / 4, |it| (HEXADECIMAL, byte(it).into()));
    rows! {
        "char_to_digit, read, radix 10", 1.0, digit_read(decimal, 10);
        "char_to_digit, read, radix 16", 1.0, digit_read(hexadecimal, 16);
        "char_to_digit, read, radix 36", 1.0, digit_read(in_36, 36);
        "char_is_digit, any bytes, radix 16", 1.0, is_digit(any_bytes, 16);
        "constant format in a reader's loop", 1.0, constant_read(hexadecimal);
        "role_of, bytes of a text", 1.0, roles(numbers);
        "is_valid_ascii_slice, 16 B", 1.0 / 16.0, ascii_slices(&text[..1 << 14], 16);
        "is_valid_letter_slice, 16 B", 1.0 / 16.0, letter_slices(&letters[..1 << 14], 16);
        "is_valid_ascii_slice, 1 KiB", 1.0 / 1024.0, ascii_slices(&text[..1 << 14], 1 << 10);
        "is_valid_letter_slice, 1 KiB", 1.0 / 1024.0, letter_slices(&letters[..1 << 14], 1 << 10);
        "is_valid_ascii_slice, 0 to 63 B, spoiled", 1.0 / 64.0, short_slices(spoiled);
        "description", 256.0, descriptions(broken);
        "format_error, lawful", 1.0, format_errors(lawful);
        "format_error, unlawful", 1.0, format_errors(broken);
        "is_valid_options_punctuation, lawful", 1.0, options(lawful);
        "is_valid_options_punctuation, unlawful", 1.0, options(broken);
        "new, 5 setters, build", 1.0, new_builders(any);
        "rebuild, 3 setters, build", 1.0, setters(any);
        "rebuild, build_strict, lawful", 1.0, build_strict(lawful);
        "normal_form", 1.0, normal_forms(any);
        "edit_word, 3 edits", 1.0, edits(edited);
        "Format::new, lawful", 1.0, formats(lawful);
        "Format::new, unlawful", 1.0, formats(broken);
    }
}

fn main() {
    let options = options::Options::new(&["--rounds", "--only"]);
    let rounds = options.get("--rounds").unwrap_or(25);
    let only = options.get::<String>("--only").unwrap_or_default();
    for row in rows().into_iter().chain(literals::rows()).filter(|row| row.name.contains(&only)) {
        assert!((row.ours)() == (row.theirs)(), "{}: the results differ", row.name);
        let [ours, theirs] = row.measure(rounds);
        println!("{}\t{ours:.4}\t{theirs:.4}", row.name);
    }
}
