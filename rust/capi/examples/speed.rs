//! Times `peltzivar_read`, alone and with `peltzivar_to_f64`, beside that of Rust and `strtod`, and prints the nanoseconds
//! of a text, the least of 2,000 passes. From the top folder, after `make -C c`:
//!
//!     RUSTFLAGS="-L rust/target/make/release" cargo run --release -p peltzivar-capi --features speed --example speed

use peltzivar::literal::Language;
use std::ffi::{c_char, c_void};
use std::hint::black_box;
use std::mem::MaybeUninit;
use std::ptr::null_mut;
use std::time::Instant;

#[link(name = "peltzivar_c", kind = "static")]
extern "C" {
    fn peltzivar_language_json() -> *const c_void;
    fn peltzivar_list_of(forms: *const c_void, to: *mut u128, len: usize, needed: *mut usize) -> *const *const u64;
    fn peltzivar_read(syntax: *const u64, text: *const u8, len: usize, to: *mut u128, error: *mut c_void) -> u8;
    fn peltzivar_to_f64(literal: *const u128, value: *mut f64) -> u8;
    fn strtod(text: *const c_char, end: *mut *mut c_char) -> f64;
}

/// Literals of JSON, which `strtod` reads, too. A null byte ends each.
const TEXTS: [&str; 8] =
    ["1\0", "-17\0", "1000\0", "3.25\0", "-12345.678e-9\0", "0.5\0", "1000.5e-3\0", "9007199254740993\0"];

/// Prints the least time of a text.
fn time(name: &str, call: impl Fn(&'static str) -> bool) {
    let pass = |_| {
        let start = Instant::now();
        assert!((0..8_000).all(|index| call(black_box(TEXTS[index % 8]))));
        start.elapsed().as_nanos() / 8_000
    };
    println!("{:4} {name}", (0..2_000).map(pass).min().unwrap_or_default());
}

fn main() {
    let mut memory = [0; 64];
    // SAFETY: this memory is enough. The list begins with a pointer to the first form, whose syntax is behind a pointer.
    let syntax = unsafe {
        let list = peltzivar_list_of(peltzivar_language_json(), memory.as_mut_ptr(), size_of_val(&memory), null_mut());
        (*list).add(1)
    };
    // A `peltzivar_literal` has 352 bytes.
    let read = |text: &str, literal: &mut MaybeUninit<[u128; 22]>| {
        let (to, len) = (literal.as_mut_ptr().cast(), text.len() - 1);
        // SAFETY: the literal is large enough and aligned, the text has this length, and the error may be null.
        unsafe { peltzivar_read(syntax, text.as_ptr(), len, to, null_mut()) == 0 }
    };
    let json = Language::JSON.forms()[0].syntax();
    time("read of Rust", |text| black_box(black_box(&json).read(&text[..text.len() - 1])).is_ok());
    time("peltzivar_read", |text| read(text, black_box(&mut MaybeUninit::uninit())));
    time("peltzivar_read and peltzivar_to_f64", |text| {
        let (mut literal, mut value) = (MaybeUninit::uninit(), 0.0);
        // SAFETY: `peltzivar_read` has made the literal.
        read(text, black_box(&mut literal)) && unsafe { peltzivar_to_f64(literal.as_ptr().cast(), &mut value) } == 0
    });
    // SAFETY: a null byte ends the text.
    time("strtod", |text| black_box(unsafe { strtod(text.as_ptr().cast(), null_mut()) }).is_finite());
}
