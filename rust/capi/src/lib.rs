//! The calls of `c/peltzivar.h` and `c/peltzivar_words.h` as a static and a shared library without `std`.
//!
//! Build with `--release`: the libraries of a dev build can be neither linked nor loaded, since they need a symbol that
//! only `std` has.
//!
//! # Safety
//!
//! Each call relies on its caller to meet the requirements of the header. Arguments are initialised. Each pointer
//! points to an object of its type, or to as many objects as its length states. During the call, memory that it reads
//! is not written by anything else, and memory to which it writes is neither read nor written by anything else. The
//! helpers in `arguments`, and each unsafe function that says no more, need just this of what a C caller passes, so a
//! call passes its arguments to them as they are.
//!
//! No other library has names that begin with `peltzivar_`, so `no_mangle` is sound.
#![no_std]

/// Exports functions under their own names to C.
macro_rules! calls {
    ($(fn $name:ident($($argument:ident: $Type:ty),*) -> $Result:ty $body:block)*) => {
        $(
            #[unsafe(no_mangle)]
            pub unsafe extern "C" fn $name($($argument: $Type),*) -> $Result $body
        )*
    };
}

mod arguments;
mod languages;
mod lists;
mod literals;
mod names;
mod numbers;
mod settings;
mod tokens;
mod values;
mod words;
mod writing;

/// Ends the program. No call panics, so this function is never called.
#[cfg(not(test))]
#[panic_handler]
fn stop(_: &core::panic::PanicInfo<'_>) -> ! {
    // SAFETY: the C library declares `abort` in this way, and every program that calls this library from C has a C
    // library.
    unsafe extern "C" {
        safe fn abort() -> !;
    }
    abort()
}
