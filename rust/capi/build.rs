//! Makes the list of calls of C for the languages, and gives the shared library a name with the major version. A program
//! that was built for another one must not find this library, since functions and structs of the header may differ.

use peltzivar::literal::Language;
use std::{env, fs, path::Path};

fn main() {
    println!("cargo::rerun-if-changed=build.rs");
    let folder = env::var_os("OUT_DIR").unwrap();
    let call = |name: &str| format!("{name} peltzivar_language_{}\n", name.to_lowercase());
    let calls = Language::ALL.iter().map(|it| call(it.name())).collect::<String>();
    fs::write(Path::new(&folder).join("calls.rs"), format!("languages! {{ {calls} }}\n")).unwrap();
    if env::var("CARGO_CFG_TARGET_OS").as_deref() == Ok("linux") {
        let major = env!("CARGO_PKG_VERSION_MAJOR");
        println!("cargo::rustc-cdylib-link-arg=-Wl,-soname,libpeltzivar_c.so.{major}");
        // The shared library needs `memcpy` of the C library, which rustc does not link without `std`.
        println!("cargo::rustc-cdylib-link-arg=-lc");
        // Nothing unwinds, so no table finds frames.
        println!("cargo::rustc-cdylib-link-arg=-Wl,--no-eh-frame-hdr");
    }
}
