//! Texts that are known without this library.

mod reasons;
mod settings;
mod slices;
mod texts;
