//! The options of a driver. `bench/` has this file as a module too.

use std::env;
use std::str::FromStr;

/// The arguments of the program: the names of options, each before its value.
pub struct Options(Vec<String>);

impl Options {
    /// Reads the arguments. An option has one of these names.
    pub fn new(names: &[&str]) -> Options {
        let args: Vec<String> = env::args().skip(1).collect();
        let strange = args.iter().step_by(2).find(|arg| !names.contains(&arg.as_str()));
        assert!(strange.is_none(), "there is no option {strange:?}, but {names:?}");
        Options(args)
    }

    /// Returns the value of an option, or `None` if it is not given.
    pub fn get<T: FromStr>(&self, name: &str) -> Option<T> {
        let pair = self.0.chunks(2).find(|pair| pair[0] == name)?;
        let value = pair.get(1).and_then(|value| value.parse().ok());
        Some(value.unwrap_or_else(|| panic!("{name} needs a value")))
    }
}
