//! The command lines of the comparisons: options, and the two programs that are compared.

use crate::programs::usual;
use std::collections::BTreeMap;
use std::path::PathBuf;
use std::str::FromStr;

/// The words of a command line, taken apart.
pub struct Arguments {
    usage: &'static str,
    values: BTreeMap<String, String>,
    plain: Vec<String>,
    programs: Vec<PathBuf>,
}

impl Arguments {
    /// Takes a command line apart: some options have a value behind them, others have none, and what begins with no dash is a
    /// program. Of an option that is given twice the last value counts.
    pub fn of(
        words: impl Iterator<Item = String>,
        usage: &'static str,
        with_value: &[&str],
        without: &[&str],
    ) -> Result<Arguments, String> {
        let mut all = Arguments { usage, values: BTreeMap::new(), plain: Vec::new(), programs: Vec::new() };
        let mut words = words;
        while let Some(word) = words.next() {
            if with_value.contains(&word.as_str()) {
                let value = words.next().ok_or(usage)?;
                all.values.insert(word, value);
            } else if without.contains(&word.as_str()) {
                all.plain.push(word);
            } else if word.starts_with('-') {
                return Err(usage.into());
            } else {
                all.programs.push(word.into());
            }
        }
        Ok(all)
    }

    /// The value of an option, if it is given.
    pub fn value<T: FromStr>(&self, option: &str) -> Result<Option<T>, String> {
        match self.values.get(option) {
            Some(text) => Ok(Some(text.parse().map_err(|_| self.usage)?)),
            None => Ok(None),
        }
    }

    /// Is an option without a value given?
    pub fn has(&self, option: &str) -> bool {
        self.plain.iter().any(|word| word == option)
    }

    /// The two programs that are named, or else the usual ones: the proved program of a crate and one beside the running program.
    pub fn programs(self, proved: &str, second: &str) -> Result<[PathBuf; 2], String> {
        let programs = match <[PathBuf; 2]>::try_from(self.programs) {
            Ok(programs) => programs,
            Err(named) if named.is_empty() => usual(proved, second).map_err(|error| error.to_string())?,
            Err(_) => return Err(self.usage.into()),
        };
        match programs.iter().find(|program| !program.is_file()) {
            Some(program) => Err(format!("{} is not there: build it first", program.display())),
            None => Ok(programs),
        }
    }
}

#[cfg(test)]
mod tests {
    use super::Arguments;
    use std::path::PathBuf;

    fn of(words: &[&str]) -> Result<Arguments, String> {
        Arguments::of(words.iter().map(|word| word.to_string()), "usage", &["--runs"], &["--brief"])
    }

    #[test]
    fn options_and_programs_in_any_order() {
        let all = of(&["one", "--runs", "3", "--brief", "two", "--runs", "4"]).unwrap();
        assert_eq!(all.value("--runs"), Ok(Some(4)));
        assert!(all.has("--brief"));
        assert_eq!(all.programs, [PathBuf::from("one"), PathBuf::from("two")]);
    }

    #[test]
    fn what_is_not_given() {
        let all = of(&[]).unwrap();
        assert_eq!(all.value::<u32>("--runs"), Ok(None));
        assert!(!all.has("--brief"));
    }

    #[test]
    fn wrong_usage_is_told() {
        assert_eq!(of(&["--run"]).err(), Some("usage".into()));
        assert_eq!(of(&["--runs"]).err(), Some("usage".into()));
        assert_eq!(of(&["--runs", "x"]).unwrap().value::<u32>("--runs"), Err("usage".into()));
        assert_eq!(of(&["one"]).unwrap().programs("check_file", "check_rust"), Err("usage".into()));
        assert_eq!(of(&["one", "two"]).unwrap().programs("a", "b"), Err("one is not there: build it first".into()));
    }
}
