// SPDX-License-Identifier: Apache-2.0 AND BSD-3-Clause
//! The command line.

use std::collections::HashMap;
use std::str::FromStr;

/// Words after the command: `--name value`.
pub struct Options(HashMap<String, String>);

impl Options {
    /// Reads the words; only the names that are known are allowed.
    pub fn read(words: &[String], known: &[&str]) -> Result<Self, String> {
        let mut options = HashMap::new();
        let mut words = words.iter();
        while let Some(word) = words.next() {
            let name = word.strip_prefix("--").filter(|name| known.contains(name));
            let name = name.ok_or(format!("{word} isn't an option here"))?;
            let value = words.next().ok_or(format!("{word} needs a value"))?;
            options.insert(name.to_string(), value.clone());
        }
        Ok(Options(options))
    }

    /// A text.
    pub fn text(&self, name: &str) -> Option<&str> {
        self.0.get(name).map(String::as_str)
    }

    /// A text that must be given.
    pub fn needed(&self, name: &str) -> Result<&str, String> {
        self.text(name).ok_or(format!("--{name} is missing"))
    }

    /// A number, or what it is if it isn't given.
    pub fn number<T: FromStr>(&self, name: &str, otherwise: T) -> Result<T, String> {
        match self.text(name) {
            None => Ok(otherwise),
            Some(text) => text.parse().map_err(|_| format!("--{name} {text}: not a number")),
        }
    }
}
