//! The options of the command line.

use crate::nearest::no_such;
use crate::rule::{rule_broken_by, Rule, MUTANTS};
use std::collections::BTreeMap;
use std::ffi::OsString;
use std::path::PathBuf;

/// Among the known words: that a file may be named.
pub const FILE: &str = "FILE";

/// Options by name, the file that is named, and the words after `--`.
#[derive(Debug, Default)]
pub struct Arguments {
    options: BTreeMap<String, OsString>,
    pub file: Option<PathBuf>,
    pub command: Vec<OsString>,
}

impl Arguments {
    /// Takes `--name value` pairs, each name one of those known, a file where `FILE` is known, then
    /// perhaps `--` and a command.
    pub fn parse(words: &[OsString], known: &[&str]) -> Result<Arguments, String> {
        let mut arguments = Arguments::default();
        let mut words = words.iter();
        while let Some(word) = words.next() {
            let name = word.to_string_lossy().to_string();
            if !name.starts_with('-') {
                arguments.name_file(word, known)?;
                continue;
            }
            if !known.contains(&name.as_str()) {
                let options = known.iter().filter(|word| ![FILE, "--"].contains(word));
                return Err(no_such(&name, "option", options.copied()));
            }
            if name == "--" {
                arguments.command = words.cloned().collect();
                return Ok(arguments);
            }
            let value = words.next().ok_or(format!("`{name}` takes a value"))?;
            arguments.options.insert(name, value.clone());
        }
        Ok(arguments)
    }

    /// Takes the one word that names a file.
    fn name_file(&mut self, word: &OsString, known: &[&str]) -> Result<(), String> {
        if !known.contains(&FILE) || self.file.is_some() {
            return Err(format!("`{}` is one word too many", word.to_string_lossy()));
        }
        self.file = Some(PathBuf::from(word));
        Ok(())
    }

    /// The number that an option gives, which must be there.
    pub fn number(&self, name: &str) -> Result<u64, String> {
        let value = self
            .options
            .get(name)
            .ok_or(format!("`{name}` is missing"))?;
        let number = value.to_str().and_then(|text| text.parse().ok());
        number.ok_or(format!("`{name}` takes a number from 0 to {}", u64::MAX))
    }

    /// The path that an option gives, if it is there.
    pub fn path(&self, name: &str) -> Option<PathBuf> {
        self.options.get(name).map(PathBuf::from)
    }

    /// The rule that the mutant breaks whose name an option gives, if it is there.
    pub fn mutant(&self, name: &str) -> Result<Option<Rule>, String> {
        let Some(value) = self.options.get(name) else {
            return Ok(None);
        };
        let rule = value.to_str().and_then(rule_broken_by);
        let names = MUTANTS.iter().map(|mutant| mutant.name);
        rule.map(Some)
            .ok_or_else(|| no_such(&value.to_string_lossy(), "mutant", names))
    }
}
