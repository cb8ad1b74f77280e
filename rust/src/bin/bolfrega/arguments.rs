//! The words of a command line.

use crate::status::Trouble;
use crate::words::{escaped, joined};
use bolfrega::{Starts, MOST_ROWS, PROCEDURES, PROGRAM_BUDGET, PROGRAM_ROWS};
use std::ffi::{OsStr, OsString};
use std::slice::Iter;

/// The options of a call, and its other words.
pub struct Arguments {
    pub rows: usize,
    pub budget: u64,
    /// The members that were named.
    pub named: Option<Starts>,
    pub json: bool,
    pub wide: bool,
    pub svg: bool,
    pub dot: bool,
    pub help: bool,
    /// The file with names.
    pub names: Option<OsString>,
    pub words: Vec<OsString>,
}

/// Reads the words behind a command that takes these options.
pub fn parse(options: &[&str], words: &[OsString]) -> Result<Arguments, Trouble> {
    let mut arguments = Arguments {
        rows: PROGRAM_ROWS,
        budget: PROGRAM_BUDGET,
        named: None,
        json: false,
        wide: false,
        svg: false,
        dot: false,
        help: false,
        names: None,
        words: Vec::new(),
    };
    let mut left = words.iter();
    while let Some(word) = left.next() {
        match word.to_str() {
            Some("--") => arguments.words.extend(left.by_ref().cloned()),
            Some("-h" | "--help") => arguments.help = true,
            Some(text) if text.starts_with('-') && text != "-" => arguments.option(options, text, &mut left)?,
            _ => arguments.words.push(word.clone()),
        }
    }
    Ok(arguments)
}

impl Arguments {
    /// Takes an option, `--NAME VALUE` or `--NAME=VALUE` or, where it has none, `--NAME`.
    fn option(&mut self, options: &[&str], text: &str, left: &mut Iter<OsString>) -> Result<(), Trouble> {
        let (name, given) = match text.split_once('=') {
            Some((name, value)) => (name, Some(OsString::from(value))),
            None => (text, None),
        };
        if !options.contains(&name) {
            return Err(Trouble::usage(format!("{} is no option here", escaped(name))));
        }
        match (name, &given) {
            ("--json", None) => self.json = true,
            ("--wide", None) => self.wide = true,
            ("--svg", None) => self.svg = true,
            ("--dot", None) => self.dot = true,
            ("--json" | "--wide" | "--svg" | "--dot", Some(_)) => return Err(Trouble::usage(format!("{name} takes no value"))),
            _ => {
                let value = given.or_else(|| left.next().cloned());
                let value = value.ok_or_else(|| Trouble::usage(format!("{name} needs a value")))?;
                self.set(name, value)?;
            }
        }
        Ok(())
    }

    fn set(&mut self, name: &str, value: OsString) -> Result<(), Trouble> {
        match name {
            "--names" => self.names = Some(value),
            "--rows" => self.rows = number(name, &value.to_string_lossy(), 1..=MOST_ROWS as u64)? as usize,
            "--budget" => self.budget = number(name, &value.to_string_lossy(), 0..=u64::MAX)?,
            _ => {
                for word in value.to_string_lossy().split(',') {
                    let procedure = number(name, word, 0..=u64::from(PROCEDURES) - 1)?;
                    let bits = self.named.map_or(0, Starts::bits) | 1 << procedure;
                    self.named = Some(Starts::from_bits(bits));
                }
            }
        }
        Ok(())
    }

    /// The members: those named, else procedure 0.
    pub fn starts(&self) -> Starts {
        self.named.unwrap_or(Starts::INITIAL)
    }

    /// The options of a check that are not as they always are, for another call with them.
    pub fn check_options(&self) -> String {
        let mut text = String::new();
        if let Some(starts) = self.named {
            text += &format!(" --start {}", joined(starts.procedures(), ","));
        }
        if self.rows != PROGRAM_ROWS {
            text += &format!(" --rows {}", self.rows);
        }
        if self.budget != PROGRAM_BUDGET {
            text += &format!(" --budget {}", self.budget);
        }
        text
    }

    /// The one file that is named, and no more.
    pub fn one_file(&self) -> Result<&OsStr, Trouble> {
        match &self.words[..] {
            [path] => Ok(path),
            [] => Err(Trouble::usage("no file is named")),
            _ => Err(Trouble::usage("only one file can be named")),
        }
    }

    /// A file to be read, and one to be written if that is named.
    pub fn two_files(&self) -> Result<(&OsStr, Option<&OsStr>), Trouble> {
        match &self.words[..] {
            [from] => Ok((from, None)),
            [from, to] => Ok((from, Some(to))),
            [] => Err(Trouble::usage("no file is named")),
            _ => Err(Trouble::usage("only two files can be named")),
        }
    }
}

/// A number within a range.
fn number(name: &str, word: &str, range: std::ops::RangeInclusive<u64>) -> Result<u64, Trouble> {
    let found = word.parse().ok().filter(|value| range.contains(value));
    found.ok_or_else(|| {
        let (least, most) = range.into_inner();
        Trouble::usage(format!(
            "{name} takes a number from {least} to {most}, and no {}",
            escaped(word)
        ))
    })
}
