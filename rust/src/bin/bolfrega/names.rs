//! Names for procedures, steps and stages, from a side file: a line `procedure 1 rows`, `step 3 close` or `stage 0 ready` for each.

use crate::status::Trouble;
use crate::words::{escaped, joined};
use bolfrega::{Record, Symbol, CODES, PROCEDURES, STAGES};
use std::collections::HashMap;

/// What can have a name.
#[derive(Clone, Copy, PartialEq, Eq, Hash)]
enum Kind {
    Procedure,
    Step,
    Stage,
}

/// The names that are given. What has none is named by its number, as the library prints records.
#[derive(Default)]
pub struct Names {
    names: HashMap<(Kind, u8), String>,
}

impl Names {
    /// Reads the text of a side file with this name.
    pub fn read(path: &str, text: &str) -> Result<Names, Trouble> {
        let mut names = HashMap::new();
        for (place, line) in (1..).zip(text.lines()) {
            let line = line.split('#').next().unwrap_or_default().trim();
            if line.is_empty() {
                continue;
            }
            let bad = |why| Trouble::new(format!("{path}:{place}: {why}: {}", escaped(line)));
            let (what, name) = entry(line).ok_or_else(|| bad("not `procedure`, `step` or `stage`, a number and a name"))?;
            if names.insert(what, name).is_some() {
                return Err(bad("named before"));
            }
        }
        Ok(Names { names })
    }

    fn name(&self, kind: Kind, number: u8) -> Option<String> {
        self.names.get(&(kind, number)).cloned()
    }

    /// A procedure at the head of a rule.
    pub fn head(&self, number: u8) -> String {
        self.name(Kind::Procedure, number).unwrap_or_else(|| number.to_string())
    }

    pub fn procedure(&self, number: u8) -> String {
        self.name(Kind::Procedure, number)
            .unwrap_or_else(|| format!("procedure {number}"))
    }

    /// A step of a run.
    pub fn step(&self, code: u8) -> String {
        self.step_name(code).unwrap_or_else(|| code.to_string())
    }

    pub fn stage(&self, number: u8) -> String {
        self.stage_name(number).unwrap_or_else(|| format!("stage {number}"))
    }

    /// The name of a stage, if it has one.
    pub fn stage_name(&self, number: u8) -> Option<String> {
        self.name(Kind::Stage, number)
    }

    /// The name of a step code, if it has one.
    pub fn step_name(&self, code: u8) -> Option<String> {
        self.name(Kind::Step, code)
    }

    fn symbol(&self, byte: u8) -> String {
        match Symbol::from(byte) {
            Symbol::Code(code) => self.step(code),
            Symbol::Procedure(number) => format!("({})", self.procedure(number)),
        }
    }

    /// A rule in the library's words, with the names.
    pub fn rule(&self, record: &Record) -> String {
        match *record {
            Record::Rule { procedure, body: [] } => format!("{} gives nothing", self.head(procedure)),
            Record::Rule { procedure, body } => {
                let body = body.iter().map(|&byte| self.symbol(byte));
                format!("{} gives {}", self.head(procedure), joined(body, " "))
            }
            ref other => other.to_string(),
        }
    }
}

/// What a line names, and the name.
fn entry(line: &str) -> Option<((Kind, u8), String)> {
    let (word, rest) = line.split_once(char::is_whitespace)?;
    let (number, name) = rest.trim_start().split_once(char::is_whitespace)?;
    let (kind, count) = match word {
        "procedure" => (Kind::Procedure, PROCEDURES),
        "step" => (Kind::Step, CODES),
        "stage" => (Kind::Stage, STAGES),
        _ => return None,
    };
    let number = number.parse().ok().filter(|&number| number < count)?;
    Some(((kind, number), escaped(name.trim())))
}
