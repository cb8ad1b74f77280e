//! How a plan gives the run behind a row: the rows of the journal are the tree, each with its rule and the rows of its symbols.

use crate::names::Names;
use bolfrega::{Record, Row, LONGEST_RUN};
use std::collections::HashSet;

/// How deep lines are still moved to the right; deeper ones begin with their depth.
const DEEPEST: usize = 30;

/// A tree in the making, as lines.
struct Tree<'a> {
    rows: &'a [Row],
    rules: &'a [Record<'a>],
    names: &'a Names,
    /// The rows that have been told: one that comes again is not told again, so that a tree has at most two lines for each row.
    told: HashSet<usize>,
    lines: String,
}

/// The lines of the tree from a row. The rules are the file's, and rule n is record n: the rules are a file's first records.
pub fn tree(rows: &[Row], rules: &[Record], names: &Names, row: usize) -> String {
    let mut tree = Tree {
        rows,
        rules,
        names,
        told: HashSet::new(),
        lines: String::new(),
    };
    tree.tell(row, 0, 0);
    tree.lines
}

impl Tree<'_> {
    /// Tells how a row gives its part of the run, which begins behind `before` steps.
    fn tell(&mut self, number: usize, before: usize, depth: usize) {
        let Some(row) = self.rows.get(number).copied() else { return };
        let rule = row.rule as usize;
        let text = self.rules.get(rule).map_or(String::new(), |record| self.names.rule(record));
        let again = !self.told.insert(number);
        let symbols = self.symbols(&row, before);
        let as_above = if again && !symbols.is_empty() { ", as above" } else { "" };
        self.lines += &format!(
            "{}record {rule}: {text}{}{as_above}\n",
            indent(depth),
            part(before, row.length as usize)
        );
        if again {
            return;
        }
        for (symbol, begin) in symbols {
            self.tell(symbol, begin, depth + 1);
        }
    }

    /// The rows of a row's procedure symbols, and how many steps are before each.
    fn symbols(&self, row: &Row, before: usize) -> Vec<(usize, usize)> {
        let body = match self.rules.get(row.rule as usize) {
            Some(Record::Rule { body, .. }) => body,
            _ => return Vec::new(),
        };
        let mut found = Vec::new();
        let mut begin = before;
        for (_, pointer) in body.iter().zip([row.left, row.right]) {
            match self.rows.get(pointer as usize) {
                // A step code.
                None => begin += 1,
                Some(inner) => {
                    found.push((pointer as usize, begin));
                    begin += inner.length as usize;
                }
            }
        }
        found
    }
}

fn indent(depth: usize) -> String {
    if depth <= DEEPEST {
        "  ".repeat(depth + 1)
    } else {
        format!("{}[{depth}] ", "  ".repeat(DEEPEST + 1))
    }
}

/// Which steps of the run a row gives, from 1. Of a run that is too long to be written they are not numbered.
fn part(before: usize, length: usize) -> String {
    match length {
        _ if before + length > LONGEST_RUN => String::new(),
        0 => "   (no step)".to_string(),
        1 => format!("   (step {})", before + 1),
        _ => format!("   (steps {} to {})", before + 1, before + length),
    }
}
