//! What `bolfrega explain --svg` and `--dot` draw: the sheet of a file, and of a broken answer the run and how the plan gives it.

use crate::explain::lost_at;
use crate::names::Names;
use crate::picture::{Kind, Move, Node, Picture, Run, Sheet, Stage, Step, Tree};
use crate::sheet::{members, Stages, FIRST};
use bolfrega::{Record, Row, Symbol, LONGEST_RUN};
use std::collections::HashSet;

/// A run that is turned away: the row behind it, the stages at its start and after each step, and the place where it is lost. The run is none where it
/// is too long to be written.
pub struct Shown<'a> {
    pub rows: &'a [Row],
    pub row: usize,
    pub run: Option<&'a [u8]>,
    pub sets: &'a [Stages],
    pub lost: Option<usize>,
}

pub fn picture(title: &str, records: &[Record], names: &Names, shown: Option<Shown>) -> Picture {
    let run = shown.as_ref().and_then(|shown| shown.run.map(|run| drawn_run(run, shown)));
    let tree = shown.map(|shown| {
        let mut making = Making {
            records,
            names,
            shown,
            told: HashSet::new(),
            nodes: Vec::new(),
        };
        making.row(making.shown.row, 0);
        Tree { nodes: making.nodes }
    });
    Picture {
        title: title.to_string(),
        sheet: drawn_sheet(records, names),
        run,
        tree,
    }
}

/// The sheet, with stage 0 and each stage that a record names.
fn drawn_sheet(records: &[Record], names: &Names) -> Sheet {
    let mut sheet = Sheet::default();
    let (mut drawn, mut finishing) = (FIRST, 0);
    for record in records {
        match *record {
            Record::Move { from, code, to } => {
                drawn |= 1 << from | 1 << to;
                sheet.moves.push(Move { from, code, to });
                if let Some(name) = names.step_name(code) {
                    sheet.names.insert(code, name);
                }
            }
            Record::Finishing { stage } => finishing |= 1 << stage,
            _ => {}
        }
    }
    let stage = |number| Stage {
        number,
        name: names.stage_name(number).unwrap_or_default(),
        finishing: members(finishing).any(|one| one == number),
    };
    sheet.stages = members(drawn | finishing).map(stage).collect();
    sheet
}

fn drawn_run(run: &[u8], shown: &Shown) -> Run {
    let steps = run.iter().zip(&shown.sets[1..]);
    Run {
        steps: steps.map(|(&code, &after)| Step { code, after }).collect(),
        lost: shown.lost,
    }
}

/// A tree in the making, from the rows of the journal.
struct Making<'a> {
    records: &'a [Record<'a>],
    names: &'a Names,
    shown: Shown<'a>,
    /// The rows that are drawn: one that comes again is drawn without what is below it.
    told: HashSet<usize>,
    nodes: Vec<Node>,
}

impl Making<'_> {
    /// Adds a node, and returns its number.
    fn node(&mut self, kind: Kind, label: String, note: String, marked: bool) -> usize {
        self.nodes.push(Node {
            kind,
            label,
            note,
            marked,
            children: Vec::new(),
        });
        self.nodes.len() - 1
    }

    /// Draws how a row gives its part of the run, which begins behind `before` steps. Returns its node.
    fn row(&mut self, number: usize, before: usize) -> usize {
        let row = self.shown.rows[number];
        let rule = row.rule as usize;
        let again = !self.told.insert(number);
        let as_above = if again { ", as above" } else { "" };
        let note = format!("record {rule}: {}{as_above}", self.names.rule(&self.records[rule]));
        let label = self.names.head(row.procedure as u8);
        let node = self.node(Kind::Procedure, label, note, false);
        let Record::Rule { body, .. } = self.records[rule] else {
            return node;
        };
        if again {
            return node;
        }
        let mut begin = before;
        for (&byte, pointer) in body.iter().zip([row.left, row.right]) {
            let child = match Symbol::from(byte) {
                Symbol::Code(code) => self.step(code, begin),
                Symbol::Procedure(_) => self.row(pointer as usize, begin),
            };
            self.nodes[node].children.push(child);
            begin += self.shown.rows.get(pointer as usize).map_or(1, |inner| inner.length as usize);
        }
        node
    }

    /// Draws the step behind `before` steps.
    fn step(&mut self, code: u8, before: usize) -> usize {
        let place = before + 1;
        let marked = self.shown.lost == Some(place);
        let note = match self.shown.run {
            Some(_) if marked => format!("step {place}: {}", lost_at(self.shown.sets, place, self.names)),
            Some(_) if place <= LONGEST_RUN => format!("step {place}"),
            _ => String::new(),
        };
        self.node(Kind::Step, self.names.step(code), note, marked)
    }
}
