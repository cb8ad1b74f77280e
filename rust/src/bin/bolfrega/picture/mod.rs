//! Pictures of an order sheet, of a run that it turns away and of how the plan gives that run: as SVG, or as text for graphviz.
//!
//! Nothing here reads, writes or decides anything: what is drawn is what is given. The sheet stands on a circle, since it has at most
//! sixteen stages.

pub mod canvas;
mod dot;
mod run;
mod sheet;
mod tree;

use canvas::{Canvas, Point};
use std::collections::BTreeMap;

pub use dot::dot;

/// What is drawn.
#[derive(Clone, Debug, Default)]
pub struct Picture {
    /// The head line.
    pub title: String,
    pub sheet: Sheet,
    /// The run that is turned away, if there is one.
    pub run: Option<Run>,
    /// How the plan gives it.
    pub tree: Option<Tree>,
}

/// An order sheet.
#[derive(Clone, Debug, Default)]
pub struct Sheet {
    /// The stages to draw: stage 0, and those of moves and finishing stages.
    pub stages: Vec<Stage>,
    /// Moves from and to stages that are drawn.
    pub moves: Vec<Move>,
    /// The names of step codes, where they have some.
    pub names: BTreeMap<u8, String>,
}

#[derive(Clone, Debug, Default)]
pub struct Stage {
    pub number: u8,
    /// Empty if it has none.
    pub name: String,
    pub finishing: bool,
}

#[derive(Clone, Copy, Debug, PartialEq, Eq, PartialOrd, Ord)]
pub struct Move {
    pub from: u8,
    pub code: u8,
    pub to: u8,
}

/// A run that is turned away.
#[derive(Clone, Debug, Default)]
pub struct Run {
    pub steps: Vec<Step>,
    /// The first place from which no finishing stage can be reached: 0 is the start, and k the end of step k; none if the run only ends too early.
    pub lost: Option<usize>,
}

/// A step of a run, and the stages after it, bit s for stage s.
#[derive(Clone, Copy, Debug, PartialEq, Eq)]
pub struct Step {
    pub code: u8,
    pub after: u16,
}

/// How the plan gives a run. Node 0 is the root, and each other node is the child of one node before it.
#[derive(Clone, Debug, Default)]
pub struct Tree {
    pub nodes: Vec<Node>,
}

/// A procedure with the rule that is used, or a step.
#[derive(Clone, Debug)]
pub struct Node {
    pub kind: Kind,
    /// The number of the procedure or the step code, or a name.
    pub label: String,
    /// What stands beside it: the record of the rule, or which step it is.
    pub note: String,
    /// Whether it is where the run is lost, so that it is shown in any case.
    pub marked: bool,
    pub children: Vec<usize>,
}

#[derive(Clone, Copy, Debug, PartialEq, Eq)]
pub enum Kind {
    Procedure,
    Step,
}

/// The stages before any step: stage 0.
const FIRST: u16 = 1;

impl Run {
    /// The stages before a step, or after the last one.
    fn before(&self, step: usize) -> u16 {
        step.checked_sub(1).map_or(FIRST, |last| self.steps[last].after)
    }

    /// Where the run goes from a stage on a code, at any of its steps.
    fn taken(&self) -> BTreeMap<(u8, u8), u16> {
        let mut taken = BTreeMap::new();
        for (at, step) in self.steps.iter().enumerate() {
            for from in stages_of(self.before(at)) {
                *taken.entry((from, step.code)).or_default() |= step.after;
            }
        }
        taken
    }

    /// The steps up to the place where it is lost.
    fn until_lost(&self) -> usize {
        self.lost.unwrap_or(self.steps.len()).min(self.steps.len())
    }

    /// The step by which it is lost, with its number from 1; none if it is lost from the start, or by its end.
    fn losing(&self) -> Option<(usize, Step)> {
        let number = self.lost.filter(|&place| place > 0)?;
        Some((number, *self.steps.get(number - 1)?))
    }

    /// The stages in which the run is just before it is lost.
    fn stuck(&self) -> u16 {
        match self.losing() {
            Some((number, _)) => self.before(number - 1),
            None => self.before(self.until_lost()),
        }
    }

    /// What happens where the run is lost.
    fn fate(&self) -> String {
        let stages = named(self.stuck());
        match self.losing() {
            Some((number, Step { code, after: 0 })) => format!("Step {number}, code {code}: no move from {stages}."),
            Some((number, Step { code, after })) => {
                format!("Step {number}, code {code}: no way to finish from {}.", named(after))
            }
            None if self.lost.is_some() => format!("No way to finish from {stages}, where every run starts."),
            None if self.steps.is_empty() => format!("The run has no step, and {stages} is not finishing."),
            None => format!("The run ends in {stages}: not finishing."),
        }
    }
}

/// Whether a set has a stage.
fn has(set: u16, stage: u8) -> bool {
    stage < 16 && set >> stage & 1 == 1
}

/// The stages of a set, rising.
fn stages_of(set: u16) -> impl Iterator<Item = u8> {
    (0..16).filter(move |&stage| has(set, stage))
}

/// A set of stages in words.
fn named(set: u16) -> String {
    let numbers: Vec<String> = stages_of(set).map(|stage| stage.to_string()).collect();
    match &numbers[..] {
        [] => "no stage".to_string(),
        [one] => format!("stage {one}"),
        [rest @ .., last] => format!("stages {} and {last}", rest.join(", ")),
    }
}

/// The space around the parts of a picture.
const MARGIN: f64 = 24.0;
/// The height of the head line.
const HEAD: f64 = 30.0;

/// The picture as SVG: the sheet, the run below it, and beside these how the plan gives the run.
pub fn svg(picture: &Picture) -> String {
    let mut page = Canvas::default();
    page.text(Point::new(MARGIN, MARGIN + 10.0), "head", &picture.title);
    page.width = MARGIN + 1.15 * canvas::width_of(&picture.title);
    let sheet = sheet::draw(&picture.sheet, picture.run.as_ref());
    let (width, height) = (sheet.width, sheet.height);
    page.place(Point::new(MARGIN, MARGIN + HEAD), sheet);
    let below = MARGIN + HEAD + height + 1.5 * MARGIN;
    let strip = picture.run.as_ref().map(|run| run::draw(run, width.max(run::LEAST_WIDTH)));
    let left = strip.as_ref().map_or(width, |strip| strip.width.max(width));
    if let Some(strip) = strip {
        page.place(Point::new(MARGIN, below), strip);
    }
    if let Some(tree) = &picture.tree {
        page.place(Point::new(left + 3.0 * MARGIN, MARGIN + HEAD), tree::draw(tree));
    }
    page.width += MARGIN;
    page.height += MARGIN;
    page.finish(&picture.title)
}
