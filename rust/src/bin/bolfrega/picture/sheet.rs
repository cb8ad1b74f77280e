//! The order sheet on a circle: stage 0 at the left, the others clockwise.

use super::canvas::{width_of, Canvas, Point};
use super::{has, stages_of, Move, Run, Sheet, Stage, Step};
use std::collections::{BTreeMap, BTreeSet};
use std::f64::consts::{PI, TAU};

const MIDDLE: Point = Point { x: 0.0, y: 0.0 };
/// The radius of a stage, of the ring around a finishing one, and how far a loop is drawn out.
const STAGE: f64 = 20.0;
const RING: f64 = 25.0;
const LOOP: f64 = 78.0;
/// How far from the way outward the loop of stage 0 and a step without a move are.
const ASIDE: f64 = 0.95;
/// How tall a label is.
const TALL: f64 = 18.0;
/// Where a label may stand on its arrow, the best place first.
const ALONG: [f64; 9] = [0.5, 0.43, 0.57, 0.36, 0.64, 0.29, 0.71, 0.22, 0.78];
/// With more arrows than this, those that a run doesn't take are drawn faintly.
const MANY: usize = 12;
/// The most parts of a label; the others are shown where the mouse rests on the arrow.
const MOST_PARTS: usize = 3;

/// Draws a sheet, and in it the path of a run.
pub fn draw(sheet: &Sheet, run: Option<&Run>) -> Canvas {
    let circle = Circle::of(sheet);
    let mut canvas = Canvas::default();
    let mut arrows = arrows(sheet, run);
    let dim = run.is_some() && arrows.len() > MANY;
    arrows.sort_by_key(|arrow| !arrow.taken.is_empty());
    for arrow in &arrows {
        let class = match arrow.taken[..] {
            [] if dim => "line far",
            [] => "line",
            _ => "path",
        };
        canvas.curve(&circle.curve(arrow), class, true, &arrow.title());
    }
    let mut labels = Labels::new(&circle);
    sheet
        .stages
        .iter()
        .for_each(|stage| draw_stage(&mut canvas, &circle, stage, run));
    draw_start(&mut canvas, &circle, &mut labels);
    run.into_iter()
        .for_each(|run| draw_stuck(&mut canvas, &circle, &mut labels, run));
    // The labels of the path have the first choice of places.
    for arrow in arrows.iter().rev() {
        labels.put(&mut canvas, &circle.places(arrow), &arrow.label(&sheet.names));
    }
    for stage in sheet.stages.iter().filter(|stage| !stage.name.is_empty()) {
        labels.put(&mut canvas, &circle.beside(stage.number), &[("grey", stage.name.clone())]);
    }
    labels.framed(canvas)
}

/// Where the stages are, around the place (0, 0).
struct Circle {
    radius: f64,
    /// The distance of neighbours.
    least: f64,
    stages: BTreeMap<u8, Point>,
    finishing: u16,
    /// The pairs of stages with an arrow from the first to the second.
    pairs: BTreeSet<(u8, u8)>,
}

impl Circle {
    fn of(sheet: &Sheet) -> Circle {
        let count = sheet.stages.len();
        let radius = if count < 2 { 0.0 } else { 62.0 + 16.0 * count as f64 };
        let angle = |at: usize| PI + TAU * at as f64 / count as f64;
        let place = |(at, stage): (usize, &Stage)| (stage.number, MIDDLE.away(radius, angle(at)));
        let finishing = sheet.stages.iter().filter(|stage| stage.finishing);
        Circle {
            radius,
            least: 2.0 * radius * (PI / count as f64).sin(),
            stages: sheet.stages.iter().enumerate().map(place).collect(),
            finishing: finishing.fold(0, |set, stage| set | 1 << stage.number),
            pairs: sheet.moves.iter().map(|one| (one.from, one.to)).collect(),
        }
    }

    fn at(&self, stage: u8) -> Point {
        self.stages.get(&stage).copied().unwrap_or(MIDDLE)
    }

    /// The direction from the middle to a stage; to the left if it stands there.
    fn outward(&self, stage: u8) -> f64 {
        let at = self.at(stage);
        match at.distance(MIDDLE) {
            near if near < 1.0 => PI,
            _ => at.y.atan2(at.x),
        }
    }

    /// How far its line is from the middle of a stage.
    fn edge(&self, stage: u8) -> f64 {
        if has(self.finishing, stage) {
            RING
        } else {
            STAGE
        }
    }

    /// The places of an arrow's curve. It bends to its left, so that it keeps away from the one back, and to the middle, so that it keeps away from
    /// the stages between its ends.
    fn curve(&self, arrow: &Arrow) -> Vec<Point> {
        let (from, to) = (self.at(arrow.from), self.at(arrow.to));
        let (start, end) = (self.edge(arrow.from) + 1.0, self.edge(arrow.to) + 2.0);
        if arrow.from == arrow.to {
            let angle = self.outward(arrow.from) + if arrow.from == 0 { ASIDE } else { 0.0 };
            let [first, last] = [from.away(start, angle - 0.4), from.away(end, angle + 0.4)];
            return vec![first, from.away(LOOP, angle - 0.45), from.away(LOOP, angle + 0.45), last];
        }
        let length = from.distance(to);
        let bend = length
            * if self.pairs.contains(&(arrow.to, arrow.from)) {
                0.17
            } else {
                0.03
            };
        let half = from.toward(to, length / 2.0);
        let pull = if length < 1.1 * self.least { 0.06 } else { 0.3 };
        let inward = pull * length * (half.distance(MIDDLE) / self.radius).powi(2);
        let angle = (to.y - from.y).atan2(to.x - from.x);
        let middle = half.toward(MIDDLE, inward).away(bend, angle - PI / 2.0);
        vec![from.toward(middle, start), middle, to.toward(middle, end)]
    }

    /// The places for the name of a stage: below, above, outside.
    fn beside(&self, stage: u8) -> Vec<Point> {
        let (at, far) = (self.at(stage), RING + TALL / 2.0 + 2.0);
        vec![
            at.away(far, PI / 2.0),
            at.away(far, -PI / 2.0),
            at.away(2.0 * far, self.outward(stage)),
        ]
    }

    /// The places for the label of an arrow, the best first.
    fn places(&self, arrow: &Arrow) -> Vec<Point> {
        match self.curve(arrow)[..] {
            [first, middle, last] => ALONG.iter().map(|&part| between(first, middle, last, part)).collect(),
            [_, left, right, _] => {
                let far = Point::new((left.x + right.x) / 2.0, (left.y + right.y) / 2.0);
                let near = self.at(arrow.from);
                [-10.0, 2.0, 14.0]
                    .map(|more| near.toward(far, near.distance(far) + more))
                    .to_vec()
            }
            _ => Vec::new(),
        }
    }
}

/// The place on a curve that bends to its middle place.
fn between(first: Point, middle: Point, last: Point, part: f64) -> Point {
    let rest = 1.0 - part;
    let mix = |a: f64, b: f64, c: f64| rest * rest * a + 2.0 * rest * part * b + part * part * c;
    Point::new(mix(first.x, middle.x, last.x), mix(first.y, middle.y, last.y))
}

/// All moves from one stage to another.
pub(super) struct Arrow {
    pub from: u8,
    pub to: u8,
    pub codes: Vec<u8>,
    /// The codes on which the run takes it.
    pub taken: Vec<u8>,
}

/// The moves, those from and to the same stages together.
pub(super) fn arrows(sheet: &Sheet, run: Option<&Run>) -> Vec<Arrow> {
    let mut codes = BTreeMap::<(u8, u8), Vec<u8>>::new();
    let mut moves: Vec<Move> = sheet.moves.clone();
    moves.sort_unstable();
    moves.dedup();
    for one in moves {
        codes.entry((one.from, one.to)).or_default().push(one.code);
    }
    let table = run.map(Run::taken);
    let arrow = |((from, to), codes): ((u8, u8), Vec<u8>)| {
        let taken = |&&code: &&u8| {
            let cell = |table: &BTreeMap<(u8, u8), u16>| table.get(&(from, code)).is_some_and(|&after| has(after, to));
            table.as_ref().is_some_and(cell)
        };
        let taken = codes.iter().filter(taken).copied().collect();
        Arrow { from, to, codes, taken }
    };
    codes.into_iter().map(arrow).collect()
}

impl Arrow {
    fn title(&self) -> String {
        let codes: Vec<String> = self.codes.iter().map(u8::to_string).collect();
        format!("from stage {} on {} to stage {}", self.from, codes.join(", "), self.to)
    }

    /// The codes of the path, and then the others: the classes and the texts.
    pub(super) fn label(&self, names: &BTreeMap<u8, String>) -> Vec<(&'static str, String)> {
        let rest: Vec<u8> = self.codes.iter().filter(|code| !self.taken.contains(code)).copied().collect();
        let taken = joined(&self.taken, names, MOST_PARTS);
        let rest = joined(&rest, names, MOST_PARTS.saturating_sub(self.taken.len()));
        match (taken.is_empty(), rest.is_empty()) {
            (false, false) => vec![("first", taken), ("grey", format!(", {rest}"))],
            (false, true) => vec![("first", taken)],
            _ => vec![("", rest)],
        }
    }
}

/// Codes in a row: three or more that follow each other, without a name, as the first and the last.
fn joined(codes: &[u8], names: &BTreeMap<u8, String>, most: usize) -> String {
    let mut parts = Vec::new();
    let mut rest = codes;
    while let [first, ..] = rest {
        let follows = |&(at, code): &(usize, &u8)| *code as usize == *first as usize + at && !names.contains_key(code);
        let length = rest.iter().enumerate().take_while(follows).count();
        let (part, taken) = match names.get(first) {
            Some(name) => (format!("{first} {name}"), 1),
            None if length > 2 => (format!("{first}–{}", rest[length - 1]), length),
            None => (first.to_string(), 1),
        };
        parts.push(part);
        rest = &rest[taken..];
    }
    if parts.len() > most {
        parts.truncate(most);
        parts.push("…".to_string());
    }
    parts.join(", ")
}

fn draw_stage(canvas: &mut Canvas, circle: &Circle, stage: &Stage, run: Option<&Run>) {
    let at = circle.at(stage.number);
    if stage.finishing {
        canvas.circle(at, RING, "ring", "finishing");
    }
    let class = match run {
        Some(run) if has(lost(run), stage.number) => "stage lost",
        Some(run) if has(seen(run), stage.number) => "stage seen",
        _ => "stage",
    };
    canvas.circle(at, STAGE, class, &format!("stage {}", stage.number));
    canvas.text(Point::new(at.x, at.y + 5.0), "middle bold", &stage.number.to_string());
}

/// The stages that the run comes to before it is lost.
fn seen(run: &Run) -> u16 {
    (0..=run.until_lost())
        .filter(|&place| run.lost != Some(place))
        .fold(0, |set, place| set | run.before(place))
}

/// The stages where the run is lost: those that it can't leave, or those from which it can't finish.
pub(super) fn lost(run: &Run) -> u16 {
    match run.losing() {
        Some((_, step)) if step.after != 0 => step.after,
        _ => run.stuck(),
    }
}

/// The arrow to stage 0, where every run starts.
fn draw_start(canvas: &mut Canvas, circle: &Circle, labels: &mut Labels) {
    if !circle.stages.contains_key(&0) {
        return;
    }
    let (at, angle, near) = (circle.at(0), circle.outward(0), circle.edge(0) + 2.0);
    let ends = [at.away(near + 46.0, angle), at.away(near, angle)];
    canvas.curve(&ends, "line", true, "start");
    let text = at.away(near + 30.0, angle);
    labels.put(canvas, &[Point::new(text.x, text.y - 12.0)], &[("grey", "start".to_string())]);
}

/// A step that no move is on, as an arrow that leads nowhere.
fn draw_stuck(canvas: &mut Canvas, circle: &Circle, labels: &mut Labels, run: &Run) {
    let Some((_, Step { code, after: 0 })) = run.losing() else {
        return;
    };
    for stage in stages_of(run.stuck()) {
        let (at, angle) = (circle.at(stage), circle.outward(stage) - ASIDE);
        let [near, end] = [circle.edge(stage) + 2.0, 62.0].map(|far| at.away(far, angle));
        canvas.curve(&[near, end], "stuck", false, &format!("no move on {code}"));
        for turn in [PI / 4.0, -PI / 4.0] {
            canvas.line(end.away(7.0, angle + turn), end.away(-7.0, angle + turn), "cross");
        }
        let label = [("first", code.to_string())];
        labels.keep(end, 10.0);
        labels.put(canvas, &[at.away(42.0, angle)], &label);
    }
}

/// The boxes of what stands there already: left, top, right, bottom.
struct Labels {
    boxes: Vec<[f64; 4]>,
}

impl Labels {
    fn new(circle: &Circle) -> Labels {
        let mut labels = Labels { boxes: Vec::new() };
        circle.stages.values().for_each(|&at| labels.keep(at, RING));
        labels
    }

    /// Keeps the place around a point.
    fn keep(&mut self, at: Point, around: f64) {
        self.boxes.push([at.x - around, at.y - around, at.x + around, at.y + around]);
    }

    /// Puts a label to the place where it covers least.
    fn put(&mut self, canvas: &mut Canvas, places: &[Point], label: &[(&str, String)]) {
        let parts: Vec<(&str, &str)> = label.iter().map(|(class, text)| (*class, &text[..])).collect();
        let wide = parts.iter().map(|(_, text)| width_of(text)).sum::<f64>() + 6.0;
        let around = |at: &Point| [at.x - wide / 2.0, at.y - TALL / 2.0, at.x + wide / 2.0, at.y + TALL / 2.0];
        let covered = |place: &[f64; 4]| self.boxes.iter().map(|other| common(place, other)).sum::<f64>();
        let boxes = places.iter().map(around);
        let Some(best) = boxes.min_by(|one, other| covered(one).total_cmp(&covered(other))) else {
            return;
        };
        self.boxes.push(best);
        canvas.rect(Point::new(best[0] + 2.0, best[1]), wide - 4.0, TALL, "back");
        let base = Point::new(best[0] + wide / 2.0, best[1] + TALL - 4.0);
        canvas.texts(base, "middle", &parts);
    }

    /// The drawing, moved to where all of it is seen.
    fn framed(&self, drawing: Canvas) -> Canvas {
        let least = |side: usize| self.boxes.iter().map(|place| place[side]).fold(0.0, f64::min);
        let most = |side: usize| self.boxes.iter().map(|place| place[side]).fold(0.0, f64::max);
        let mut canvas = Canvas::new(most(2) - least(0), most(3) - least(1));
        canvas.place(Point::new(-least(0), -least(1)), drawing);
        canvas
    }
}

/// The area that two boxes have in common.
fn common(one: &[f64; 4], other: &[f64; 4]) -> f64 {
    let side = |at: usize| one[at + 2].min(other[at + 2]) - one[at].max(other[at]);
    side(0).max(0.0) * side(1).max(0.0)
}

#[cfg(test)]
mod tests {
    use super::{common, joined};

    #[test]
    fn codes_in_a_row() {
        let names = [(4, "close".to_string())].into();
        assert_eq!(joined(&[1, 2, 3, 4, 5, 6], &names, 9), "1–3, 4 close, 5, 6");
        assert_eq!(joined(&[0, 9, 10, 11, 127], &names, 2), "0, 9–11, …");
        assert_eq!(joined(&[], &names, 2), "");
    }

    #[test]
    fn boxes_in_common() {
        assert_eq!(common(&[0.0, 0.0, 4.0, 4.0], &[3.0, 1.0, 9.0, 3.0]), 2.0);
        assert_eq!(common(&[0.0, 0.0, 4.0, 4.0], &[5.0, 5.0, 9.0, 9.0]), 0.0);
    }
}
