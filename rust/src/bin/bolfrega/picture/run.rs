//! The run as a strip: the set of stages, the step, the next set, and so on, up to the place where it is lost.

use super::canvas::{width_of, Canvas, Point};
use super::{stages_of, Run};

/// A strip is at least this wide.
pub const LEAST_WIDTH: f64 = 380.0;

/// The most steps that are shown: of a longer run the first ones and the last ones.
const MOST: usize = 16;
const LEGEND: &str = "Double ring: finishing. Red: where the run is lost.";
const GAP: f64 = 44.0;
const TALL: f64 = 26.0;
const ROW: f64 = 40.0;

/// Draws a run within some width.
pub fn draw(run: &Run, width: f64) -> Canvas {
    let mut strip = Canvas::new(width, 0.0);
    let mut pen = Point::new(0.0, 24.0);
    strip.text(Point::new(0.0, 8.0), "bold", "The run, and the stages that it can be in");
    let last = run.until_lost();
    set(&mut strip, &mut pen, run.before(0), last == 0);
    for step in 0..last {
        if last > MOST && step == MOST / 2 {
            let left_out = format!("… {} steps …", last - MOST);
            turn(&mut strip, &mut pen, width_of(&left_out) + GAP);
            strip.text(Point::new(pen.x + 8.0, pen.y + 18.0), "grey", &left_out);
            pen.x += width_of(&left_out) + 16.0;
        }
        if last > MOST && (MOST / 2..last - MOST / 2).contains(&step) {
            continue;
        }
        turn(&mut strip, &mut pen, GAP + width_of(&words(run.before(step + 1))) + 20.0);
        arrow(&mut strip, &mut pen, run.steps[step].code, run.lost == Some(step + 1));
        set(&mut strip, &mut pen, run.before(step + 1), step + 1 == last);
    }
    strip.text(Point::new(0.0, pen.y + TALL + 26.0), "", &run.fate());
    strip.text(Point::new(0.0, pen.y + TALL + 50.0), "grey", LEGEND);
    strip.width = width.max(width_of(&run.fate()));
    strip.height = pen.y + TALL + 52.0;
    strip
}

/// Goes on to the next row where there is no room for as much.
fn turn(strip: &mut Canvas, pen: &mut Point, room: f64) {
    if pen.x + room > strip.width {
        *pen = Point::new(0.0, pen.y + ROW);
    }
}

/// A set of stages in a box.
fn set(strip: &mut Canvas, pen: &mut Point, stages: u16, last: bool) {
    let words = words(stages);
    let wide = width_of(&words) + 14.0;
    strip.rect(*pen, wide, TALL, if last { "box lost" } else { "box seen" });
    strip.text(Point::new(pen.x + wide / 2.0, pen.y + 18.0), "middle", &words);
    pen.x += wide;
}

/// A step from one set to the next.
fn arrow(strip: &mut Canvas, pen: &mut Point, code: u8, lost: bool) {
    let (middle, class) = (pen.y + TALL / 2.0, if lost { "stuck" } else { "path" });
    let ends = [Point::new(pen.x + 3.0, middle), Point::new(pen.x + GAP - 2.0, middle)];
    strip.curve(&ends, class, true, &format!("code {code}"));
    strip.text(
        Point::new(pen.x + GAP / 2.0 - 2.0, middle - 6.0),
        "middle first",
        &code.to_string(),
    );
    pen.x += GAP;
}

/// A set of stages, short.
fn words(stages: u16) -> String {
    let numbers: Vec<String> = stages_of(stages).map(|stage| stage.to_string()).collect();
    if numbers.is_empty() {
        "none".to_string()
    } else {
        numbers.join(" ")
    }
}
