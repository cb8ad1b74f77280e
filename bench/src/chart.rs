//! Time against joins, as a drawing: both axes by powers of ten.

use crate::canvas::{Canvas, Point};
use crate::timing::Times;

/// A file of the table.
pub struct Measured {
    pub name: String,
    pub joins: u64,
    pub times: Times,
}

const WIDE: f64 = 760.0;
const TALL: f64 = 460.0;
/// The space for the words at the left, and for the head.
const LEFT: f64 = 90.0;
const TOP: f64 = 84.0;
const TITLE: &str = "Time of a check against its joins";
const JOINS: &str = "joins (on a slanted line a check takes 1, 10 or 100 ns for each)";
/// The classes of the dots, and what they are.
const KINDS: [(&str, &str); 3] = [
    ("dot1", "proved"),
    ("dot2", "plain Rust, semi-naive"),
    ("dot3", "plain Rust, every candidate"),
];
/// Times for one join that have a line of their own, in nanoseconds.
const RATES: [f64; 3] = [1.0, 10.0, 100.0];

/// Draws what was measured.
pub fn draw(measured: &[Measured]) -> String {
    let axes = Axes::of(measured);
    let mut canvas = Canvas::new(LEFT + WIDE + 100.0, TOP + TALL + 70.0);
    canvas.text(Point::new(LEFT, 30.0), "head", TITLE);
    draw_kinds(&mut canvas);
    draw_axes(&mut canvas, &axes);
    RATES.iter().for_each(|&rate| draw_rate(&mut canvas, &axes, rate));
    for one in measured {
        let places: Vec<_> = seconds(one)
            .map(|time| time.map(|time| (time, axes.at(one.joins as f64, time))))
            .to_vec();
        // The dots of a file stand on one line, and the proved one on top.
        let ys = || places.iter().flatten().map(|(_, place)| place.y);
        let x = axes.at(one.joins as f64, 1.0).x;
        let [top, bottom] = [ys().fold(f64::MAX, f64::min), ys().fold(f64::MIN, f64::max)];
        canvas.line(Point::new(x, top), Point::new(x, bottom), "fine");
        for (place, (class, kind)) in places.iter().zip(KINDS).rev() {
            if let Some((time, place)) = place {
                let title = format!("{}: {} joins, {kind} {:.1} us", one.name, one.joins, time * 1e6);
                canvas.circle(*place, 4.5, class, &title);
            }
        }
    }
    canvas.finish(TITLE)
}

/// The seconds of each kind.
fn seconds(one: &Measured) -> [Option<f64>; 3] {
    let Times {
        proved,
        every,
        semi_naive,
    } = one.times;
    [Some(proved), Some(semi_naive), every].map(|time| time.map(|time| time.as_secs_f64()))
}

/// The least and the greatest power of ten, of joins and of seconds.
struct Axes {
    joins: (i32, i32),
    seconds: (i32, i32),
}

impl Axes {
    fn of(measured: &[Measured]) -> Axes {
        let joins = measured.iter().map(|one| one.joins as f64);
        Axes {
            joins: powers(joins),
            seconds: powers(measured.iter().flat_map(seconds).flatten()),
        }
    }

    fn at(&self, joins: f64, seconds: f64) -> Point {
        let part = |value: f64, (least, most): (i32, i32)| (value.log10() - f64::from(least)) / f64::from(most - least);
        Point::new(
            LEFT + WIDE * part(joins, self.joins),
            TOP + TALL * (1.0 - part(seconds, self.seconds)),
        )
    }
}

/// The powers of ten around some values.
fn powers(values: impl Iterator<Item = f64>) -> (i32, i32) {
    let logs: Vec<f64> = values.filter(|value| *value > 0.0).map(f64::log10).collect();
    let least = logs.iter().copied().fold(f64::MAX, f64::min).floor();
    let most = logs.iter().copied().fold(f64::MIN, f64::max).ceil();
    if logs.is_empty() {
        return (0, 1);
    }
    (least as i32, (most as i32).max(least as i32 + 1))
}

fn draw_kinds(canvas: &mut Canvas) {
    for (at, (class, kind)) in KINDS.iter().enumerate() {
        let x = LEFT + 6.0 + [0.0, 110.0, 330.0][at];
        canvas.circle(Point::new(x, 55.0), 5.0, class, kind);
        canvas.text(Point::new(x + 12.0, 60.0), "", kind);
    }
}

/// A line and a word for each power of ten.
fn draw_axes(canvas: &mut Canvas, axes: &Axes) {
    let (first, last) = axes.joins;
    for power in first..=last {
        let x = axes.at(10_f64.powi(power), 1.0).x;
        canvas.line(Point::new(x, TOP), Point::new(x, TOP + TALL), "fine");
        canvas.text(Point::new(x, TOP + TALL + 22.0), "middle", &count(power));
    }
    let (first, last) = axes.seconds;
    for power in first..=last {
        let y = axes.at(1.0, 10_f64.powi(power)).y;
        canvas.line(Point::new(LEFT, y), Point::new(LEFT + WIDE, y), "fine");
        canvas.text(Point::new(LEFT - 10.0, y + 5.0), "end", &duration(power));
    }
    canvas.text(Point::new(LEFT + WIDE / 2.0, TOP + TALL + 50.0), "middle grey", JOINS);
}

/// The line of all checks that take as much for one join, from where it enters the drawing to where it leaves it.
fn draw_rate(canvas: &mut Canvas, axes: &Axes, rate: f64) {
    let inside = |power: &f64| {
        let time = rate.log10() - 9.0 + power;
        (f64::from(axes.seconds.0)..=f64::from(axes.seconds.1)).contains(&time)
    };
    let steps = (axes.joins.0 * 10..=axes.joins.1 * 10).map(|step| f64::from(step) / 10.0);
    let powers: Vec<f64> = steps.filter(inside).collect();
    let place = |power: &f64| axes.at(10_f64.powf(*power), rate * 1e-9 * 10_f64.powf(*power));
    if let [first, .., last] = &powers[..] {
        canvas.line(place(first), place(last), "line far");
        let end = place(last);
        canvas.text(Point::new(end.x + 4.0, end.y - 4.0), "grey", &format!("{rate} ns"));
    }
}

/// A power of ten in words.
fn count(power: i32) -> String {
    let ones = ["1", "10", "100"][power.rem_euclid(3) as usize];
    match power.div_euclid(3) {
        0 => ones.to_string(),
        1 => format!("{ones},000"),
        _ => format!("10{}", raised(power)),
    }
}

/// A number above the line.
fn raised(number: i32) -> String {
    let digits = ['⁰', '¹', '²', '³', '⁴', '⁵', '⁶', '⁷', '⁸', '⁹'];
    let raise = |digit: char| digit.to_digit(10).map_or('⁻', |digit| digits[digit as usize]);
    number.to_string().chars().map(raise).collect()
}

/// A power of ten of seconds in words.
fn duration(power: i32) -> String {
    let ones = ["1", "10", "100"][power.rem_euclid(3) as usize];
    match power.div_euclid(3) {
        -3 => format!("{ones} ns"),
        -2 => format!("{ones} us"),
        -1 => format!("{ones} ms"),
        0 => format!("{ones} s"),
        _ => format!("10{} s", raised(power)),
    }
}

#[cfg(test)]
mod tests {
    use super::{count, draw, duration, powers, Axes, Measured, LEFT, TALL, TOP, WIDE};
    use crate::timing::Times;
    use std::time::Duration;

    fn measured(joins: u64, micros: u64) -> Measured {
        let proved = Duration::from_micros(micros);
        let times = Times {
            proved,
            every: (joins < 100_000).then_some(2 * proved),
            semi_naive: proved / 2,
        };
        Measured {
            name: format!("a<{joins}"),
            joins,
            times,
        }
    }

    #[test]
    fn powers_of_ten() {
        assert_eq!(powers([12.0, 99.0, 1_001.0].into_iter()), (1, 4));
        assert_eq!(powers([100.0].into_iter()), (2, 3));
        assert_eq!(powers(std::iter::empty()), (0, 1));
        assert_eq!([0, 2, 3, 7, 10].map(count), ["1", "100", "1,000", "10⁷", "10¹⁰"]);
        assert_eq!(
            [-9, -5, -3, 0, 1, -12].map(duration),
            ["1 ns", "10 us", "1 ms", "1 s", "10 s", "10⁻¹² s"]
        );
    }

    #[test]
    fn the_axes_go_around_all() {
        let axes = Axes::of(&[measured(12, 2), measured(50_000_000, 90_000)]);
        assert_eq!((axes.joins, axes.seconds), ((1, 8), (-6, -1)));
        let [corner, end] = [axes.at(10.0, 1e-6), axes.at(1e8, 0.1)];
        assert!(corner.distance(crate::canvas::Point::new(LEFT, TOP + TALL)) < 1e-6);
        assert!(end.distance(crate::canvas::Point::new(LEFT + WIDE, TOP)) < 1e-6);
    }

    #[test]
    fn a_dot_for_each_time() {
        let drawn = draw(&[measured(12, 2), measured(50_000_000, 90_000)]);
        let dots = |class: &str| drawn.matches(&format!("<circle class=\"{class}\"")).count();
        // One of each stands in the head.
        assert_eq!([dots("dot1"), dots("dot2"), dots("dot3")], [3, 3, 2]);
        assert!(drawn.contains("<title>a&lt;12: 12 joins, proved 2.0 us</title>"));
    }
}
