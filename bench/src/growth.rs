//! How the time grows with rows, rules and moves.

use crate::files::{self, Growth};
use crate::per_join;
use crate::timing::{measure, Outcome, Times};
use std::time::Duration;

/// One file of a growth: how much it has of the quantity that grows, and what was measured.
struct Point {
    quantity: f64,
    outcome: Outcome,
    times: Times,
}

/// A line for each file, and the slopes.
pub fn table() -> Result<(), String> {
    println!();
    println!(
        "| {:<10} | {:>9} | {:>12} | {:>12} | {:>12} | {:>11} | {:>11} | {:>15} |",
        "growth", "joins", "proved", "every", "semi-naive", "proved/join", "every/join", "semi-naive/join"
    );
    println!(
        "|{:-<12}|{:->10}:|{:->13}:|{:->13}:|{:->13}:|{:->12}:|{:->12}:|{:->16}:|",
        "", "", "", "", "", "", "", ""
    );
    let mut slopes = Vec::new();
    for growth in [files::by_rows(), files::by_rules(), files::by_moves()] {
        let points = measured(&growth)?;
        slopes.push(slopes_of(growth.quantity, &points, |point| point.quantity));
        if points.iter().any(|point| point.outcome.joins != points[0].outcome.joins) {
            let against = format!("joins ({})", growth.quantity);
            slopes.push(slopes_of(&against, &points, |point| point.outcome.joins as f64));
        }
    }
    println!();
    println!("The slope of log time against the log of what grows: 1 is in proportion, 2 with the square.");
    println!();
    println!(
        "| {:<13} | {:>6} | {:>6} | {:>10} |",
        "against", "proved", "every", "semi-naive"
    );
    println!("|{:-<15}|{:->7}:|{:->7}:|{:->11}:|", "", "", "", "");
    slopes.iter().for_each(|line| println!("{line}"));
    Ok(())
}

/// Measures the files of a growth, and prints a line for each.
fn measured(growth: &Growth) -> Result<Vec<Point>, String> {
    let mut points = Vec::new();
    for (quantity, case) in &growth.points {
        let (outcome, times) = measure(case)?;
        let each = [times.proved, every(&times), times.semi_naive];
        let [proved, every, semi_naive] = each.map(|time| format!("{:.1} us", time.as_secs_f64() * 1e6));
        let [proved_join, every_join, semi_naive_join] = each.map(|time| format!("{:.1} ns", per_join(time, &outcome)));
        println!(
            "| {:<10} | {:>9} | {proved:>12} | {every:>12} | {semi_naive:>12} \
             | {proved_join:>11} | {every_join:>11} | {semi_naive_join:>15} |",
            case.name, outcome.joins,
        );
        points.push(Point {
            quantity: *quantity as f64,
            outcome,
            times,
        });
    }
    Ok(points)
}

/// The line of the slopes against some quantity of the points.
fn slopes_of(against: &str, points: &[Point], quantity: impl Fn(&Point) -> f64) -> String {
    let of = |time: fn(&Times) -> Duration| {
        let logs = points
            .iter()
            .map(|point| (quantity(point).ln(), time(&point.times).as_secs_f64().ln()));
        slope(&logs.collect::<Vec<_>>())
    };
    let (proved, every, semi_naive) = (of(|times| times.proved), of(every), of(|times| times.semi_naive));
    format!("| {against:<13} | {proved:>6.2} | {every:>6.2} | {semi_naive:>10.2} |")
}

/// The time of the check that forms every candidate; each file of a growth is checked with it.
fn every(times: &Times) -> Duration {
    times.every.expect("no file of a growth is too slow for it")
}

/// The slope of the line that fits the points best, by least squares.
fn slope(points: &[(f64, f64)]) -> f64 {
    let count = points.len() as f64;
    let mean = |of: fn(&(f64, f64)) -> f64| points.iter().map(of).sum::<f64>() / count;
    let (x, y) = (mean(|point| point.0), mean(|point| point.1));
    let along = |of: &dyn Fn(&(f64, f64)) -> f64| points.iter().map(of).sum::<f64>();
    along(&|point| (point.0 - x) * (point.1 - y)) / along(&|point| (point.0 - x).powi(2))
}

#[cfg(test)]
mod tests {
    use super::slope;

    #[test]
    fn slopes() {
        let squares = [1.0_f64, 2.0, 3.0, 7.0].map(|x| (x.ln(), (5.0 * x * x).ln()));
        assert!((slope(&squares) - 2.0).abs() < 1e-9);
        assert!(slope(&[(0.0, 3.0), (1.0, 4.0), (2.0, 3.0)]).abs() < 1e-9);
    }
}
