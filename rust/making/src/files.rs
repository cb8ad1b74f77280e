//! Files at random, and what damages them.

use crate::Numbers;
use bolfrega::{procedure, FileBuilder, FIRST_REMARK};

/// How large a made file is.
#[derive(Clone, Copy)]
pub struct Size {
    pub procedures: usize,
    pub rules: usize,
    pub codes: usize,
    pub moves: usize,
}

/// A valid file with at most these numbers of rules and moves.
pub fn valid_file(numbers: &mut Numbers, size: Size) -> Vec<u8> {
    let mut making = FileBuilder::new();
    rules(numbers, size, &[0, 1, 1, 2, 2, 2, 2], &mut making);
    sheet(numbers, size, &mut making);
    making.bytes()
}

/// A valid file of sixteen-byte records with at most these numbers of rules and moves, and bodies of these lengths.
pub fn valid_wide_file(numbers: &mut Numbers, size: Size, lengths: &[usize]) -> Vec<u8> {
    let mut making = FileBuilder::wide();
    rules(numbers, size, lengths, &mut making);
    sheet(numbers, size, &mut making);
    making.bytes()
}

/// Adds rules at random, with bodies of some of these lengths.
fn rules<const WIDTH: usize>(numbers: &mut Numbers, size: Size, lengths: &[usize], making: &mut FileBuilder<WIDTH>) {
    // Half of the files leave procedure 0 nearly alone, so that not every check is broken at once.
    let shy = numbers.once_in(2);
    for _ in 0..size.rules {
        let head = numbers.byte(size.procedures);
        let head = if shy && head == 0 && !numbers.once_in(8) { 1 } else { head };
        let length = numbers.pick(lengths);
        let body: Vec<u8> = (0..length).map(|_| symbol(numbers, size)).collect();
        making.rule(head, &body);
    }
}

/// Adds moves and finishing stages at random.
fn sheet<const WIDTH: usize>(numbers: &mut Numbers, size: Size, making: &mut FileBuilder<WIDTH>) {
    // Half of the files use eight stages, as all did before C-14, and half all sixteen.
    let stages = numbers.pick(&[8, 16]);
    let mut moves = size.moves;
    if numbers.once_in(2) {
        // Each code leads somewhere from each stage, as far as 1,024 moves go: at random, or each the same way round, which makes few effects.
        let whole = size.codes.min(1_024 / stages);
        let round = numbers.once_in(2);
        for code in 0..whole {
            for from in 0..stages {
                let to = if round {
                    (from + code) % stages
                } else {
                    numbers.below(stages)
                };
                making.step(from as u8, code as u8, to as u8);
            }
        }
        // There is room for what is left of the moves.
        moves = if round { 0 } else { moves.min(1_024 - stages * whole) };
    }
    for _ in 0..moves {
        making.step(numbers.byte(stages), numbers.byte(size.codes), numbers.byte(stages));
    }
    // Of many draws no stage is left out: with the sheet above every run is accepted.
    let finishing = numbers.pick(&[0, 1, 3, 30, 200, 200]);
    (0..finishing).for_each(|_| {
        making.finishing(numbers.byte(stages));
    });
}

fn symbol(numbers: &mut Numbers, size: Size) -> u8 {
    if numbers.once_in(16) {
        FIRST_REMARK + numbers.byte(8)
    } else if numbers.once_in(2) {
        numbers.byte(size.codes)
    } else {
        procedure(numbers.byte(size.procedures))
    }
}

/// Damages a file of records of a width in one of the ways in which copies go wrong.
pub fn damage(numbers: &mut Numbers, file: &mut Vec<u8>, width: usize) {
    let at = numbers.below(file.len());
    let whole = |number: usize| width * number..width * number + width;
    let (one, other) = (numbers.below(file.len() / width), numbers.below(file.len() / width));
    match numbers.below(6) {
        0 => file[at] = numbers.byte(256),
        1 => file[at] ^= 1 << numbers.below(8),
        2 => file.truncate(at),
        3 => drop(file.splice(at..at, [0])),
        4 => drop(file.splice(width * one..width * one, file[whole(one)].to_vec())),
        _ => whole(one).zip(whole(other)).for_each(|(x, y)| file.swap(x, y)),
    }
}
