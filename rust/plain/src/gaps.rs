//! Gaps and doubles of a sheet: the pairs of a stage and a code whose number of moves is not one.

use crate::file::{read, Plan, Refusal};

const STAGES: u8 = 16;
const CODES: u8 = 128;
const LIST_BYTES: usize = 5_760;

/// The number of entries; writes them to the front of `list`, three bytes each: stage, code, number of moves.
pub fn list(file: &[u8], list: &mut [u8]) -> Result<usize, Refusal> {
    let plan = read(file)?;
    if list.len() < LIST_BYTES {
        return Err(Refusal::new(15));
    }
    let moves = moves_of(file);
    let mut count = 0;
    for stage in (0..STAGES).filter(|&stage| taken(&plan, &moves, stage)) {
        for code in (0..CODES).filter(|&code| moves.iter().any(|&[_, on, _]| on == code)) {
            let number = moves.iter().filter(|&&[from, on, _]| (from, on) == (stage, code)).count();
            if number != 1 {
                list[3 * count..3 * count + 3].copy_from_slice(&[stage, code, number as u8]);
                count += 1;
            }
        }
    }
    Ok(count)
}

/// From-stage, code and to-stage of each move.
fn moves_of(file: &[u8]) -> Vec<[u8; 3]> {
    let moves = file.chunks_exact(8).filter(|record| record[0] == 2);
    moves.map(|record| [record[1], record[2], record[3]]).collect()
}

/// Stage 0, and every stage in a move or finishing record.
fn taken(plan: &Plan, moves: &[[u8; 3]], stage: u8) -> bool {
    stage == 0 || plan.finishing >> stage & 1 == 1 || moves.iter().any(|&[from, _, to]| from == stage || to == stage)
}
