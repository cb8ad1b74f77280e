//! The stages that `bolfrega explain` shows along a run, held against the library's judgements.

use crate::calling::{call, made};
use bolfrega::{check_owned, judge, records, FileBuilder, Judgement, Record, Starts, Verdict, STAGES};
use making::{valid_file, Numbers, Size};

/// A file with the moves of another and this one finishing stage.
fn ending_in(file: &[u8], stage: u8) -> Vec<u8> {
    let mut sheet = FileBuilder::new();
    for record in records(file).unwrap() {
        if let Record::Move { from, code, to } = record {
            sheet.step(from, code, to);
        }
    }
    sheet.finishing(stage).bytes()
}

/// The stages after some steps, by a judgement for each.
fn stages_after(sheets: &[Vec<u8>], steps: &[u8]) -> Vec<u8> {
    let in_stage = |stage: &u8| judge(&sheets[usize::from(*stage)], steps) == Ok(Judgement::Accepted);
    (0..STAGES).filter(in_stage).collect()
}

/// The stages that a file's moves lead to from some stages, in any number of steps.
fn reached(file: &[u8], mut stages: Vec<u8>) -> Vec<u8> {
    let moves: Vec<Record> = records(file).unwrap().collect();
    loop {
        let more = moves.iter().find_map(|record| match *record {
            Record::Move { from, to, .. } if stages.contains(&from) && !stages.contains(&to) => Some(to),
            _ => None,
        });
        match more {
            Some(to) => stages.push(to),
            None => return stages,
        }
    }
}

/// Whether a finishing stage can be reached from some stages.
fn is_hopeful(file: &[u8], stages: &[u8]) -> bool {
    let reached = reached(file, stages.to_vec());
    records(file)
        .unwrap()
        .any(|record| matches!(record, Record::Finishing { stage } if reached.contains(&stage)))
}

/// The lines of the run: of each the stages, and whether the run is said to be lost there.
fn shown(text: &str) -> Vec<(Vec<u8>, bool)> {
    let lines = text
        .lines()
        .skip_while(|line| !line.starts_with("The run, and the stages"))
        .skip(1);
    let lines = lines.take_while(|line| line.starts_with("  ") && !line.starts_with("  and "));
    let read = |line: &str| {
        let (stages, mark) = line.split_once("   <- ").map_or((line, ""), |(stages, mark)| (stages, mark));
        let numbers = stages
            .split("stage ")
            .skip(1)
            .map(|part| part.trim_end_matches(", ").parse().unwrap());
        (numbers.collect(), !mark.is_empty())
    };
    lines.map(read).collect()
}

/// Holds what is shown of a run against judgements of its beginnings.
fn agrees(file: &[u8], run: &[u8], text: &str) {
    let sheets: Vec<Vec<u8>> = (0..STAGES).map(|stage| ending_in(file, stage)).collect();
    let lines = shown(text);
    let expected: Vec<Vec<u8>> = (0..=run.len()).map(|place| stages_after(&sheets, &run[..place])).collect();
    // Where no stage is left, the rest is not shown.
    let end = expected.iter().position(Vec::is_empty).unwrap_or(run.len());
    assert_eq!(
        lines.iter().map(|(stages, _)| stages.clone()).collect::<Vec<_>>(),
        expected[..=end],
        "{text}"
    );
    let lost = expected.iter().position(|stages| !is_hopeful(file, stages));
    assert_eq!(lines.iter().position(|(_, lost)| *lost), lost, "{text}");
    assert_eq!(text.contains("The run ends too soon"), lost.is_none(), "{text}");
}

#[test]
fn stages_of_many_files() {
    let mut numbers = Numbers::new(28);
    let size = Size {
        rules: 12,
        moves: 14,
        procedures: 4,
        codes: 4,
    };
    // How many runs were lost before no stage was left, and how many ended too soon.
    let (mut runs, mut lost_early, mut too_soon) = (0, 0, 0);
    for _ in 0..400 {
        let file = valid_file(&mut numbers, size);
        let owned = check_owned(&file, Starts::INITIAL, 1_024, 100_000).unwrap();
        let Verdict::Broken(broken) = owned.told().answer.verdict else {
            continue;
        };
        let Ok(run) = broken.run else { continue };
        let said = call(&["explain", &made("stages.plan", &file)]);
        agrees(&file, run, &said.out);
        runs += 1;
        lost_early += usize::from(said.out.contains("<- no finishing stage"));
        too_soon += usize::from(said.out.contains("ends too soon"));
    }
    assert!(runs > 50 && lost_early > 5 && too_soon > 5, "{runs} {lost_early} {too_soon}");
}
