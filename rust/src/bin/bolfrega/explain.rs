//! `bolfrega explain`: why a file has the verdict that it has.

use crate::arguments::Arguments;
use crate::asked::Asked;
use crate::drawing::{picture, Shown};
use crate::endless::endless;
use crate::names::Names;
use crate::picture::{dot, svg};
use crate::sheet::{members, Sheet, Stages};
use crate::show::content;
use crate::status::{Status, Trouble};
use crate::streams::{complain, Streams};
use crate::tree::tree;
use crate::words::{joined, shown, steps};
use bolfrega::{records, BrokenRow, Journal, Record, Refusal, VerdictRows, RECORD_BYTES};
use std::ffi::OsStr;

pub fn run(arguments: &Arguments, streams: &mut Streams) -> Result<Status, Trouble> {
    let path = arguments.one_file()?;
    let names = match &arguments.names {
        Some(path) => Names::read(&shown(path), &streams.text(path)?)?,
        None => Names::default(),
    };
    let file = streams.file(path)?;
    let mut journal = Journal::new(arguments.rows);
    let asked = Asked::of(&mut journal, &file, arguments);
    let first = format!("{}: {}\n", shown(path), asked.verdict(arguments));
    if asked.status() == Status::NoAnswer {
        return Err(Trouble::new(first.trim_end()));
    }
    if arguments.svg || arguments.dot {
        return draw(arguments, streams, &file, &journal, &names, &asked, first.trim_end());
    }
    let text = match &asked.reply {
        Err(refusal) => at_fault(&file, *refusal),
        Ok(answer) => {
            let records: Vec<Record> = records(&file).map_err(|refusal| Trouble::new(refusal.to_string()))?.collect();
            match answer.verdict {
                VerdictRows::Broken(broken) => turned_away(&journal, &records, &names, &asked, broken),
                VerdictRows::Empty => format!("\n{}", endless(journal.rows(), &records, arguments.starts(), &names)),
                _ => String::new(),
            }
        }
    };
    let to_do = match to_do(&asked, path, arguments) {
        Some(advice) => format!("\nTo do: {advice}.\n"),
        None => String::new(),
    };
    streams.write(format!("{first}{text}{to_do}").as_bytes())?;
    Ok(asked.status())
}

/// Writes a picture in the place of the text: the sheet, and of a broken answer the run and how the plan gives it. Of a refused file there is
/// nothing to draw, and standard error says so.
fn draw(
    arguments: &Arguments,
    streams: &mut Streams,
    file: &[u8],
    journal: &Journal,
    names: &Names,
    asked: &Asked,
    title: &str,
) -> Result<Status, Trouble> {
    if arguments.svg && arguments.dot {
        return Err(Trouble::usage("--svg and --dot are two pictures: ask for one"));
    }
    let Ok(found) = records(file) else {
        complain(&format!("bolfrega: {title}; there is nothing to draw\n"));
        return Ok(asked.status());
    };
    let records: Vec<Record> = found.collect();
    let run = asked.run.as_ref().and_then(|run| run.as_deref().ok());
    let sheet = Sheet::of(records.iter().copied());
    let sets = sheet.along(run.unwrap_or_default());
    let shown = match asked.reply.as_ref().map(|answer| answer.verdict) {
        Ok(VerdictRows::Broken(broken)) => Some(Shown {
            rows: journal.rows(),
            row: broken.row,
            run,
            sets: &sets,
            lost: run.and_then(|_| sheet.lost(&sets)),
        }),
        _ => None,
    };
    let picture = picture(title, &records, names, shown);
    let text = if arguments.svg { svg(&picture) } else { dot(&picture) };
    streams.write(text.as_bytes())?;
    Ok(asked.status())
}

/// What to do, once all of this is seen.
fn to_do(asked: &Asked, path: &OsStr, arguments: &Arguments) -> Option<String> {
    let advice = match asked.reply.as_ref().map(|answer| answer.verdict) {
        Ok(VerdictRows::Holds) => return None,
        Ok(VerdictRows::Broken(_)) => "change one of these rules, or the sheet, and check again".to_string(),
        Ok(VerdictRows::Empty) => "give these procedures rules that wait for none of them, and check again".to_string(),
        _ => asked.advice(path, arguments),
    };
    Some(advice)
}

/// The record that is refused, with the one before it.
fn at_fault(file: &[u8], refusal: Refusal) -> String {
    let Some(record) = refusal.record() else {
        return String::new();
    };
    let records = file.chunks_exact(RECORD_BYTES).enumerate();
    let near = records
        .skip((record as usize).saturating_sub(1))
        .take(1 + usize::from(record > 0));
    let lines = near.map(|(place, bytes)| format!("  record {place}: {}\n", content(bytes)));
    format!("\n{}", joined(lines, ""))
}

/// The run step by step, and how the plan gives it.
fn turned_away(journal: &Journal, records: &[Record], names: &Names, asked: &Asked, broken: BrokenRow) -> String {
    let along = match &asked.run {
        Some(Ok(run)) => along(&Sheet::of(records.iter().copied()), run, names),
        _ => "The run has 65,535 or more steps, and is not written.\n".to_string(),
    };
    let rules = tree(journal.rows(), records, names, broken.row);
    format!("\n{along}\nHow the plan gives it, each rule above those of its procedures:\n{rules}")
}

/// The run step by step, with the stages after each, and the place where it is lost. Where no stage is left, the other steps are in one line.
fn along(sheet: &Sheet, run: &[u8], names: &Names) -> String {
    let sets = sheet.along(run);
    let lost = sheet.lost(&sets);
    let labels: Vec<String> = run.iter().map(|&code| names.step(code)).collect();
    let labels: Vec<&str> = ["start"].into_iter().chain(labels.iter().map(String::as_str)).collect();
    let width = labels.iter().map(|label| label.chars().count()).max().unwrap_or(0);
    let end = sets.iter().position(|&set| set == 0).unwrap_or(run.len());
    let mut text = "The run, and the stages that the sheet can be in:\n".to_string();
    for (place, (label, &set)) in labels.iter().zip(&sets).enumerate().take(end + 1) {
        text += &format!("  {label:width$}  {}", stages(set, names));
        if lost == Some(place) {
            text += &format!("   <- {}", why_lost(&sets, run, place, names));
        }
        text += "\n";
    }
    if end < run.len() {
        text += &format!("  and then {}\n", steps(&run[end..]));
    }
    if lost.is_none() {
        text += "The run ends too soon: none of its last stages is finishing, but a finishing stage could still be reached.\n";
    }
    text
}

/// Why no finishing stage can be reached from a place on.
fn why_lost(sets: &[Stages], run: &[u8], place: usize, names: &Names) -> String {
    let nothing = "no finishing stage can be reached any more";
    match place.checked_sub(1) {
        Some(before) if sets[place] == 0 => {
            format!(
                "no move on {} from {}: {nothing}",
                names.step(run[before]),
                stages(sets[before], names)
            )
        }
        Some(_) => nothing.to_string(),
        None => "no finishing stage can be reached at all".to_string(),
    }
}

/// Why a run is lost at a step, in few words: no move leads on, or those that do lead to no finishing stage.
pub fn lost_at(sets: &[Stages], place: usize, names: &Names) -> String {
    match sets[place] {
        0 => format!("no move from {}", stages(sets[place - 1], names)),
        _ => "no way to finish".to_string(),
    }
}

fn stages(set: Stages, names: &Names) -> String {
    match set {
        0 => "no stage".to_string(),
        set => joined(members(set).map(|stage| names.stage(stage)), ", "),
    }
}
