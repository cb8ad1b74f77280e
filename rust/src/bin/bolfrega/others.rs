//! `bolfrega judge`, `member`, `gaps` and `unfold`: the library's other calls.

use crate::arguments::Arguments;
use crate::asked::remedy;
use crate::status::{Status, Trouble};
use crate::streams::Streams;
use crate::words::{escaped, for_shell, shown};
use bolfrega::{gaps, recognize, unfold_from, Gap, Judgement, Refusal};
use std::ffi::{OsStr, OsString};

/// Whether the sheet accepts a run.
pub fn judge(arguments: &Arguments, streams: &mut Streams) -> Result<Status, Trouble> {
    asked_of_run(arguments, streams, |file, run| {
        Ok(match bolfrega::judge(file, run)? {
            Judgement::Accepted => Some((true, "accepted: the sheet has a path on the run to a finishing stage")),
            Judgement::TurnedAway => Some((false, "turned away: the sheet has no path on the run to a finishing stage")),
            _ => None,
        })
    })
}

/// Whether a run is one of the plan's.
pub fn member(arguments: &Arguments, streams: &mut Streams) -> Result<Status, Trouble> {
    asked_of_run(arguments, streams, |file, run| {
        Ok(Some(match recognize(file, run)?.derived() {
            true => (true, "derived: procedure 0 gives the run"),
            false => (false, "not derived: procedure 0 does not give the run"),
        }))
    })
}

/// A yes or no with its words; none is an answer that this command does not know.
type YesOrNo = Option<(bool, &'static str)>;

/// Asks of a file and a run, which is given as step codes.
fn asked_of_run(
    arguments: &Arguments,
    streams: &mut Streams,
    ask: impl Fn(&[u8], &[u8]) -> Result<YesOrNo, Refusal>,
) -> Result<Status, Trouble> {
    let Some((path, steps)) = arguments.words.split_first() else {
        return Err(Trouble::usage("no file is named"));
    };
    let run: Vec<u8> = steps.iter().map(step).collect::<Result<_, _>>()?;
    let file = streams.file(path)?;
    match ask(&file, &run) {
        Ok(Some((yes, words))) => {
            streams.write(format!("{}: {words}\n", shown(path)).as_bytes())?;
            Ok(Status::of(yes))
        }
        Ok(None) => Err(Trouble::with(&shown(path), "no answer: an unknown judgement")),
        Err(refusal) => refused(path, refusal, streams),
    }
}

/// A step code. A number above 255 is above 127 as well, and refused like that.
fn step(word: &OsString) -> Result<u8, Trouble> {
    let text = word.to_string_lossy();
    let number: u64 = text
        .parse()
        .map_err(|_| Trouble::usage(format!("{} is no step code", escaped(&text))))?;
    Ok(u8::try_from(number).unwrap_or(u8::MAX))
}

/// Says that a file or a run is refused, and what to do.
fn refused(path: &OsStr, refusal: Refusal, streams: &mut Streams) -> Result<Status, Trouble> {
    let line = format!("{}: refused: {refusal}; {}", shown(path), remedy(refusal, &for_shell(path)));
    match Status::of_refusal(refusal) {
        Status::NoAnswer => Err(Trouble::new(line)),
        status => {
            streams.write(format!("{line}\n").as_bytes())?;
            Ok(status)
        }
    }
}

/// What was forgotten in a sheet, and what stands there more than once.
pub fn list_gaps(arguments: &Arguments, streams: &mut Streams) -> Result<Status, Trouble> {
    let path = arguments.one_file()?;
    let file = streams.file(path)?;
    let found = match gaps(&file) {
        Ok(found) => found,
        Err(refusal) => return refused(path, refusal, streams),
    };
    let none = found.len() == 0;
    let first = match found.len() {
        0 => "no gap: each stage has one move on each code".to_string(),
        1 => "1 gap or double; look whether it is meant".to_string(),
        count => format!("{count} gaps and doubles; look whether they are meant"),
    };
    let lines: String = found.map(line).collect();
    streams.write(format!("{}: {first}\n{lines}", shown(path)).as_bytes())?;
    Ok(Status::of(none))
}

fn line(gap: Gap) -> String {
    let count = match gap.moves {
        0 => "no move".to_string(),
        moves => format!("{moves} moves"),
    };
    format!("  from stage {} on code {}: {count}\n", gap.stage, gap.code)
}

/// Unfolds a file of sixteen-byte records to one of eight bytes, which the other commands take.
pub fn unfold(arguments: &Arguments, streams: &mut Streams) -> Result<Status, Trouble> {
    let (from, to) = arguments.two_files()?;
    let file = streams.file(from)?;
    match unfold_from(&file, arguments.starts()) {
        Ok(unfolded) => {
            streams.write_file(to, &unfolded)?;
            Ok(Status::Holds)
        }
        // Standard output is for the file, which is not there.
        Err(refusal) => {
            let remedy = remedy(refusal, &format!("--wide {}", for_shell(from)));
            Trouble::with(&shown(from), format!("refused: {refusal}; {remedy}")).tell();
            Ok(Status::of_refusal(refusal))
        }
    }
}
