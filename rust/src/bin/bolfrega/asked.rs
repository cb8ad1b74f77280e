//! What the library says to a check, and what to do about it.

use crate::arguments::Arguments;
use crate::status::Status;
use crate::words::{for_shell, joined, steps};
use bolfrega::{AnswerRows, Journal, Refusal, Starts, VerdictRows, MOST_ROWS};
use std::ffi::OsStr;

/// The library's reply to a check, with the run of a broken one.
pub struct Asked {
    pub reply: Result<AnswerRows, Refusal>,
    /// The run behind the row of a broken answer; refused with 10 if it is too long to be written.
    pub run: Option<Result<Vec<u8>, Refusal>>,
}

impl Asked {
    pub fn of(journal: &mut Journal, file: &[u8], arguments: &Arguments) -> Asked {
        let reply = journal.check(file, arguments.starts(), arguments.budget);
        let run = match &reply {
            Ok(answer) => match answer.verdict {
                VerdictRows::Broken(broken) => Some(journal.run(file, broken.row)),
                _ => None,
            },
            Err(_) => None,
        };
        Asked { reply, run }
    }

    pub fn status(&self) -> Status {
        match &self.reply {
            Ok(answer) => match answer.verdict {
                VerdictRows::Holds => Status::Holds,
                VerdictRows::Broken(_) | VerdictRows::Empty => Status::Broken,
                VerdictRows::Full | VerdictRows::Spent => Status::Undecided,
                // A verdict that this command does not know is no answer.
                _ => Status::NoAnswer,
            },
            Err(refusal) => Status::of_refusal(*refusal),
        }
    }

    /// The verdict in a line, without what to do.
    pub fn verdict(&self, arguments: &Arguments) -> String {
        let members = members(arguments.starts());
        match &self.reply {
            Err(refusal) => format!("refused: {refusal}"),
            Ok(answer) => match answer.verdict {
                VerdictRows::Holds => format!("holds: the sheet accepts every run of {members}"),
                VerdictRows::Broken(broken) => {
                    format!(
                        "broken: the sheet turns away {} of procedure {}",
                        self.the_run(),
                        broken.procedure
                    )
                }
                VerdictRows::Empty if arguments.starts().procedures().count() == 1 => format!("empty: {members} never finishes"),
                VerdictRows::Empty => format!("empty: one of {members} never finishes"),
                VerdictRows::Full => format!("full: undecided, the {} rows ran out", arguments.rows),
                VerdictRows::Spent => format!("spent: undecided, the budget of {} joins ran out", arguments.budget),
                _ => "no answer: an unknown verdict".to_string(),
            },
        }
    }

    fn the_run(&self) -> String {
        match &self.run {
            Some(Ok(run)) => format!("the run {}", steps(run)),
            _ => "a run of 65,535 or more steps".to_string(),
        }
    }

    /// What to do next.
    pub fn advice(&self, path: &OsStr, arguments: &Arguments) -> String {
        let (options, path) = (arguments.check_options(), for_shell(path));
        match &self.reply {
            Err(refusal) => remedy(*refusal, &path),
            Ok(answer) => match answer.verdict {
                VerdictRows::Holds => "nothing to do".to_string(),
                VerdictRows::Broken(_) => format!("`bolfrega explain{options} {path}` shows where, and by which rules"),
                VerdictRows::Empty => format!("`bolfrega explain{options} {path}` shows why"),
                _ => match self.next_limit(arguments) {
                    Some(limit) => format!("try {limit}"),
                    None => "no larger limit is left: take out rules that are not needed, or split the file".to_string(),
                },
            },
        }
    }

    /// The limit that ran out, as an option.
    pub fn limit(&self, arguments: &Arguments) -> Option<String> {
        match self.reply.as_ref().ok()?.verdict {
            VerdictRows::Full => Some(format!("--rows {}", arguments.rows)),
            VerdictRows::Spent => Some(format!("--budget {}", arguments.budget)),
            _ => None,
        }
    }

    /// The next limit to try where one ran out, as an option.
    pub fn next_limit(&self, arguments: &Arguments) -> Option<String> {
        match self.reply.as_ref().ok()?.verdict {
            VerdictRows::Full if arguments.rows < MOST_ROWS => Some(format!("--rows {}", MOST_ROWS.min(4 * arguments.rows))),
            VerdictRows::Spent if arguments.budget < u64::MAX => {
                Some(format!("--budget {}", arguments.budget.max(1).saturating_mul(10)))
            }
            _ => None,
        }
    }
}

/// The members in words.
fn members(starts: Starts) -> String {
    let word = if starts.procedures().count() == 1 {
        "procedure"
    } else {
        "procedures"
    };
    format!("{word} {}", joined(starts.procedures(), ", "))
}

/// What to do where a file or a run is refused.
pub fn remedy(refusal: Refusal, path: &str) -> String {
    match refusal {
        Refusal::Length => "it was cut short, or has 16-byte records, which `bolfrega unfold` takes: fetch it again".to_string(),
        Refusal::WideLength => "it was cut short, or has 8-byte records, which need no unfolding: fetch it again".to_string(),
        Refusal::Records => "no plan file is that long: fetch it again, or take records out of it".to_string(),
        Refusal::Run => "a run has step codes from 0 to 127".to_string(),
        Refusal::LongRun => "give a shorter run".to_string(),
        Refusal::Chains => "shorten some bodies, or use lower procedures".to_string(),
        Refusal::Unknown { .. } => "the library is of another version than this command".to_string(),
        _ => format!("`bolfrega show {path}` marks it"),
    }
}
