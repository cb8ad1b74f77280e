//! How a call of the command ends.

use crate::streams;
use bolfrega::Refusal;
use std::fmt::Display;

/// The exit status of a call. The later of two is the worse for a crew, and the worst of several files is that of the call: where a file was not
/// read or was refused, nobody has looked at the plan that was meant, and anything may be in it; a fault that was found is sure; and what is
/// undecided may still be decided by the same call with more rows or joins.
#[derive(Clone, Copy, Debug, PartialEq, Eq, PartialOrd, Ord)]
pub enum Status {
    /// Every run is accepted; the answer is yes; there is no gap.
    Holds,
    /// The rows or the joins ran out.
    Undecided,
    /// A run is turned away, or there is none; the answer is no; there is a gap.
    Broken,
    /// The file or the run is refused with a number of the papers.
    Refused,
    /// The call cannot be understood, or something cannot be read or written.
    NoAnswer,
}

impl Status {
    pub fn number(self) -> u8 {
        match self {
            Status::Holds => 0,
            Status::Broken => 1,
            Status::NoAnswer => 2,
            Status::Refused => 3,
            Status::Undecided => 4,
        }
    }

    /// The status of an answer that is yes or no.
    pub fn of(yes: bool) -> Status {
        if yes {
            Status::Holds
        } else {
            Status::Broken
        }
    }

    /// The status of a refusal. A number that nobody knows is no answer.
    pub fn of_refusal(refusal: Refusal) -> Status {
        match refusal {
            Refusal::Unknown { .. } => Status::NoAnswer,
            _ => Status::Refused,
        }
    }
}

/// Why there is no answer: a line for standard error.
#[derive(Debug)]
pub struct Trouble {
    message: String,
    usage: bool,
}

impl Trouble {
    pub fn new(message: impl Into<String>) -> Trouble {
        let (message, usage) = (message.into(), false);
        Trouble { message, usage }
    }

    /// The call itself cannot be understood.
    pub fn usage(message: impl Into<String>) -> Trouble {
        let (message, usage) = (message.into(), true);
        Trouble { message, usage }
    }

    /// What has this name cannot be read or written.
    pub fn with(name: &str, why: impl Display) -> Trouble {
        Trouble::new(format!("{name}: {why}"))
    }

    pub fn tell(&self) {
        let how = if self.usage {
            "; `bolfrega help` says how to call it"
        } else {
            ""
        };
        streams::complain(&format!("bolfrega: {}{how}\n", self.message));
    }
}
