//! What the examples that check a file share: the answer as the check program of document 01 prints it, and its exit status.

use bolfrega::{Answer, Refusal, Verdict};

/// The exit status that goes with an answer.
pub fn status(reply: &Result<Answer, Refusal>) -> u8 {
    match reply {
        Ok(answer) => match answer.verdict {
            Verdict::Holds => 0,
            Verdict::Broken(_) => 1,
            Verdict::Full | Verdict::Spent => 4,
            Verdict::Empty => 5,
            // A verdict that this program does not know is no answer.
            _ => 2,
        },
        // Nor is a number that the crate does not know.
        Err(Refusal::Unknown { .. }) => 2,
        Err(_) => 3,
    }
}

/// The lines of the check program; none where there is no answer.
pub fn text(reply: &Result<Answer, Refusal>) -> String {
    match reply {
        _ if status(reply) == 2 => String::new(),
        Ok(answer) => format!("{answer}\n"),
        Err(refusal) => format!("refused {}\n", refusal.number()),
    }
}
