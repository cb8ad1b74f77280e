//! The front command: what is wrong with a plan file, where, and what to do. `bolfrega help` says how it is called.
//!
//! Every verdict is the library's, which is proved. What stands beside the verdicts (the records as text, the stages of a run, the place where it
//! is lost, the tree of rules, the procedures that never finish) is the command's own work and not proved.

mod arguments;
mod asked;
mod check;
mod drawing;
mod endless;
mod explain;
mod help;
mod make;
mod names;
mod others;
mod picture;
mod sheet;
mod show;
mod status;
mod streams;
mod tree;
mod words;

use arguments::Arguments;
use status::{Status, Trouble};
use std::env;
use std::ffi::OsString;
use std::process::ExitCode;
use streams::Streams;

/// A command: its name, the options that it takes, what it does, and its help.
struct Command {
    name: &'static str,
    options: &'static [&'static str],
    run: fn(&Arguments, &mut Streams) -> Result<Status, Trouble>,
    help: &'static str,
}

/// The options of a check, which `check` and `explain` share.
macro_rules! check_options {
    ($($more:literal),*) => { &["--rows", "--budget", "--start", $($more),*] };
}

const COMMANDS: &[Command] = &[
    Command {
        name: "check",
        options: check_options!("--json"),
        run: check::run,
        help: help::CHECK,
    },
    Command {
        name: "explain",
        options: check_options!("--names", "--svg", "--dot"),
        run: explain::run,
        help: help::EXPLAIN,
    },
    Command {
        name: "show",
        options: &["--wide"],
        run: show::run,
        help: help::SHOW,
    },
    Command {
        name: "make",
        options: &["--wide"],
        run: make::run,
        help: help::MAKE,
    },
    Command {
        name: "judge",
        options: &[],
        run: others::judge,
        help: help::JUDGE,
    },
    Command {
        name: "member",
        options: &[],
        run: others::member,
        help: help::MEMBER,
    },
    Command {
        name: "gaps",
        options: &[],
        run: others::list_gaps,
        help: help::GAPS,
    },
    Command {
        name: "unfold",
        options: &["--start"],
        run: others::unfold,
        help: help::UNFOLD,
    },
];

fn main() -> ExitCode {
    let words: Vec<OsString> = env::args_os().skip(1).collect();
    let status = run(&words, &mut Streams::default()).unwrap_or_else(|trouble| {
        trouble.tell();
        Status::NoAnswer
    });
    ExitCode::from(status.number())
}

/// Does what the command line asks.
fn run(words: &[OsString], streams: &mut Streams) -> Result<Status, Trouble> {
    let Some((first, rest)) = words.split_first() else {
        return Err(Trouble::usage("no command is named"));
    };
    match &*first.to_string_lossy() {
        "help" | "--help" | "-h" => streams.say(help(rest.first())?),
        "--version" => streams.say(&format!("bolfrega {}\n", env!("CARGO_PKG_VERSION"))),
        name => {
            let command = named(name)?;
            let arguments = arguments::parse(command.options, rest)?;
            if arguments.help {
                return streams.say(command.help);
            }
            (command.run)(&arguments, streams)
        }
    }
}

/// The help on a command, or on all.
fn help(name: Option<&OsString>) -> Result<&'static str, Trouble> {
    name.map_or(Ok(help::ALL), |name| Ok(named(&name.to_string_lossy())?.help))
}

fn named(name: &str) -> Result<&'static Command, Trouble> {
    let found = COMMANDS.iter().find(|command| command.name == name);
    found.ok_or_else(|| Trouble::usage(format!("there is no command {name}")))
}
