//! Calling the front command, and what it said.

use std::ffi::OsStr;
use std::fs;
use std::io::Write;
use std::path::{Path, PathBuf};
use std::process::{Command, Output, Stdio};

const PROGRAM: &str = env!("CARGO_BIN_EXE_bolfrega");

/// What a call said, and its exit status.
#[derive(Debug, PartialEq, Eq)]
pub struct Said {
    pub status: i32,
    pub out: String,
    pub err: String,
}

/// The folder of the repository, in which every call is made.
pub fn repository() -> PathBuf {
    Path::new(env!("CARGO_MANIFEST_DIR")).join("..")
}

fn said(output: Output) -> Said {
    let text = |bytes| String::from_utf8(bytes).expect("the command writes text");
    Said {
        status: output.status.code().expect("no signal ends it"),
        out: text(output.stdout),
        err: text(output.stderr),
    }
}

pub fn command<S: AsRef<OsStr>>(words: &[S]) -> Command {
    let mut command = Command::new(PROGRAM);
    command.current_dir(repository()).args(words).stdin(Stdio::null());
    command
}

/// What the command says to these words.
pub fn call<S: AsRef<OsStr>>(words: &[S]) -> Said {
    said(command(words).output().expect("the command is there"))
}

/// The bytes that a call writes, which ends well.
pub fn bytes_of<S: AsRef<OsStr>>(words: &[S]) -> Vec<u8> {
    let output = command(words).output().expect("the command is there");
    assert!(output.status.success(), "{}", String::from_utf8_lossy(&output.stderr));
    output.stdout
}

/// The same with these bytes in a pipe as standard input.
pub fn feed<S: AsRef<OsStr>>(words: &[S], input: &[u8]) -> Said {
    let mut command = command(words);
    command.stdin(Stdio::piped()).stdout(Stdio::piped()).stderr(Stdio::piped());
    let mut child = command.spawn().expect("the command is there");
    // A command that does not want its input leaves it.
    let _ = child.stdin.take().expect("a pipe").write_all(input);
    said(child.wait_with_output().expect("it ends"))
}

/// What a shell says to a script in which "$0" is the command.
pub fn shell(script: &str) -> Said {
    let mut command = Command::new("sh");
    command
        .current_dir(repository())
        .args(["-c", script, PROGRAM])
        .stdin(Stdio::null());
    said(command.output().expect("there is a shell"))
}

/// The samples with this ending, by their paths from the repository.
pub fn samples(ending: &str) -> Vec<String> {
    let folder = fs::read_dir(repository().join("samples")).expect("there are samples");
    let names = folder.map(|entry| entry.unwrap().file_name().into_string().unwrap());
    let mut found: Vec<String> = names
        .filter(|name| name.ends_with(ending))
        .map(|name| format!("samples/{name}"))
        .collect();
    found.sort();
    assert!(!found.is_empty());
    found
}

/// A file of a test's own with these bytes.
pub fn made(name: &str, bytes: &[u8]) -> String {
    let path = Path::new(env!("CARGO_TARGET_TMPDIR")).join(name);
    fs::write(&path, bytes).expect("the folder for tests can be written to");
    path.into_os_string().into_string().expect("its name is text")
}

pub fn read(path: &str) -> Vec<u8> {
    fs::read(repository().join(path)).expect("the file is there")
}

/// The stored answer beside a sample, in lines.
pub fn answer(sample: &str) -> Vec<String> {
    let (name, _) = sample.rsplit_once('.').expect("a sample has an ending");
    let text = String::from_utf8(read(&format!("{name}.answer"))).expect("an answer is text");
    text.lines().map(str::to_string).collect()
}

/// The exit status that goes with a verdict's word.
pub fn status_of(word: &str) -> i32 {
    match word {
        "holds" => 0,
        "broken" | "empty" => 1,
        "refused" => 3,
        "full" | "spent" => 4,
        _ => panic!("{word} is no verdict"),
    }
}
