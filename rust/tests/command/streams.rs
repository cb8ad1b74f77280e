//! What cannot be read or written: a line on standard error, exit status 2, and never a verdict.

use crate::calling::{call, command, feed, made, shell, Said};
use std::fs::File;
use std::os::fd::OwnedFd;
use std::os::unix::net::UnixStream;
use std::process::Stdio;

/// Every command that reads a file, without the file.
const READERS: [&str; 8] = ["check", "explain", "show", "make", "judge", "member", "gaps", "unfold"];

/// A call of every command that succeeds in writing.
const WRITERS: [&[&str]; 12] = [
    &["check", "samples/plan-a.plan"],
    &["check", "--json", "samples/plan-b.plan"],
    &["explain", "samples/plan-b.plan"],
    &["show", "samples/plan-b.plan"],
    &["show", "samples/damaged.plan"],
    &["judge", "samples/plan-b.plan", "1", "3"],
    &["member", "samples/damaged.plan"],
    &["gaps", "samples/edited.plan"],
    &["unfold", "samples/long-broken.wide"],
    &["help"],
    &["check", "--help"],
    &["--version"],
];

/// Nothing was said but this.
fn has_no_answer(said: &Said, complaint: &str, what: &str) {
    assert_eq!((said.status, said.out.as_str()), (2, ""), "{what}: {}", said.err);
    assert!(
        said.err.starts_with(&format!("bolfrega: {complaint}")),
        "{what}: {}",
        said.err
    );
    assert_eq!(said.err.matches('\n').count(), 1, "{what}: {}", said.err);
}

#[test]
fn what_cannot_be_read_has_no_verdict() {
    for reader in READERS {
        has_no_answer(&call(&[reader, "samples/none"]), "samples/none: No such file", reader);
        has_no_answer(&call(&[reader, "samples"]), "samples: Is a directory", reader);
        has_no_answer(
            &shell(&format!("exec \"$0\" {reader} - <&-")),
            "standard input is closed",
            reader,
        );
        has_no_answer(
            &shell(&format!("exec \"$0\" {reader} - <samples")),
            "-: Is a directory",
            reader,
        );
        has_no_answer(
            &shell(&format!("exec \"$0\" {reader} - 0>/dev/null")),
            "-: Bad file descriptor",
            reader,
        );
        // The first page of a process is not mapped, so that reading it fails.
        if File::open("/proc/self/mem").is_ok() {
            has_no_answer(&call(&[reader, "/proc/self/mem"]), "/proc/self/mem: ", reader);
        }
    }
    has_no_answer(
        &call(&["explain", "--names", "samples/none", "samples/plan-b.plan"]),
        "samples/none: No such file",
        "names",
    );
}

#[test]
fn standard_input_that_does_not_come_in_time() {
    let (here, there) = UnixStream::pair().unwrap();
    there.set_nonblocking(true).unwrap();
    let output = command(&["check", "-"]).stdin(OwnedFd::from(there)).output().unwrap();
    assert_eq!(output.status.code(), Some(2));
    assert!(output.stdout.is_empty() && output.stderr.starts_with(b"bolfrega: -: "));
    drop(here);
}

#[test]
fn standard_input_is_read_once() {
    let said = feed(&["check", "-", "-"], &[]);
    assert_eq!(said.status, 2);
    assert_eq!(said.out.lines().count(), 1);
    assert!(said.err.starts_with("bolfrega: - is named twice"), "{}", said.err);
    has_no_answer(&feed(&["explain", "--names", "-", "-"], &[]), "- is named twice", "explain");
}

#[test]
fn a_closed_input_is_no_matter_where_it_is_not_read() {
    assert_eq!(shell("exec \"$0\" check samples/plan-a.plan <&-").status, 0);
}

#[test]
fn what_cannot_be_written_is_no_answer() {
    for words in WRITERS {
        let called = words.join(" ");
        has_no_answer(
            &shell(&format!("exec \"$0\" {called} >/dev/full")),
            "standard output: No space left",
            &called,
        );
        has_no_answer(
            &shell(&format!("exec \"$0\" {called} >&-")),
            "standard output: it is closed",
            &called,
        );
        has_no_answer(
            &shell(&format!("exec \"$0\" {called} 1</dev/null")),
            "standard output: Bad file descriptor",
            &called,
        );
        // A reader that has gone.
        let (here, there) = UnixStream::pair().unwrap();
        drop(here);
        let output = command(words)
            .stdout(OwnedFd::from(there))
            .stderr(Stdio::piped())
            .output()
            .unwrap();
        assert_eq!(output.status.code(), Some(2), "{called}");
        assert!(
            output.stderr.starts_with(b"bolfrega: standard output: Broken pipe"),
            "{called}"
        );
    }
}

#[test]
fn an_answer_to_nowhere_is_written() {
    // As Python's DEVNULL: open for both.
    assert_eq!(shell("exec \"$0\" check samples/plan-b.plan 1<>/dev/null").status, 1);
    let said = shell("exec \"$0\" check - 0<>/dev/null");
    assert_eq!((said.status, said.out.contains("empty")), (1, true));
}

#[test]
fn a_file_that_cannot_be_written() {
    let text = made("stage.txt", b"stage 0 is finishing\n");
    for words in [
        &["make", &text, "samples"][..],
        &["unfold", "samples/long-broken.wide", "samples"],
    ] {
        has_no_answer(&call(words), "samples: Is a directory", words[0]);
    }
    for words in [
        ["make", &text, "/dev/full"],
        ["unfold", "samples/long-broken.wide", "/dev/full"],
    ] {
        has_no_answer(&call(&words), "/dev/full: No space left", words[0]);
    }
}

#[test]
fn standard_error_that_cannot_be_written() {
    assert_eq!(shell("exec \"$0\" check samples/none 2>/dev/full").status, 2);
    assert_eq!(shell("exec \"$0\" check samples/none 2>&-").status, 2);
}
