//! Paths, runs and sets in a line of text, and in JSON.

use std::ffi::OsStr;
use std::fmt::Display;

/// The most steps of a run that a line shows.
const SHOWN_STEPS: usize = 20;

/// A path in one line: control characters are escaped.
pub fn shown(path: &OsStr) -> String {
    escaped(&path.to_string_lossy())
}

/// A text without control characters: each is escaped.
pub fn escaped(text: &str) -> String {
    let escape = |c: char| {
        if c.is_control() {
            c.escape_default().to_string()
        } else {
            c.to_string()
        }
    };
    text.chars().map(escape).collect()
}

/// A path as it stands in a call from a shell.
pub fn for_shell(path: &OsStr) -> String {
    let text = match shown(path) {
        // It is no option.
        text if text.starts_with('-') && text != "-" => format!("./{text}"),
        text => text,
    };
    let plain = |c: char| c.is_alphanumeric() || "/._-+:,@%".contains(c);
    if !text.is_empty() && text.chars().all(plain) {
        text
    } else {
        format!("'{}'", text.replace('\'', r"'\''"))
    }
}

/// Values with something between them.
pub fn joined<T: Display>(values: impl IntoIterator<Item = T>, between: &str) -> String {
    let all: Vec<String> = values.into_iter().map(|value| value.to_string()).collect();
    all.join(between)
}

/// A run in a line: its steps, of a long one the first; the empty one says that it is.
pub fn steps(run: &[u8]) -> String {
    match run.len() {
        0 => "without steps".to_string(),
        1..=SHOWN_STEPS => joined(run, " "),
        length => format!("{} .. ({length} steps)", joined(&run[..SHOWN_STEPS], " ")),
    }
}

/// A text as JSON has it.
pub fn quoted(text: &str) -> String {
    let escape = |c: char| match c {
        '"' | '\\' => format!("\\{c}"),
        c if c.is_control() => format!("\\u{:04x}", u32::from(c)),
        c => c.to_string(),
    };
    format!("\"{}\"", text.chars().map(escape).collect::<String>())
}
