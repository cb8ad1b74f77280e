//! `bolfrega check`: a line for each file.

use crate::arguments::Arguments;
use crate::asked::Asked;
use crate::status::{Status, Trouble};
use crate::streams::Streams;
use crate::words::{joined, quoted, shown};
use bolfrega::{Journal, Refusal, VerdictRows};
use std::ffi::OsStr;

pub fn run(arguments: &Arguments, streams: &mut Streams) -> Result<Status, Trouble> {
    if arguments.words.is_empty() {
        return Err(Trouble::usage("no file is named"));
    }
    let mut journal = Journal::new(arguments.rows);
    let mut worst = Status::Holds;
    for path in &arguments.words {
        let file = match streams.file(path) {
            Ok(file) => file,
            // The others are looked at all the same.
            Err(trouble) => {
                trouble.tell();
                worst = worst.max(Status::NoAnswer);
                continue;
            }
        };
        let asked = Asked::of(&mut journal, &file, arguments);
        worst = worst.max(asked.status());
        let line = if arguments.json {
            json(path, &asked, arguments)
        } else {
            line(path, &asked, arguments)
        };
        if asked.status() == Status::NoAnswer {
            Trouble::new(line).tell();
        } else {
            streams.write(format!("{line}\n").as_bytes())?;
        }
    }
    Ok(worst)
}

/// The verdict, and what to do.
fn line(path: &OsStr, asked: &Asked, arguments: &Arguments) -> String {
    format!(
        "{}: {}; {}",
        shown(path),
        asked.verdict(arguments),
        asked.advice(path, arguments)
    )
}

/// The whole answer as a JSON object.
fn json(path: &OsStr, asked: &Asked, arguments: &Arguments) -> String {
    let mut fields = vec![("path", quoted(&path.to_string_lossy()))];
    match &asked.reply {
        Err(refusal) => fields.extend(refused(*refusal)),
        Ok(answer) => {
            fields.extend([
                ("verdict", quoted(&answer.verdict.to_string())),
                ("joins", answer.joins.to_string()),
                ("used", answer.used.to_string()),
                ("pass", answer.pass.to_string()),
            ]);
            if let VerdictRows::Broken(broken) = answer.verdict {
                fields.extend([
                    ("row", broken.row.to_string()),
                    ("pairs", broken.pairs.to_string()),
                    ("length", broken.length.to_string()),
                    ("procedure", broken.procedure.to_string()),
                    ("run", run_or_null(&asked.run)),
                ]);
            }
            if let Some(limit) = asked.limit(arguments) {
                let next = asked.next_limit(arguments).map_or("null".to_string(), |next| quoted(&next));
                fields.extend([("limit", quoted(&limit)), ("next", next)]);
            }
        }
    }
    object(&fields)
}

fn refused(refusal: Refusal) -> [(&'static str, String); 4] {
    [
        ("verdict", quoted("refused")),
        ("number", refusal.number().to_string()),
        (
            "record",
            refusal.record().map_or("null".to_string(), |record| record.to_string()),
        ),
        ("message", quoted(refusal.message())),
    ]
}

fn run_or_null(run: &Option<Result<Vec<u8>, Refusal>>) -> String {
    match run {
        Some(Ok(run)) => format!("[{}]", joined(run, ",")),
        _ => "null".to_string(),
    }
}

fn object(fields: &[(&str, String)]) -> String {
    let fields = fields.iter().map(|(name, value)| format!("{}:{value}", quoted(name)));
    format!("{{{}}}", joined(fields, ","))
}
