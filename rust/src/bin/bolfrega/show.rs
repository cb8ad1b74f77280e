//! `bolfrega show`: the records of a file as text, a line for each, with its number. `make` takes the lines back.

use crate::arguments::Arguments;
use crate::status::{Status, Trouble};
use crate::streams::Streams;
use crate::words::{joined, shown};
use bolfrega::{records, refusal, step, wide_records, wide_refusal, Refusal, MOST_RECORDS, RECORD_BYTES, WIDE_RECORD_BYTES};

pub fn run(arguments: &Arguments, streams: &mut Streams) -> Result<Status, Trouble> {
    let path = arguments.one_file()?;
    let file = streams.file(path)?;
    let (text, refused) = if arguments.wide { show_wide(&file) } else { show(&file) };
    if let Some(refusal @ Refusal::Unknown { .. }) = refused {
        return Err(Trouble::with(&shown(path), refusal));
    }
    streams.write(text.as_bytes())?;
    Ok(refused.map_or(Status::Holds, Status::of_refusal))
}

/// The lines of a file of eight-byte records, and what refuses it. Each record that the library's reader refuses is marked.
fn show(file: &[u8]) -> (String, Option<Refusal>) {
    let front = front(file, RECORD_BYTES);
    let refused = refusal(file).err();
    let text = lines(file, RECORD_BYTES, refused, |place| step(front, place).err());
    (text, refused)
}

/// The same of sixteen-byte records, for which the library has no reader of single records: it is asked of each by itself and of the file, and
/// whether a record exceeds the one before it is seen here. Of those that are too many, the first is marked.
fn show_wide(file: &[u8]) -> (String, Option<Refusal>) {
    let front = front(file, WIDE_RECORD_BYTES);
    let (refused, first) = (wide_refusal(file).err(), wide_refusal(front).err());
    let text = lines(file, WIDE_RECORD_BYTES, refused, |place| {
        let at = |place| record_at(front, WIDE_RECORD_BYTES, place);
        let rises = place == 0 || at(place - 1) < at(place);
        let record = place as u64;
        let order = (!rises).then_some(Refusal::Order { record });
        let count = first.filter(|refusal| refusal.record() == Some(record));
        wide_refusal(at(place)).err().or(order).or(count)
    });
    (text, refused)
}

/// The whole records of a file, at most as many as it may have.
fn front(file: &[u8], width: usize) -> &[u8] {
    &file[..width * MOST_RECORDS.min(file.len() / width)]
}

fn record_at(file: &[u8], width: usize, place: usize) -> &[u8] {
    &file[width * place..][..width]
}

/// A line for each record, and one for what is too much.
fn lines(file: &[u8], width: usize, refused: Option<Refusal>, fault: impl Fn(usize) -> Option<Refusal>) -> String {
    let count = front(file, width).len() / width;
    let line = |place| {
        let record = content(record_at(file, width, place));
        match fault(place) {
            None => format!("{place}: {record}\n"),
            Some(refusal) => format!("{place}: refused, {} ({}): {record}\n", refusal.message(), refusal.number()),
        }
    };
    let text: String = (0..count).map(line).collect();
    match refused.filter(|refusal| refusal.record().is_none()) {
        None => text,
        Some(refusal) => format!(
            "{text}refused, {} ({}){}\n",
            refusal.message(),
            refusal.number(),
            left_over(file, width)
        ),
    }
}

/// The bytes behind the last record, where that is not the last one that a file may have.
fn left_over(file: &[u8], width: usize) -> String {
    match file.chunks_exact(width).remainder() {
        rest if !rest.is_empty() && file.len() < width * MOST_RECORDS => format!(": bytes {}", joined(rest, " ")),
        _ => String::new(),
    }
}

/// What a record says by itself; of one that says nothing, the bytes.
pub fn content(bytes: &[u8]) -> String {
    let read = if bytes.len() == RECORD_BYTES {
        records(bytes)
    } else {
        wide_records(bytes)
    };
    match read.ok().and_then(|mut records| records.next()) {
        Some(record) => record.to_string(),
        None => format!("bytes {}", joined(bytes, " ")),
    }
}
