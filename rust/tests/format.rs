//! docs/FORMAT.md: every example is asked of the library, and every number of the C header stands in its tables and in an example.

use bolfrega::{raw, Journal, Refusal, Starts};
use std::collections::{BTreeMap, BTreeSet};
use std::fmt::Display;

const FORMAT: &str = include_str!("../../docs/FORMAT.md");
const HEADER: &str = include_str!("../../include/bolfrega.h");

#[test]
fn the_page_is_right() {
    assert_eq!(faults(FORMAT), [] as [String; 0]);
}

/// The samples that the page names are files of its examples.
#[test]
fn samples_are_shown() {
    let named: Vec<&str> = FORMAT
        .split("`samples/")
        .skip(1)
        .filter_map(|rest| rest.split('`').next())
        .collect();
    assert!(!named.is_empty());
    for name in named {
        let file = std::fs::read(format!("../samples/{name}")).unwrap();
        assert!(examples(FORMAT).iter().any(|example| example.file == file), "{name}");
    }
}

/// The test can fail: a change of any answer, of any record in words and of any number in a table is seen.
#[test]
fn each_change_is_seen() {
    let lines: Vec<&str> = FORMAT.lines().collect();
    let mut changes = 0;
    for (at, line) in lines.iter().enumerate() {
        let Some(changed) = changed(line) else { continue };
        let mut page = lines.clone();
        page[at] = &changed;
        assert!(!faults(&page.join("\n")).is_empty(), "line {}: {changed}", at + 1);
        changes += 1;
    }
    assert!(changes > 100, "{changes}");
}

/// A line with an answer, a record in words or a number of a table, made wrong; `None` is any other line.
fn changed(line: &str) -> Option<String> {
    let row = || {
        line.strip_prefix("| ")?
            .split_once(" | ")
            .filter(|(number, _)| number.parse::<u64>().is_ok())
    };
    let bytes = line.starts_with(|first: char| first.is_ascii_digit());
    if let Some((question, _)) = question(line) {
        return Some(format!("{question}: refused 99"));
    }
    if let Some((number, rest)) = row() {
        return Some(format!("| 9{number} | {rest}"));
    }
    let (record, words) = line.split_once(" # ").filter(|_| bytes)?;
    Some(format!("{record} # {words} 0"))
}

/// All that is wrong in a page.
fn faults(page: &str) -> Vec<String> {
    let examples = examples(page);
    let mut seen = BTreeSet::new();
    let mut faults = Vec::new();
    for (at, example) in examples.iter().enumerate() {
        let next = examples.get(at + 1).map(|next| &next.file[..]);
        for (question, expected) in &example.questions {
            let answer = Asked::new(question, example).answer(next);
            seen.extend(number_of(&answer));
            if answer != *expected {
                faults.push(format!("line {}: {question}: {answer}", example.line));
            }
        }
        faults.extend(wrong_words(example));
    }
    faults.extend(wrong_rows(page));
    let unseen = messages().into_keys().filter(|number| !seen.contains(number));
    faults.extend(unseen.map(|number| format!("no example has {number}")));
    faults
}

/// One block of the page.
struct Example {
    line: usize,
    questions: Vec<(String, String)>,
    file: Vec<u8>,
    wide: bool,
    /// The records that are said in words.
    words: Vec<(usize, String)>,
}

fn examples(page: &str) -> Vec<Example> {
    let blocks = page.match_indices("```example\n");
    let block = |(at, mark): (usize, &str)| {
        let body = page[at + mark.len()..].split("```").next().expect("a part");
        example(page[..at].lines().count() + 1, body)
    };
    blocks.map(block).collect()
}

fn example(line: usize, body: &str) -> Example {
    let questions = body.lines().filter_map(question);
    let lines = || body.lines().filter(|line| question(line).is_none());
    let first = lines().next().and_then(|line| line.rsplit(": ").next());
    let wide = first.is_some_and(|record| bytes(record, 0).len() == 16);
    let (mut file, mut words) = (Vec::new(), Vec::new());
    for line in lines() {
        if let Some((_, said)) = line.split_once(" # ") {
            words.push((file.len() / if wide { 16 } else { 8 }, said.to_string()));
        }
        file.extend(records(line));
    }
    Example {
        line,
        questions: questions
            .map(|(asked, answer)| (asked.to_string(), answer.to_string()))
            .collect(),
        file,
        wide,
        words,
    }
}

/// A line `QUESTION: ANSWER`, of an example or not.
fn question(line: &str) -> Option<(&str, &str)> {
    const CALLS: [&str; 10] = [
        "read",
        "check",
        "judge",
        "recognize",
        "gaps",
        "write",
        "step",
        "widen",
        "narrow",
        "unfold",
    ];
    let (question, answer) = line.split_once(": ")?;
    CALLS.contains(&question.split(' ').next()?).then_some((question, answer))
}

/// The bytes of a line: those of a record, or of many.
fn records(line: &str) -> Vec<u8> {
    let Some((range, record)) = line.strip_prefix("for n from ").and_then(|rest| rest.split_once(": ")) else {
        return bytes(line, 0);
    };
    let (first, last) = range.split_once(" to ").expect("for n from A to B");
    let range = first.parse::<u64>().unwrap()..=last.parse().unwrap();
    range.flat_map(|n| bytes(record, n)).collect()
}

/// The bytes of a record, with the value of `n` where that stands.
fn bytes(record: &str, n: u64) -> Vec<u8> {
    let record = record.split('#').next().expect("a part");
    let byte = |word: &str| if word == "n" { n as u8 } else { word.parse().expect("a byte") };
    record.split_whitespace().map(byte).collect()
}

/// The records of a file that are not as the library says them; in a refused file the words are free.
fn wrong_words(example: &Example) -> Vec<String> {
    let read = if example.wide {
        bolfrega::wide_records
    } else {
        bolfrega::records
    };
    let Ok(records) = read(&example.file) else { return Vec::new() };
    let said: Vec<String> = records.map(|record| record.to_string()).collect();
    let wrong = example.words.iter().filter(|(at, words)| said[*at] != *words);
    wrong
        .map(|(at, words)| format!("line {}: {words}: {}", example.line, said[*at]))
        .collect()
}

/// A question, taken apart: `check rows 3` is the call `check` and the numbers of `rows`.
struct Asked<'e> {
    call: &'e str,
    numbers: BTreeMap<&'e str, Vec<u64>>,
    file: &'e [u8],
    wide: bool,
}

impl<'e> Asked<'e> {
    fn new(question: &'e str, example: &'e Example) -> Asked<'e> {
        let mut numbers = BTreeMap::<_, Vec<u64>>::new();
        let mut words = question.split(' ');
        let call = words.next().expect("a word");
        let mut name = call;
        for word in words {
            match word.parse() {
                Ok(number) => numbers.entry(name).or_default().push(number),
                Err(_) => name = word,
            }
        }
        let (file, wide) = (&example.file[..], example.wide);
        Asked {
            call,
            numbers,
            file,
            wide,
        }
    }

    /// The one number of a name.
    fn number(&self, name: &str, usual: usize) -> usize {
        self.numbers.get(name).map_or(usual, |numbers| numbers[0] as usize)
    }

    /// The run that is asked about.
    fn run(&self) -> Vec<u8> {
        let run = self.numbers.get(self.call).map_or(&[][..], |numbers| numbers);
        let run: Vec<u8> = run.iter().map(|&code| code as u8).collect();
        run.repeat(self.number("times", 1))
    }

    /// What the library answers, in one line that begins with the header's word or with `refused` and the number.
    fn answer(&self, next: Option<&[u8]>) -> String {
        let answered = match self.call {
            "read" => self.read(),
            "check" => self.check(),
            "judge" => bolfrega::judge(self.file, &self.run()).map(|judgement| judgement.to_string()),
            "recognize" => return self.recognize(),
            "gaps" => return self.gaps(),
            "write" => self.write(),
            "step" => self.step(),
            _ => self.moved(next),
        };
        answered.unwrap_or_else(refused)
    }

    fn read(&self) -> Result<String, Refusal> {
        let read = if self.wide {
            bolfrega::wide_refusal
        } else {
            bolfrega::refusal
        };
        read(self.file).map(|_| messages()[&0].to_string())
    }

    fn check(&self) -> Result<String, Refusal> {
        let mut buffer = vec![0; self.number("into", bolfrega::PROGRAM_ROOM)];
        let rows = self.number("rows", bolfrega::PROGRAM_ROWS);
        let budget = self.number("budget", bolfrega::PROGRAM_BUDGET as usize) as u64;
        let told = match self.numbers.get("from") {
            None => bolfrega::check(self.file, rows, budget, &mut buffer)?.to_string(),
            Some(starts) => {
                let starts = Starts::of(starts.iter().map(|&start| start as u8)).expect("procedures");
                bolfrega::check_from(self.file, starts, rows, budget, &mut buffer)?.to_string()
            }
        };
        // An empty last line has no end, so that `lines` would leave it out.
        Ok(joined(
            told.split('\n').map(|line| if line.is_empty() { "nothing" } else { line }),
        ))
    }

    fn recognize(&self) -> String {
        let mut table = vec![0; self.number("cells", bolfrega::CELLS)];
        let number = raw::recognize(self.file, &self.run(), &mut 0, &mut table);
        word_of(number)
    }

    fn gaps(&self) -> String {
        let mut list = vec![0; self.number("into", bolfrega::LIST_BYTES)];
        let mut entries = 0;
        let number = raw::list(self.file, &mut 0, &mut entries, &mut list);
        let entry = |entry: &[u8]| format!("{} {} {}", entry[0], entry[1], entry[2]);
        let entries = list.chunks(3).take(entries as usize).map(entry);
        format!("{} {}", word_of(number), joined(entries)).trim_end().to_string()
    }

    fn write(&self) -> Result<String, Refusal> {
        let mut journal = Journal::new(bolfrega::PROGRAM_ROWS);
        journal.check(self.file, Starts::INITIAL, bolfrega::PROGRAM_BUDGET)?;
        let mut buffer = vec![0; self.number("into", bolfrega::PROGRAM_ROOM)];
        let run = journal.write(self.file, self.number("write", 0), &mut buffer)?;
        Ok(format!("written {}", numbers(run)))
    }

    fn step(&self) -> Result<String, Refusal> {
        let number = raw::step(self.file, self.number("step", 0), &mut 0, &mut Default::default(), &mut 0);
        Ok(word_of(number))
    }

    fn moved(&self, next: Option<&[u8]>) -> Result<String, Refusal> {
        let into = match self.call {
            "widen" => bolfrega::widen_into,
            "narrow" => bolfrega::narrow_into,
            _ => bolfrega::unfold_into,
        };
        let mut out = vec![0; self.number("into", bolfrega::WIDE_BYTES)];
        let length = into(self.file, &mut out)?;
        Ok(match &out[..length] {
            result if Some(result) == next => "converted to the next file".to_string(),
            result => format!("converted to {}", numbers(result)),
        })
    }
}

fn refused(refusal: Refusal) -> String {
    let record = refusal.record().map(|record| format!(" in record {record}"));
    format!("refused {}{}", refusal.number(), record.unwrap_or_default())
}

fn joined<T: Display>(lines: impl Iterator<Item = T>) -> String {
    lines.map(|line| line.to_string()).collect::<Vec<_>>().join(" / ")
}

fn numbers(bytes: &[u8]) -> String {
    bytes.iter().map(u8::to_string).collect::<Vec<_>>().join(" ")
}

/// The header's word for a number that answers, or `refused` and the number.
fn word_of(number: u64) -> String {
    match messages().get(&number).and_then(|message| message.split_once(':')) {
        Some((word, _)) => word.to_string(),
        None => format!("refused {number}"),
    }
}

/// The number of an answer in words.
fn number_of(answer: &str) -> Option<u64> {
    if let Some(rest) = answer.strip_prefix("refused ") {
        return rest.split(' ').next()?.parse().ok();
    }
    let begins = |message: &str| answer.starts_with(message.split(':').next().expect("a part"));
    messages()
        .into_iter()
        .find(|(_, message)| begins(message))
        .map(|(number, _)| number)
}

/// The header's numbers with their messages.
fn messages() -> BTreeMap<u64, &'static str> {
    let cases = HEADER.split("    case ").skip(1).map(|case| {
        let (name, rest) = case.split_once(':').expect("case NAME:");
        let message = rest.split('"').nth(1).expect("a message");
        (name.parse().unwrap_or_else(|_| value_of(name)), message)
    });
    cases.collect()
}

/// The value of a constant of the header.
fn value_of(name: &str) -> u64 {
    let (_, rest) = HEADER.split_once(&format!("#define {name} ")).expect("a constant");
    rest.split_whitespace().next().expect("a word").parse().expect("a number")
}

/// Numbers without a row that has the header's words and what to do, and rows without a number of the header.
fn wrong_rows(page: &str) -> Vec<String> {
    let row = |line: &'_ str| {
        let cells: Vec<String> = line.split('|').map(|cell| cell.trim().to_string()).collect();
        let number = cells.get(1)?.parse::<u64>().ok()?;
        Some((
            number,
            cells[2].clone(),
            cells.get(3).is_some_and(|remedy| remedy.ends_with('.')),
        ))
    };
    let said: BTreeSet<_> = page.lines().filter_map(row).collect();
    let due = messages()
        .into_iter()
        .map(|(number, message)| (number, message.to_string(), true));
    let due: BTreeSet<_> = due.collect();
    said.symmetric_difference(&due)
        .map(|row| format!("the row {row:?}"))
        .collect()
}
