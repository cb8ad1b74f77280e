//! What is read and written. What was not read to its end has no verdict, and an answer that was not written is none: each failure is a
//! `Trouble`.

use crate::status::{Status, Trouble};
use crate::words::shown;
use bolfrega::{WIDE_BYTES, WIDE_RECORD_BYTES};
use std::ffi::OsStr;
use std::fs::{self, File};
use std::io::{self, IsTerminal, Read, Write};
use std::os::fd::AsFd;
use std::sync::atomic::{AtomicU8, Ordering};

/// One record more than any file of either form has.
const MORE_THAN_ANY: usize = WIDE_BYTES + WIDE_RECORD_BYTES;

/// No text of a plan or of names is longer.
const MOST_TEXT: u64 = 1 << 20;

/// The streams of the process. Standard input is read once.
#[derive(Default)]
pub struct Streams {
    taken: bool,
}

impl Streams {
    /// The bytes of a plan file; `-` is standard input. Of an input that is longer than any file only so many bytes come that it is refused as the
    /// whole one is.
    pub fn file(&mut self, path: &OsStr) -> Result<Vec<u8>, Trouble> {
        self.read(path, |from| {
            let mut bytes = Vec::new();
            (&from).take(MORE_THAN_ANY as u64).read_to_end(&mut bytes)?;
            let rest = io::copy(&mut &from, &mut io::sink())?;
            bytes.resize(bytes.len() + rest as usize % WIDE_RECORD_BYTES, 0);
            Ok(bytes)
        })
    }

    /// A text; `-` is standard input.
    pub fn text(&mut self, path: &OsStr) -> Result<String, Trouble> {
        let text = self.read(path, |from| {
            let mut text = String::new();
            from.take(MOST_TEXT + 1).read_to_string(&mut text)?;
            Ok(text)
        })?;
        if text.len() as u64 > MOST_TEXT {
            return Err(Trouble::with(&shown(path), "the text is longer than 1 MiB"));
        }
        Ok(text)
    }

    fn read<T>(&mut self, path: &OsStr, whole: impl Fn(File) -> io::Result<T>) -> Result<T, Trouble> {
        let opened = if path == "-" {
            self.standard_input()?
        } else {
            File::open(path)
        };
        opened.and_then(whole).map_err(|error| Trouble::with(&shown(path), error))
    }

    fn standard_input(&mut self) -> Result<io::Result<File>, Trouble> {
        if self.taken {
            return Err(Trouble::usage("- is named twice, and standard input is read once"));
        }
        self.taken = true;
        if closed(STANDARD_INPUT) {
            return Err(Trouble::new("standard input is closed"));
        }
        Ok(io::stdin().as_fd().try_clone_to_owned().map(File::from))
    }

    /// Writes to standard output, and ends well.
    pub fn say(&mut self, text: &str) -> Result<Status, Trouble> {
        self.write(text.as_bytes())?;
        Ok(Status::Holds)
    }

    /// Writes to standard output, through no buffer, so that a failure shows here.
    pub fn write(&mut self, bytes: &[u8]) -> Result<(), Trouble> {
        let name = "standard output";
        if closed(STANDARD_OUTPUT) {
            return Err(Trouble::with(name, "it is closed"));
        }
        let output = io::stdout().as_fd().try_clone_to_owned().map(File::from);
        let written = output.and_then(|mut output| output.write_all(bytes));
        written.map_err(|error| Trouble::with(name, error))
    }

    /// Writes a plan file to a path, or to standard output, which is then no terminal.
    pub fn write_file(&mut self, path: Option<&OsStr>, bytes: &[u8]) -> Result<(), Trouble> {
        match path {
            Some(path) => fs::write(path, bytes).map_err(|error| Trouble::with(&shown(path), error)),
            None if io::stdout().is_terminal() => Err(Trouble::usage("a plan file is no text: name a file for it, or a pipe")),
            None => self.write(bytes),
        }
    }
}

/// Writes to standard error, if that can be written to.
pub fn complain(line: &str) {
    let _ = io::stderr().write_all(line.as_bytes());
}

const STANDARD_INPUT: u8 = 0;
const STANDARD_OUTPUT: u8 = 1;

/// The standard streams that were closed when the process began, bit s for stream s.
static CLOSED: AtomicU8 = AtomicU8::new(0);

fn closed(stream: u8) -> bool {
    CLOSED.load(Ordering::Relaxed) >> stream & 1 == 1
}

/// Before `main`, Rust opens /dev/null in place of a standard stream that is closed: the input would then be the empty file, and the answer gone.
/// So this looks before Rust does, as one of the functions that the loader calls first.
#[used]
#[link_section = ".init_array"]
static LOOK: extern "C" fn() = look;

extern "C" fn look() {
    const F_GETFD: i32 = 1;
    extern "C" {
        fn fcntl(descriptor: i32, command: i32, ...) -> i32;
    }
    for stream in [STANDARD_INPUT, STANDARD_OUTPUT] {
        // SAFETY: F_GETFD takes no further argument, and only asks whether the descriptor is open.
        if unsafe { fcntl(i32::from(stream), F_GETFD) } < 0 {
            CLOSED.fetch_or(1 << stream, Ordering::Relaxed);
        }
    }
}
