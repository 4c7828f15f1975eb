//! find-stretches: the stretches of patterns in an event log, on the command line. help.txt says what it does; the answers are the proved
//! calls' of include/finder.h.

mod calls;
mod input;
mod options;
mod paint;
mod progress;
mod report;
mod search;
mod sheet;
mod streams;
mod text;
mod tree;

use options::Request;
use std::io::{self, BufWriter, Write};
use std::process::ExitCode;

const FOUND: u8 = 0;
const NOTHING: u8 = 1;
const FAILED: u8 = 2;

/// Why there is no answer, refusals aside.
enum Fault {
    Usage(String),
    Failed(String),
    Unwritten(io::Error),
}

impl From<String> for Fault {
    fn from(why: String) -> Fault {
        Fault::Failed(why)
    }
}

impl From<io::Error> for Fault {
    fn from(error: io::Error) -> Fault {
        Fault::Unwritten(error)
    }
}

/// Prints a line on standard error.
fn tell(line: &str) {
    let _ = writeln!(io::stderr(), "{line}");
}

/// The same with the command's name before it.
fn say(line: &str) {
    tell(&format!("find-stretches: {line}"));
}

/// Standard output.
fn output() -> io::Result<Box<dyn Write>> {
    Ok(Box::new(BufWriter::new(streams::output()?)))
}

fn print(text: &str) -> Result<u8, Fault> {
    let mut out = output()?;
    out.write_all(text.as_bytes())?;
    out.flush()?;
    Ok(FOUND)
}

fn run() -> Result<u8, Fault> {
    match options::read(std::env::args_os().skip(1)).map_err(Fault::Usage)? {
        Request::Help => print(include_str!("help.txt")),
        Request::Version => print(concat!("find-stretches ", env!("FINDER_VERSION"), "\n")),
        Request::Search(search) => search::run(&search),
    }
}

fn main() -> ExitCode {
    let status = run().unwrap_or_else(|fault| {
        match fault {
            Fault::Usage(why) => say(&format!("{why}\nusage: find-stretches [OPTIONS] PATTERN [LOG]; find-stretches --help tells more")),
            Fault::Failed(why) => say(&why),
            Fault::Unwritten(error) if error.kind() == io::ErrorKind::BrokenPipe => {}
            Fault::Unwritten(error) => say(&format!("standard output: {}", text::words(&error))),
        }
        FAILED
    });
    ExitCode::from(status)
}
