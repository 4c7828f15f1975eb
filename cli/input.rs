//! Reading of logs and of files of patterns.

use crate::calls::LOG_MAX;
use crate::progress::Progress;
use crate::text::{grouped, name, words};
use crate::{say, streams};
use std::ffi::OsString;
use std::fs::File;
use std::io::{self, IsTerminal, Read};

/// The bytes up to which the length of a log is counted.
const COUNTED_MAX: u64 = 16 << 20;
/// The bytes that a file of patterns may have.
const PATTERNS_MAX: usize = 1 << 20;

pub enum Source {
    Standard,
    File(OsString),
}

impl Source {
    /// `-` is standard input.
    pub fn named(file: OsString) -> Source {
        if file == "-" {
            Source::Standard
        } else {
            Source::File(file)
        }
    }

    pub fn name(&self) -> String {
        match self {
            Source::Standard => "standard input".into(),
            Source::File(file) => name(file),
        }
    }

    fn open(&self) -> io::Result<File> {
        match self {
            Source::Standard => streams::input(),
            Source::File(file) => File::open(file),
        }
    }

    /// The first bytes, at most `kept` of them, and the length, counted until it is above `counted`; any fault on the way is an error.
    fn read(&self, kept: usize, counted: u64) -> Result<(Vec<u8>, u64), String> {
        let typed = matches!(self, Source::Standard) && io::stdin().is_terminal();
        if typed && io::stderr().is_terminal() {
            say("reading from the terminal; Ctrl-D ends the input");
        }
        let name = self.name();
        let progress = Progress::start(!typed, move |bytes| format!("reading {name}: {} bytes so far", grouped(bytes)));
        let failed = |error: io::Error| format!("{}: {}", self.name(), words(&error));
        let mut file = self.open().map_err(failed)?;
        let (mut bytes, mut length, mut piece) = (Vec::new(), 0, vec![0; 1 << 16]);
        while length <= counted {
            let got = match file.read(&mut piece) {
                Ok(0) => break,
                Ok(got) => got,
                Err(error) if error.kind() == io::ErrorKind::Interrupted => continue,
                Err(error) => return Err(failed(error)),
            };
            let room = kept - bytes.len();
            bytes.extend_from_slice(&piece[..got.min(room)]);
            length += got as u64;
            progress.at(length);
        }
        Ok((bytes, length))
    }
}

/// A log, or the start of one that is too long.
pub struct Log {
    pub bytes: Vec<u8>,
    length: u64,
}

impl Log {
    /// The whole length in words.
    pub fn length(&self) -> String {
        if self.length > COUNTED_MAX {
            format!("more than {} bytes", grouped(COUNTED_MAX))
        } else {
            format!("{} bytes", grouped(self.length))
        }
    }
}

/// One byte more than a log may have is kept, so that the calls refuse a longer one.
pub fn read_log(source: &Source) -> Result<Log, String> {
    let (bytes, length) = source.read(LOG_MAX + 1, COUNTED_MAX)?;
    Ok(Log { bytes, length })
}

/// A pattern of a file, with the comment lines right before it and the number of its line, the first being 1.
pub struct Titled {
    pub title: Vec<Vec<u8>>,
    pub pattern: Vec<u8>,
    pub line: usize,
}

pub fn read_patterns(source: &Source) -> Result<Vec<Titled>, String> {
    let (bytes, length) = source.read(PATTERNS_MAX, PATTERNS_MAX as u64)?;
    if length > PATTERNS_MAX as u64 {
        return Err(format!("{}: more than {} bytes of patterns", source.name(), grouped(PATTERNS_MAX as u64)));
    }
    let text = bytes.strip_suffix(b"\n").unwrap_or(&bytes);
    if text.split(|&byte| byte == b'\n').all(|line| line.ends_with(b"\r")) {
        return Err(format!("{}: its lines end in carriage returns (tr -d '\\r' takes them away)", source.name()));
    }
    let mut patterns = Vec::new();
    let mut title = Vec::new();
    for (line, text) in (1..).zip(bytes.split(|&byte| byte == b'\n')) {
        match text {
            [] => title.clear(),
            [b'#', ..] => title.push(text.to_vec()),
            _ => patterns.push(Titled { title: std::mem::take(&mut title), pattern: text.to_vec(), line }),
        }
    }
    if patterns.is_empty() {
        return Err(format!("{}: no pattern in it", source.name()));
    }
    Ok(patterns)
}
