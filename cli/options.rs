//! The command line.

use crate::input::Source;
use crate::text::{name, prose, shown};
use std::collections::VecDeque;
use std::ffi::{OsStr, OsString};
use std::os::unix::ffi::{OsStrExt, OsStringExt};
use std::str::FromStr;

/// What is printed of an answer.
#[derive(Clone, Copy, PartialEq)]
pub enum Form {
    Stretches,
    Show,
    Count,
    Quiet,
    Sheet,
}

pub enum Patterns {
    Given(Vec<u8>),
    From(Source),
}

/// Which stretches are wanted.
#[derive(Clone, Copy)]
pub enum Wanted {
    All,
    /// Up to so many picks.
    Picks(u32),
    /// The one of this number, with the nodes that took part in it.
    Why(u64),
}

pub struct Search {
    pub form: Form,
    pub wanted: Wanted,
    pub patterns: Patterns,
    pub log: Source,
}

pub enum Request {
    Search(Search),
    Help,
    Version,
}

/// The options met so far, and the words that are none.
#[derive(Default)]
struct Met {
    form: Option<Form>,
    picks: Option<u32>,
    why: Option<u64>,
    file: Option<OsString>,
    help: bool,
    version: bool,
    words: VecDeque<OsString>,
}

/// What the arguments ask for; the error says what is wrong with them.
pub fn read(arguments: impl IntoIterator<Item = OsString>) -> Result<Request, String> {
    let mut arguments = arguments.into_iter();
    let mut met = Met::default();
    while let Some(argument) = arguments.next() {
        match argument.as_bytes() {
            b"--" => met.words.extend(arguments.by_ref()),
            [b'-', b'-', long @ ..] => met.long(long, &mut arguments)?,
            [b'-', short @ ..] if !short.is_empty() => met.short(short, &mut arguments)?,
            _ => met.words.push_back(argument),
        }
    }
    met.request()
}

impl Met {
    fn long(&mut self, option: &[u8], rest: &mut impl Iterator<Item = OsString>) -> Result<(), String> {
        match option {
            b"show" => self.form(Form::Show)?,
            b"count" => self.form(Form::Count)?,
            b"quiet" => self.form(Form::Quiet)?,
            b"sheet" => self.form(Form::Sheet)?,
            b"help" => self.help = true,
            b"version" => self.version = true,
            b"file" => self.file(rest.next())?,
            b"pick" => self.picks(rest.next())?,
            b"why" => self.why(rest.next())?,
            _ => return self.long_with_value(option),
        }
        Ok(())
    }

    fn long_with_value(&mut self, option: &[u8]) -> Result<(), String> {
        let value = |name: &[u8]| option.strip_prefix(name).map(|value| OsStr::from_bytes(value).to_owned());
        if let Some(file) = value(b"file=") {
            self.file(Some(file))
        } else if let Some(number) = value(b"pick=") {
            self.picks(Some(number))
        } else if let Some(number) = value(b"why=") {
            self.why(Some(number))
        } else {
            Err(format!("unknown option --{}", prose(option)))
        }
    }

    /// Short options behind one dash; what follows an `f` is its file, and what follows a `p` its number.
    fn short(&mut self, options: &[u8], rest: &mut impl Iterator<Item = OsString>) -> Result<(), String> {
        for (i, option) in options.iter().enumerate() {
            let mut value = || Some(OsStr::from_bytes(&options[i + 1..]).to_owned()).filter(|value| !value.is_empty()).or_else(|| rest.next());
            match option {
                b's' => self.form(Form::Show)?,
                b'c' => self.form(Form::Count)?,
                b'q' => self.form(Form::Quiet)?,
                b'h' => self.help = true,
                b'f' => return self.file(value()),
                b'p' => return self.picks(value()),
                &unknown => return Err(format!("unknown option -{}", shown(unknown))),
            }
        }
        Ok(())
    }

    fn form(&mut self, form: Form) -> Result<(), String> {
        match self.form.replace(form) {
            Some(other) if other != form => Err("--show, --count, --quiet and --sheet exclude each other".into()),
            _ => Ok(()),
        }
    }

    fn file(&mut self, file: Option<OsString>) -> Result<(), String> {
        once(&mut self.file, file.ok_or("-f needs a file of patterns")?, "-f")
    }

    fn picks(&mut self, value: Option<OsString>) -> Result<(), String> {
        once(&mut self.picks, number(value, "-p needs a number of picks", u32::MAX)?, "-p")
    }

    fn why(&mut self, value: Option<OsString>) -> Result<(), String> {
        once(&mut self.why, number(value, "--why needs a stretch's number", u64::MAX)?, "--why")
    }

    fn request(mut self) -> Result<Request, String> {
        if self.help {
            return Ok(Request::Help);
        }
        if self.version {
            return Ok(Request::Version);
        }
        let form = self.form.unwrap_or(Form::Stretches);
        let wanted = match (self.why, self.picks) {
            (Some(number), None) if matches!(form, Form::Stretches | Form::Show) => Wanted::Why(number),
            (Some(_), _) => return Err("--why excludes --pick, --count, --quiet and --sheet".into()),
            (None, Some(_)) if form == Form::Sheet => return Err("--sheet prints every stretch, not picks".into()),
            (None, Some(k)) => Wanted::Picks(k),
            (None, None) => Wanted::All,
        };
        let patterns = match self.file.take() {
            Some(_) if form == Form::Sheet => return Err("--sheet takes one pattern, not -f".into()),
            Some(file) => Patterns::From(Source::named(file)),
            None => Patterns::Given(self.words.pop_front().ok_or("no pattern is given")?.into_vec()),
        };
        let log = self.words.pop_front().map_or(Source::Standard, Source::named);
        if let Some(word) = self.words.front() {
            return Err(format!("one argument too many: {}", name(word)));
        }
        if matches!((&patterns, &log), (Patterns::From(Source::Standard), Source::Standard)) {
            return Err("patterns and log cannot both come from standard input".into());
        }
        Ok(Request::Search(Search { form, wanted, patterns, log }))
    }
}

/// Keeps the value of an option that may be given once.
fn once<T>(kept: &mut Option<T>, value: T, option: &str) -> Result<(), String> {
    match kept.replace(value) {
        None => Ok(()),
        Some(_) => Err(format!("{option} is given twice")),
    }
}

/// The number that an option needs. Which numbers are good is for the calls to say; one that does not fit becomes the largest, which is as
/// bad.
fn number<N: FromStr>(value: Option<OsString>, needs: &str, largest: N) -> Result<N, String> {
    let value = value.filter(|value| !value.is_empty()).ok_or(needs)?;
    let digits = value.to_str().filter(|text| text.bytes().all(|byte| byte.is_ascii_digit()));
    Ok(digits.ok_or_else(|| format!("{needs}, not {}", name(&value)))?.parse().unwrap_or(largest))
}
