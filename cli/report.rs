//! What is printed of answers, refusals and logs.

use crate::calls::{self, Count, Refusal, Stretch, LOG_MAX, PATTERN_MAX, PICKS_MAX};
use crate::input::{Log, Titled};
use crate::options::Form;
use crate::paint::{Paint, BOLD, CYAN, RED, YELLOW};
use crate::text::{grouped, lines, of, pointed, prose, safe, stretches};
use crate::tree::Node;
use crate::Fault;
use std::io::{self, Write};

/// A refusal in words, with value and limit.
pub fn refusal(refusal: Refusal, pattern: &[u8], log: &Log) -> String {
    let at_most = |limit: usize| format!("at most {}", grouped(limit as u64));
    let why = match refusal {
        Refusal::LongLog => format!("long log: {}, {}", log.length(), at_most(LOG_MAX)),
        Refusal::LongPattern => format!("long pattern: {} bytes, {}", grouped(pattern.len() as u64), at_most(PATTERN_MAX)),
        Refusal::Misspelt { place } if place == pattern.len() => {
            format!("misspelt: it ends too soon, after {}", of(place, "byte", "bytes"))
        }
        Refusal::Misspelt { place } => format!("misspelt after {}", of(place, "byte", "bytes")),
        Refusal::Crowded => "crowded: more than 32 nodes".into(),
        Refusal::Deep => "deep: more than 8 deep".into(),
        Refusal::BadCount { k: 0 } => "bad count: 0 picks, at least 1".into(),
        Refusal::BadCount { k } => {
            let more = if k == u32::MAX { " or more" } else { "" };
            format!("bad count: {}{more}, {}", of(k as usize, "pick", "picks"), at_most(PICKS_MAX))
        }
    };
    format!("refused: {why}")
}

/// The same for standard error: a misspelt pattern below it, with a caret under the place.
pub fn refusal_pointed(reason: Refusal, pattern: &[u8], log: &Log) -> String {
    let paint = Paint::for_stream(&io::stderr());
    let words = paint.paint(RED, &refusal(reason, pattern, log));
    match reason {
        Refusal::Misspelt { place } => {
            let (shown, caret) = pointed(pattern, place);
            format!("{words}\n{shown}\n{}", paint.paint(RED, &caret))
        }
        _ => words,
    }
}

/// The warning of a log whose every line is damaged, with a hint where carriage returns are the reason, or most of whose lines are damaged by them.
pub fn warning(log: &[u8], count: &Count) -> Option<String> {
    if 2 * count.damaged <= count.lines {
        return None;
    }
    let returns = calls::each_line(log).filter(|line| sound_without_return(line)).count();
    if count.damaged < count.lines {
        let number = grouped(returns as u64);
        let text = format!("warning: {number} lines are damaged by the carriage return at their end alone (tr -d '\\r' takes it away)");
        return (2 * returns > count.lines).then_some(text);
    }
    let hint = match returns {
        0 => String::new(),
        1 => "; 1 would be sound without the carriage return at its end (tr -d '\\r' takes it away)".into(),
        _ => format!("; {} would be sound without the carriage return at their end (tr -d '\\r' takes it away)", grouped(returns as u64)),
    };
    Some(format!("warning: every line of the log is damaged{hint}"))
}

fn sound_without_return(line: &[u8]) -> bool {
    line.strip_suffix(b"\r\n").is_some_and(|text| calls::sound(&[text, b"\n"].concat()))
}

/// What is found of a pattern: all stretches, up to k picks of so many, or of so many the one of a number, as a tree, if there is such a one.
pub enum Found {
    All(Vec<Stretch>),
    Picks { k: u32, picks: Vec<Stretch>, stretches: usize },
    Why { number: u64, tree: Option<Vec<Node>>, stretches: usize },
}

impl Found {
    /// How many stretches are printed.
    pub fn number(&self) -> usize {
        match self {
            Found::All(listed) | Found::Picks { picks: listed, .. } => listed.len(),
            Found::Why { tree, .. } => usize::from(tree.is_some()),
        }
    }

    fn in_words(&self) -> String {
        match self {
            Found::All(listed) => stretches(listed.len()),
            Found::Picks { k, picks, stretches: all } => {
                format!("{}, {} of {}", stretches(*all), picks.len(), of(*k as usize, "pick", "picks"))
            }
            Found::Why { number, tree: Some(_), stretches: all } => format!("{}, number {number}", stretches(*all)),
            Found::Why { number, tree: None, stretches: all } => {
                let more = if *number == u64::MAX { " or more" } else { "" };
                format!("{}, none with number {number}{more}", stretches(*all))
            }
        }
    }
}

/// Prints answers over one log.
pub struct Report<'a> {
    pub log: &'a [u8],
    pub count: Count,
    /// What is told to count from 0.
    pub counted: &'static str,
    pub form: Form,
    pub paint: Paint,
    pub out: Box<dyn Write>,
}

impl Report<'_> {
    /// The answer to the only pattern.
    pub fn answer(&mut self, found: &Found) -> Result<(), Fault> {
        if self.form == Form::Count {
            return Ok(writeln!(self.out, "{}", found.number())?);
        }
        let first = format!("{}; {}", self.log_in_words(), found.in_words());
        writeln!(self.out, "{} ({} count from 0)", self.paint.paint(BOLD, &first), self.counted)?;
        self.found(found)
    }

    /// The first line of answers to several patterns.
    pub fn heading(&mut self) -> Result<(), Fault> {
        if self.form == Form::Count {
            return Ok(());
        }
        Ok(writeln!(self.out, "{} ({} count from 0)\n", self.paint.paint(BOLD, &self.log_in_words()), self.counted)?)
    }

    /// A pattern below its title, before its answer.
    pub fn title(&mut self, titled: &Titled) -> Result<(), Fault> {
        for line in &titled.title {
            writeln!(self.out, "{}", self.paint.paint(BOLD, &prose(line)))?;
        }
        Ok(writeln!(self.out, "{}", safe(&titled.pattern))?)
    }

    pub fn answer_titled(&mut self, found: &Found) -> Result<(), Fault> {
        writeln!(self.out, "{}", found.in_words())?;
        if self.form == Form::Count {
            Ok(())
        } else {
            self.found(found)
        }
    }

    fn log_in_words(&self) -> String {
        let unended = if self.log.is_empty() || self.log.ends_with(b"\n") { "" } else { " (the last line has no line feed)" };
        format!("{}, {} damaged{unended}", lines(self.count.lines), grouped(self.count.damaged as u64))
    }

    fn found(&mut self, found: &Found) -> Result<(), Fault> {
        match found {
            Found::All(listed) | Found::Picks { picks: listed, .. } => self.list(listed),
            Found::Why { tree, .. } => tree.iter().try_for_each(|tree| self.tree(tree)),
        }
    }

    fn list(&mut self, listed: &[Stretch]) -> Result<(), Fault> {
        for &stretch in listed {
            let words = self.in_words(stretch)?;
            writeln!(self.out, "{words}")?;
            self.show(stretch)?;
        }
        Ok(())
    }

    /// The nodes of a tree, beside each its stretch, or of a leaf the line itself, or a dash where it took no part.
    fn tree(&mut self, tree: &[Node]) -> Result<(), Fault> {
        let label = |node: &Node| format!("{:indent$}{}", "", node.spelt, indent = 2 * node.depth);
        let width = tree.iter().map(|node| label(node).len()).max().unwrap_or_default();
        for node in tree {
            let beside = match node.stretch {
                Some(stretch) if node.leaf => self.line_in_words(stretch.first)?,
                Some(stretch) => self.in_words(stretch)?,
                None => "-".into(),
            };
            writeln!(self.out, "{:width$}  {beside}", label(node))?;
        }
        tree[0].stretch.map_or(Ok(()), |whole| self.show(whole))
    }

    fn in_words(&self, stretch: Stretch) -> Result<String, Fault> {
        let ends = self.paint.paint(CYAN, &format!("{}..{}", stretch.first, stretch.last));
        Ok(format!("{ends} ({}{})", lines(stretch.lines()), self.damage(stretch)?))
    }

    /// A line of the log after its number.
    fn line_in_words(&self, number: u32) -> Result<String, Fault> {
        match calls::lines_of(self.log, Stretch { first: number, last: number }) {
            [] => Err(lacking()),
            line => Ok(format!("{}  {}", self.paint.paint(CYAN, &number.to_string()), self.shown(line))),
        }
    }

    /// How many lines of a stretch are damaged, where some are: `max` does not count them.
    fn damage(&self, stretch: Stretch) -> Result<String, Fault> {
        if self.count.damaged == 0 {
            return Ok(String::new());
        }
        match calls::count(calls::lines_of(self.log, stretch)) {
            Ok(held) if held.lines != stretch.lines() => Err(lacking()),
            Ok(held) if held.damaged == 0 => Ok(String::new()),
            Ok(held) => Ok(format!(", {} damaged", grouped(held.damaged as u64))),
            Err(_) => Err(Fault::Failed("internal error: the lines of a stretch are not counted".into())),
        }
    }

    /// The lines of a stretch, numbered, where they are wanted.
    fn show(&mut self, stretch: Stretch) -> Result<(), Fault> {
        if self.form != Form::Show {
            return Ok(());
        }
        let mut number = stretch.first;
        for line in calls::each_line(calls::lines_of(self.log, stretch)) {
            let shown = self.shown(line);
            writeln!(self.out, "{number:8}  {shown}")?;
            number += 1;
        }
        if number == stretch.last + 1 {
            Ok(())
        } else {
            Err(lacking())
        }
    }

    /// A line, given with its line feed if it has one, marked if it is damaged.
    fn shown(&self, line: &[u8]) -> String {
        let text = line.strip_suffix(b"\n").unwrap_or(line);
        let mark = match (calls::sound(line), text.is_empty()) {
            (true, _) => "",
            (false, true) => "damaged, empty",
            (false, false) => "damaged: ",
        };
        format!("{}{}", self.paint.paint(YELLOW, mark), safe(text))
    }
}

fn lacking() -> Fault {
    Fault::Failed("internal error: a stretch lacks lines".into())
}
