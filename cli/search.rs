//! The searches that the command line can ask for; each gives the exit status.

use crate::calls::{self, Count, Refusal, Unanswered};
use crate::input::{read_log, read_patterns, Log, Source, Titled};
use crate::options::{Form, Patterns, Search, Wanted};
use crate::paint::Paint;
use crate::progress::Progress;
use crate::report::{refusal, refusal_pointed, warning, Found, Report};
use crate::text::grouped;
use crate::{say, sheet, tell, tree, Fault, FAILED, FOUND, NOTHING};
use std::io::{self, IsTerminal, Write};

pub fn run(search: &Search) -> Result<u8, Fault> {
    match &search.patterns {
        Patterns::Given(pattern) if search.form == Form::Sheet => printed_sheet(pattern, &read_log(&search.log)?),
        Patterns::Given(pattern) => {
            let log = read_log(&search.log)?;
            counted(&log, |count| one(pattern, &log, count, search))
        }
        Patterns::From(source) => {
            let patterns = read_patterns(source)?;
            let log = read_log(&search.log)?;
            counted(&log, |count| several(&patterns, source, &log, count, search))
        }
    }
}

/// Searches a log that is not too long.
fn counted(log: &Log, search: impl FnOnce(Count) -> Result<u8, Fault>) -> Result<u8, Fault> {
    match judged(calls::count(&log.bytes))? {
        Ok(count) => search(count),
        Err(reason) => refused(reason, &[], log),
    }
}

/// A refusal told from a result that the promises rule out.
fn judged<T>(answer: Result<T, Unanswered>) -> Result<Result<T, Refusal>, Fault> {
    match answer {
        Ok(answer) => Ok(Ok(answer)),
        Err(Unanswered::Refused(reason)) => Ok(Err(reason)),
        Err(Unanswered::Broken(why)) => Err(Fault::Failed(format!("internal error: {why}"))),
    }
}

fn refused(reason: Refusal, pattern: &[u8], log: &Log) -> Result<u8, Fault> {
    tell(&refusal_pointed(reason, pattern, log));
    Ok(FAILED)
}

/// What is wanted of a pattern's stretches in a log of so many lines.
fn find(pattern: &[u8], log: &[u8], lines: usize, wanted: Wanted) -> Result<Found, Unanswered> {
    Ok(match wanted {
        Wanted::All => Found::All(calls::stretches(pattern, log, lines)?),
        Wanted::Picks(k) => {
            let picks = calls::picks(pattern, log, lines, k)?;
            Found::Picks { k, picks, stretches: calls::stretches(pattern, log, lines)?.len() }
        }
        Wanted::Why(number) => {
            let all = calls::stretches(pattern, log, lines)?;
            let shown = calls::witness(pattern, log, lines, number)?;
            let tree = match usize::try_from(number).ok().and_then(|number| all.get(number)) {
                Some(&answer) => Some(tree::explained(pattern, answer, &shown)?),
                None if shown.is_empty() => None,
                None => return Err(Unanswered::Broken("nodes shown of no stretch")),
            };
            Found::Why { number, tree, stretches: all.len() }
        }
    })
}

fn status(found: usize) -> u8 {
    if found > 0 {
        FOUND
    } else {
        NOTHING
    }
}

fn warn(log: &[u8], count: &Count) {
    if let Some(warning) = warning(log, count) {
        say(&warning);
    }
}

/// A report over a log, after the warning of it if there is one.
fn report<'a>(log: &'a [u8], count: Count, search: &Search) -> Result<Report<'a>, Fault> {
    warn(log, &count);
    let out: Box<dyn Write> = if search.form == Form::Quiet { Box::new(io::sink()) } else { crate::output()? };
    let counted = if matches!(search.wanted, Wanted::Why(_)) { "stretches and lines" } else { "lines" };
    Ok(Report { log, count, counted, form: search.form, paint: Paint::for_stream(&io::stdout()), out })
}

fn one(pattern: &[u8], log: &Log, count: Count, search: &Search) -> Result<u8, Fault> {
    let found = match judged(find(pattern, &log.bytes, count.lines, search.wanted))? {
        Ok(found) => found,
        Err(reason) => return refused(reason, pattern, log),
    };
    let mut report = report(&log.bytes, count, search)?;
    report.answer(&found)?;
    report.out.flush()?;
    Ok(status(found.number()))
}

fn several(patterns: &[Titled], source: &Source, log: &Log, count: Count, search: &Search) -> Result<u8, Fault> {
    let mut report = report(&log.bytes, count, search)?;
    let all = grouped(patterns.len() as u64);
    let progress = Progress::start(!io::stdout().is_terminal(), move |done| format!("searching: {} of {all} patterns done", grouped(done)));
    let mut statuses = Vec::new();
    report.heading()?;
    for (done, titled) in (0..).zip(patterns) {
        progress.at(done);
        if done > 0 {
            writeln!(report.out)?;
        }
        report.title(titled)?;
        statuses.push(match judged(find(&titled.pattern, &log.bytes, report.count.lines, search.wanted))? {
            Ok(found) => {
                report.answer_titled(&found)?;
                status(found.number())
            }
            Err(reason) => {
                writeln!(report.out, "{}", refusal(reason, &titled.pattern, log))?;
                report.out.flush()?;
                progress.tell(&format!("{}, line {}: {}", source.name(), titled.line, refusal_pointed(reason, &titled.pattern, log)));
                FAILED
            }
        });
    }
    report.out.flush()?;
    Ok([FAILED, FOUND].into_iter().find(|status| statuses.contains(status)).unwrap_or(NOTHING))
}

fn printed_sheet(pattern: &[u8], log: &Log) -> Result<u8, Fault> {
    // The program would read what follows a line feed as log.
    if pattern.contains(&b'\n') {
        return match judged(calls::stretches(pattern, &log.bytes, 0))? {
            Ok(_) => Err(Fault::Failed("internal error: a pattern of two lines".into())),
            Err(reason) => refused(reason, pattern, log),
        };
    }
    let (printed, said) = sheet::print(pattern, &log.bytes)?;
    if let Ok(count) = judged(calls::count(&log.bytes))? {
        warn(&log.bytes, &count);
    }
    let mut out = crate::output()?;
    out.write_all(&printed)?;
    out.flush()?;
    Ok(match said {
        sheet::Said::Refused => FAILED,
        sheet::Said::Found(answers) => status(answers),
    })
}
