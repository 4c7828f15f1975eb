//! One comparison of a call with the reference: result, every lent cell, and cells around them that were not lent.

use crate::calls::Calls;
use crate::inputs::Rng;
use crate::lent::{self, Taken};
use crate::quick;
use crate::reference::{self, List, Picks, Refusal, Stretch};

/// Nothing, or the report of a difference.
pub type Checked = Result<(), String>;

/// A text for a report, cut if it is long.
pub fn show(text: &[u8]) -> String {
    let cut = &text[..text.len().min(400)];
    format!("{} bytes \"{}\"{}", text.len(), cut.escape_ascii(), if cut.len() < text.len() { ".." } else { "" })
}

/// A pattern and a log for a report.
pub fn input(pattern: &[u8], log: &[u8]) -> String {
    format!("pattern {}\n  log {}", show(pattern), show(log))
}

/// The same with a run of the log that so many lines precede.
pub fn input_with_run(pattern: &[u8], run: &[u8], log: &[u8], before: u32) -> String {
    format!("{}\n  with the run {}, {before} lines before it", input(pattern, log), show(run))
}

/// Cells on both sides of the lent ones.
const GUARD: usize = 3;

/// Runs `call` and `model` on equal cells with random contents, in half of the cases as small as lines' numbers; the results and all cells
/// must agree.
pub fn same(rng: &mut Rng, cells: usize, call: impl Fn(&mut [u32]) -> u64, model: impl Fn(&mut [u32]) -> u64) -> Checked {
    let most = rng.pick(&[u32::MAX, 63]);
    let before: Vec<u32> = (0..cells + 2 * GUARD).map(|_| rng.next() as u32 & most).collect();
    let (mut got, mut wanted) = (before.clone(), before);
    let given = call(&mut got[GUARD..GUARD + cells]);
    let due = model(&mut wanted[GUARD..GUARD + cells]);
    if given != due {
        return Err(format!("result {given:#x}, should be {due:#x}"));
    }
    match (0..got.len()).find(|&i| got[i] != wanted[i]) {
        Some(i) => Err(format!("cell {} holds {}, should hold {}", i as isize - GUARD as isize, got[i], wanted[i])),
        None => Ok(()),
    }
}

/// The filling call over a pattern and a log.
pub fn fill(
    calls: &dyn Calls,
    rng: &mut Rng,
    pattern: &[u8],
    log: &[u8],
    answers: &Result<List, Refusal>,
    cells: usize,
    from: u64,
) -> Checked {
    let call = |lent: &mut [u32]| calls.fill(pattern, log, lent, from);
    let report = |what| format!("{what}\n  {}\n  cells {cells}, from {from}", input(pattern, log));
    same(rng, cells, call, |lent| reference::fill(answers, lent, from)).map_err(report)
}

/// The stretches of a pattern in a log taken one by one.
pub fn steps(calls: &dyn Calls, rng: &mut Rng, pattern: &[u8], log: &[u8], answers: &Result<List, Refusal>, cells: usize) -> Checked {
    let call = |lent: &mut [u32]| calls.steps(pattern, log, lent);
    let report = |what| format!("one by one: {what}\n  {}\n  cells {cells}", input(pattern, log));
    same(rng, cells, call, |lent| reference::steps(answers, lent)).map_err(report)
}

/// The picking call; `by` gives the picks.
pub fn pick(
    calls: &dyn Calls,
    rng: &mut Rng,
    pattern: &[u8],
    log: &[u8],
    answers: &Result<List, Refusal>,
    (k, cells): (u32, usize),
    by: Picks,
) -> Checked {
    let call = |lent: &mut [u32]| calls.pick(pattern, log, k, lent);
    let report = |what| format!("picks: {what}\n  {}\n  k {k}, cells {cells}", input(pattern, log));
    same(rng, cells, call, |lent| reference::pick(answers, k, lent, by)).map_err(report)
}

/// Lists as they are lent to a call, with operator and k.
pub struct Lists<'a> {
    pub op: u32,
    pub k: u32,
    pub items: &'a [u32],
    pub ends: &'a [u32],
}

impl Lists<'_> {
    fn show(&self) -> String {
        let cut = &self.items[..self.items.len().min(60)];
        format!("operator {}, k {}, ends {:?}, {} items {cut:?}", self.op, self.k, self.ends, self.items.len())
    }
}

/// The filling call over lists.
pub fn lists_fill(calls: &dyn Calls, rng: &mut Rng, lent: &Lists, answers: &Result<List, Refusal>, cells: usize, from: u64) -> Checked {
    let call = |cells: &mut [u32]| calls.lists_fill(lent.op, lent.k, lent.items, lent.ends, cells, from);
    let report = |what| format!("{what}\n  {}\n  cells {cells}, from {from}", lent.show());
    same(rng, cells, call, |cells| reference::fill(answers, cells, from)).map_err(report)
}

/// The taking call.
pub fn take(calls: &dyn Calls, rng: &mut Rng, lent: &Lists, taken: &Result<Taken, Refusal>, cells: usize, number: u64) -> Checked {
    let call = |counts: &mut [u32]| calls.lists_take(lent.op, lent.items, lent.ends, counts, number);
    let report = |what| format!("{what}\n  {}\n  count cells {cells}, number {number}", lent.show());
    same(rng, cells, call, |counts| lent::take(taken, counts)).map_err(report)
}

/// Compares a call over a log alone; a difference is reported for a shorter log if one shows it too.
fn alone(log: &[u8], input: impl Fn(&[u8]) -> String, call: impl Fn(&[u8]) -> u64, model: impl Fn(&[u8]) -> u64) -> Checked {
    let differs = |log: &[u8]| match (call(log), model(log)) {
        (given, due) if given != due => Err(format!("result {given:#x}, should be {due:#x}\n  {}", input(log))),
        _ => Ok(()),
    };
    differs(log).map_err(|report| shorten(log, differs).err().unwrap_or(report))
}

/// The counting call.
pub fn count(calls: &dyn Calls, log: &[u8]) -> Checked {
    alone(log, |log| format!("count of {}", show(log)), |log| calls.count(log), reference::count)
}

/// The call for the lines of a stretch.
pub fn lines(calls: &dyn Calls, log: &[u8], first: u32, last: u32) -> Checked {
    let input = |log: &[u8]| format!("lines {first} to {last} of {}", show(log));
    alone(log, input, |log| calls.lines(log, first, last), |log| reference::part_result(reference::part(log, first, last)))
}

/// The whole list by the filling call, with cells enough to say "done"; or the result of a call that says something else.
pub fn whole(calls: &dyn Calls, pattern: &[u8], log: &[u8]) -> Result<List, u64> {
    let mut cells = vec![0; 2 * reference::lines(log).len()];
    let result = calls.fill(pattern, log, &mut cells, 0);
    let written = (result >> 32) as usize;
    if result & 0xffff_ffff != 0 || 2 * written > cells.len() {
        return Err(result);
    }
    Ok(cells.chunks_exact(2).take(written).map(|c| Stretch { s: c[0], e: c[1] }).collect())
}

/// What gives the answers of a pattern in a log.
pub type Answers = fn(&[u8], &[u8]) -> Result<List, Refusal>;

/// A pattern in a log, with its answers, to be compared for several cells and starts.
pub struct Search<'a> {
    calls: &'a dyn Calls,
    pattern: &'a [u8],
    log: &'a [u8],
    by: Answers,
    answers: Result<List, Refusal>,
}

impl<'a> Search<'a> {
    pub fn new(calls: &'a dyn Calls, pattern: &'a [u8], log: &'a [u8], by: Answers) -> Search<'a> {
        Search { calls, pattern, log, by, answers: by(pattern, log) }
    }

    /// The number of answers.
    pub fn found(&self) -> usize {
        self.answers.as_ref().map_or(0, List::len)
    }

    /// The number of picks, however many are asked for.
    pub fn picked(&self) -> usize {
        self.answers.as_ref().map_or(0, |answers| reference::picks(reference::PICKS_MAX as usize, answers).len())
    }

    /// Compares the filling call; a difference is reported for a shorter log if one shows it too.
    pub fn fill(&self, rng: &mut Rng, cells: usize, from: u64) -> Checked {
        let differs = |log: &[u8]| fill(self.calls, &mut Rng(0), self.pattern, log, &(self.by)(self.pattern, log), cells, from);
        let compared = fill(self.calls, rng, self.pattern, self.log, &self.answers, cells, from);
        compared.map_err(|report| shorten(self.log, differs).err().unwrap_or(report))
    }

    /// Compares the picking call with the picks that `by` gives.
    pub fn pick(&self, rng: &mut Rng, case: (u32, usize), by: Picks) -> Checked {
        let differs = |log: &[u8]| pick(self.calls, &mut Rng(0), self.pattern, log, &(self.by)(self.pattern, log), case, by);
        let compared = pick(self.calls, rng, self.pattern, self.log, &self.answers, case, by);
        compared.map_err(|report| shorten(self.log, differs).err().unwrap_or(report))
    }

    /// Compares the taking one by one.
    pub fn steps(&self, rng: &mut Rng, cells: usize) -> Checked {
        let differs = |log: &[u8]| steps(self.calls, &mut Rng(0), self.pattern, log, &(self.by)(self.pattern, log), cells);
        let compared = steps(self.calls, rng, self.pattern, self.log, &self.answers, cells);
        compared.map_err(|report| shorten(self.log, differs).err().unwrap_or(report))
    }
}

/// A worked case: reference and quick both give what is due, and filling, steps and picks hand it back. Gives the number of calls.
pub fn case(calls: &dyn Calls, rng: &mut Rng, pattern: &str, log: &str, due: Result<List, Refusal>) -> Result<usize, String> {
    let (pattern, log) = (pattern.as_bytes(), log.as_bytes());
    for answers in [reference::answers(pattern, log), quick::answers(pattern, log)] {
        if answers != due {
            return Err(format!("by reference {answers:?}, should be {due:?}\n  {}", input(pattern, log)));
        }
    }
    let cells = 2 * reference::lines(log).len() + 1;
    fill(calls, rng, pattern, log, &due, cells, 0)?;
    steps(calls, rng, pattern, log, &due, cells)?;
    pick(calls, rng, pattern, log, &due, (16, 32), reference::picks)?;
    Ok(3)
}

/// The picks of a call, of an accepted k, held to its own list: answers of which no two share a line, each the first in picking order of
/// those that remain, and fewer than k only where none remains or no whole pair of cells is left.
pub fn pick_laws(calls: &dyn Calls, pattern: &[u8], log: &[u8], (k, cells): (u32, usize)) -> Checked {
    let mut lent = vec![0; cells];
    let result = calls.pick(pattern, log, k, &mut lent);
    let law = |holds: bool, broken: &str| {
        let report = || format!("{broken}: result {result:#x}\n  {}\n  k {k}, cells {cells}", input(pattern, log));
        holds.then_some(()).ok_or_else(report)
    };
    let list = whole(calls, pattern, log);
    law(list.is_ok(), "no list to pick from")?;
    let (list, written) = (list.unwrap_or_default(), (result >> 32) as usize);
    law(result & 0xffff_ffff == 0, "an accepted call says more than a number of picks")?;
    law(written <= k as usize && written <= cells / 2, "more picks than asked for, or than cells hold")?;
    let mut remaining = list;
    for pick in lent.chunks_exact(2).take(written).map(|c| Stretch { s: c[0], e: c[1] }) {
        law(remaining.contains(&pick), "a pick is no answer, or shares a line with an earlier one")?;
        law(remaining.iter().all(|a| reference::pick_order(&pick) <= reference::pick_order(a)), "a pick is not the first that remains")?;
        remaining.retain(|&a| !reference::share_line(a, pick));
    }
    law(written == k as usize || written == cells / 2 || remaining.is_empty(), "an answer remains that was not picked")
}

/// Leaves out parts of a log's lines as long as `differs` still reports; at most 200 tries, fewer of long logs.
pub fn shorten(log: &[u8], differs: impl Fn(&[u8]) -> Checked) -> Checked {
    let mut kept = reference::lines(log);
    let mut report = differs(log);
    let (mut part, mut tries, mut bytes) = (kept.len().div_ceil(2), 0, 0);
    while part > 0 && report.is_err() {
        let mut at = 0;
        while at < kept.len() && tries < 200 && bytes < 500_000 {
            let fewer = [&kept[..at], &kept[(at + part).min(kept.len())..]].concat();
            let log = fewer.concat();
            tries += 1;
            bytes += log.len();
            match differs(&log) {
                Err(still) => (kept, report) = (fewer, Err(still)),
                Ok(()) => at += part,
            }
        }
        part /= 2;
    }
    report
}

/// Numbers of cells, and numbers to start from, around the ends of n answers.
pub fn around(n: usize) -> Vec<(usize, u64)> {
    let n64 = n as u64;
    let mut cells = vec![0, 1, 2, 3, 4, 5, (2 * n).saturating_sub(1), 2 * n, 2 * n + 1, 2 * n + 2];
    let mut from = vec![0, 1, 2, n64.saturating_sub(2), n64.saturating_sub(1), n64, n64 + 1, 1 << 16, 1 << 32, (1 << 63) + 1, u64::MAX];
    from.sort();
    from.dedup();
    cells.sort();
    cells.dedup();
    cells.iter().flat_map(|&c| from.iter().map(move |&f| (c, f))).collect()
}
