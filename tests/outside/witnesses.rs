//! Comparisons of the call that shows the lines that made an answer.

use crate::calls::Calls;
use crate::compare::{self, Checked};
use crate::inputs::{self, Rng};
use crate::over_logs::{SHEET_LOG, SOUND};
use crate::reference::{Refusal, LOG_MAX, PATTERN_MAX};
use crate::shown::{self, Node, Triple, Way, ENOUGH};
use crate::witness_inputs::{finding, some_log};
use crate::{Outcome, Trial};

/// How what is due is found: the outermost node of a pattern in a log, and what is shown directly below a node.
#[derive(Clone, Copy)]
pub struct Ways {
    pub outermost: fn(&[u8], &[u8]) -> Result<Node, Refusal>,
    pub below: Way,
}

pub const BY_DEFINITION: Ways = Ways { outermost: shown::outermost, below: shown::below };
pub const QUICK: Ways = Ways { outermost: shown::quick_outermost, below: shown::quick_below };

/// Numbers of answers that no log has, most of them small ones when cut to 8, 16, 32 or 63 bits.
const BEYOND: [u64; 7] = [1 << 16, (1 << 16) + 1, 1 << 32, (1 << 32) + 1, 1 << 63, (1 << 63) + 1, u64::MAX];

/// A pattern in a log, to be compared for several answers and cells.
pub struct Witness<'a> {
    calls: &'a dyn Calls,
    pattern: &'a [u8],
    log: &'a [u8],
    ways: Ways,
    root: Result<Node, Refusal>,
}

impl<'a> Witness<'a> {
    pub fn new(calls: &'a dyn Calls, pattern: &'a [u8], log: &'a [u8], ways: Ways) -> Witness<'a> {
        Witness { calls, pattern, log, ways, root: (ways.outermost)(pattern, log) }
    }

    /// The number of answers.
    pub fn found(&self) -> usize {
        self.root.as_ref().map_or(0, |root| root.list.len())
    }

    fn due(&self, root: &Result<Node, Refusal>, number: u64) -> Result<Vec<Triple>, Refusal> {
        root.as_ref().map(|root| shown::of_number(root, number, self.ways.below)).map_err(|refusal| *refusal)
    }

    /// The number of nodes that took part in an answer.
    fn parts(&self, number: u64) -> usize {
        self.due(&self.root, number).map_or(0, |shown| shown.len())
    }

    /// Compares the call; a difference is reported for a shorter log if one shows it too.
    pub fn show(&self, rng: &mut Rng, number: u64, cells: usize) -> Checked {
        let compared = |rng: &mut Rng, log: &[u8], due: Result<Vec<Triple>, Refusal>| {
            let call = |lent: &mut [u32]| self.calls.witness(self.pattern, log, number, lent);
            let report = |what| format!("{what}\n  {}\n  answer {number}, cells {cells}", compare::input(self.pattern, log));
            compare::same(rng, cells, call, |lent| shown::write(&due, lent)).map_err(report)
        };
        let differs = |log: &[u8]| compared(&mut Rng(0), log, self.due(&(self.ways.outermost)(self.pattern, log), number));
        let compared = compared(rng, self.log, self.due(&self.root, number));
        compared.map_err(|report| compare::shorten(self.log, differs).err().unwrap_or(report))
    }
}

/// Numbers of cells around the ends of n triples, and of the greatest number of them.
fn cells_around(n: usize) -> Vec<usize> {
    let near = |cells: usize| cells.saturating_sub(3)..=cells + 3;
    let mut cells: Vec<usize> = near(0).chain(near(3 * n)).chain(near(ENOUGH)).collect();
    cells.sort();
    cells.dedup();
    cells
}

/// Logs of a few lines with the numbers of the first 40 answers and the last two, and numbers beyond: all numbers of cells around the ends, or two
/// of them.
pub fn witnesses(t: &Trial) -> Outcome {
    let mut rng = Rng(61);
    let mut count = 0;
    for round in 0..t.rounds(10_000).max(800) {
        let (most, ways) = if round % 2 == 0 { (20, BY_DEFINITION) } else { (rng.pick(&[40, 200]), QUICK) };
        let log = some_log(&mut rng, most);
        let pattern = finding(&mut rng, &log).spell().into_bytes();
        let witness = Witness::new(t.calls, &pattern, &log, ways);
        let found = witness.found() as u64;
        let beyond = [found, found + 1, rng.pick(&BEYOND)];
        for number in (0..found.min(40)).chain(found.max(42) - 2..found).chain(beyond) {
            let parts = witness.parts(number);
            let around = cells_around(parts);
            let tried = if round % 24 == 0 { around } else { vec![3 * parts + rng.below(4), rng.pick(&around)] };
            for cells in tried {
                witness.show(&mut rng, number, cells)?;
                count += 1;
            }
        }
    }
    Ok(count)
}

/// Patterns and logs that are refused: as the filling call refuses them, whatever the answer's number, and nothing written.
pub fn refused(t: &Trial) -> Outcome {
    let mut rng = Rng(62);
    let mut count = 0;
    let mut check = |rng: &mut Rng, pattern: &[u8], log: &[u8]| -> Checked {
        let (number, cells) = (rng.pick(&[0, 1, 2, u64::MAX]), rng.below(100));
        let mut lent = vec![77; cells];
        let (given, filled) = (t.calls.witness(pattern, log, number, &mut lent), t.calls.fill(pattern, log, &mut [], 0));
        if filled & 0xff != 0 && (given != filled || lent.iter().any(|&cell| cell != 77)) {
            let input = compare::input(pattern, log);
            return Err(format!("result {given:#x} and cells {lent:?}, the filling call {filled:#x}\n  {input}\n  answer {number}"));
        }
        count += 1;
        Witness::new(t.calls, pattern, log, QUICK).show(rng, number, cells)
    };
    for _ in 0..t.rounds(12_000) {
        let text = inputs::pattern(&mut rng);
        check(&mut rng, &text, SHEET_LOG)?;
    }
    let texts = ["ev,9,0", "", "ev,256,0", "or,2,ev,1,0"].map(str::to_string).into_iter();
    let texts: Vec<String> = texts.chain([8, 31, 32].map(|n| "max,9,".repeat(n) + "ev,9,0")).chain([PATTERN_MAX, PATTERN_MAX + 1].map(|n| ",".repeat(n))).collect();
    for length in [0, 49, LOG_MAX - 1, LOG_MAX, LOG_MAX + 1, 131_072] {
        let log: Vec<u8> = SHEET_LOG.iter().copied().cycle().take(length).collect();
        for text in &texts {
            for _ in 0..4 {
                check(&mut rng, text.as_bytes(), &log)?;
            }
        }
    }
    Ok(count)
}

/// Logs up to the largest: random ones, sound lines far apart (so long stretches), and as many answers as lines.
pub fn long(t: &Trial) -> Outcome {
    let mut rng = Rng(63);
    let mut count = 0;
    let mut check = |rng: &mut Rng, pattern: &str, log: &[u8]| -> Checked {
        let witness = Witness::new(t.calls, pattern.as_bytes(), log, QUICK);
        let found = witness.found() as u64;
        for number in [0, found / 2, found.saturating_sub(1), found, rng.below(found as usize + 1) as u64] {
            let around = cells_around(witness.parts(number));
            for cells in [ENOUGH, 1 << 16, rng.pick(&around)] {
                witness.show(rng, number, cells)?;
                count += 1;
            }
        }
        Ok(())
    };
    for round in 0..t.rounds(240).max(12) {
        let log = if round % 2 == 0 {
            let (lines, damage) = (rng.pick(&[500, 1_500, 3_000, 5_000]), rng.pick(&[0, 10, 50]));
            let mut log = inputs::log(&mut rng, lines, damage);
            log.truncate(LOG_MAX);
            log
        } else {
            let gap = rng.pick(&[40, 400, 3_000]);
            inputs::sparse(&mut rng, gap, LOG_MAX)
        };
        let pattern = finding(&mut rng, &log).spell();
        check(&mut rng, &pattern, &log)?;
    }
    for lines in [63, 64, 65, 6_144] {
        for pattern in [SOUND, "row,2,ev,1,0,ev,1,4", "then,31", "and,31"] {
            let pattern = if pattern.ends_with("31") { pattern.to_string() + &",fr,3,0".repeat(31) } else { pattern.to_string() };
            check(&mut rng, &pattern, &b"1,4,1,3,6\n".repeat(lines))?;
        }
    }
    for between in [1, 63, 64, 4_096, 8_190, 8_191, 30_000, LOG_MAX - 20] {
        let log = format!("1,4,7,3,6\n{}1,4,9,3,0\n", "\n".repeat(between));
        check(&mut rng, "max,2,and,3,ev,9,0,then,2,ev,7,0,ev,9,4,or,3,ev,1,0,fr,3,4,ev,7,0", log.as_bytes())?;
    }
    Ok(count)
}
