//! As many answers as lines, and never more: full lists by every call over a pattern and a log, and what holds of any list.

use crate::compare::{self, Checked, Search};
use crate::inputs::{self, Rng};
use crate::over_logs::SOUND;
use crate::reference::{self, List, Stretch, LOG_MAX};
use crate::shown::ENOUGH;
use crate::witnesses::{self, Witness};
use crate::{quick, Outcome, Trial};

/// Patterns of which every line of `sound` is an answer.
const EVERY_LINE: [&str; 9] = [
    SOUND,
    "or,2,ev,1,0,ev,2,0",
    "or,3,row,2,ev,1,0,ev,2,0,ev,2,0,ev,1,0",
    "and,2,or,2,ev,1,0,ev,2,0,or,2,ev,2,0,ev,1,0",
    "max,1,or,2,ev,1,0,ev,2,0",
    "less,or,2,ev,1,0,ev,2,0,ev,3,0",
    "in,or,2,ev,1,0,ev,2,0,or,2,ev,1,0,ev,2,0",
    "out,or,2,ev,1,0,ev,2,0,ev,3,0",
    "has,or,2,ev,1,0,ev,2,0,or,2,ev,1,0,ev,2,0",
];

/// A pattern of which every two neighbouring lines of `sound` are an answer.
const NEIGHBOURS: &str = "row,2,or,2,ev,1,0,ev,2,0,or,2,ev,1,0,ev,2,0";

/// So many sound lines of ten bytes, with code 1 or 2.
fn sound(rng: &mut Rng, lines: usize) -> String {
    (0..lines).map(|_| format!("1,{},{},{},{}\n", rng.range(1, 9), rng.range(1, 2), rng.range(0, 9), rng.range(0, 9))).collect()
}

fn points(lines: usize) -> List {
    (0..lines as u32).map(|p| Stretch { s: p, e: p }).collect()
}

/// Every call over a pattern and a log, with cells and numbers around the ends of its answers, of which there are `due`.
fn check(t: &Trial, rng: &mut Rng, pattern: &str, log: &[u8], due: usize) -> Result<usize, String> {
    let search = Search::new(t.calls, pattern.as_bytes(), log, quick::answers);
    if search.found() != due {
        return Err(format!("{} answers by reference, should be {due}\n  {}", search.found(), compare::input(pattern.as_bytes(), log)));
    }
    let last = (due as u64).saturating_sub(1);
    for (cells, from) in [(2 * due, 0), (2 * due + 1, 0), ((2 * due).saturating_sub(1), 0), (2, last), (4, last), (2, due as u64)] {
        search.fill(rng, cells, from)?;
    }
    for cells in [2 * due, 2 * due + 2] {
        search.steps(rng, cells)?;
    }
    search.pick(rng, (16, 32), quick::picks)?;
    let witness = Witness::new(t.calls, pattern.as_bytes(), log, witnesses::QUICK);
    for number in [last, due as u64] {
        witness.show(rng, number, ENOUGH)?;
    }
    Ok(11)
}

/// Logs in which every line is an answer, every line but a damaged one, or every two neighbours, up to the longest.
pub fn full(t: &Trial) -> Outcome {
    let mut rng = Rng(81);
    let mut count = 0;
    for lines in [0, 1, 2, 3, 31, 32, 63, 64, 65, 127, 128, 129, 255, 256, 257, 511, 512, 1_023, 1_024, 4_095, 4_096, 4_097, 6_143, 6_144] {
        let log = sound(&mut rng, lines);
        for pattern in EVERY_LINE.iter().step_by(if lines > 3 { t.part.min(4) } else { 1 }) {
            count += check(t, &mut rng, pattern, log.as_bytes(), lines)?;
        }
        count += check(t, &mut rng, NEIGHBOURS, log.as_bytes(), lines.saturating_sub(1))?;
        if log.len() < LOG_MAX {
            let at = 10 * rng.below(lines + 1);
            for log in [[&log[..at], "\n", &log[at..]].concat(), log.clone() + "1,1,1,0,0"] {
                let pattern = rng.pick(&EVERY_LINE);
                count += check(t, &mut rng, pattern, log.as_bytes(), lines)?;
            }
        }
    }
    Ok(count)
}

/// What holds of any list, held to the calls alone: with cells for more answers than lines the filling says "done" and writes no more of them
/// than lines, and of any two neither lies inside the other.
pub fn laws(t: &Trial) -> Outcome {
    let mut rng = Rng(82);
    let law = |holds: bool, broken: &str, input: &dyn Fn() -> String| -> Checked {
        holds.then_some(()).ok_or_else(|| format!("{broken}\n  {}", input()))
    };
    for round in 0..t.rounds(12_000) {
        let most = if round % 60 == 0 { 400 } else { 40 };
        let (lines, damage) = (rng.below(most), rng.pick(&[0, 3, 12]));
        let log = inputs::log(&mut rng, lines, damage);
        let tree = match round % 3 {
            0 => inputs::crossing(&mut rng),
            1 => inputs::insides(&mut rng),
            _ => inputs::tree(&mut rng, 16, 6),
        };
        let pattern = tree.spell();
        let input = || compare::input(pattern.as_bytes(), &log);
        let lines = reference::lines(&log).len();
        let mut cells = vec![0; 2 * lines + 40];
        let result = t.calls.fill(pattern.as_bytes(), &log, &mut cells, 0);
        law(result & 0xffff_ffff == 0, "a list refused, or with more than can be", &input)?;
        let list: List = cells.chunks_exact(2).take((result >> 32) as usize).map(|c| Stretch { s: c[0], e: c[1] }).collect();
        law(list.len() <= lines, "more answers than lines", &input)?;
        let comparable = |a: Stretch, b: Stretch| reference::inside(a, b) || reference::inside(b, a);
        let apart = list.iter().enumerate().all(|(i, &a)| list[..i].iter().all(|&b| !comparable(a, b)));
        law(apart, "an answer inside another", &input)?;
    }
    Ok(t.rounds(12_000))
}

/// Worked by hand: full lists of no line, of one, of two, and of the most lines that can be sound.
pub fn cases(t: &Trial) -> Outcome {
    let mut rng = Rng(83);
    let mut count = 0;
    let patterns =
        ["ev,7,0", "fr,3,4", "or,2,ev,7,4,fr,3,0", "max,1,ev,7,0", "less,ev,7,0,ev,9,0", "in,ev,7,0,fr,3,0", "out,ev,7,0,ev,9,0"];
    for lines in [0, 1, 2, 6_144] {
        let log = "1,4,7,3,6\n".repeat(lines);
        for pattern in patterns {
            let due = Ok(points(lines));
            count += if lines < 10 {
                compare::case(t.calls, &mut rng, pattern, &log, due)?
            } else {
                compare::fill(t.calls, &mut rng, pattern.as_bytes(), log.as_bytes(), &due, 2 * lines, 0)?;
                compare::steps(t.calls, &mut rng, pattern.as_bytes(), log.as_bytes(), &due, 2 * lines + 2)?;
                2
            };
        }
    }
    Ok(count)
}
