//! Comparisons where damaged lines stand in stretches: `max` counts the sound lines of a stretch in a log and all of them over lent lists, `row`
//! breaks at a damaged line, and picks go by all lines.

use crate::calls::Calls;
use crate::compare::{self, Lists, Search};
use crate::inputs::{self, Rng};
use crate::reference::{self, List, Op, Stretch, Tree, LOG_MAX};
use crate::worked_spells::{self, max, BALL, CLEARED, JAM, THEN};
use crate::{quick, spell_inputs, Outcome, Trial};

/// Compares the calls over a pattern and a log.
fn check(t: &Trial, rng: &mut Rng, pattern: &str, log: &[u8], answers: compare::Answers) -> Outcome {
    let search = Search::new(t.calls, pattern.as_bytes(), log, answers);
    let n = search.found();
    search.fill(rng, 2 * n + 1, 0)?;
    match rng.below(3) {
        0 => {
            let from = rng.below(n + 1) as u64;
            search.fill(rng, n, from)?;
        }
        1 => search.steps(rng, 2 * n + 1)?,
        _ => {
            let k = rng.range(1, 16);
            search.pick(rng, (k, 2 * k as usize), quick::picks)?;
        }
    }
    Ok(2)
}

/// Few sound lines with spells of damaged ones among them.
pub fn measures(t: &Trial) -> Outcome {
    let mut rng = Rng(54);
    let mut count = 0;
    for _ in 0..t.rounds(12_000).max(4_000) {
        let lines = rng.below(14);
        let mut log = spell_inputs::spelled(&mut rng, lines, LOG_MAX);
        if rng.once_in(2) {
            log = spell_inputs::with_rare(&mut rng, &log);
        }
        let pattern = spell_inputs::with_max(&mut rng, &log).spell();
        count += check(t, &mut rng, &pattern, &log, reference::answers)?;
    }
    Ok(count)
}

/// Logs up to the largest: stretches of many sound lines or in long spells with k about their number, and seeded ones.
pub fn long(t: &Trial) -> Outcome {
    let mut rng = Rng(55);
    let mut count = 0;
    for (sound, spell) in
        [(64, 0), (128, 0), (129, 64), (255, 0), (256, 0), (257, 1_000), (4_096, 0), (4_097, 9_000), (6_144, 0), (5, 50_000)]
    {
        let log = [JAM, BALL, &"\n".repeat(spell), &BALL.repeat(sound - 3), CLEARED].concat();
        for k in [sound - 1, sound, sound + 1, sound + spell] {
            count += check(t, &mut rng, &max(k, THEN), log.as_bytes(), quick::answers)?;
        }
    }
    for round in 0..t.rounds(240).max(12) {
        let most = LOG_MAX - rng.pick(&[0, 1, 200]);
        let mut log = if round % 2 == 0 {
            let gap = rng.pick(&[3, 40, 400, 20_000]);
            inputs::sparse(&mut rng, gap, most)
        } else {
            let lines = rng.pick(&[200, 1_000, 5_000]);
            spell_inputs::spelled(&mut rng, lines, most)
        };
        if log.len() < LOG_MAX - 100 {
            log = spell_inputs::with_rare(&mut rng, &log);
        }
        let pattern = spell_inputs::with_max(&mut rng, &log).spell();
        count += check(t, &mut rng, &pattern, &log, quick::answers)?;
    }
    Ok(count)
}

/// At most `most` bytes of whole lines with spells of damaged ones among them.
fn whole_lines(rng: &mut Rng, lines: usize, most: usize) -> Vec<u8> {
    let mut log = inputs::ended(spell_inputs::spelled(rng, lines, most - 100));
    if rng.once_in(2) {
        log = spell_inputs::with_rare(rng, &log);
    }
    log
}

/// A tree with each `row` made a `then`.
fn without_row(tree: Tree) -> Tree {
    inputs::with_ops(tree, &|op| if op == Op::Row { Op::Then } else { op })
}

/// Through the calls alone: damaged lines put between the lines of a log move the stretches of a pattern without `row`, and add or remove none.
pub fn put_in(t: &Trial) -> Outcome {
    let mut rng = Rng(56);
    for _ in 0..t.rounds(4_000) {
        let lines = if rng.once_in(40) { rng.below(400) } else { rng.below(16) };
        let mut log = inputs::log(&mut rng, lines, 4);
        log.extend(b"\n");
        if rng.once_in(2) {
            log = spell_inputs::with_rare(&mut rng, &log);
        }
        let (spelled, numbers) = spell_inputs::with_spells(&mut rng, &log, LOG_MAX);
        let fits = if rng.once_in(2) { &log } else { &spelled };
        let tree = without_row(spell_inputs::with_max(&mut rng, fits));
        let pattern = spell_inputs::fitted(&mut rng, tree, fits).spell().into_bytes();
        let list = compare::whole(t.calls, &pattern, &log);
        let list = list.map_err(|result| format!("no list: {result:#x}\n  pattern {}", compare::show(&pattern)))?;
        let moved = Ok(list.iter().map(|a| Stretch { s: numbers[a.s as usize], e: numbers[a.e as usize] }).collect());
        let report = |report| format!("with damaged lines put in, {report}\n  before it {}", compare::show(&log));
        let cells = 2 * list.len() + 1;
        compare::fill(t.calls, &mut rng, &pattern, &spelled, &moved, cells, 0).map_err(report)?;
        compare::steps(t.calls, &mut rng, &pattern, &spelled, &moved, cells).map_err(report)?;
        compare::pick(t.calls, &mut rng, &pattern, &spelled, &moved, (16, 32), reference::picks).map_err(report)?;
    }
    Ok(t.rounds(4_000) * 3)
}

/// The whole list by steps.
fn by_steps(calls: &dyn Calls, pattern: &[u8], log: &[u8]) -> Result<List, u64> {
    let mut cells = vec![0; 2 * reference::lines(log).len()];
    let written = calls.steps(pattern, log, &mut cells) as usize;
    Ok(cells.chunks_exact(2).take(written).map(|c| Stretch { s: c[0], e: c[1] }).collect())
}

/// Demand 3 through the calls alone, with damaged lines before, in and after the run: the stretches within it are those of the run alone, by
/// filling and by steps, of a pattern without `in` and `out`.
pub fn runs(t: &Trial) -> Outcome {
    let mut rng = Rng(57);
    for _ in 0..t.rounds(4_000) {
        let lines = if rng.once_in(40) { [100, 400, 100] } else { [6, 14, 6] }.map(|most| rng.below(most));
        let [before, run, after] = lines.map(|lines| whole_lines(&mut rng, lines, LOG_MAX / 3));
        let log = [&before[..], &run, &after[..after.len() - rng.below(after.len() + 1).min(2)]].concat();
        let fits = if rng.once_in(2) { &run } else { &log };
        let tree = inputs::by_runs(spell_inputs::with_max(&mut rng, fits));
        let pattern = spell_inputs::fitted(&mut rng, tree, fits).spell().into_bytes();
        let (r, n) = (reference::lines(&before).len() as u32, reference::lines(&run).len() as u32);
        let within = |list: List| -> List {
            let inside = list.into_iter().filter(|a| a.s >= r && a.e < r + n);
            inside.map(|a| Stretch { s: a.s - r, e: a.e - r }).collect()
        };
        for list in [compare::whole, by_steps] {
            let (alone, within) = (list(t.calls, &pattern, &run), list(t.calls, &pattern, &log).map(within));
            if within != alone {
                let input = compare::input_with_run(&pattern, &run, &log, r);
                return Err(format!("within the run {within:?}, alone {alone:?}\n  {input}"));
            }
        }
    }
    Ok(t.rounds(4_000) * 2)
}

/// A rising list of a few stretches, short and long ones, up to the greatest position.
fn long_stretches(rng: &mut Rng) -> List {
    let most = rng.pick(&[200, 65_536]);
    let mut bounds = |n: usize| {
        let mut all: Vec<u32> = (0..n).map(|_| if rng.once_in(4) { rng.pick(&[0, most - 1]) } else { rng.range(0, most - 1) }).collect();
        all.sort();
        all.dedup();
        all
    };
    let (starts, ends) = (bounds(7), bounds(7));
    let pairs = starts.into_iter().zip(ends);
    pairs.filter(|(s, e)| s <= e).map(|(s, e)| Stretch { s, e }).collect()
}

/// `max` over lent lists of long stretches, with k about their lengths.
pub fn over_lists(t: &Trial) -> Outcome {
    let mut rng = Rng(58);
    let fixed = worked_spells::lists(t)?;
    for _ in 0..t.rounds(20_000) {
        let list = long_stretches(&mut rng);
        let length = if list.is_empty() { 1 } else { reference::length(rng.pick(&list)) };
        let k = (length + rng.range(0, 2)).clamp(2, 65_536) - 1;
        let due = list.iter().copied().filter(|a| a.e - a.s + 1 <= k).collect();
        let (items, ends) = inputs::lend(&[list]);
        let lent = Lists { op: Op::Max as u32, k, items: &items, ends: &ends };
        compare::lists_fill(t.calls, &mut rng, &lent, &Ok(due), items.len() + 1, 0)?;
    }
    Ok(fixed + t.rounds(20_000))
}
