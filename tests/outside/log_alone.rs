//! Comparisons of the calls over a log alone: the number of its lines, and the part that the lines of a stretch are.

use crate::compare;
use crate::inputs::{self, Rng};
use crate::over_logs::SHEET_LOG;
use crate::reference::{self, LOG_MAX};
use crate::{Outcome, Trial};

/// Logs with lengths around the bound, of sound lines, of line feeds alone, and of a single line.
fn at_the_bound() -> Vec<Vec<u8>> {
    let lengths = [0, 1, LOG_MAX - 1, LOG_MAX, LOG_MAX + 1, 131_072];
    let texts: [&[u8]; 4] = [b"1,4,7,3,6\n", b"oops\n2,4,12,20,3,0\n", b"\n", b"1"];
    lengths.iter().flat_map(|&length| texts.map(|text| text.iter().copied().cycle().take(length).collect())).collect()
}

/// Counts: every single edit of a few lines, then random logs, then lengths around the bound.
pub fn counts(t: &Trial) -> Outcome {
    let mut rng = Rng(9);
    let bases = ["1,4,7,3,6\n", "2,4,7,20,3,0\n", "1,04,7,3,6\n", "1,99,255,10,10\n", "2,10,100,300,10,10\n", "1,4,7,3,6\n2,01,1,0,0,0\n"];
    let mut logs: Vec<Vec<u8>> = bases.iter().flat_map(|base| inputs::edits(base.as_bytes())).step_by(t.part).collect();
    for _ in 0..t.rounds(6_000) {
        let lines = if rng.once_in(20) { rng.below(4_000) } else { rng.below(16) };
        let damage = rng.pick(&[0, 1, 2, 8]);
        logs.push(inputs::log(&mut rng, lines, damage));
    }
    logs.extend(at_the_bound());
    for log in &logs {
        compare::count(t.calls, log)?;
    }
    Ok(logs.len())
}

/// Parts: every stretch of random logs of a few lines, first above last and missing lines too; then stretches of longer logs and around the bound.
pub fn parts(t: &Trial) -> Outcome {
    let mut rng = Rng(10);
    let mut count = 0;
    for _ in 0..t.rounds(2_500) {
        let lines = rng.below(9);
        let damage = rng.pick(&[0, 2, 8]);
        let log = inputs::log(&mut rng, lines, damage);
        let numbers: Vec<u32> = (0..=reference::lines(&log).len() as u32 + 1).chain([1 << 16, 1 << 31, u32::MAX]).collect();
        for (&first, &last) in numbers.iter().flat_map(|first| numbers.iter().map(move |last| (first, last))) {
            compare::lines(t.calls, &log, first, last)?;
            count += 1;
        }
    }
    let mut logs = at_the_bound();
    for _ in 0..t.rounds(200) {
        let lines = rng.below(4_000);
        logs.push(inputs::log(&mut rng, lines, 10));
    }
    for log in &logs {
        let lines = reference::lines(log).len() as u32;
        let mut numbers: Vec<u32> = (0..3).map(|_| rng.below(lines as usize + 1) as u32).collect();
        numbers.extend([0, lines.saturating_sub(1), lines]);
        for (&first, &last) in numbers.iter().flat_map(|first| numbers.iter().map(move |last| (first, last))) {
            compare::lines(t.calls, log, first, last)?;
            count += 1;
        }
    }
    Ok(count)
}

/// Worked by hand from docs/FORMATS.md: the lines and the damaged ones of a log, and where stretches of its printed sheet's log stand.
pub fn cases(t: &Trial) -> Outcome {
    let feeds = |n: usize| vec![b'\n'; n];
    let counts: [(Vec<u8>, u64); 6] = [
        (SHEET_LOG.to_vec(), 5 << 32 | 1 << 16),
        (SHEET_LOG[..48].to_vec(), 5 << 32 | 2 << 16),
        (b"".to_vec(), 0),
        (b"1,4,7,3,6".to_vec(), 1 << 32 | 1 << 16),
        (feeds(61_440), 61_440 << 32 | 61_440 << 16),
        (feeds(61_441), 1),
    ];
    for (log, due) in &counts {
        same("a count", &[reference::count(log), t.calls.count(log)], *due, log)?;
    }
    let parts: [(Vec<u8>, u32, u32, u64); 10] = [
        (SHEET_LOG.to_vec(), 0, 0, 10 << 32),
        (SHEET_LOG.to_vec(), 1, 2, 19 << 32 | 10),
        (SHEET_LOG.to_vec(), 0, 4, 49 << 32),
        (SHEET_LOG[..48].to_vec(), 4, 4, 9 << 32 | 39),
        (SHEET_LOG.to_vec(), 4, 5, 0),
        (SHEET_LOG.to_vec(), 2, 1, 0),
        (b"1,04,7,3,6\n2,9,12,20,3,0\n2,04,9,20,0,0\n".to_vec(), 1, 2, 28 << 32 | 11),
        (b"".to_vec(), 0, 0, 0),
        (feeds(61_440), 1, 61_439, 61_439 << 32 | 1),
        (feeds(61_441), 0, 0, 0),
    ];
    for (log, first, last, due) in &parts {
        let model = reference::part_result(reference::part(log, *first, *last));
        same("a part", &[model, t.calls.lines(log, *first, *last)], *due, log)?;
    }
    Ok(counts.len() + parts.len())
}

/// The words of reference and call are both the one due.
fn same(what: &str, given: &[u64; 2], due: u64, log: &[u8]) -> compare::Checked {
    if *given == [due; 2] {
        return Ok(());
    }
    Err(format!("{what}: by reference {:#x}, by call {:#x}, should be {due:#x}\n  log {}", given[0], given[1], compare::show(log)))
}
