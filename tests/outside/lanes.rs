//! Comparisons of lane fields: what each says, and logs that differ only in which of their lanes are padded.

use crate::calls::Calls;
use crate::compare;
use crate::inputs::{self, Rng};
use crate::over_logs::SOUND;
use crate::reference::{self, List, Refusal, Stretch};
use crate::{Outcome, Trial};

/// Texts; the lane that each says in a line, or None where the line is damaged; and the lane in `ev,7,TEXT`, or the place where that is
/// misspelt.
const FIELDS: [(&str, Option<u32>, Result<u32, u64>); 28] = [
    ("1", Some(1), Ok(1)),
    ("01", Some(1), Err(6)),
    ("02", Some(2), Err(6)),
    ("03", Some(3), Err(6)),
    ("04", Some(4), Err(6)),
    ("05", Some(5), Err(6)),
    ("06", Some(6), Err(6)),
    ("07", Some(7), Err(6)),
    ("08", Some(8), Err(6)),
    ("9", Some(9), Ok(9)),
    ("09", Some(9), Err(6)),
    ("10", Some(10), Ok(10)),
    ("010", None, Err(6)),
    ("0", None, Ok(0)),
    ("00", None, Err(6)),
    ("000", None, Err(6)),
    ("001", None, Err(6)),
    ("012", None, Err(6)),
    ("99", Some(99), Ok(99)),
    ("099", None, Err(6)),
    ("100", None, Err(7)),
    ("+1", None, Err(5)),
    (" 1", None, Err(5)),
    ("0 1", None, Err(6)),
    ("0+1", None, Err(6)),
    ("0/", None, Err(6)),
    ("0:", None, Err(6)),
    ("", None, Err(5)),
];

/// Lines damaged by a leading zero in another field than the lane.
const PADDED_ELSEWHERE: [&str; 12] = [
    "01,4,7,3,6\n",
    "02,4,12,20,3,0\n",
    "1,4,07,3,6\n",
    "2,4,012,20,3,0\n",
    "2,4,12,020,3,0\n",
    "2,4,12,00,3,0\n",
    "1,4,7,03,6\n",
    "2,4,12,20,03,0\n",
    "1,4,7,3,06\n",
    "2,4,12,20,3,00\n",
    "1,04,07,3,6\n",
    "2,04,12,020,3,0\n",
];

/// The log of FORMATS.md, "The undamaged run", with some of its lanes padded.
const RUN_LOG: [&str; 7] = ["1,4,7,1,0\n", "1,04,9,1,0\n", "1,04,7,2,0\n", "oops\n", "1,4,9,2,0\n", "1,04,7,2,0\n", "1,04,9,3,0\n"];

/// Worked by hand: each text as a lane in lines of both layouts and in patterns, every lane asked for; other fields padded; a run.
pub fn cases(t: &Trial) -> Outcome {
    let mut rng = Rng(15);
    let mut count = 0;
    let mut check = |pattern: &str, log: &str, due: Result<List, Refusal>| -> compare::Checked {
        count += compare::case(t.calls, &mut rng, pattern, log, due)?;
        Ok(())
    };

    let log: String = FIELDS.iter().map(|(text, ..)| format!("1,{text},7,3,6\n2,{text},7,20,3,0\n")).collect();
    let said = || (0..).zip(FIELDS.iter().flat_map(|&(_, lane, _)| [lane; 2]));
    let lines_of = |lane: u32| -> List {
        let matching = said().filter(|(_, said)| said.is_some_and(|said| lane == 0 || lane == said));
        matching.map(|(p, _)| Stretch { s: p, e: p }).collect()
    };
    for leaf in ["ev,7", "fr,3"] {
        for lane in 0..=99 {
            check(&format!("{leaf},{lane}"), &log, Ok(lines_of(lane)))?;
        }
        for (text, _, lane) in FIELDS {
            check(&format!("{leaf},{text}"), &log, lane.map(lines_of).map_err(|place| Refusal { number: 3, place }))?;
        }
    }
    check(SOUND, &PADDED_ELSEWHERE.concat(), Ok(vec![]))?;
    let list = |pairs: &[(u32, u32)]| Ok(pairs.iter().map(|&(s, e)| Stretch { s, e }).collect());
    check("then,2,ev,7,4,ev,9,4", &RUN_LOG.concat(), list(&[(0, 1), (2, 4), (5, 6)]))?;
    check("then,2,ev,7,4,ev,9,4", &RUN_LOG[2..6].concat(), list(&[(0, 2)]))?;

    let damaged = said().filter(|(_, said)| said.is_none()).count() as u64;
    let counts = [(log, 56 << 32 | damaged << 16), (PADDED_ELSEWHERE.concat(), 12 << 32 | 12 << 16), (RUN_LOG.concat(), 7 << 32 | 1 << 16)];
    for (log, due) in &counts {
        let given = [reference::count(log.as_bytes()), t.calls.count(log.as_bytes())];
        if given != [*due; 2] {
            return Err(format!("a count: {given:x?}, should be {due:#x}\n  log {}", compare::show(log.as_bytes())));
        }
    }
    Ok(count + counts.len())
}

/// What filling, steps, picks and the count give, and the cells of the first three.
fn given(calls: &dyn Calls, pattern: &[u8], log: &[u8], k: u32) -> ([u64; 4], [Vec<u32>; 3]) {
    let mut cells = [(); 3].map(|()| vec![77; 2 * reference::lines(log).len() + 1]);
    let fill = calls.fill(pattern, log, &mut cells[0], 0);
    let steps = calls.steps(pattern, log, &mut cells[1]);
    let pick = calls.pick(pattern, log, k, &mut cells[2]);
    ([fill, steps, pick, calls.count(log)], cells)
}

/// Through the calls alone: a log with some of its lanes below ten padded, with all and with none give the same. Only its lines stand at
/// other places: a byte later, or longer, for each padded lane.
pub fn padding(t: &Trial) -> Outcome {
    let mut rng = Rng(16);
    for _ in 0..t.rounds(4_000) {
        let most = if rng.once_in(40) { 1_000 } else { 30 };
        let (lines, damage) = (rng.below(most), rng.pick(&[0, 4]));
        let some = inputs::log(&mut rng, lines, damage);
        let (all, none) = (inputs::with_lanes(&some, inputs::padded), inputs::with_lanes(&some, |lane| lane.to_string()));
        let pattern = inputs::tree(&mut rng, 10, 4).spell();
        let k = rng.range(1, 16);
        let of_none = given(t.calls, pattern.as_bytes(), &none, k);
        for log in [&some, &all] {
            if given(t.calls, pattern.as_bytes(), log, k) != of_none {
                return Err(format!("not as without padding\n  pattern {pattern}\n  log {}\n  picks {k}", compare::show(log)));
            }
        }
        let below_ten: Vec<u64> = reference::read_log(&none).iter().map(|line| u64::from(line.is_some_and(|r| r.lane < 10))).collect();
        let (first, last) = (rng.below(lines + 1), rng.below(lines + 1));
        let part = |log: &[u8]| t.calls.lines(log, first as u32, last as u32);
        let (before, within) = match below_ten.get(first..=last) {
            Some(within) if first <= last => (below_ten[..first].iter().sum(), within.iter().sum()),
            _ => (0, 0),
        };
        if part(&all) != part(&none) + (within << 32 | before) {
            let shown = compare::show(&all);
            return Err(format!("lines {first} to {last} are {:#x}, {:#x} without padding\n  log {shown}", part(&all), part(&none)));
        }
    }
    Ok(t.rounds(4_000) * 3)
}
