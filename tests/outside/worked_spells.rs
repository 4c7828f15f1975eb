//! Worked by hand: stretches with damaged lines in them, under `max`, in a `row`, as picks, in a run and over lent lists.

use crate::compare::{self, Checked, Lists};
use crate::inputs::{self, Rng};
use crate::reference::{self, List, Op, Stretch, LOG_MAX};
use crate::{Outcome, Trial};

/// Lane 4 jams, a ball on lane 5, and lane 4 is cleared.
pub const JAM: &str = "1,4,7,3,6\n";
pub const BALL: &str = "1,5,2,3,8\n";
pub const CLEARED: &str = "1,4,9,0,0\n";
/// From the jam to the clearing.
pub const THEN: &str = "then,2,ev,7,4,ev,9,4";

/// Sound lines that neither jam nor clear lane 4, of both layouts, on this lane and on others, padded or not.
const SOUND: [&str; 8] =
    [BALL, "2,5,2,20,3,8\n", "1,4,2,0,0\n", "1,04,2,3,6\n", "2,09,9,300,0,0\n", "1,99,255,10,10\n", "2,10,7,0,10,0\n", "1,1,1,0,0\n"];

fn stretches(pairs: &[(u32, u32)]) -> List {
    pairs.iter().map(|&(s, e)| Stretch { s, e }).collect()
}

/// `max` with k over a pattern.
pub fn max(k: usize, pattern: &str) -> String {
    format!("max,{k},{pattern}")
}

/// Worked by hand.
pub fn cases(t: &Trial) -> Outcome {
    let mut rng = Rng(51);
    let mut count = 0;
    let mut check = |pattern: &str, log: &str, due: &[(u32, u32)]| -> Checked {
        count += compare::case(t.calls, &mut rng, pattern, log, Ok(stretches(due)))?;
        Ok(())
    };
    lengths(&mut check)?;
    kinds(&mut check)?;
    operators(&mut check)?;

    // A run decides its own stretches: three lines, of which one is sound, and then the run, lines 3 to 8.
    let run = [JAM, "oops\n", "\n", BALL, CLEARED, "oops\n"].concat();
    let log = ["oops\n", JAM, "oops\n", &run, CLEARED, "oops"].concat();
    for (k, alone, within) in [(2, &[][..], &[][..]), (3, &[(0, 4)], &[(3, 7)]), (5, &[(0, 4)], &[(3, 7)])] {
        check(&max(k, THEN), &run, alone)?;
        check(&max(k, THEN), &log, within)?;
    }

    Ok(count + picks(t)? + lists(t)?)
}

/// What holds a pattern's stretches in a log to those due.
type Check<'a> = &'a mut dyn FnMut(&str, &str, &[(u32, u32)]) -> Checked;

/// Spells between a jam and its clearing, with stretches that start and end at either side of a word of 64 lines, up to the largest log.
fn lengths(check: Check) -> Checked {
    for spell in [0, 1, 2, 62, 63, 64, 65, 127, 128, 129, 1_000] {
        for before in [0, 1, 63, 64] {
            let log = ["\n".repeat(before).as_str(), JAM, BALL, &"oops\n".repeat(spell), "2,12,2,20,3,8\n", CLEARED].concat();
            let whole = [(before as u32, (before + spell) as u32 + 3)];
            check(&max(3, THEN), &log, &[])?;
            check(&max(4, THEN), &log, &whole)?;
            check(&max(5, THEN), &log, &whole)?;
        }
    }
    for (start, end) in [(0, 63), (0, 64), (1, 127), (62, 127), (63, 128), (64, 127), (64, 128), (65, 191), (63, 64), (127, 128)] {
        let log = ["\n".repeat(start).as_str(), JAM, &"\r\n".repeat(end - start - 1), CLEARED, BALL].concat();
        check(&max(1, THEN), &log, &[])?;
        check(&max(2, THEN), &log, &[(start as u32, end as u32)])?;
        let log = [&BALL.repeat(start), JAM, &BALL.repeat(end - start - 1), CLEARED, BALL].concat();
        check(&max(end - start, THEN), &log, &[])?;
        check(&max(end - start + 1, THEN), &log, &[(start as u32, end as u32)])?;
    }
    let sparse = [JAM, &"\n".repeat(LOG_MAX - 20), CLEARED].concat();
    check(&max(1, THEN), &sparse, &[])?;
    check(&max(2, THEN), &sparse, &[(0, 61_421)])?;
    let full = [JAM, &BALL.repeat(6_142), CLEARED].concat();
    check(&max(6_143, THEN), &full, &[])?;
    check(&max(6_144, THEN), &full, &[(0, 6_143)])
}

/// Lines that count, and lines that do not.
fn kinds(check: Check) -> Checked {
    for wreck in inputs::WRECKS {
        let log = [JAM, wreck, wreck, wreck, CLEARED].concat();
        check(&max(1, THEN), &log, &[])?;
        check(&max(2, THEN), &log, &[(0, 4)])?;
    }
    for sound in SOUND {
        let log = [JAM, "oops\n", sound, "oops\n", CLEARED].concat();
        check(&max(2, THEN), &log, &[])?;
        check(&max(3, THEN), &log, &[(0, 4)])?;
    }
    let all = [JAM, &SOUND.concat(), &inputs::WRECKS.concat(), CLEARED].concat();
    check(&max(9, THEN), &all, &[])?;
    check(&max(10, THEN), &all, &[(0, 27)])?;
    // A line without line feed is damaged; it is in no stretch.
    check(&max(9, THEN), &[JAM, BALL, CLEARED.trim_end()].concat(), &[])?;
    check(&max(2, THEN), &[JAM, CLEARED, CLEARED.trim_end()].concat(), &[(0, 1)])
}

/// `max` over and under every operator, and patterns with several of it.
fn operators(check: Check) -> Checked {
    let then = |k: usize| max(k, THEN);
    // [0..3] has 2 sound lines, [4..7] has 3.
    let log = [JAM, "oops\n", "\n", CLEARED, JAM, BALL, "oops\n", CLEARED].concat();
    check(THEN, &log, &[(0, 3), (4, 7)])?;
    check("max,1,ev,7,4", &log, &[(0, 0), (4, 4)])?;
    for (k, due) in [(1, &[][..]), (2, &[(0, 3)]), (3, &[(0, 3), (4, 7)])] {
        check(&then(k), &log, due)?;
        check(&max(k, &then(3)), &log, due)?;
        check(&max(3, &then(k)), &log, due)?;
    }
    check(&format!("max,3,less,{THEN},ev,2,5"), &log, &[(0, 3)])?;
    check(&format!("less,{},ev,2,5", then(3)), &log, &[(0, 3)])?;
    check(&format!("less,{THEN},{}", then(2)), &log, &[(4, 7)])?;
    check(&format!("or,2,{},ev,2,5", then(2)), &log, &[(0, 3), (5, 5)])?;
    check(&format!("max,2,or,2,{THEN},ev,2,5"), &log, &[(0, 3), (5, 5)])?;
    for operator in ["and", "then"] {
        check(&format!("{operator},2,{},ev,2,5", then(2)), &log, &[(0, 5)])?;
        check(&format!("max,4,{operator},2,{THEN},ev,2,5"), &log, if operator == "and" { &[(0, 5), (4, 7)] } else { &[(0, 5)] })?;
        check(&format!("max,3,{operator},2,{THEN},ev,2,5"), &log, if operator == "and" { &[(4, 7)] } else { &[] })?;
    }
    for operator in ["row", "then"] {
        check(&format!("max,5,{operator},2,{},{}", then(2), then(3)), &log, &[(0, 7)])?;
        check(&format!("max,4,{operator},2,{},{}", then(2), then(3)), &log, &[])?;
    }
    // `row` breaks at a damaged line, however few sound lines `max` allows.
    let log = [JAM, "oops\n", CLEARED, JAM, CLEARED].concat();
    check("row,2,ev,7,4,ev,9,4", &log, &[(3, 4)])?;
    check("max,1,row,2,ev,7,4,ev,9,4", &log, &[])?;
    check("max,2,row,2,ev,7,4,ev,9,4", &log, &[(3, 4)])?;
    check("row,2,max,1,ev,7,4,max,1,ev,9,4", &log, &[(3, 4)])?;
    check(&then(2), &log, &[(0, 2), (3, 4)])?;
    let of_max = format!("row,2,{},ev,2,5", then(2));
    check(&of_max, &[JAM, "oops\n", "oops\n", CLEARED, BALL].concat(), &[(0, 4)])?;
    check(&of_max, &[JAM, "oops\n", CLEARED, "oops\n", BALL].concat(), &[])
}

/// Picks go by all lines: [0..6] has 7 of them and 2 sound ones, [7..10] has 4, all sound.
fn picks(t: &Trial) -> Outcome {
    let log = [JAM, &"oops\n".repeat(5), CLEARED, JAM, BALL, BALL, CLEARED].concat();
    let (both, first) = (stretches(&[(0, 6), (7, 10)]), stretches(&[(0, 6)]));
    let cases: [(String, &List, u32, reference::Picks); 4] = [
        (THEN.into(), &both, 1, |_, _| stretches(&[(7, 10)])),
        (max(4, THEN), &both, 2, |_, _| stretches(&[(7, 10), (0, 6)])),
        (max(3, THEN), &first, 2, |_, _| stretches(&[(0, 6)])),
        (max(1, THEN), &vec![], 1, |_, _| vec![]),
    ];
    for (pattern, list, k, due) in &cases {
        compare::pick(t.calls, &mut Rng(52), pattern.as_bytes(), log.as_bytes(), &Ok(list.to_vec()), (*k, 5), *due)?;
    }
    Ok(cases.len())
}

/// Over lent lists no lines are known, and all count.
pub fn lists(t: &Trial) -> Outcome {
    let cases: [(&[(u32, u32)], u32, &[(u32, u32)]); 7] = [
        (&[(0, 5)], 6, &[(0, 5)]),
        (&[(0, 5)], 5, &[]),
        (&[(0, 1), (2, 4), (3, 5)], 2, &[(0, 1)]),
        (&[(7, 7), (8, 8)], 1, &[(7, 7), (8, 8)]),
        (&[(0, 65_535)], 65_535, &[]),
        (&[(0, 65_534), (1, 65_535)], 65_535, &[(0, 65_534), (1, 65_535)]),
        (&[(0, 65_534), (2, 65_535)], 65_534, &[(2, 65_535)]),
    ];
    for (list, k, due) in cases {
        let (items, ends) = inputs::lend(&[stretches(list)]);
        let lent = Lists { op: Op::Max as u32, k, items: &items, ends: &ends };
        compare::lists_fill(t.calls, &mut Rng(53), &lent, &Ok(stretches(due)), 5, 0)?;
    }
    Ok(cases.len())
}
