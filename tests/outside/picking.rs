//! Comparisons of the picking call.

use crate::compare::{self, Checked, Search};
use crate::inputs::{self, Rng};
use crate::over_logs::{SHEET_LOG, SOUND};
use crate::reference::{self, LOG_MAX};
use crate::{quick, Outcome, Trial};

/// Numbers of picks outside 1 to 16, most of them inside when cut to 8, 16 or 31 bits.
const BAD: [u32; 11] = [0, 17, 18, 256, 257, 272, 65_536, 65_537, 65_552, (1 << 31) + 16, u32::MAX];

/// The log of FORMATS.md, "The undamaged run", line by line.
const RUN_LOG: [&str; 7] = ["1,4,7,1,0\n", "1,4,9,1,0\n", "1,4,7,2,0\n", "oops\n", "1,4,9,2,0\n", "1,4,7,2,0\n", "1,4,9,3,0\n"];

/// Lines with these codes.
fn of(codes: &[u32]) -> String {
    codes.iter().map(|code| format!("1,4,{code},3,6\n")).collect()
}

/// In a full log the shortest answer is the last of 6,143: after [0..1], [1..2] and so on, [6143..6143]. Or the first: [0..0], then [1..2] and so on
/// up to [6142..6143].
const ONE_SHORT: &str = "or,2,row,2,ev,1,0,ev,1,0,ev,9,0";

fn shortest_last() -> String {
    of(&[1; 6_143]) + &of(&[9])
}

fn shortest_first() -> String {
    of(&[9]) + &of(&[1; 6_143])
}

/// Two long answers, the first longer: [0..45001] and [45002..57503].
const FAR: &str = "then,2,ev,7,0,ev,9,0";

fn far_apart() -> String {
    of(&[7]) + &"\n".repeat(45_000) + &of(&[9, 7]) + &"\n".repeat(12_500) + &of(&[9])
}

/// Two as long: [0..30001] and [30002..60003].
fn far_and_alike() -> String {
    of(&[7]) + &"\n".repeat(30_000) + &of(&[9, 7]) + &"\n".repeat(30_000) + &of(&[9])
}

/// Code 7 on lines 300 and 33,000, which in 15 bits is 232, and below 0 in 16 bits with a sign.
fn alike_and_late() -> String {
    "\n".repeat(300) + &of(&[7]) + &"\n".repeat(32_699) + &of(&[7])
}

/// Numbers of cells around the ends of n picks, and of k.
fn cells_around(k: u32, n: usize) -> Vec<usize> {
    let (n, k) = (2 * n, 2 * k.min(20) as usize);
    let mut cells = vec![0, 1, 2, 3, n.saturating_sub(1), n, n + 1, k.saturating_sub(1), k, k + 1, k + 2, k + 60];
    cells.sort();
    cells.dedup();
    cells
}

/// A pattern with answers that overlap, or any.
fn pattern(rng: &mut Rng) -> String {
    let tree = if rng.once_in(3) { inputs::tree(rng, 12, 5) } else { inputs::crossing(rng) };
    tree.spell()
}

/// Logs of a few lines with every k from 0 to 18 and larger ones: all numbers of cells around the ends, or one of them. In longer logs the
/// answers are found the quick way; the picks are always those of the definition.
pub fn picks(t: &Trial) -> Outcome {
    let mut rng = Rng(11);
    let mut count = 0;
    for round in 0..t.rounds(2_500) {
        let (most, answers): (usize, compare::Answers) =
            if round % 2 == 0 { (24, reference::answers) } else { (rng.pick(&[100, 400]), quick::answers) };
        let lines = rng.below(most);
        let damage = rng.pick(&[0, 3, 12]);
        let log = inputs::log(&mut rng, lines, damage);
        let pattern = pattern(&mut rng).into_bytes();
        let search = Search::new(t.calls, &pattern, &log, answers);
        let picked = search.picked();
        for k in (1..=16).chain(BAD) {
            let around = cells_around(k, picked.min(k as usize));
            let tried = if round % 12 == 0 { around } else { vec![rng.pick(&around)] };
            for cells in tried {
                search.pick(&mut rng, (k, cells), reference::picks)?;
                count += 1;
            }
        }
    }
    Ok(count)
}

/// Patterns and logs that are refused, with good and bad k: the lowest refusal, then 10, and nothing written.
pub fn refused(t: &Trial) -> Outcome {
    let mut rng = Rng(12);
    let mut count = 0;
    let mut check = |rng: &mut Rng, pattern: &[u8], log: &[u8], k: u32| -> Checked {
        let cells = rng.below(40);
        count += 1;
        Search::new(t.calls, pattern, log, quick::answers).pick(rng, (k, cells), reference::picks)
    };
    for _ in 0..t.rounds(12_000) {
        let text = inputs::pattern(&mut rng);
        let k = if rng.once_in(2) { rng.range(1, 16) } else { rng.pick(&BAD) };
        check(&mut rng, &text, SHEET_LOG, k)?;
    }
    let texts = ["ev,9,0", "", "ev,256,0", "or,2,ev,1,0"].map(str::to_string).into_iter();
    let texts: Vec<String> = texts.chain([8, 31, 32].map(|n| "max,9,".repeat(n) + "ev,9,0")).chain([",".repeat(1_025)]).collect();
    for length in [0, 49, LOG_MAX - 1, LOG_MAX, LOG_MAX + 1, 131_072] {
        let log: Vec<u8> = SHEET_LOG.iter().copied().cycle().take(length).collect();
        for text in &texts {
            for k in [1, 16].into_iter().chain(BAD) {
                check(&mut rng, text.as_bytes(), &log, k)?;
            }
        }
    }
    Ok(count)
}

/// Logs up to the largest: random ones, sound lines far apart (so long stretches), and as many answers as lines.
pub fn long(t: &Trial) -> Outcome {
    let mut rng = Rng(13);
    let mut count = 0;
    let mut check = |rng: &mut Rng, pattern: &str, log: &[u8]| -> Checked {
        let search = Search::new(t.calls, pattern.as_bytes(), log, quick::answers);
        for k in [1, 16, rng.range(2, 15), 17] {
            let around = cells_around(k, search.picked().min(k as usize));
            for cells in [2 * k as usize, rng.pick(&around)] {
                search.pick(rng, (k, cells), quick::picks)?;
                count += 1;
            }
        }
        Ok(())
    };
    for round in 0..t.rounds(240).max(12) {
        let log = if round % 2 == 0 {
            let (lines, damage) = (rng.pick(&[500, 1_500, 3_000, 5_000]), rng.pick(&[0, 10, 50]));
            let mut log = inputs::log(&mut rng, lines, damage);
            log.truncate(LOG_MAX);
            log
        } else {
            let gap = rng.pick(&[40, 400, 3_000]);
            inputs::sparse(&mut rng, gap, LOG_MAX)
        };
        let pattern = if rng.once_in(3) { inputs::tree(&mut rng, 32, 8).spell() } else { inputs::crossing(&mut rng).spell() };
        check(&mut rng, &pattern, &log)?;
    }
    for lines in [15, 16, 17, 63, 64, 65, 6_144] {
        for pattern in [SOUND, "row,2,ev,1,0,ev,1,4", "row,3,ev,1,0,fr,3,0,ev,1,4"] {
            check(&mut rng, pattern, &b"1,4,1,3,6\n".repeat(lines))?;
        }
    }
    for log in [shortest_last(), shortest_first()] {
        check(&mut rng, ONE_SHORT, log.as_bytes())?;
    }
    for log in [far_apart(), far_and_alike()] {
        check(&mut rng, FAR, log.as_bytes())?;
    }
    check(&mut rng, "ev,7,0", alike_and_late().as_bytes())?;
    Ok(count)
}

/// What the picks must be, held to the calls' own list and nothing else.
pub fn laws(t: &Trial) -> Outcome {
    let mut rng = Rng(14);
    for round in 0..t.rounds(6_000) {
        let most = if round % 40 == 0 { 3_000 } else { 80 };
        let (lines, damage) = (rng.below(most), rng.pick(&[0, 5]));
        let log = inputs::log(&mut rng, lines, damage);
        let (k, cells) = (rng.range(1, 16), rng.below(40));
        compare::pick_laws(t.calls, pattern(&mut rng).as_bytes(), &log, (k, cells))?;
    }
    Ok(t.rounds(6_000))
}

/// Worked by hand: what a call with so many cells writes (the others keep 77), or its refusal and place. In the first logs a line is given
/// by its code.
pub fn cases(t: &Trial) -> Outcome {
    type Due = Result<&'static [(u32, u32)], (u64, u64)>;
    let and = "and,2,ev,7,0,ev,9,0";
    let then = "then,2,ev,7,0,ev,9,0";
    // By `and` the answers are [0..1], [1..2], [2..5], [5..6]; by `then` [0..3], [4..5], and [0..1], [2..5].
    let (crossing, later, earlier) = (of(&[7, 9, 7, 12, 12, 9, 7]), of(&[7, 12, 12, 9, 7, 9]), of(&[7, 9, 7, 12, 12, 9]));
    let (seven, long) = (of(&[7; 17]), "\n".repeat(61_441));
    // The example of FORMATS.md, "The undamaged run": by `and` on lane 4 the answers are [0..1], [1..2], [2..4], [4..5], [5..6]; in the run of
    // lines 2 to 4 alone [0..2].
    let log = RUN_LOG.concat();
    let run = RUN_LOG[2..5].concat();
    let on_lane = "and,2,ev,7,4,ev,9,4";
    let (last, first, far, alike, late) = (shortest_last(), shortest_first(), far_apart(), far_and_alike(), alike_and_late());
    let all: Vec<(u32, u32)> = (1..17).rev().map(|p| (p, p)).collect();
    let all: &'static [(u32, u32)] = all.leak();
    let cases: Vec<(&str, &str, u32, usize, Due)> = vec![
        (and, &crossing, 16, 40, Ok(&[(5, 6), (1, 2)])),
        (and, &crossing, 2, 4, Ok(&[(5, 6), (1, 2)])),
        (and, &crossing, 2, 3, Ok(&[(5, 6)])),
        (and, &crossing, 1, 9, Ok(&[(5, 6)])),
        (and, &crossing, 16, 1, Ok(&[])),
        (and, &crossing, 16, 0, Ok(&[])),
        (then, &later, 16, 7, Ok(&[(4, 5), (0, 3)])),
        (then, &later, 1, 7, Ok(&[(4, 5)])),
        (then, &earlier, 16, 7, Ok(&[(0, 1), (2, 5)])),
        (then, &earlier, 1, 7, Ok(&[(0, 1)])),
        (on_lane, &log, 16, 40, Ok(&[(5, 6), (1, 2)])),
        (on_lane, &run, 16, 40, Ok(&[(0, 2)])),
        (ONE_SHORT, &last, 3, 6, Ok(&[(6_143, 6_143), (6_141, 6_142), (6_139, 6_140)])),
        (ONE_SHORT, &first, 3, 6, Ok(&[(0, 0), (6_142, 6_143), (6_140, 6_141)])),
        (FAR, &far, 16, 6, Ok(&[(45_002, 57_503), (0, 45_001)])),
        (FAR, &alike, 16, 6, Ok(&[(30_002, 60_003), (0, 30_001)])),
        ("ev,7,0", &late, 16, 6, Ok(&[(33_000, 33_000), (300, 300)])),
        ("row,2,ev,7,0,ev,7,4", &seven, 3, 6, Ok(&[(15, 16), (13, 14), (11, 12)])),
        ("ev,7,0", &seven, 2, 6, Ok(&[(16, 16), (15, 15)])),
        ("ev,7,0", &seven, 16, 40, Ok(all)),
        ("ev,9,0", &seven, 5, 6, Ok(&[])),
        ("ev,7,0", "", 1, 2, Ok(&[])),
        ("ev,7,0", &seven, 0, 6, Err((10, 0))),
        ("ev,7,0", &seven, 17, 40, Err((10, 0))),
        ("ev,7,0", &seven, 17, 0, Err((10, 0))),
        ("ev,7,0", &seven, u32::MAX, 40, Err((10, 0))),
        ("ev,256,0", &seven, 3, 6, Err((3, 5))),
        ("ev,256,0", &seven, 17, 6, Err((3, 5))),
        ("ev,256,0", &long, 17, 6, Err((1, 0))),
        ("ev,7,0", &long, 0, 6, Err((1, 0))),
    ];
    for (pattern, log, k, cells, due) in &cases {
        let (pattern, log, mut wanted) = (pattern.as_bytes(), log.as_bytes(), vec![77; *cells]);
        let word = due.map_or_else(|(number, place)| number | place << 16, |picks| (picks.len() as u64) << 32);
        due.unwrap_or_default().iter().flat_map(|&(s, e)| [s, e]).zip(&mut wanted).for_each(|(n, cell)| *cell = n);
        let answers = quick::answers(pattern, log);
        let ways: [(&str, &dyn Fn(&mut [u32]) -> u64); 3] = [
            ("by definition", &|lent| reference::pick(&answers, *k, lent, reference::picks)),
            ("the quick way", &|lent| reference::pick(&answers, *k, lent, quick::picks)),
            ("by call", &|lent| t.calls.pick(pattern, log, *k, lent)),
        ];
        for (how, way) in ways {
            let mut given = vec![77; *cells];
            let result = way(&mut given);
            if (result, &given) != (word, &wanted) {
                let input = compare::input(pattern, log);
                return Err(format!("{how} {result:#x} and {given:?}, should be {word:#x} and {wanted:?}\n  {input}\n  k {k}, cells {cells}"));
            }
        }
    }
    Ok(3 * cases.len())
}
