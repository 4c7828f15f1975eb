//! Wrong variants of the picking call.

use crate::plain::{Plain, RIGHT};
use crate::reference::{self as r, List, Refusal, Stretch};
use std::cmp::Reverse;

/// A picking call by other picks.
macro_rules! by_picks {
    ($picks:expr) => {
        Plain { pick: |answers, k, cells| r::pick(answers, k, cells, $picks), ..RIGHT }
    };
}

/// Up to k picks, the first by another order, where `drops` says what the picks so far drop.
fn other_picks<K: Ord>(k: usize, answers: &[Stretch], order: impl Fn(&Stretch) -> K, drops: impl Fn(&[Stretch], Stretch) -> bool) -> List {
    let mut picked = List::new();
    while picked.len() < k {
        let remaining = answers.iter().copied().filter(|&a| !picked.contains(&a) && !drops(&picked, a));
        match remaining.min_by_key(&order) {
            Some(pick) => picked.push(pick),
            None => break,
        }
    }
    picked
}

/// Whether some pick shares a line with an answer.
fn taken(picked: &[Stretch], a: Stretch) -> bool {
    picked.iter().any(|&pick| r::share_line(pick, a))
}

/// Up to k picks, one by `first` and the others by `then`.
fn picks_in_turn<K: Ord, L: Ord>(k: usize, answers: &[Stretch], first: impl Fn(&Stretch) -> K, then: impl Fn(&Stretch) -> L) -> List {
    let mut picked = other_picks(k.min(1), answers, first, taken);
    let remaining: List = answers.iter().copied().filter(|&a| !taken(&picked, a)).collect();
    picked.extend(other_picks(k - picked.len(), &remaining, then, taken));
    picked
}

/// The number of lines of an answer.
fn length(a: &Stretch) -> u32 {
    a.e - a.s + 1
}

/// The wrong variants.
pub fn variants() -> Vec<(&'static str, Plain)> {
    let mut all = over_choosing();
    all.extend(over_ties());
    all.extend(over_counts());
    all.extend(over_handing_back());
    all
}

/// Wrong picks.
fn over_choosing() -> Vec<(&'static str, Plain)> {
    vec![
        ("the longest picked first", by_picks!(|k, answers| other_picks(k, answers, |a| Reverse((length(a), a.s)), taken))),
        ("lengths by the end alone", by_picks!(|k, answers| other_picks(k, answers, |a| a.e, taken))),
        ("lengths cut to 15 bits", by_picks!(|k, answers| other_picks(k, answers, |a| (length(a) & 0x7fff, Reverse(a.s)), taken))),
        (
            "no pick of 40,000 lines or more",
            by_picks!(|k, answers| r::picks(k, &answers.iter().copied().filter(|a| length(a) < 40_000).collect::<List>())),
        ),
        ("lengths cut to 8 bits", by_picks!(|k, answers| other_picks(k, answers, |a| (length(a) & 0xff, Reverse(a.s)), taken))),
        (
            "an answer kept that touches a pick by a line",
            by_picks!(|k, answers| {
                let drops = |picked: &[Stretch], a: Stretch| picked.iter().any(|pick| a.s < pick.e && pick.s < a.e);
                other_picks(k, answers, r::pick_order, drops)
            }),
        ),
        (
            "an answer dropped that ends on the line before a pick",
            by_picks!(|k, answers| {
                let drops = |picked: &[Stretch], a: Stretch| taken(picked, a) || picked.iter().any(|pick| a.e + 1 == pick.s);
                other_picks(k, answers, r::pick_order, drops)
            }),
        ),
        (
            "an answer dropped that starts on the line after a pick",
            by_picks!(|k, answers| {
                let drops = |picked: &[Stretch], a: Stretch| taken(picked, a) || picked.iter().any(|pick| pick.e + 1 == a.s);
                other_picks(k, answers, r::pick_order, drops)
            }),
        ),
        ("an overlap with picks passed over", by_picks!(|k, answers| other_picks(k, answers, r::pick_order, |_, _| false))),
        ("the first pick again and again", by_picks!(|k, answers| r::picks(1, answers).into_iter().cycle().take(k).collect())),
        (
            "an overlap with the first pick alone",
            by_picks!(|k, answers| other_picks(k, answers, r::pick_order, |picked, a| taken(&picked[..picked.len().min(1)], a))),
        ),
        (
            "an overlap with the last pick alone",
            by_picks!(|k, answers| {
                other_picks(k, answers, r::pick_order, |picked, a| taken(&picked[picked.len().saturating_sub(1)..], a))
            }),
        ),
        (
            "what lies between picks dropped",
            by_picks!(|k, answers| {
                let least = |picked: &[Stretch]| picked.iter().map(|pick| pick.s).min();
                let greatest = |picked: &[Stretch]| picked.iter().map(|pick| pick.e).max();
                let hull = move |picked: &[Stretch]| least(picked).zip(greatest(picked)).map(|(s, e)| Stretch { s, e });
                other_picks(k, answers, r::pick_order, |picked, a| hull(picked).is_some_and(|hull| r::share_line(hull, a)))
            }),
        ),
        (
            "only what follows the last pick",
            by_picks!(|k, answers| other_picks(k, answers, r::pick_order, |picked, a| picked.last().is_some_and(|pick| a.s <= pick.e))),
        ),
        (
            "only what precedes the last pick",
            by_picks!(|k, answers| other_picks(k, answers, r::pick_order, |picked, a| picked.last().is_some_and(|pick| pick.s <= a.e))),
        ),
        (
            "of equal lengths only one",
            by_picks!(|k, answers| {
                let drops = |picked: &[Stretch], a: Stretch| taken(picked, a) || picked.iter().any(|pick| length(pick) == length(&a));
                other_picks(k, answers, r::pick_order, drops)
            }),
        ),
        (
            "picks in rising order of lines",
            by_picks!(|k, answers| {
                let mut picked = r::picks(k, answers);
                picked.sort();
                picked
            }),
        ),
        (
            "picks in falling order of lines",
            by_picks!(|k, answers| {
                let mut picked = r::picks(k, answers);
                picked.sort_by_key(|&a| Reverse(a));
                picked
            }),
        ),
        (
            "the last pick first",
            by_picks!(|k, answers| {
                let mut picked = r::picks(k, answers);
                picked.reverse();
                picked
            }),
        ),
        ("15 picks at most", by_picks!(|k, answers| r::picks(k.min(15), answers))),
        ("picks beyond k", by_picks!(|_, answers| r::picks(16, answers))),
        ("picks among the first 4,096 answers", by_picks!(|k, answers| r::picks(k, &answers[..answers.len().min(4_096)]))),
        ("picks among the first 64 answers", by_picks!(|k, answers| r::picks(k, &answers[..answers.len().min(64)]))),
        ("picks among the last 4,096 answers", by_picks!(|k, answers| r::picks(k, &answers[answers.len().saturating_sub(4_096)..]))),
        ("picks among the last 64 answers", by_picks!(|k, answers| r::picks(k, &answers[answers.len().saturating_sub(64)..]))),
        ("picks without the first answer", by_picks!(|k, answers| r::picks(k, answers.get(1..).unwrap_or_default()))),
        ("picks without the last answer", by_picks!(|k, answers| r::picks(k, &answers[..answers.len().saturating_sub(1)]))),
        (
            "picks among the lines below 4,096",
            by_picks!(|k, answers| r::picks(k, &answers.iter().copied().filter(|a| a.e < 4_096).collect::<List>())),
        ),
    ]
}

/// Equal lengths decided otherwise than by the later start.
fn over_ties() -> Vec<(&'static str, Plain)> {
    fn earlier(a: &Stretch) -> (u32, u32) {
        (length(a), a.s)
    }
    vec![
        ("of equal lengths the earlier start", by_picks!(|k, answers| other_picks(k, answers, earlier, taken))),
        ("the earlier start in the first pick alone", by_picks!(|k, answers| picks_in_turn(k, answers, earlier, r::pick_order))),
        ("the earlier start from the second pick on", by_picks!(|k, answers| picks_in_turn(k, answers, r::pick_order, earlier))),
        (
            "the earlier start of answers of one line",
            by_picks!(|k, answers| other_picks(k, answers, |a| (length(a), if length(a) == 1 { a.s } else { u32::MAX - a.s }), taken)),
        ),
        (
            "the earlier start of longer answers",
            by_picks!(|k, answers| other_picks(k, answers, |a| (length(a), if length(a) > 1 { a.s } else { u32::MAX - a.s }), taken)),
        ),
        ("the latest start whatever the length", by_picks!(|k, answers| other_picks(k, answers, |a| Reverse(a.s), taken))),
        ("the first pick the latest of all", by_picks!(|k, answers| picks_in_turn(k, answers, |a| Reverse(a.s), r::pick_order))),
        ("starts cut to 8 bits", by_picks!(|k, answers| other_picks(k, answers, |a| (length(a), Reverse(a.s & 0xff)), taken))),
        ("starts cut to 15 bits", by_picks!(|k, answers| other_picks(k, answers, |a| (length(a), Reverse(a.s & 0x7fff)), taken))),
        ("starts with a sign", by_picks!(|k, answers| other_picks(k, answers, |a| (length(a), Reverse(a.s as i16)), taken))),
    ]
}

type Answers = Result<List, Refusal>;

/// The right call.
fn right(answers: &Answers, k: u32, cells: &mut [u32]) -> u64 {
    (RIGHT.pick)(answers, k, cells)
}

/// Any number of picks.
fn unbounded(answers: &Answers, k: u32, cells: &mut [u32]) -> u64 {
    answers.as_ref().map_or_else(|e| r::refusal_result(*e), |answers| r::write(&r::picks(k as usize, answers), cells) << 32)
}

/// The number of picks that an accepted call wrote.
fn written(result: u64) -> Option<usize> {
    (result & 0xff == 0).then_some((result >> 32) as usize)
}

/// The number of answers that remain after n picks.
fn remaining(answers: &Answers, n: usize) -> usize {
    let left = |list: &List| {
        let picked = r::picks(n, list);
        list.iter().filter(|&&a| !taken(&picked, a)).count()
    };
    answers.as_ref().map_or(0, left)
}

/// Wrong bounds of k, and refusal 10 at the wrong time.
fn over_counts() -> Vec<(&'static str, Plain)> {
    /// Refusal 10 before refusal `number`.
    fn early(answers: &Answers, k: u32, cells: &mut [u32], number: u64) -> u64 {
        match answers {
            Err(e) if e.number == number && !(1..=16).contains(&k) => 10,
            _ => right(answers, k, cells),
        }
    }
    let pick = |pick| Plain { pick, ..RIGHT };
    vec![
        ("17 picks", pick(|answers, k, cells| if k == 17 { unbounded(answers, k, cells) } else { right(answers, k, cells) })),
        ("17 taken for 16", pick(|answers, k, cells| right(answers, if k == 17 { 16 } else { k }, cells))),
        ("0 picks accepted", pick(|answers, k, cells| if k == 0 { unbounded(answers, k, cells) } else { right(answers, k, cells) })),
        ("1 pick refused", pick(|answers, k, cells| right(answers, if k == 1 { 0 } else { k }, cells))),
        ("16 picks refused", pick(|answers, k, cells| right(answers, if k == 16 { 0 } else { k }, cells))),
        ("the number of picks cut to 8 bits", pick(|answers, k, cells| right(answers, k & 0xff, cells))),
        ("k cut to 16 bits", pick(|answers, k, cells| right(answers, k & 0xffff, cells))),
        ("k without its highest bit", pick(|answers, k, cells| right(answers, k & 0x7fff_ffff, cells))),
        ("10 before 1", pick(|answers, k, cells| early(answers, k, cells, 1))),
        ("10 before 2", pick(|answers, k, cells| early(answers, k, cells, 2))),
        ("10 before 3", pick(|answers, k, cells| early(answers, k, cells, 3))),
        ("10 before 4", pick(|answers, k, cells| early(answers, k, cells, 4))),
        ("10 before 5", pick(|answers, k, cells| early(answers, k, cells, 5))),
        (
            "10 only where there is an answer to pick",
            pick(|answers, k, cells| match answers {
                Ok(list) if list.is_empty() => 0,
                _ => right(answers, k, cells),
            }),
        ),
        ("10 only where there are cells", pick(|answers, k, cells| right(answers, if cells.len() < 2 { 1 } else { k }, cells))),
        (
            "10 with a place",
            pick(|answers, k, cells| match right(answers, k, cells) {
                10 => 10 | 1 << 16,
                result => result,
            }),
        ),
    ]
}

/// Wrong results and wrong cells.
fn over_handing_back() -> Vec<(&'static str, Plain)> {
    let pick = |pick| Plain { pick, ..RIGHT };
    vec![
        ("refused picks without a place", pick(|answers, k, cells| right(answers, k, cells) & !0xffff_0000)),
        (
            "a pick written where k is refused",
            pick(|answers, k, cells| {
                let result = right(answers, k, cells);
                if result == 10 {
                    unbounded(answers, 1, cells);
                }
                result
            }),
        ),
        (
            "picks counted where k is refused",
            pick(|answers, k, cells| match right(answers, k, cells) {
                10 => 10 | unbounded(answers, 1, &mut cells.to_vec()),
                result => result,
            }),
        ),
        (
            "a cell written where a pattern or log is refused",
            pick(|answers, k, cells| {
                if let (Err(_), Some(first)) = (answers, cells.first_mut()) {
                    *first = 0;
                }
                right(answers, k, cells)
            }),
        ),
        ("no pick written", pick(|answers, k, cells| right(answers, k, &mut cells.to_vec()))),
        (
            "end then start",
            pick(|answers, k, cells| {
                let result = right(answers, k, cells);
                cells.chunks_exact_mut(2).take(written(result).unwrap_or(0)).for_each(|pair| pair.reverse());
                result
            }),
        ),
        (
            "the cell after the picks cleared",
            pick(|answers, k, cells| {
                let result = right(answers, k, cells);
                if let Some(cell) = written(result).and_then(|n| cells.get_mut(2 * n)) {
                    *cell = 0;
                }
                result
            }),
        ),
        (
            "all cells after the picks cleared",
            pick(|answers, k, cells| {
                let result = right(answers, k, cells);
                if let Some(n) = written(result) {
                    cells[2 * n..].fill(0);
                }
                result
            }),
        ),
        (
            "a start of a pick in an odd last cell",
            pick(|answers, k, cells| {
                let mut more = cells.to_vec();
                more.push(0);
                let (result, wrong) = (right(answers, k, cells), right(answers, k, &mut more));
                if wrong >> 32 > result >> 32 {
                    cells.copy_from_slice(&more[..cells.len()]);
                }
                result
            }),
        ),
        (
            "the last pair of cells left free",
            pick(|answers, k, cells| {
                let fewer = cells.len().saturating_sub(2);
                right(answers, k, &mut cells[..fewer])
            }),
        ),
        (
            "a cell needed behind the last pick",
            pick(|answers, k, cells| {
                let fewer = cells.len().saturating_sub(1);
                right(answers, k, &mut cells[..fewer])
            }),
        ),
        (
            "what the next pair of cells holds taken for a pick",
            pick(|answers, k, cells| {
                let before: List = cells.chunks_exact(2).map(|c| Stretch { s: c[0], e: c[1] }).collect();
                let next = |picked: &[Stretch], a: Stretch| before.get(picked.len()).is_some_and(|&pair| r::share_line(pair, a));
                let drops = |picked: &[Stretch], a: Stretch| taken(picked, a) || next(picked, a);
                match answers {
                    Ok(list) if (1..=16).contains(&k) => r::write(&other_picks(k as usize, list, r::pick_order, drops), cells) << 32,
                    _ => right(answers, k, cells),
                }
            }),
        ),
        (
            "the answers left counted",
            pick(|answers, k, cells| {
                let result = right(answers, k, cells);
                written(result).map_or(result, |n| (remaining(answers, n) as u64) << 32)
            }),
        ),
        (
            "picks counted that no cells hold",
            pick(|answers, k, cells| match written(right(answers, k, cells)) {
                Some(_) => right(answers, k, &mut [0; 32]),
                None => right(answers, k, cells),
            }),
        ),
        (
            "more where an answer remains",
            pick(|answers, k, cells| {
                let result = right(answers, k, cells);
                result | u64::from(written(result).is_some_and(|n| remaining(answers, n) > 0)) << 8
            }),
        ),
        (
            "more where there are fewer than k",
            pick(|answers, k, cells| {
                let result = right(answers, k, cells);
                result | u64::from(written(result).is_some_and(|n| n < k as usize)) << 8
            }),
        ),
    ]
}
