//! Wrong variants of lists that are full, most of them refused with 9, which is no refusal's number; and 9 in place of another number.

use crate::lent;
use crate::plain::{Call, Plain, RIGHT};
use crate::reference::{self as r, refused, List, Refusal, Tree};
use crate::shown::{self, Triple};

/// 9 where `test` says so of the number of answers, of lines, and of damaged lines.
fn refusing(parts: &Plain, pattern: &[u8], log: &[u8], test: fn(usize, usize, usize) -> bool) -> Result<Tree, Refusal> {
    let tree = (RIGHT.accept)(parts, pattern, log)?;
    let lines = r::read_log(log);
    let answers = (parts.list)(parts, Call::Fill, &tree, log).len();
    if test(answers, lines.len(), r::damaged(&lines)) {
        refused(9)
    } else {
        Ok(tree)
    }
}

macro_rules! by_numbers {
    ($test:expr) => {
        Plain { accept: |parts, pattern, log| refusing(parts, pattern, log, $test), ..RIGHT }
    };
}

/// The wrong variants.
pub fn variants() -> Vec<(&'static str, Plain)> {
    let mut all = over_full_lists();
    all.extend(over_cells());
    all.extend(in_place_of_others());
    all
}

/// 9 by the number of answers, and full lists cut short.
fn over_full_lists() -> Vec<(&'static str, Plain)> {
    /// The list of one call over a full log changed.
    fn full(parts: &Plain, call: Call, tree: &Tree, log: &[u8], of: Call, other: fn(List) -> List) -> List {
        let list = (RIGHT.list)(parts, call, tree, log);
        if call == of && !list.is_empty() && list.len() == r::lines(log).len() {
            other(list)
        } else {
            list
        }
    }
    vec![
        ("9 for as many answers as lines", by_numbers!(|answers, lines, _| answers == lines)),
        ("9 for as many answers as lines, if there are any", by_numbers!(|answers, lines, _| answers == lines && lines > 0)),
        ("9 for as many answers as lines, if there are more than two", by_numbers!(|answers, lines, _| answers == lines && lines > 2)),
        ("9 for as many answers as lines, if there are more than 64", by_numbers!(|answers, lines, _| answers == lines && lines > 64)),
        ("9 for an empty log", by_numbers!(|_, lines, _| lines == 0)),
        ("9 for as many answers as lines less one", by_numbers!(|answers, lines, _| answers + 1 == lines)),
        (
            "9 for as many answers as sound lines beside a damaged one",
            by_numbers!(|answers, lines, damaged| answers > 0 && damaged > 0 && answers + damaged == lines),
        ),
        ("9 for more answers than half the lines", by_numbers!(|answers, lines, _| 2 * answers > lines)),
        ("9 for more answers than damaged lines", by_numbers!(|answers, _, damaged| damaged > 0 && answers > damaged)),
        ("9 for more than 64 answers", by_numbers!(|answers, _, _| answers > 64)),
        ("9 for 256 answers", by_numbers!(|answers, _, _| answers == 256)),
        ("9 for more than 4,096 answers", by_numbers!(|answers, _, _| answers > 4_096)),
        ("9 for 6,144 answers", by_numbers!(|answers, _, _| answers == 6_144)),
        ("lines counted in 6 bits, and 9 for more answers", by_numbers!(|answers, lines, _| answers > lines & 0x3f)),
        ("lines counted in 8 bits, and 9 for more answers", by_numbers!(|answers, lines, _| answers > lines & 0xff)),
        ("lines counted in 12 bits, and 9 for more answers", by_numbers!(|answers, lines, _| answers > lines & 0xfff)),
        (
            "the last of a full list left out when it is filled",
            Plain {
                list: |parts, call, tree, log| full(parts, call, tree, log, Call::Fill, |list| list[..list.len() - 1].to_vec()),
                ..RIGHT
            },
        ),
        (
            "a full list taken for none one by one",
            Plain { list: |parts, call, tree, log| full(parts, call, tree, log, Call::Steps, |_| vec![]), ..RIGHT },
        ),
        (
            "of a full list nothing picked",
            Plain { list: |parts, call, tree, log| full(parts, call, tree, log, Call::Pick, |_| vec![]), ..RIGHT },
        ),
    ]
}

/// 9 by the cells and the numbers asked for.
fn over_cells() -> Vec<(&'static str, Plain)> {
    let fill = |fill| Plain { fill, ..RIGHT };
    vec![
        (
            "9 for more",
            fill(|answers, cells, from| match r::fill(answers, cells, from) {
                result if result >> 8 & 1 == 1 => result & !(1 << 8) | 9,
                result => result,
            }),
        ),
        (
            "9 beside more",
            fill(|answers, cells, from| match r::fill(answers, cells, from) {
                result if result >> 8 & 1 == 1 => result | 9,
                result => result,
            }),
        ),
        (
            "9 and nothing written where the cells are too few",
            fill(|answers, cells, from| match answers {
                Ok(list) if list.len() as u64 > from.saturating_add(cells.len() as u64 / 2) => 9,
                _ => r::fill(answers, cells, from),
            }),
        ),
        (
            "9 where every cell is written",
            fill(|answers, cells, from| match r::fill(answers, cells, from) {
                result if result & 0xff == 0 && result >> 32 > 0 && (result >> 32) as usize * 2 == cells.len() => result | 9,
                result => result,
            }),
        ),
        (
            "9 for a first number past the last answer",
            fill(|answers, cells, from| match answers {
                Ok(list) if from > 0 && from >= list.len() as u64 => 9,
                _ => r::fill(answers, cells, from),
            }),
        ),
        (
            "9 for an empty list",
            fill(|answers, cells, from| match answers {
                Ok(list) if list.is_empty() => 9,
                _ => r::fill(answers, cells, from),
            }),
        ),
        (
            "9 for a number past the last answer shown",
            Plain {
                witness: |shown, cells| match shown {
                    Ok(list) if list.is_empty() => 9,
                    _ => shown::write(shown, cells),
                },
                ..RIGHT
            },
        ),
        (
            "9 for none taken",
            Plain {
                take: |taken, counts| match taken {
                    Ok((None, _)) => lent::take(taken, counts) | 9,
                    _ => lent::take(taken, counts),
                },
                ..RIGHT
            },
        ),
        (
            "9 for fewer picks than asked for",
            Plain {
                pick: |answers, k, cells| match (RIGHT.pick)(answers, k, cells) {
                    result if result & 0xff == 0 && result >> 32 < u64::from(k) => result | 9,
                    result => result,
                },
                ..RIGHT
            },
        ),
    ]
}

/// 9 in place of each other number.
fn in_place_of_others() -> Vec<(&'static str, Plain)> {
    fn instead<const N: u64>(result: u64) -> u64 {
        if result & 0xff == N {
            result & !0xff | 9
        } else {
            result
        }
    }
    fn filled<const N: u64>(answers: &Result<List, Refusal>, cells: &mut [u32], from: u64) -> u64 {
        instead::<N>(r::fill(answers, cells, from))
    }
    fn picked<const N: u64>(answers: &Result<List, Refusal>, k: u32, cells: &mut [u32]) -> u64 {
        instead::<N>((RIGHT.pick)(answers, k, cells))
    }
    fn shown<const N: u64>(triples: &Result<Vec<Triple>, Refusal>, cells: &mut [u32]) -> u64 {
        instead::<N>(shown::write(triples, cells))
    }
    fn taken<const N: u64>(taken: &Result<lent::Taken, Refusal>, counts: &mut [u32]) -> u64 {
        instead::<N>(lent::take(taken, counts))
    }
    let fill = |fill| Plain { fill, ..RIGHT };
    let pick = |pick| Plain { pick, ..RIGHT };
    let witness = |witness| Plain { witness, ..RIGHT };
    let take = |take| Plain { take, ..RIGHT };
    vec![
        ("9 for 1", fill(filled::<1>)),
        ("9 for 2", fill(filled::<2>)),
        ("9 for 3", fill(filled::<3>)),
        ("9 for 4", fill(filled::<4>)),
        ("9 for 5", fill(filled::<5>)),
        ("9 for 6 over lists", fill(filled::<6>)),
        ("9 for 7 over lists", fill(filled::<7>)),
        ("9 for 8 over lists", fill(filled::<8>)),
        ("9 for 1 of picks", pick(picked::<1>)),
        ("9 for 2 of picks", pick(picked::<2>)),
        ("9 for 3 of picks", pick(picked::<3>)),
        ("9 for 4 of picks", pick(picked::<4>)),
        ("9 for 5 of picks", pick(picked::<5>)),
        ("9 for 10 of picks", pick(picked::<10>)),
        ("9 for 1 of a witness", witness(shown::<1>)),
        ("9 for 2 of a witness", witness(shown::<2>)),
        ("9 for 3 of a witness", witness(shown::<3>)),
        ("9 for 4 of a witness", witness(shown::<4>)),
        ("9 for 5 of a witness", witness(shown::<5>)),
        ("9 for 6 of taking", take(taken::<6>)),
        ("9 for 7 of taking", take(taken::<7>)),
        ("9 for 8 of taking", take(taken::<8>)),
        ("9 for 1 of a count", Plain { count: |log, value| instead::<1>(r::count_by(log, value)), ..RIGHT }),
    ]
}
