//! Wrong variants of the plain calls: each exchanges one part.

use crate::digit_faults;
use crate::inside_faults;
use crate::lane_faults;
use crate::lent::{self, Taken};
use crate::nine_faults;
use crate::pick_faults;
use crate::plain::{Plain, RIGHT};
use crate::quick;
use crate::reference::{self as r, refused, Apply, List, Op, Record, Refusal, Stretch, Tree, LOG_MAX};
use crate::spell_faults;
use crate::witness_faults;
use std::cmp::Reverse;

/// Short enough for the literal definitions.
pub fn short(lists: &[List]) -> bool {
    lists.iter().map(Vec::len).sum::<usize>() < 200
}

/// Lines read with `mend` tried on each damaged one.
fn mended(log: &[u8], mend: impl Fn(&str) -> String) -> Vec<Option<Record>> {
    let line = |line: &[u8]| r::record(line).or_else(|| r::record(mend(&String::from_utf8_lossy(line)).as_bytes()));
    r::lines(log).into_iter().map(line).collect()
}

/// The refusal's place moved by `by`, where there is one.
fn place_moved(text: &[u8], by: i64) -> Result<Tree, Refusal> {
    r::read_pattern(text).map_err(|e| if e.number == 3 { Refusal { place: (e.place as i64 + by).max(0) as u64, ..e } } else { e })
}

/// A tree for every spelling, within other bounds.
fn bounded(text: &[u8], nodes: usize, depth: usize) -> Result<Tree, Refusal> {
    match r::read_pattern(text) {
        Err(e) if e.number == 4 || e.number == 5 => {
            let tree = r::spelling(text).unwrap();
            if tree.nodes() > nodes {
                refused(4)
            } else if tree.depth() > depth {
                refused(5)
            } else {
                Ok(tree)
            }
        }
        right => right,
    }
}

/// A span handed out at the first configuration with its end, not the last.
fn hasty_and(lists: &[List]) -> List {
    let mut at = vec![0; lists.len()];
    let mut out: List = Vec::new();
    while (0..lists.len()).all(|i| at[i] < lists[i].len()) {
        let fronts: Vec<Stretch> = (0..lists.len()).map(|i| lists[i][at[i]]).collect();
        let (s, e) = (fronts.iter().map(|a| a.s).min().unwrap(), fronts.iter().map(|a| a.e).max().unwrap());
        if out.last().map_or(true, |last| last.e < e) {
            out.push(Stretch { s, e });
        }
        (0..lists.len()).for_each(|i| at[i] += usize::from(fronts[i].s == s));
    }
    out
}

/// Algorithm 3 without its line 8, or with the list of higher number first among equals.
fn other_and(lists: &[List], p: u64, line_8: bool, higher_first: bool) -> Taken {
    let mut taken = vec![1; lists.len()];
    let front = |taken: &[usize], i: usize| lists[i].get(taken[i] - 1).copied();
    let full = |taken: &[usize]| (0..lists.len()).all(|i| front(taken, i).is_some());
    let top = |taken: &[usize]| {
        let key = |&i: &usize| front(taken, i).map(|a| (a.s, Reverse(a.e), if higher_first { lists.len() - i } else { i }));
        (0..lists.len()).min_by_key(key).unwrap()
    };
    let span = |taken: &[usize]| Stretch {
        s: front(taken, top(taken)).unwrap().s,
        e: (0..lists.len()).map(|i| front(taken, i).unwrap().e).max().unwrap(),
    };
    let mut c: Option<Stretch> = None;
    for _ in 0..=p {
        while full(&taken) && c.is_some_and(|c| r::inside(c, span(&taken))) {
            let i = top(&taken);
            taken[i] += 1;
        }
        if !full(&taken) {
            c = None;
            break;
        }
        loop {
            let candidate = span(&taken);
            c = Some(candidate);
            let i = top(&taken);
            if line_8 && front(&taken, i) == c {
                break;
            }
            taken[i] += 1;
            if !(full(&taken) && r::inside(span(&taken), candidate)) {
                break;
            }
        }
    }
    (c, taken.iter().map(|&n| n as u32).collect())
}

/// The wrong variants.
pub fn variants() -> Vec<(&'static str, Plain)> {
    let mut all = over_meaning();
    all.extend(inside_faults::variants());
    all.extend(over_reading());
    all.extend(lane_faults::variants());
    all.extend(spell_faults::variants());
    all.extend(over_handing_back());
    all.extend(over_steps());
    all.extend(over_log_alone());
    all.extend(pick_faults::variants());
    all.extend(witness_faults::variants());
    all.extend(digit_faults::variants());
    all.extend(nine_faults::variants());
    all
}

/// Wrong operators and wrong taking.
fn over_meaning() -> Vec<(&'static str, Plain)> {
    let apply = |apply: Apply| Plain { apply, ..RIGHT };
    vec![
        (
            "then overlapping by a line",
            apply(|op, k, lists, m| match op {
                Op::Then if short(lists) => r::minimal(r::spans(lists, |a, b| b.s >= a.e)),
                _ => quick::apply(op, k, lists, m),
            }),
        ),
        (
            "row joining across a line",
            apply(|op, k, lists, m| match op {
                Op::Row if short(lists) => r::minimal(r::spans(lists, |a, b| b.s == a.e + 1 || b.s == a.e + 2)),
                _ => quick::apply(op, k, lists, m),
            }),
        ),
        (
            "or dropping only repeats",
            apply(|op, k, lists, m| match op {
                Op::Or => {
                    let mut all = lists.concat();
                    all.sort_by_key(|a| (a.e, Reverse(a.s)));
                    all.dedup();
                    all
                }
                _ => quick::apply(op, k, lists, m),
            }),
        ),
        (
            "and handed out before a later item shortens it",
            apply(|op, k, lists, m| match op {
                Op::And => hasty_and(lists),
                _ => quick::apply(op, k, lists, m),
            }),
        ),
        (
            "less keeping a stretch equal to one of B",
            apply(|op, k, lists, m| match op {
                Op::Less if short(lists) => {
                    let holds = |a: Stretch| lists[1].iter().any(|&b| b != a && r::inside(b, a));
                    lists[0].iter().copied().filter(|&a| !holds(a)).collect()
                }
                _ => quick::apply(op, k, lists, m),
            }),
        ),
        ("max a line too long", apply(|op, k, lists, m| quick::apply(op, if op == Op::Max { k + 1 } else { k }, lists, m))),
        (
            "row and then exchanged",
            apply(|op, k, lists, m| match op {
                Op::Row => quick::apply(Op::Then, k, lists, m),
                Op::Then => quick::apply(Op::Row, k, lists, m),
                _ => quick::apply(op, k, lists, m),
            }),
        ),
        ("and without line 8", Plain { take_and: |lists, p| other_and(lists, p, false, false), ..RIGHT }),
        ("of equal fronts the higher list first", Plain { take_and: |lists, p| other_and(lists, p, true, true), ..RIGHT }),
        (
            "or without the one item more",
            Plain {
                take_or: |lists, p| {
                    let (answer, counts) = lent::take_or_by_algorithm(lists, p);
                    (answer, counts.iter().map(|n| n - 1).collect())
                },
                ..RIGHT
            },
        ),
        (
            "none without the end marks",
            Plain {
                take_or: |lists, p| match lent::take_or_by_algorithm(lists, p) {
                    (None, _) => (None, lists.iter().map(|list| list.len() as u32).collect()),
                    right => right,
                },
                ..RIGHT
            },
        ),
        ("counts invented", Plain { take_and: |lists, p| (lent::take_and(lists, p).0, vec![1; lists.len()]), ..RIGHT }),
    ]
}

/// Wrong reading of logs, patterns and lists.
fn over_reading() -> Vec<(&'static str, Plain)> {
    let log = |log| Plain { log, ..RIGHT };
    let pattern = |pattern| Plain { pattern, ..RIGHT };
    let accept = |accept| Plain { accept, ..RIGHT };
    let lists = |lists| Plain { lists, ..RIGHT };
    vec![
        ("damaged lines skipped in the count", log(|log, _| r::read_log(log).into_iter().filter(Option::is_some).collect())),
        (
            "layout 2's fourth field as the frame",
            log(|log, _| {
                let exchange = |record: Record| match record.layout {
                    r::Layout::Two { handicap } => Record { frame: handicap, ..record },
                    r::Layout::One => record,
                };
                r::read_log(log).into_iter().map(|line| line.map(exchange)).collect()
            }),
        ),
        ("an unended line read as sound", log(|log, _| mended(log, |line| format!("{line}\n")))),
        ("a carriage return passed over", log(|log, _| mended(log, |line| line.replacen("\r\n", "\n", 1)))),
        ("handicap 301", log(|log, _| mended(log, |line| line.replacen(",301,", ",300,", 1)))),
        ("pins 11", log(|log, _| mended(log, |line| line.replacen(",11\n", ",10\n", 1)))),
        (
            "a field too many",
            log(|log, _| mended(log, |line| line.rsplit_once(',').map_or(String::new(), |(head, _)| head.to_string() + "\n"))),
        ),
        ("a place one less", pattern(|text, _| place_moved(text, -1))),
        ("a place one more", pattern(|text, _| place_moved(text, 1))),
        ("33 nodes", pattern(|text, _| bounded(text, 33, 8))),
        ("31 nodes", pattern(|text, _| r::read_pattern(text).and_then(|t| if t.nodes() > 31 { refused(4) } else { Ok(t) }))),
        ("9 deep", pattern(|text, _| bounded(text, 32, 9))),
        ("7 deep", pattern(|text, _| r::read_pattern(text).and_then(|t| if t.depth() > 7 { refused(5) } else { Ok(t) }))),
        (
            "deep before crowded",
            pattern(|text, _| match r::read_pattern(text) {
                Err(e) if e.number == 4 && r::spelling(text).unwrap().depth() > 8 => refused(5),
                right => right,
            }),
        ),
        (
            "crowded before misspelt",
            pattern(|text, _| match r::read_pattern(text) {
                Err(e) if e.number == 3 && text.split(|&b| b == b',').filter(|p| matches!(p, [b'a'..=b'z', _, ..])).count() > 32 => {
                    refused(4)
                }
                right => right,
            }),
        ),
        (
            "1,025 bytes of pattern",
            pattern(|text, _| match r::spelling(text) {
                Err(place) if text.len() == 1_025 => Err(Refusal { number: 3, place: place as u64 }),
                _ => r::read_pattern(text),
            }),
        ),
        ("every pattern refused", pattern(|_, _| Err(Refusal { number: 3, place: 0 }))),
        ("61,441 bytes of log", accept(|parts, pattern, log| if log.len() > LOG_MAX + 1 { refused(1) } else { parts.tree(pattern) })),
        ("61,439 bytes of log", accept(|parts, pattern, log| if log.len() >= LOG_MAX { refused(1) } else { parts.tree(pattern) })),
        (
            "the pattern before the log",
            accept(|parts, pattern, log| parts.tree(pattern).and_then(|tree| if log.len() > LOG_MAX { refused(1) } else { Ok(tree) })),
        ),
        ("k passed over", lists(|op, k, items, ends| lent::read_lists(op, if op == 6 { k } else { 0 }, items, ends))),
        ("k of 65,536", lists(|op, k, items, ends| lent::read_lists(op, if k == 65_536 { k - 1 } else { k }, items, ends))),
        ("operator 10", lists(|op, k, items, ends| lent::read_lists(if op == 10 { 1 } else { op }, k, items, ends))),
        (
            "one list for or",
            lists(|op, k, items, ends| match op {
                1 if ends.len() == 1 && k == 0 => lent::read_lists(6, 1, items, ends).map(|(_, lists)| (Op::Or, lists)),
                _ => lent::read_lists(op, k, items, ends),
            }),
        ),
        (
            "a last end place below the run's length",
            lists(|op, k, items, ends| {
                let last = ends.last().map_or(items.len(), |&end| items.len().min(end as usize));
                lent::read_lists(op, k, &items[..last], ends)
            }),
        ),
        (
            "disordered before miscut",
            lists(|op, k, items, ends| match lent::read_lists(op, k, items, ends) {
                Err(e) if e.number == 7 && items.chunks_exact(2).any(|c| c[0] > c[1]) => refused(8),
                right => right,
            }),
        ),
        (
            "position 65,536",
            lists(|op, k, items, ends| match items.iter().rposition(|&n| n == 65_536) {
                Some(i) => lent::read_lists(op, k, &[&items[..i], &[65_535], &items[i + 1..]].concat(), ends),
                None => lent::read_lists(op, k, items, ends),
            }),
        ),
        (
            "equal starts",
            lists(|op, k, items, ends| match (1..items.len() / 2).find(|i| items[2 * i] == items[2 * i - 2]) {
                Some(i) if items[2 * i] < items[2 * i + 1] => {
                    lent::read_lists(op, k, &[&items[..2 * i], &[items[2 * i] + 1], &items[2 * i + 1..]].concat(), ends)
                }
                _ => lent::read_lists(op, k, items, ends),
            }),
        ),
    ]
}

/// Wrong results and wrong cells.
fn over_handing_back() -> Vec<(&'static str, Plain)> {
    let fill = |fill| Plain { fill, ..RIGHT };
    vec![
        ("a list always empty", fill(|answers, cells, from| r::fill(&answers.clone().map(|_| vec![]), cells, from))),
        (
            "the first stretch and none ever after",
            fill(|answers, cells, from| r::fill(&answers.clone().map(|list| list.into_iter().take(1).collect()), cells, from)),
        ),
        (
            "more with cells free",
            fill(|answers, cells, from| {
                let result = r::fill(answers, cells, from);
                result | u64::from(result & 0xff == 0 && result >> 32 > 0) << 8
            }),
        ),
        ("done though a further answer exists", fill(|answers, cells, from| r::fill(answers, cells, from) & !(1 << 8))),
        ("nothing filled", fill(|answers, cells, from| r::fill(answers, &mut vec![0; cells.len()], from))),
        ("from passed over", fill(|answers, cells, _| r::fill(answers, cells, 0))),
        ("from cut to 32 bits", fill(|answers, cells, from| r::fill(answers, cells, from & 0xffff_ffff))),
        (
            "a start in an odd last cell",
            fill(|answers, cells, from| {
                let mut more = cells.to_vec();
                more.push(0);
                let result = r::fill(answers, &mut more, from);
                cells.copy_from_slice(&more[..cells.len()]);
                let written = (cells.len() / 2) as u64;
                if result >> 32 > written {
                    written << 32 | 1 << 8
                } else {
                    result
                }
            }),
        ),
        (
            "later cells cleared",
            fill(|answers, cells, from| {
                let result = r::fill(answers, cells, from);
                if result & 0xff == 0 {
                    cells[2 * (result >> 32) as usize..].fill(0);
                }
                result
            }),
        ),
        (
            "a refusal that writes a cell",
            fill(|answers, cells, from| {
                if let (Err(_), Some(first)) = (answers, cells.first_mut()) {
                    *first = 0;
                }
                r::fill(answers, cells, from)
            }),
        ),
        (
            "a refusal that says more",
            fill(|answers, cells, from| {
                let result = r::fill(answers, cells, from);
                result | u64::from(result & 0xff != 0) << 8
            }),
        ),
        (
            "further count cells cleared",
            Plain {
                take: |taken, counts| {
                    let result = lent::take(taken, counts);
                    if let Ok((_, taken)) = taken {
                        counts[taken.len()..].fill(0);
                    }
                    result
                },
                ..RIGHT
            },
        ),
        (
            "a refused taking that writes a count",
            Plain {
                take: |taken, counts| {
                    if let (Err(_), Some(first)) = (taken, counts.first_mut()) {
                        *first = 0;
                    }
                    lent::take(taken, counts)
                },
                ..RIGHT
            },
        ),
    ]
}

/// Wrong taking one by one, 64 stretches being found at a time.
fn over_steps() -> Vec<(&'static str, Plain)> {
    /// Steps over another list than the answers.
    fn over(answers: &Result<List, Refusal>, cells: &mut [u32], other: impl Fn(&[List]) -> List) -> u64 {
        r::steps(&answers.clone().map(|list| other(&list.chunks(64).map(<[Stretch]>::to_vec).collect::<Vec<_>>())), cells)
    }
    let steps = |steps| Plain { steps, ..RIGHT };
    vec![
        ("the last found stretch found again", {
            steps(|answers, cells| {
                over(answers, cells, |parts| {
                    let mut list = List::new();
                    for part in parts {
                        list.extend(list.last().copied());
                        list.extend(part);
                    }
                    list
                })
            })
        }),
        ("a stretch lost between the found ones", {
            steps(|answers, cells| {
                over(answers, cells, |parts| parts.iter().enumerate().flat_map(|(i, part)| &part[usize::from(i > 0)..]).copied().collect())
            })
        }),
        ("none after the first 64", steps(|answers, cells| over(answers, cells, |parts| parts.first().cloned().unwrap_or_default()))),
        (
            "the found ones given again",
            steps(|answers, cells| over(answers, cells, |parts| parts.iter().flat_map(|_| &parts[0]).copied().collect())),
        ),
        (
            "a refused pattern steps",
            steps(|answers, cells| match answers {
                Err(_) => r::steps(&Ok(vec![Stretch { s: 0, e: 0 }]), cells),
                Ok(_) => r::steps(answers, cells),
            }),
        ),
    ]
}

/// Wrong counts, and wrong parts of a log.
fn over_log_alone() -> Vec<(&'static str, Plain)> {
    /// A count by other readings, whatever the log's length.
    fn counted(lines: Vec<Option<Record>>) -> u64 {
        (lines.len() as u64) << 32 | (r::damaged(&lines) as u64) << 16
    }
    /// 1 where the log is accepted and its last line has no line feed.
    fn unended(log: &[u8]) -> u64 {
        u64::from(log.len() <= LOG_MAX && log.last().is_some_and(|&b| b != b'\n'))
    }
    /// A part with its start and its length changed.
    fn moved(part: Option<(usize, &[u8])>, start: i64, bytes: i64) -> u64 {
        part.map_or(0, |(at, part)| ((part.len() as i64 + bytes) << 32 | (at as i64 + start)) as u64)
    }
    let count = |count| Plain { count, ..RIGHT };
    let lines = |lines| Plain { lines, ..RIGHT };
    vec![
        ("a line without line feed left out of the count", count(|log, _| r::count(log) - unended(log) * (1 << 32 | 1 << 16))),
        ("a line without line feed counted as sound", count(|log, _| r::count(log) - unended(log) * (1 << 16))),
        ("damaged counted as sound", count(|log, _| r::count(log) & !0xffff_0000)),
        ("damaged lines left out of the lines", count(|log, _| r::count(log) - ((r::count(log) >> 16 & 0xffff) << 32))),
        (
            "lines and damaged exchanged in the count",
            count(|log, _| match r::count(log) {
                1 => 1,
                n => (n >> 16 & 0xffff) << 32 | n >> 32 << 16,
            }),
        ),
        ("a long log counted", count(|log, _| counted(r::read_log(log)))),
        ("a long log refused, and counted too", count(|log, _| r::count(log) & 1 | counted(r::read_log(log)))),
        ("61,440 bytes not counted", count(|log, _| if log.len() >= LOG_MAX { 1 } else { r::count(log) })),
        (
            "the last line feed left out of the part",
            lines(|log, first, last| {
                let part = r::part(log, first, last);
                moved(part, 0, -i64::from(part.is_some_and(|(_, part)| part.ends_with(b"\n"))))
            }),
        ),
        ("a part that starts a byte late", lines(|log, first, last| moved(r::part(log, first, last), 1, 0))),
        (
            "a part from the line feed before it on",
            lines(|log, first, last| {
                let before = i64::from(r::part(log, first, last).is_some_and(|(at, _)| at > 0));
                moved(r::part(log, first, last), -before, before)
            }),
        ),
        (
            "the last line left out of the part",
            lines(|log, first, last| {
                let short = r::part(log, first, last).filter(|_| first < last).and_then(|_| r::part(log, first, last - 1));
                r::part_result(short)
            }),
        ),
        ("start and length exchanged", lines(|log, first, last| r::part_result(r::part(log, first, last)).rotate_left(32))),
        (
            "first above last taken the other way round",
            lines(|log, first, last| r::part_result(r::part(log, first.min(last), first.max(last)))),
        ),
        (
            "a last line that does not exist taken for the last one",
            lines(|log, first, last| r::part_result(r::part(log, first, last.min((r::lines(log).len() as u32).saturating_sub(1))))),
        ),
        (
            "an empty part at the log's end",
            lines(|log, first, last| r::part(log, first, last).map_or(log.len() as u64, |part| r::part_result(Some(part)))),
        ),
        ("the lines of a long log", lines(|log, first, last| r::part_result(r::part(&log[..log.len().min(LOG_MAX)], first, last)))),
        (
            "61,440 bytes taken for a long log",
            lines(|log, first, last| if log.len() >= LOG_MAX { 0 } else { r::part_result(r::part(log, first, last)) }),
        ),
    ]
}
