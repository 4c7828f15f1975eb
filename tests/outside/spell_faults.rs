//! Wrong variants of what `max` counts, of operators at damaged lines, and of picks over them.

use crate::lane_faults::{changed, is_padded};
use crate::plain::{Call, Plain, RIGHT};
use crate::reference::{self as r, Layout, List, Measure, Op, Record, Stretch, Tree};
use std::cmp::Reverse;

/// The readings of a log's lines.
type Lines = [Option<Record>];

/// The wrong variants.
pub fn variants() -> Vec<(&'static str, Plain)> {
    let mut all = over_ends();
    all.extend(over_lines());
    all.extend(over_words());
    all.extend(over_bounds());
    all.extend(over_lists());
    all.extend(over_patterns());
    all.extend(over_calls());
    all
}

/// The sound lines of a stretch for which `counts` holds, given the line's number and record.
fn counted(log: &Lines, a: Stretch, counts: impl Fn(u32, Record) -> bool) -> u32 {
    (a.s..=a.e).filter(|&p| log[p as usize].is_some_and(|record| counts(p, record))).count() as u32
}

/// The sound lines from `s` to `e`, where the log has them.
fn sound(log: &Lines, s: u32, e: u32) -> u32 {
    log.iter().take(e as usize + 1).skip(s as usize).flatten().count() as u32
}

/// Lines counted from or to a wrong one.
fn over_ends() -> Vec<(&'static str, Plain)> {
    let by = |sound_lines| Plain { sound_lines, ..RIGHT };
    vec![
        ("the first line not counted", by(|log, a| sound(log, a.s + 1, a.e))),
        ("the last line not counted", by(|log, a| if a.e == 0 { 0 } else { sound(log, a.s, a.e - 1) })),
        ("neither end counted", by(|log, a| counted(log, a, |p, _| p != a.s && p != a.e))),
        ("fewer than k sound lines", by(|log, a| sound(log, a.s, a.e) + 1)),
        ("the line before the start counted", by(|log, a| sound(log, a.s.saturating_sub(1), a.e))),
        ("the line after the end counted", by(|log, a| sound(log, a.s, a.e + 1))),
        ("lines counted from line 0 on", by(|log, a| sound(log, 0, a.e))),
        ("lines counted to the log's end", by(|log, a| sound(log, a.s, log.len() as u32))),
        ("all lines of the log counted", by(|log, _| sound(log, 0, log.len() as u32))),
        ("line 0 not counted", by(|log, a| counted(log, a, |p, _| p != 0))),
        ("the log's last line not counted", by(|log, a| counted(log, a, |p, _| p as usize + 1 != log.len()))),
    ]
}

/// A list with lines counted as another reading of the log has them, the same lines matching.
fn by_reading(tree: &Tree, log: &[u8], other: Vec<Option<Record>>) -> List {
    r::evaluate(tree, &r::read_log(log), RIGHT.apply, &|a| r::sound_lines(&other, a))
}

/// A record of any sound line.
const ANY: Record = Record { layout: Layout::One, lane: 1, code: 1, frame: 0, pins: 0 };

/// The readings, those damaged lines taken for sound for which `counts` holds.
fn with(log: &[u8], counts: impl Fn(&[u8]) -> bool) -> Vec<Option<Record>> {
    r::lines(log).into_iter().map(|line| r::record(line).or_else(|| counts(line).then_some(ANY))).collect()
}

/// The wrong lines counted.
fn over_lines() -> Vec<(&'static str, Plain)> {
    let by = |sound_lines| Plain { sound_lines, ..RIGHT };
    let list = |list| Plain { list, ..RIGHT };
    vec![
        ("damaged lines counted too", by(|_, a| r::length(a))),
        ("damaged lines alone counted", by(|log, a| r::length(a) - r::sound_lines(log, a))),
        ("no line counted", by(|_, _| 0)),
        (
            "a spell of damaged lines counted as a line",
            by(|log, a| {
                let starts = (a.s + 1..=a.e).filter(|&p| log[p as usize].is_none() && log[p as usize - 1].is_some());
                r::sound_lines(log, a) + starts.count() as u32
            }),
        ),
        ("counting ended by a damaged line", by(|log, a| (a.s..=a.e).take_while(|&p| log[p as usize].is_some()).count() as u32)),
        ("counting begun anew by a damaged line", {
            by(|log, a| (a.s..=a.e).rev().take_while(|&p| log[p as usize].is_some()).count() as u32)
        }),
        ("layout 1 not counted", by(|log, a| counted(log, a, |_, record| record.layout != Layout::One))),
        ("layout 2 not counted", by(|log, a| counted(log, a, |_, record| record.layout == Layout::One))),
        ("lines outside any frame not counted", by(|log, a| counted(log, a, |_, record| record.frame > 0))),
        ("lines without pins not counted", by(|log, a| counted(log, a, |_, record| record.pins > 0))),
        ("lanes from ten on not counted", by(|log, a| counted(log, a, |_, record| record.lane < 10))),
        ("lines of the first line's lane alone counted", {
            by(|log, a| counted(log, a, |_, record| log[a.s as usize].is_some_and(|first| first.lane == record.lane)))
        }),
        ("lines of the first line's code alone counted", {
            by(|log, a| counted(log, a, |_, record| log[a.s as usize].is_some_and(|first| first.code == record.code)))
        }),
        ("padded lanes not counted", {
            list(|_, _, tree, log| by_reading(tree, log, changed(log, |f| is_padded(f[1]).then_some((1, "")))))
        }),
        ("empty lines counted", list(|_, _, tree, log| by_reading(tree, log, with(log, |line| line == b"\n")))),
        ("empty lines alone not counted", list(|_, _, tree, log| by_reading(tree, log, with(log, |line| line != b"\n")))),
        ("lines with a carriage return counted", {
            list(|_, _, tree, log| by_reading(tree, log, with(log, |line| line.ends_with(b"\r\n"))))
        }),
        ("lines with enough commas counted", {
            list(|_, _, tree, log| by_reading(tree, log, with(log, |line| line.iter().filter(|&&b| b == b',').count() == 4)))
        }),
        ("lane 00 counted", list(|_, _, tree, log| by_reading(tree, log, changed(log, |f| (f[1] == "00").then_some((1, "1")))))),
    ]
}

/// The first line of the word of 64 that a line is in.
fn word(p: u32) -> u32 {
    p / 64 * 64
}

/// Lines miscounted where words of 64 begin and end.
fn over_words() -> Vec<(&'static str, Plain)> {
    let by = |sound_lines| Plain { sound_lines, ..RIGHT };
    vec![
        ("counting begun anew in each word", by(|log, a| sound(log, a.s.max(word(a.e)), a.e))),
        ("counting ended with the first word", by(|log, a| sound(log, a.s, a.e.min(word(a.s) + 63)))),
        ("the first word counted whole", by(|log, a| sound(log, word(a.s), a.e))),
        ("the last word counted whole", by(|log, a| sound(log, a.s, word(a.e) + 63))),
        ("the count of the word before taken for the end", {
            by(|log, a| {
                let before = word(a.e).saturating_sub(64).checked_sub(1).map_or(0, |e| sound(log, 0, e));
                let to_start = a.s.checked_sub(1).map_or(0, |e| sound(log, 0, e));
                (before + sound(log, word(a.e), a.e)).saturating_sub(to_start)
            })
        }),
        ("the count of the word before taken for the start", {
            by(|log, a| {
                let before = word(a.s).saturating_sub(64).checked_sub(1).map_or(0, |e| sound(log, 0, e));
                let in_word = if a.s % 64 == 0 { 0 } else { sound(log, word(a.s), a.s - 1) };
                sound(log, 0, a.e) - before - in_word
            })
        }),
        ("a stretch in one word counted from its start", {
            by(|log, a| sound(log, if word(a.s) == word(a.e) { word(a.s) } else { a.s }, a.e))
        }),
        ("a stretch in one word taken for one line", { by(|log, a| if word(a.s) == word(a.e) { 1 } else { r::sound_lines(log, a) }) }),
        ("a stretch in one word measured by all lines", {
            by(|log, a| if word(a.s) == word(a.e) { r::length(a) } else { r::sound_lines(log, a) })
        }),
        ("a stretch over several words measured by all lines", {
            by(|log, a| if word(a.s) == word(a.e) { r::sound_lines(log, a) } else { r::length(a) })
        }),
        ("words between the first and the last not counted", {
            by(|log, a| counted(log, a, |p, _| word(p) == word(a.s) || word(p) == word(a.e)))
        }),
        ("the first line of each word not counted", by(|log, a| counted(log, a, |p, _| p % 64 != 0))),
        ("the last line of each word not counted", by(|log, a| counted(log, a, |p, _| p % 64 != 63))),
        ("nothing of a last word that ends with the stretch", {
            by(|log, a| if a.e % 64 == 63 { counted(log, a, |p, _| p < word(a.e)) } else { r::sound_lines(log, a) })
        }),
        ("nothing of a first word that starts with the stretch", {
            by(|log, a| if a.s % 64 == 0 { sound(log, a.s + 64, a.e) } else { r::sound_lines(log, a) })
        }),
        ("64 sound lines of a word taken for none", {
            by(|log, a| {
                let full = |first: u32| sound(log, first, first + 63) == 64;
                counted(log, a, |p, _| word(p) < a.s || word(p) + 63 > a.e || !full(word(p)))
            })
        }),
        ("a word of damaged lines counted", {
            by(|log, a| {
                let words = (word(a.s)..=word(a.e)).step_by(64).filter(|&first| first >= a.s && first + 63 <= a.e);
                r::sound_lines(log, a) + 64 * words.filter(|&first| sound(log, first, first + 63) == 0).count() as u32
            })
        }),
    ]
}

/// Counts and k that do not fit.
fn over_bounds() -> Vec<(&'static str, Plain)> {
    let by = |sound_lines| Plain { sound_lines, ..RIGHT };
    let apply = |apply| Plain { apply, ..RIGHT };
    vec![
        ("counts cut to 8 bits", by(|log, a| r::sound_lines(log, a) & 0xff)),
        ("counts cut to 12 bits", by(|log, a| r::sound_lines(log, a) & 0xfff)),
        ("counts of 255 at most", by(|log, a| r::sound_lines(log, a).min(255))),
        ("lines from 4,096 on not counted", by(|log, a| counted(log, a, |p, _| p < 4_096))),
        ("lines from 32,768 on not counted", by(|log, a| counted(log, a, |p, _| p < 32_768))),
        ("k cut to 8 bits", apply(|op, k, lists, m| (RIGHT.apply)(op, k & 0xff, lists, m))),
        ("k cut to 12 bits", apply(|op, k, lists, m| (RIGHT.apply)(op, k & 0xfff, lists, m))),
        (
            "max finding nothing where it would drop something",
            apply(|op, k, lists, m| match op {
                Op::Max if lists[0].iter().any(|&a| m(a) > k) => vec![],
                _ => (RIGHT.apply)(op, k, lists, m),
            }),
        ),
        (
            "max ended by the first stretch that it drops",
            apply(|op, k, lists, m| match op {
                Op::Max => lists[0].iter().copied().take_while(|&a| m(a) <= k).collect(),
                _ => (RIGHT.apply)(op, k, lists, m),
            }),
        ),
    ]
}

/// Over lists something else than end - start + 1.
fn over_lists() -> Vec<(&'static str, Plain)> {
    fn apply(op: Op, k: u32, lists: &[List], measure: Measure) -> List {
        (RIGHT.apply)(op, k, lists, measure)
    }
    let over = |over_lists| Plain { over_lists, ..RIGHT };
    vec![
        ("over lists a line less", over(|_, op, k, lists| apply(op, k, lists, &|a| a.e - a.s))),
        ("over lists a line more", over(|_, op, k, lists| apply(op, k, lists, &|a| a.e - a.s + 2))),
        ("over lists every stretch kept", over(|_, op, k, lists| apply(op, k, lists, &|_| 0))),
        ("over lists by the end alone", over(|_, op, k, lists| apply(op, k, lists, &|a| a.e))),
        ("over lists the starts in a stretch counted", {
            over(|_, op, k, lists| apply(op, k, lists, &|a| lists[0].iter().filter(|b| (a.s..=a.e).contains(&b.s)).count() as u32))
        }),
        ("over lists the positions in the list counted", {
            over(|_, op, k, lists| {
                let listed = |p: &u32| lists[0].iter().any(|b| b.s == *p || b.e == *p);
                apply(op, k, lists, &|a| if a.e - a.s < 300 { (a.s..=a.e).filter(listed).count() as u32 } else { r::length(a) })
            })
        }),
        ("over lists lengths cut to 16 bits", over(|_, op, k, lists| apply(op, k, lists, &|a| r::length(a) & 0xffff))),
        ("over lists lengths cut to 8 bits", over(|_, op, k, lists| apply(op, k, lists, &|a| r::length(a) & 0xff))),
    ]
}

/// The list of a tree in a log, where `apply` gives the list of an operator's node from its operands' lists.
fn by_node(tree: &Tree, log: &Lines, apply: &dyn Fn(&Tree, &[List]) -> List) -> List {
    match tree {
        Tree::Op { operands, .. } => apply(tree, &operands.iter().map(|t| by_node(t, log, apply)).collect::<Vec<_>>()),
        leaf => r::evaluate(leaf, log, RIGHT.apply, &r::length),
    }
}

/// A node's list by the right operator and a measure.
fn applied(node: &Tree, lists: &[List], measure: Measure) -> List {
    match node {
        Tree::Op { op, k, .. } => (RIGHT.apply)(*op, *k, lists, measure),
        _ => vec![],
    }
}

/// The list of a tree in a log, where the measure goes by what `max` stands over.
fn by_operand(tree: &Tree, log: &[u8], measure: impl Fn(&Lines, &Tree, Stretch) -> u32) -> List {
    let lines = r::read_log(log);
    by_node(tree, &lines, &|node, lists| applied(node, lists, &|a| measure(&lines, &node.operands()[0], a)))
}

/// The same, by all lines over an operator and by sound ones elsewhere.
fn by_lines_over(tree: &Tree, log: &[u8], over: Op) -> List {
    by_operand(tree, log, |lines, operand, a| match operand {
        Tree::Op { op, .. } if *op == over => r::length(a),
        _ => r::sound_lines(lines, a),
    })
}

/// Whether a leaf of a tree holds to `test`.
fn some_leaf(tree: &Tree, test: &dyn Fn(&Tree) -> bool) -> bool {
    match tree {
        Tree::Op { operands, .. } => operands.iter().any(|t| some_leaf(t, test)),
        leaf => test(leaf),
    }
}

/// The lane of a leaf.
fn lane(leaf: &Tree) -> u32 {
    match leaf {
        Tree::Ev { lane, .. } | Tree::Fr { lane, .. } => *lane,
        _ => 0,
    }
}

/// The list of a tree in a log, `max` measuring by one measure at the root and by another below it.
fn by_place(tree: &Tree, log: &[u8], root: fn(&Lines, Stretch) -> u32, below: fn(&Lines, Stretch) -> u32) -> List {
    let lines = r::read_log(log);
    by_node(tree, &lines, &|node, lists| {
        applied(node, lists, &|a| if std::ptr::eq(node, tree) { root(&lines, a) } else { below(&lines, a) })
    })
}

/// The list of a tree in a log, where `apply` gives another list than the right one for some nodes.
fn otherwise(tree: &Tree, log: &[u8], apply: impl Fn(&Lines, &Tree, &[List]) -> Option<List>) -> List {
    let lines = r::read_log(log);
    by_node(tree, &lines, &|node, lists| apply(&lines, node, lists).unwrap_or_else(|| applied(node, lists, &|a| r::sound_lines(&lines, a))))
}

/// The minimal spans of an operator's lists, each stretch after the one before it where `joins` allows the lines between; for short lists.
fn joined(node: &Tree, lists: &[List], of: Op, joins: impl Fn(u32, u32) -> bool) -> Option<List> {
    let short = lists.iter().map(Vec::len).sum::<usize>() < 60;
    let spans = || r::minimal(r::spans(lists, |a, b| b.s > a.e && joins(a.e + 1, b.s)));
    matches!(node, Tree::Op { op, .. } if *op == of && short).then(spans)
}

/// The list of a tree in a log, where an operator passes over those of B that hold a damaged line.
fn passing_over(tree: &Tree, log: &[u8], of: Op) -> List {
    otherwise(tree, log, |lines, node, lists| {
        let sound = |a: &Stretch| r::sound_lines(lines, *a) == r::length(*a);
        matches!(node, Tree::Op { op, .. } if *op == of).then(|| {
            let others = lists[1].iter().copied().filter(sound).collect();
            applied(node, &[lists[0].clone(), others], &r::length)
        })
    })
}

/// Patterns measured here by sound lines and there otherwise, and operators that treat damaged lines otherwise.
fn over_patterns() -> Vec<(&'static str, Plain)> {
    let list = |list| Plain { list, ..RIGHT };
    vec![
        ("matching lines alone counted", {
            list(|_, _, tree, log| {
                by_operand(tree, log, |lines, operand, a| {
                    counted(lines, a, |p, _| some_leaf(operand, &|leaf| leaf.matches(&lines[p as usize])))
                })
            })
        }),
        ("lines of the leaves' lanes alone counted", {
            list(|_, _, tree, log| {
                by_operand(tree, log, |lines, operand, a| {
                    counted(lines, a, |_, record| some_leaf(operand, &|leaf| lane(leaf) == 0 || lane(leaf) == record.lane))
                })
            })
        }),
        ("the outermost max by all lines", list(|_, _, tree, log| by_place(tree, log, |_, a| r::length(a), r::sound_lines))),
        ("max under an operator by all lines", list(|_, _, tree, log| by_place(tree, log, r::sound_lines, |_, a| r::length(a)))),
        ("max over or by all lines", list(|_, _, tree, log| by_lines_over(tree, log, Op::Or))),
        ("max over and by all lines", list(|_, _, tree, log| by_lines_over(tree, log, Op::And))),
        ("max over row by all lines", list(|_, _, tree, log| by_lines_over(tree, log, Op::Row))),
        ("max over then by all lines", list(|_, _, tree, log| by_lines_over(tree, log, Op::Then))),
        ("max over less by all lines", list(|_, _, tree, log| by_lines_over(tree, log, Op::Less))),
        ("max over max by all lines", list(|_, _, tree, log| by_lines_over(tree, log, Op::Max))),
        ("max over in by all lines", list(|_, _, tree, log| by_lines_over(tree, log, Op::In))),
        ("max over out by all lines", list(|_, _, tree, log| by_lines_over(tree, log, Op::Out))),
        ("max over has by all lines", list(|_, _, tree, log| by_lines_over(tree, log, Op::Has))),
        ("max of a leaf finding nothing", {
            list(|_, _, tree, log| {
                otherwise(tree, log, |_, node, _| match node {
                    Tree::Op { op: Op::Max, operands, .. } if operands[0].operands().is_empty() => Some(vec![]),
                    _ => None,
                })
            })
        }),
        ("max over max passed over", {
            list(|_, _, tree, log| {
                otherwise(tree, log, |_, node, lists| match node {
                    Tree::Op { op: Op::Max, operands, .. } if matches!(operands[0], Tree::Op { op: Op::Max, .. }) => Some(lists[0].clone()),
                    _ => None,
                })
            })
        }),
        ("row passing over damaged lines", {
            list(|_, _, tree, log| {
                otherwise(tree, log, |lines, node, lists| {
                    joined(node, lists, Op::Row, |from, to| (from..to).all(|p| lines[p as usize].is_none()))
                })
            })
        }),
        ("row passing over one damaged line", {
            list(|_, _, tree, log| {
                otherwise(tree, log, |lines, node, lists| {
                    joined(node, lists, Op::Row, |from, to| from == to || from + 1 == to && lines[from as usize].is_none())
                })
            })
        }),
        ("then broken by a damaged line", {
            list(|_, _, tree, log| {
                otherwise(tree, log, |lines, node, lists| {
                    joined(node, lists, Op::Then, |from, to| (from..to).all(|p| lines[p as usize].is_some()))
                })
            })
        }),
        ("less passing over stretches with damaged lines", list(|_, _, tree, log| passing_over(tree, log, Op::Less))),
        ("in passing over stretches with damaged lines", list(|_, _, tree, log| passing_over(tree, log, Op::In))),
        ("out passing over stretches with damaged lines", list(|_, _, tree, log| passing_over(tree, log, Op::Out))),
        ("has passing over stretches with damaged lines", list(|_, _, tree, log| passing_over(tree, log, Op::Has))),
    ]
}

/// Damaged lines counted in one call alone, and picks by sound lines.
fn over_calls() -> Vec<(&'static str, Plain)> {
    fn by_lines_in(call: Call, in_call: Call, tree: &Tree, log: &[u8]) -> List {
        by_operand(tree, log, |lines, _, a| if call == in_call { r::length(a) } else { r::sound_lines(lines, a) })
    }
    let list = |list| Plain { list, ..RIGHT };
    let pick_in = |pick_in| Plain { pick_in, ..RIGHT };
    /// Picks with the least of what `order` gives first.
    fn picked(list: &[Stretch], k: u32, order: impl Fn(Stretch) -> u32) -> List {
        let mut ordered = list.to_vec();
        ordered.sort_by_key(|&a| (order(a), Reverse(a.s)));
        let mut picks = List::new();
        for a in ordered {
            if picks.len() < k as usize && !picks.iter().any(|&pick| r::share_line(pick, a)) {
                picks.push(a);
            }
        }
        picks
    }
    vec![
        ("damaged lines counted in fillings", list(|_, call, tree, log| by_lines_in(call, Call::Fill, tree, log))),
        ("damaged lines counted in steps", list(|_, call, tree, log| by_lines_in(call, Call::Steps, tree, log))),
        ("damaged lines counted in picks", list(|_, call, tree, log| by_lines_in(call, Call::Pick, tree, log))),
        (
            "picks by sound lines",
            pick_in(|parts, log, answers, k, cells| match answers {
                Ok(list) if (1..=16).contains(&k) => {
                    let lines = r::read_log(log);
                    r::write(&picked(list, k, |a| r::sound_lines(&lines, a)), cells) << 32
                }
                _ => (parts.pick)(answers, k, cells),
            }),
        ),
        (
            "picks by damaged lines",
            pick_in(|parts, log, answers, k, cells| match answers {
                Ok(list) if (1..=16).contains(&k) => {
                    let lines = r::read_log(log);
                    r::write(&picked(list, k, |a| r::length(a) - r::sound_lines(&lines, a)), cells) << 32
                }
                _ => (parts.pick)(answers, k, cells),
            }),
        ),
    ]
}
