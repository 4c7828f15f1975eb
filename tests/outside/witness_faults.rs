//! Wrong variants of the call that shows the lines that made an answer: another reading, other numbers, other answers, other parts.

use crate::lane_faults::{changed, is_padded};
use crate::plain::{Plain, RIGHT};
use crate::reference::{self as r, Op, Record, Stretch, Tree};
use crate::shown::{self, Node, Triple};
use crate::shown_faults::{self, Variants};
use crate::triple_faults;
use std::cmp::Reverse;

/// The wrong variants.
pub fn variants() -> Variants {
    [shown_faults::variants(), over_reading(), over_numbers(), over_answers(), over_parts(), over_b(), triple_faults::variants()].concat()
}

/// A log read in another way than by the other calls.
fn over_reading() -> Variants {
    /// The outermost node over these lines.
    fn over(tree: &Tree, lines: &[Option<Record>]) -> Node {
        shown::node(tree, 0, lines, RIGHT.apply, &|a| r::sound_lines(lines, a))
    }
    let node = |node| Plain { node, ..RIGHT };
    vec![
        ("damaged lines counted in witnesses", node(|_, tree, log| shown::node(tree, 0, &r::read_log(log), RIGHT.apply, &r::length))),
        ("damaged lines passed over in witnesses", {
            node(|_, tree, log| over(tree, &r::read_log(log).into_iter().filter(Option::is_some).collect::<Vec<_>>()))
        }),
        ("padded lanes damaged in witnesses", node(|_, tree, log| over(tree, &changed(log, |f| is_padded(f[1]).then_some((1, "")))))),
    ]
}

/// What is rightly shown of the answer of a number.
fn shown(root: &Node, number: u64) -> Vec<Triple> {
    shown::of_number(root, number, RIGHT.below)
}

fn showing(shown: fn(&Plain, &Node, u64) -> Vec<Triple>) -> Plain {
    Plain { shown, ..RIGHT }
}

/// The nodes in the order in which the pattern is read, each with its depth.
fn read(node: &Node, depth: usize, all: &mut Vec<(Node, usize)>) {
    all.push((node.clone(), depth));
    node.operands.iter().for_each(|operand| read(operand, depth + 1, all));
}

/// The number of a node's last one below.
fn last(node: &Node) -> u32 {
    node.operands.last().map_or(node.number, last)
}

/// What is shown with the nodes' numbers as `number` gives them, in their order.
fn renumbered(root: &Node, answer: u64, number: impl Fn(&[(Node, usize)], u32) -> u32) -> Vec<Triple> {
    let mut nodes = Vec::new();
    read(root, 0, &mut nodes);
    let other = |part: Triple| Triple { node: number(&nodes, part.node), ..part };
    let mut all: Vec<Triple> = shown(root, answer).into_iter().map(other).collect();
    all.sort_by_key(|part| part.node);
    all
}

/// The number of nodes that are before this one by `before`.
fn place(nodes: &[(Node, usize)], of: u32, before: impl Fn(&(Node, usize), &(Node, usize)) -> bool) -> u32 {
    nodes.iter().filter(|other| before(other, &nodes[of as usize])).count() as u32
}

/// Nodes in another order of numbering, or with other numbers.
fn over_numbers() -> Variants {
    vec![
        ("nodes numbered from 1", showing(|_, root, number| renumbered(root, number, |_, n| n + 1))),
        (
            "nodes numbered by depth",
            showing(|_, root, number| renumbered(root, number, |nodes, n| place(nodes, n, |a, b| (a.1, a.0.number) < (b.1, b.0.number)))),
        ),
        (
            "operators numbered after their operands",
            showing(|_, root, number| {
                renumbered(root, number, |nodes, n| place(nodes, n, |a, b| (last(&a.0), Reverse(a.1)) < (last(&b.0), Reverse(b.1))))
            }),
        ),
        (
            "leaves not counted",
            showing(|_, root, number| {
                renumbered(root, number, |nodes, n| place(nodes, n, |a, b| a.0.op.is_some() && a.0.number < b.0.number))
            }),
        ),
        (
            "operators not counted",
            showing(|_, root, number| {
                renumbered(root, number, |nodes, n| place(nodes, n, |a, b| a.0.op.is_none() && a.0.number < b.0.number))
            }),
        ),
        (
            "B's nodes not counted",
            showing(|_, root, number| {
                renumbered(root, number, |nodes, n| {
                    let of_b = |a: &Node| {
                        let lesses = nodes.iter().filter(|(node, _)| node.op == Some(Op::Less));
                        lesses.map(|(less, _)| &less.operands[1]).any(|b| (b.number..=last(b)).contains(&a.number))
                    };
                    place(nodes, n, |a, b| a.0.number < b.0.number && !of_b(&a.0))
                })
            }),
        ),
        (
            "the last operand numbered first",
            showing(|_, root, number| {
                renumbered(root, number, |nodes, n| {
                    let above = |a: &Node, b: &Node| a.number < b.number && b.number <= last(a);
                    place(nodes, n, |a, b| above(&a.0, &b.0) || a.0.number > last(&b.0))
                })
            }),
        ),
        (
            "nodes with the same list numbered alike",
            showing(|_, root, number| {
                renumbered(root, number, |nodes, n| {
                    nodes.iter().position(|(node, _)| node.list == nodes[n as usize].0.list).unwrap_or(0) as u32
                })
            }),
        ),
        (
            "nodes numbered as they are shown",
            showing(|_, root, number| (0..).zip(shown(root, number)).map(|(node, part)| Triple { node, ..part }).collect()),
        ),
    ]
}

/// Another answer than the one of the number.
fn over_answers() -> Variants {
    vec![
        ("answers numbered from 1", showing(|_, root, number| shown(root, number.wrapping_sub(1)))),
        ("the last answer for a number beyond it", {
            showing(|_, root, number| shown(root, number.min((root.list.len() as u64).saturating_sub(1))))
        }),
        ("the number passed over", showing(|_, root, _| shown(root, 0))),
        ("the number cut to 16 bits", showing(|_, root, number| shown(root, number & 0xffff))),
        ("the number cut to 32 bits", showing(|_, root, number| shown(root, number & 0xffff_ffff))),
        ("the number without its highest bit", showing(|_, root, number| shown(root, number & (u64::MAX >> 1)))),
        (
            "answers from the last back",
            showing(|_, root, number| shown(root, (root.list.len() as u64).wrapping_sub(number.wrapping_add(1)))),
        ),
        (
            "the first answer from a line on",
            showing(|_, root, number| {
                let answer = root.list.iter().find(|a| u64::from(a.s) >= number);
                answer.map_or(vec![], |&a| shown::shown(root, a, RIGHT.below))
            }),
        ),
        (
            "the number counted among A's stretches",
            showing(|_, root, number| match root.op {
                Some(op) if op.filters() => {
                    let answer = usize::try_from(number).ok().and_then(|number| root.operands[0].list.get(number));
                    answer.map_or(vec![], |&a| shown::shown(root, a, RIGHT.below))
                }
                _ => shown(root, number),
            }),
        ),
        ("no answer after the first 64", showing(|_, root, number| if number < 64 { shown(root, number) } else { vec![] })),
    ]
}

/// Parts left out, changed, or in another order.
fn over_parts() -> Variants {
    /// The operator of the node with a number; None for a leaf.
    fn kind(node: &Node, number: u32) -> Option<Op> {
        let below = || node.operands.iter().find_map(|operand| kind(operand, number));
        if node.number == number {
            node.op
        } else {
            below()
        }
    }
    fn only(root: &Node, number: u64, keep: impl Fn(usize, Triple) -> bool) -> Vec<Triple> {
        shown(root, number).into_iter().enumerate().filter(|&(i, part)| keep(i, part)).map(|(_, part)| part).collect()
    }
    fn ordered<K: Ord>(root: &Node, number: u64, key: impl Fn(&Triple) -> K) -> Vec<Triple> {
        let mut all = shown(root, number);
        all.sort_by_key(key);
        all
    }
    vec![
        ("the outermost node left out", showing(|_, root, number| only(root, number, |i, _| i > 0))),
        ("operators left out", showing(|_, root, number| only(root, number, |_, part| kind(root, part.node).is_none()))),
        ("leaves left out", showing(|_, root, number| only(root, number, |_, part| kind(root, part.node).is_some()))),
        (
            "parts that start 64 lines after the answer left out",
            showing(|_, root, number| {
                let start = shown(root, number).first().map_or(0, |part| part.stretch.s);
                only(root, number, |_, part| part.stretch.s < start + 64)
            }),
        ),
        ("filters left out", showing(|_, root, number| only(root, number, |_, part| !kind(root, part.node).is_some_and(Op::filters)))),
        ("16 triples at most", showing(|_, root, number| only(root, number, |i, _| i < 16))),
        ("31 triples at most", showing(|_, root, number| only(root, number, |i, _| i < 31))),
        (
            "what is directly below alone",
            showing(|_, root, number| {
                only(root, number, |_, part| part.node == 0 || root.operands.iter().any(|operand| operand.number == part.node))
            }),
        ),
        ("the first leaf twice", {
            showing(|_, root, number| {
                let mut all = shown(root, number);
                let leaf = all.iter().position(|part| kind(root, part.node).is_none());
                leaf.into_iter().for_each(|i| all.insert(i, all[i]));
                all
            })
        }),
        ("parts in order of their starts", showing(|_, root, number| ordered(root, number, |part| (part.stretch.s, part.node)))),
        ("parts in order of their ends", showing(|_, root, number| ordered(root, number, |part| (part.stretch.e, part.node)))),
        ("the last node first", showing(|_, root, number| ordered(root, number, |part| Reverse(part.node)))),
        (
            "every part with the answer's stretch",
            showing(|_, root, number| {
                let all = shown(root, number);
                all.iter().map(|part| Triple { stretch: all[0].stretch, ..*part }).collect()
            }),
        ),
        (
            "lines counted from 1",
            showing(|_, root, number| {
                let later = |part: Triple| Triple { stretch: Stretch { s: part.stretch.s + 1, e: part.stretch.e + 1 }, ..part };
                shown(root, number).into_iter().map(later).collect()
            }),
        ),
    ]
}

/// What `in` and `has` show of B, and the spans above it.
fn over_b() -> Variants {
    /// What is shown without what is below B of an operator.
    fn cut_at_b(root: &Node, number: u64, op: Op) -> Vec<Triple> {
        let mut nodes = Vec::new();
        read(root, 0, &mut nodes);
        let below_b = |part: &Triple| {
            let all_b = nodes.iter().filter(|(node, _)| node.op == Some(op)).map(|(node, _)| &node.operands[1]);
            all_b.into_iter().any(|b| b.number < part.node && part.node <= last(b))
        };
        shown(root, number).into_iter().filter(|part| !below_b(part)).collect()
    }
    /// What is shown, each node for which `of` holds with the span of all that is shown of it.
    fn spanned(root: &Node, number: u64, of: impl Fn(&Node) -> bool) -> Vec<Triple> {
        let mut nodes = Vec::new();
        read(root, 0, &mut nodes);
        let all = shown(root, number);
        let span = |part: &Triple| {
            let node = &nodes[part.node as usize].0;
            let parts = all.iter().filter(|other| of(node) && (node.number..=last(node)).contains(&other.node));
            let stretch = parts.fold(part.stretch, |a, b| Stretch { s: a.s.min(b.stretch.s), e: a.e.max(b.stretch.e) });
            Triple { stretch, ..*part }
        };
        all.iter().map(span).collect()
    }
    vec![
        ("in showing nothing below B", showing(|_, root, number| cut_at_b(root, number, Op::In))),
        ("has showing nothing below B", showing(|_, root, number| cut_at_b(root, number, Op::Has))),
        ("in's span taken with B", showing(|_, root, number| spanned(root, number, |node| node.op == Some(Op::In)))),
        ("the spans above in taken with B", showing(|_, root, number| spanned(root, number, |node| node.op != Some(Op::In)))),
        ("every span taken with B", showing(|_, root, number| spanned(root, number, |_| true))),
    ]
}
