//! Wrong variants of what is shown directly below a node.

use crate::plain::{Plain, RIGHT};
use crate::reference::{self as r, inside, Op, Stretch};
use crate::shown::{in_turn, Below, Node, Way};
use std::cmp::Reverse;

pub type Variants = Vec<(&'static str, Plain)>;

/// The wrong variants.
pub fn variants() -> Variants {
    [over_or(), over_and(), over_turns(), over_filters(), over_in(), over_out_and_has()].concat()
}

fn by(below: Way) -> Plain {
    Plain { below, ..RIGHT }
}

/// What `other` gives below an operator, and below the others what is right.
fn at<'a>(op: Op, node: &'a Node, a: Stretch, other: impl Fn() -> Below<'a>) -> Below<'a> {
    if node.op == Some(op) {
        return other();
    }
    (RIGHT.below)(node, a)
}

/// Each operand for which `choose` finds a stretch.
fn each<'a>(node: &'a Node, choose: impl Fn(&Node) -> Option<Stretch>) -> Below<'a> {
    node.operands.iter().filter_map(|operand| choose(operand).map(|b| (operand, b))).collect()
}

/// The first of a node's stretches that are like this.
fn first(node: &Node, like: impl Fn(Stretch) -> bool) -> Option<Stretch> {
    node.list.iter().copied().find(|&b| like(b))
}

/// The last of them.
fn last(node: &Node, like: impl Fn(Stretch) -> bool) -> Option<Stretch> {
    node.list.iter().rev().copied().find(|&b| like(b))
}

/// Below an operator A's stretch, and of B what `choose` finds.
fn with_b(op: Op, node: &Node, a: Stretch, choose: fn(&Node, Stretch) -> Option<Stretch>) -> Below<'_> {
    at(op, node, a, || {
        let b = &node.operands[1];
        [(&node.operands[0], a)].into_iter().chain(choose(b, a).map(|c| (b, c))).collect()
    })
}

/// A's first stretch.
fn of_a(node: &Node, a: Stretch) -> Below<'_> {
    vec![(&node.operands[0], first(&node.operands[0], |_| true).unwrap_or(a))]
}

/// The operand of an `or`.
fn over_or() -> Variants {
    /// Of the operands with a stretch that is like this, the one at a place, given their number.
    fn one(node: &Node, a: Stretch, like: fn(Stretch, Stretch) -> bool, place: fn(usize) -> usize) -> Below<'_> {
        at(Op::Or, node, a, || {
            let all = each(node, |o| first(o, |b| like(b, a)));
            all.get(place(all.len())).into_iter().copied().collect()
        })
    }
    vec![
        ("or showing the last operand that has the stretch", by(|node, a| one(node, a, |b, a| b == a, |n| n.max(1) - 1))),
        ("or showing the second operand that has the stretch", by(|node, a| one(node, a, |b, a| b == a, |n| n.clamp(1, 2) - 1))),
        ("or showing an operand with the same start", by(|node, a| one(node, a, |b, a| b.s == a.s, |_| 0))),
        ("or showing an operand with the same end", by(|node, a| one(node, a, |b, a| b.e == a.e, |_| 0))),
        ("or showing its first operand's first stretch", by(|node, a| one(node, a, |_, _| true, |_| 0))),
        ("or showing every operand that has the stretch", by(|node, a| at(Op::Or, node, a, || each(node, |o| first(o, |b| b == a))))),
        ("or showing nothing below", by(|node, a| at(Op::Or, node, a, Vec::new))),
        ("or of leaves showing nothing below", {
            by(|node, a| at(Op::Or, node, a, || each(node, |o| first(o, |b| b == a && o.op.is_some())).into_iter().take(1).collect()))
        }),
    ]
}

/// The stretches inside an `and`.
fn over_and() -> Variants {
    /// Each operand's stretch as `choose` finds it.
    fn by_each(node: &Node, a: Stretch, choose: fn(&Node, Stretch) -> Option<Stretch>) -> Below<'_> {
        at(Op::And, node, a, || each(node, |o| choose(o, a)))
    }
    vec![
        ("and showing the last stretch inside", by(|node, a| by_each(node, a, |o, a| last(o, |b| inside(b, a))))),
        ("and showing each operand's first stretch", by(|node, a| by_each(node, a, |o, _| first(o, |_| true)))),
        ("and showing the last stretch that starts inside", by(|node, a| by_each(node, a, |o, a| last(o, |b| b.s <= a.e)))),
        ("and showing the longest stretch inside", {
            by(|node, a| {
                by_each(node, a, |o, a| {
                    let all = o.list.iter().copied().filter(|&b| inside(b, a));
                    all.max_by_key(|&b| (r::length(b), Reverse(b.s)))
                })
            })
        }),
        ("and showing only what reaches an end", {
            by(|node, a| by_each(node, a, |o, a| first(o, |b| inside(b, a)).filter(|b| b.s == a.s || b.e == a.e)))
        }),
        ("and showing every stretch inside", {
            by(|node, a| {
                at(Op::And, node, a, || {
                    let all = node.operands.iter().flat_map(|o| o.list.iter().map(move |&b| (o, b)));
                    all.filter(|&(_, b)| inside(b, a)).collect()
                })
            })
        }),
        ("and showing one operand after another", { by(|node, a| at(Op::And, node, a, || in_turn(node, a, |before, b| b.s > before.e))) }),
    ]
}

/// The turns of `row` and `then`.
fn over_turns() -> Variants {
    /// Each operand's last stretch inside `a` that starts after the one before.
    fn latest(node: &Node, a: Stretch) -> Below<'_> {
        let mut before = None;
        let mut next = |o: &Node| {
            before = last(o, |b| inside(b, a) && before.map_or(b.s == a.s, |before: Stretch| b.s > before.e)).or(before);
            before
        };
        node.operands.iter().filter_map(|o| next(o).map(|b| (o, b))).collect()
    }
    /// From the last operand to the first, each one's last stretch that ends before the one after it.
    fn from_the_end(node: &Node, a: Stretch) -> Below<'_> {
        let mut end = a.e + 1;
        let mut back = |o: &Node| {
            let b = last(o, |b| b.e < end && b.s >= a.s);
            end = b.map_or(end, |b| b.s);
            b
        };
        let mut all: Below = node.operands.iter().rev().filter_map(|o| back(o).map(|b| (o, b))).collect();
        all.reverse();
        all
    }
    /// From the first operand's first stretch on.
    fn from_the_first(node: &Node, a: Stretch) -> Below<'_> {
        in_turn(node, first(&node.operands[0], |_| true).unwrap_or(a), |before, b| b.s > before.e)
    }
    /// What is right without so many of the last operands.
    fn without(node: &Node, a: Stretch, lacking: usize) -> Below<'_> {
        let kept = node.operands.len().saturating_sub(lacking).max(1);
        (RIGHT.below)(node, a).into_iter().take(kept).collect()
    }
    vec![
        ("then showing what overlaps by a line", by(|node, a| at(Op::Then, node, a, || in_turn(node, a, |before, b| b.s >= before.e)))),
        ("then leaving a line between", by(|node, a| at(Op::Then, node, a, || in_turn(node, a, |before, b| b.s > before.e + 1)))),
        ("then as row", by(|node, a| at(Op::Then, node, a, || in_turn(node, a, |before, b| b.s == before.e + 1)))),
        ("then showing the last allowed", by(|node, a| at(Op::Then, node, a, || latest(node, a)))),
        ("then chosen from the end back", by(|node, a| at(Op::Then, node, a, || from_the_end(node, a)))),
        ("then as and", by(|node, a| at(Op::Then, node, a, || each(node, |o| first(o, |b| inside(b, a)))))),
        ("then from its first operand's first stretch", by(|node, a| at(Op::Then, node, a, || from_the_first(node, a)))),
        ("then without its last operand", by(|node, a| at(Op::Then, node, a, || without(node, a, 1)))),
        ("row overlapping by a line", by(|node, a| at(Op::Row, node, a, || in_turn(node, a, |before, b| b.s >= before.e)))),
        ("row leaving a line between", by(|node, a| at(Op::Row, node, a, || in_turn(node, a, |before, b| b.s > before.e + 1)))),
        ("row as and", by(|node, a| at(Op::Row, node, a, || each(node, |o| first(o, |b| inside(b, a)))))),
        ("row from its first operand's first stretch", by(|node, a| at(Op::Row, node, a, || from_the_first(node, a)))),
        ("row with its first operand alone", by(|node, a| at(Op::Row, node, a, || without(node, a, 31)))),
    ]
}

/// Below `less` and `max`.
fn over_filters() -> Variants {
    vec![
        ("less showing B's node", by(|node, a| with_b(Op::Less, node, a, |_, a| Some(a)))),
        ("less showing B's first stretch", by(|node, a| with_b(Op::Less, node, a, |b, _| first(b, |_| true)))),
        ("less showing what of B shares a line with it", by(|node, a| with_b(Op::Less, node, a, |b, a| first(b, |c| r::share_line(c, a))))),
        ("less showing what of B it lies in", by(|node, a| with_b(Op::Less, node, a, |b, a| first(b, |c| inside(a, c))))),
        ("less showing nothing below", by(|node, a| at(Op::Less, node, a, Vec::new))),
        ("max showing nothing below", by(|node, a| at(Op::Max, node, a, Vec::new))),
        ("less showing A's first stretch", by(|node, a| at(Op::Less, node, a, || of_a(node, a)))),
        ("max showing A's first stretch", by(|node, a| at(Op::Max, node, a, || of_a(node, a)))),
    ]
}

/// A and B of an `in`.
fn over_in() -> Variants {
    /// What is right with another stretch of A.
    fn with_a(node: &Node, a: Stretch, other: impl Fn(&Below) -> Stretch) -> Below<'_> {
        at(Op::In, node, a, || {
            let mut all = (RIGHT.below)(node, a);
            all[0].1 = other(&all);
            all
        })
    }
    vec![
        ("in showing nothing of B", by(|node, a| with_b(Op::In, node, a, |_, _| None))),
        ("in showing the last of B that holds it", by(|node, a| with_b(Op::In, node, a, |b, a| last(b, |c| inside(a, c))))),
        ("in showing B's first stretch", by(|node, a| with_b(Op::In, node, a, |b, _| first(b, |_| true)))),
        ("in showing what of B shares a line with it", by(|node, a| with_b(Op::In, node, a, |b, a| first(b, |c| r::share_line(c, a))))),
        ("in showing what of B starts before it", by(|node, a| with_b(Op::In, node, a, |b, a| first(b, |c| c.s <= a.s)))),
        ("in showing what of B ends after it", by(|node, a| with_b(Op::In, node, a, |b, a| first(b, |c| c.e > a.e)))),
        ("in showing what of B is inside it", by(|node, a| with_b(Op::In, node, a, |b, a| first(b, |c| inside(c, a))))),
        ("in showing of B its own stretch", by(|node, a| with_b(Op::In, node, a, |_, a| Some(a)))),
        ("in showing no equal one of B", by(|node, a| with_b(Op::In, node, a, |b, a| first(b, |c| c != a && inside(a, c))))),
        ("in showing the shortest of B that holds it", {
            by(|node, a| {
                with_b(Op::In, node, a, |b, a| b.list.iter().copied().filter(|&c| inside(a, c)).min_by_key(|&c| (r::length(c), c.s)))
            })
        }),
        ("in showing every one of B that holds it", {
            by(|node, a| {
                at(Op::In, node, a, || {
                    let b = &node.operands[1];
                    let all = b.list.iter().filter(|&&c| inside(a, c)).map(|&c| (b, c));
                    [(&node.operands[0], a)].into_iter().chain(all).collect()
                })
            })
        }),
        ("in showing B alone", by(|node, a| at(Op::In, node, a, || (RIGHT.below)(node, a).split_off(1)))),
        ("in showing B before A", by(|node, a| at(Op::In, node, a, || (RIGHT.below)(node, a).into_iter().rev().collect()))),
        ("in showing nothing below", by(|node, a| at(Op::In, node, a, Vec::new))),
        ("in showing of A what it shows of B", by(|node, a| with_a(node, a, |all| all[all.len() - 1].1))),
        ("in showing A's first stretch", by(|node, a| with_a(node, a, |all| first(all[0].0, |_| true).unwrap_or(all[0].1)))),
    ]
}

/// A and B of an `out` and of a `has`.
fn over_out_and_has() -> Variants {
    vec![
        ("out showing B's first stretch", by(|node, a| with_b(Op::Out, node, a, |b, _| first(b, |_| true)))),
        ("out showing what of B shares a line with it", by(|node, a| with_b(Op::Out, node, a, |b, a| first(b, |c| r::share_line(c, a))))),
        ("out showing what of B is inside it", by(|node, a| with_b(Op::Out, node, a, |b, a| first(b, |c| inside(c, a))))),
        ("out showing of B its own stretch", by(|node, a| with_b(Op::Out, node, a, |_, a| Some(a)))),
        ("out showing nothing below", by(|node, a| at(Op::Out, node, a, Vec::new))),
        ("out showing A's first stretch", by(|node, a| at(Op::Out, node, a, || of_a(node, a)))),
        ("has showing nothing of B", by(|node, a| with_b(Op::Has, node, a, |_, _| None))),
        ("has showing the last of B inside it", by(|node, a| with_b(Op::Has, node, a, |b, a| last(b, |c| inside(c, a))))),
        ("has showing B's first stretch", by(|node, a| with_b(Op::Has, node, a, |b, _| first(b, |_| true)))),
        ("has showing what of B shares a line with it", by(|node, a| with_b(Op::Has, node, a, |b, a| first(b, |c| r::share_line(c, a))))),
        ("has showing what of B it lies in", by(|node, a| with_b(Op::Has, node, a, |b, a| first(b, |c| inside(a, c))))),
        ("has showing of B its own stretch", by(|node, a| with_b(Op::Has, node, a, |_, a| Some(a)))),
        ("has showing no equal one of B", by(|node, a| with_b(Op::Has, node, a, |b, a| first(b, |c| c != a && inside(c, a))))),
        ("has showing the longest of B inside it", {
            by(|node, a| {
                with_b(Op::Has, node, a, |b, a| {
                    b.list.iter().copied().filter(|&c| inside(c, a)).max_by_key(|&c| (r::length(c), Reverse(c.s)))
                })
            })
        }),
        ("has showing nothing below", by(|node, a| at(Op::Has, node, a, Vec::new))),
        ("has showing A's first stretch", by(|node, a| at(Op::Has, node, a, || of_a(node, a)))),
    ]
}
