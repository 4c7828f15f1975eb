//! Wrong variants of `in`, `out` and `has`: of what they keep, of the lists that they take, and of their words.

use crate::faults::short;
use crate::lent;
use crate::plain::{Plain, RIGHT};
use crate::reference::{self as r, inside, refused, Apply, List, Op, Refusal, Stretch, Tree, OPS};
use crate::shown_faults::Variants;

/// The wrong variants.
pub fn variants() -> Variants {
    [over_in(), over_out(), over_has(), over_exchanges(), over_long_lists(), over_lent_lists(), over_words(), over_places(), over_bounds()]
        .concat()
}

fn by(apply: Apply) -> Plain {
    Plain { apply, ..RIGHT }
}

/// The plain calls with an operator that keeps those of A for which another test holds, given B.
macro_rules! keeping {
    ($op:pat, $keeps:expr) => {
        by(|op, k, lists, m| {
            let keeps: fn(Stretch, &[Stretch]) -> bool = $keeps;
            match op {
                $op if short(lists) => lists[0].iter().copied().filter(|&a| keeps(a, &lists[1])).collect(),
                _ => (RIGHT.apply)(op, k, lists, m),
            }
        })
    };
}

fn some(b: &[Stretch], like: impl Fn(Stretch) -> bool) -> bool {
    b.iter().any(|&b| like(b))
}

/// The first of B that is like this.
fn first(b: &[Stretch], like: impl Fn(Stretch) -> bool) -> Option<Stretch> {
    b.iter().copied().find(|&b| like(b))
}

/// Whether a line is in a stretch.
fn on(line: u32, b: Stretch) -> bool {
    (b.s..=b.e).contains(&line)
}

/// Whether each line of a stretch is in one of B, be it in several.
fn covered(a: Stretch, b: &[Stretch]) -> bool {
    (a.s..=a.e).all(|line| some(b, |b| on(line, b)))
}

fn over_in() -> Variants {
    vec![
        ("in leaving out an equal one", keeping!(Op::In, |a, b| some(b, |b| b != a && inside(a, b)))),
        ("in leaving out what starts with B", keeping!(Op::In, |a, b| some(b, |b| b.s < a.s && a.e <= b.e))),
        ("in leaving out what ends with B", keeping!(Op::In, |a, b| some(b, |b| b.s <= a.s && a.e < b.e))),
        ("in leaving out what reaches either end of B", keeping!(Op::In, |a, b| some(b, |b| b.s < a.s && a.e < b.e))),
        ("in of what shares a line with B", keeping!(Op::In, |a, b| some(b, |b| r::share_line(a, b)))),
        ("in of what starts inside B", keeping!(Op::In, |a, b| some(b, |b| on(a.s, b)))),
        ("in of what ends inside B", keeping!(Op::In, |a, b| some(b, |b| on(a.e, b)))),
        ("in of what starts after B", keeping!(Op::In, |a, b| some(b, |b| b.s <= a.s))),
        ("in of what ends before B", keeping!(Op::In, |a, b| some(b, |b| a.e <= b.e))),
        ("in asking the first of B from A's start on", keeping!(Op::In, |a, b| first(b, |b| b.s >= a.s).is_some_and(|b| inside(a, b)))),
        ("in asking the first of B that starts before A", {
            keeping!(Op::In, |a, b| first(b, |b| b.s <= a.s).is_some_and(|b| inside(a, b)))
        }),
        ("in asking the first of B that shares a line", {
            keeping!(Op::In, |a, b| first(b, |b| r::share_line(a, b)).is_some_and(|b| inside(a, b)))
        }),
        ("in asking the first of B that ends after A", keeping!(Op::In, |a, b| first(b, |b| b.e > a.e).is_some_and(|b| inside(a, b)))),
        ("in asking B's first alone", keeping!(Op::In, |a, b| b.first().is_some_and(|&b| inside(a, b)))),
        ("in asking B's last alone", keeping!(Op::In, |a, b| b.last().is_some_and(|&b| inside(a, b)))),
        ("in of the lines that B covers", keeping!(Op::In, |a, b| covered(a, b))),
        ("in from B's first start to its last end", {
            keeping!(Op::In, |a, b| b.first().zip(b.last()).is_some_and(|(&b, &c)| b.s <= a.s && a.e <= c.e))
        }),
        ("in finding all where B has none", keeping!(Op::In, |a, b| b.is_empty() || some(b, |b| inside(a, b)))),
    ]
}

fn over_out() -> Variants {
    vec![
        ("out keeping an equal one", keeping!(Op::Out, |a, b| !some(b, |b| b != a && inside(a, b)))),
        ("out dropping what shares a line with B", keeping!(Op::Out, |a, b| !some(b, |b| r::share_line(a, b)))),
        ("out dropping what starts inside B", keeping!(Op::Out, |a, b| !some(b, |b| on(a.s, b)))),
        ("out dropping what ends inside B", keeping!(Op::Out, |a, b| !some(b, |b| on(a.e, b)))),
        ("out dropping what holds one of B too", keeping!(Op::Out, |a, b| !some(b, |b| inside(a, b) || inside(b, a)))),
        ("out asking the first of B from A's start on", {
            keeping!(Op::Out, |a, b| !first(b, |b| b.s >= a.s).is_some_and(|b| inside(a, b)))
        }),
        ("out asking the first of B that starts before A", {
            keeping!(Op::Out, |a, b| !first(b, |b| b.s <= a.s).is_some_and(|b| inside(a, b)))
        }),
        ("out asking B's first alone", keeping!(Op::Out, |a, b| !b.first().is_some_and(|&b| inside(a, b)))),
        ("out of the lines that B covers", keeping!(Op::Out, |a, b| !covered(a, b))),
        ("out of some of B, not of all", keeping!(Op::Out, |a, b| b.is_empty() || some(b, |b| !inside(a, b)))),
        ("out finding none where B has none", keeping!(Op::Out, |a, b| !b.is_empty() && !some(b, |b| inside(a, b)))),
    ]
}

fn over_has() -> Variants {
    vec![
        ("has leaving out an equal one", keeping!(Op::Has, |a, b| some(b, |b| b != a && inside(b, a)))),
        ("has leaving out what B starts with", keeping!(Op::Has, |a, b| some(b, |b| a.s < b.s && b.e <= a.e))),
        ("has leaving out what B ends with", keeping!(Op::Has, |a, b| some(b, |b| a.s <= b.s && b.e < a.e))),
        ("has of what shares a line with B", keeping!(Op::Has, |a, b| some(b, |b| r::share_line(a, b)))),
        ("has of B that starts in it", keeping!(Op::Has, |a, b| some(b, |b| on(b.s, a)))),
        ("has of B that ends in it", keeping!(Op::Has, |a, b| some(b, |b| on(b.e, a)))),
        ("has asking the last of B that starts in it", {
            keeping!(Op::Has, |a, b| b.iter().rev().find(|b| on(b.s, a)).is_some_and(|&b| inside(b, a)))
        }),
        ("has asking the first of B that shares a line", {
            keeping!(Op::Has, |a, b| first(b, |b| r::share_line(a, b)).is_some_and(|b| inside(b, a)))
        }),
        ("has asking B's first alone", keeping!(Op::Has, |a, b| b.first().is_some_and(|&b| inside(b, a)))),
        ("has of all of B", keeping!(Op::Has, |a, b| b.iter().all(|&b| inside(b, a)))),
    ]
}

/// One operator for another, and A for B.
fn over_exchanges() -> Variants {
    /// The other of two operators.
    fn exchanged(op: Op, two: [Op; 2]) -> Op {
        match two {
            [one, other] if op == one => other,
            [one, other] if op == other => one,
            _ => op,
        }
    }
    /// The operator `other` over B and A in the place of `op` over A and B.
    fn turned(of: Op, other: Op, (op, k, lists): (Op, u32, &[List]), m: r::Measure) -> List {
        match op == of {
            true => (RIGHT.apply)(other, k, &[lists[1].clone(), lists[0].clone()], m),
            false => (RIGHT.apply)(op, k, lists, m),
        }
    }
    vec![
        ("in and out exchanged", by(|op, k, lists, m| (RIGHT.apply)(exchanged(op, [Op::In, Op::Out]), k, lists, m))),
        ("in and has exchanged", by(|op, k, lists, m| (RIGHT.apply)(exchanged(op, [Op::In, Op::Has]), k, lists, m))),
        ("out and has exchanged", by(|op, k, lists, m| (RIGHT.apply)(exchanged(op, [Op::Out, Op::Has]), k, lists, m))),
        ("out and less exchanged", by(|op, k, lists, m| (RIGHT.apply)(exchanged(op, [Op::Out, Op::Less]), k, lists, m))),
        ("has and less exchanged", by(|op, k, lists, m| (RIGHT.apply)(exchanged(op, [Op::Has, Op::Less]), k, lists, m))),
        ("in with A and B exchanged", by(|op, k, lists, m| turned(Op::In, Op::In, (op, k, lists), m))),
        ("out with A and B exchanged", by(|op, k, lists, m| turned(Op::Out, Op::Out, (op, k, lists), m))),
        ("has with A and B exchanged", by(|op, k, lists, m| turned(Op::Has, Op::Has, (op, k, lists), m))),
        ("in giving what of B holds A", by(|op, k, lists, m| turned(Op::In, Op::Has, (op, k, lists), m))),
        ("has giving what of B is inside", by(|op, k, lists, m| turned(Op::Has, Op::In, (op, k, lists), m))),
    ]
}

/// B cut where it is long.
fn over_long_lists() -> Variants {
    /// An operator over A and those of B that are like this, given their places.
    fn over(of: Op, (op, k, lists): (Op, u32, &[List]), m: r::Measure, like: impl Fn(usize, Stretch) -> bool) -> List {
        if op != of {
            return (RIGHT.apply)(op, k, lists, m);
        }
        let fewer = (0..).zip(&lists[1]).filter(|&(i, &b)| like(i, b)).map(|(_, &b)| b).collect();
        (RIGHT.apply)(op, k, &[lists[0].clone(), fewer], m)
    }
    vec![
        ("in asking the first 64 of B", by(|op, k, lists, m| over(Op::In, (op, k, lists), m, |i, _| i < 64))),
        ("out asking the first 64 of B", by(|op, k, lists, m| over(Op::Out, (op, k, lists), m, |i, _| i < 64))),
        ("has asking the first 64 of B", by(|op, k, lists, m| over(Op::Has, (op, k, lists), m, |i, _| i < 64))),
        ("in passing over long ones of B", by(|op, k, lists, m| over(Op::In, (op, k, lists), m, |_, b| r::length(b) <= 64))),
        ("out passing over long ones of B", by(|op, k, lists, m| over(Op::Out, (op, k, lists), m, |_, b| r::length(b) <= 64))),
        ("in passing over B from line 4,096 on", by(|op, k, lists, m| over(Op::In, (op, k, lists), m, |_, b| b.e < 4_096))),
        ("has passing over B from line 4,096 on", by(|op, k, lists, m| over(Op::Has, (op, k, lists), m, |_, b| b.e < 4_096))),
    ]
}

/// Lists, k and the taking call.
fn over_lent_lists() -> Variants {
    type Read = Result<(Op, Vec<List>), Refusal>;
    /// So many lists for an operator, of which the first two are asked.
    fn so_many<const OP: u32, const LISTS: usize>(op: u32, k: u32, items: &[u32], ends: &[u32]) -> Read {
        if op != OP || k != 0 || ends.len() != LISTS {
            return lent::read_lists(op, k, items, ends);
        }
        let (other, k) = if LISTS == 1 { (Op::Max, 1) } else { (Op::Or, 0) };
        let (_, mut lists) = lent::read_lists(other as u32, k, items, ends)?;
        lists.resize(2, vec![]);
        Ok((OPS[OP as usize - 1].0, lists))
    }
    /// k of 1 for an operator.
    fn with_k<const OP: u32>(op: u32, k: u32, items: &[u32], ends: &[u32]) -> Read {
        lent::read_lists(op, if op == OP && k == 1 { 0 } else { k }, items, ends)
    }
    let lists = |lists| Plain { lists, ..RIGHT };
    let takes = |takes| Plain { takes, ..RIGHT };
    vec![
        ("no operators 7 to 9", lists(|op, k, items, ends| if op > 6 { refused(6) } else { lent::read_lists(op, k, items, ends) })),
        ("one list for in", lists(so_many::<7, 1>)),
        ("one list for out", lists(so_many::<8, 1>)),
        ("one list for has", lists(so_many::<9, 1>)),
        ("three lists for in", lists(so_many::<7, 3>)),
        ("three lists for out", lists(so_many::<8, 3>)),
        ("three lists for has", lists(so_many::<9, 3>)),
        ("k for in", lists(with_k::<7>)),
        ("k for out", lists(with_k::<8>)),
        ("k for has", lists(with_k::<9>)),
        ("a taking of in", takes(|op| (1..=2).contains(&op) || op == 7)),
        ("a taking of out", takes(|op| (1..=2).contains(&op) || op == 8)),
        ("a taking of has", takes(|op| (1..=2).contains(&op) || op == 9)),
    ]
}

fn reading(pattern: fn(&[u8], r::Value) -> Result<Tree, Refusal>) -> Plain {
    Plain { pattern, ..RIGHT }
}

/// The words.
fn over_words() -> Variants {
    /// A pattern read without a word, of which so many bytes start another.
    fn without(text: &[u8], word: &str, known: usize) -> Result<Tree, Refusal> {
        let right = r::read_pattern(text);
        let reached = match &right {
            Err(e) if e.number != 3 => return right,
            Err(e) => e.place as usize,
            Ok(_) => text.len(),
        };
        let starts = (0..reached).filter(|&at| at == 0 || text[at - 1] == b',');
        let mut met = starts.filter(|&at| text[at..].split(|&b| b == b',').next() == Some(word.as_bytes()));
        met.next().map_or(right, |at| Err(Refusal { number: 3, place: (at + known) as u64 }))
    }
    /// A misspelt pattern read with other words; where that is misspelt too, the right refusal.
    fn with(text: &[u8], word: &str, right: &str) -> Result<Tree, Refusal> {
        r::read_pattern(text).or_else(|refusal| {
            let other = String::from_utf8_lossy(text).replace(word, right);
            r::read_pattern(other.as_bytes()).map_err(|_| refusal)
        })
    }
    vec![
        ("in unknown", reading(|text, _| without(text, "in", 0))),
        ("out unknown", reading(|text, _| without(text, "out", 1))),
        ("has unknown", reading(|text, _| without(text, "has", 0))),
        ("a number of operands after in", reading(|text, _| with(text, "in,2,", "in,"))),
        ("out by two letters", reading(|text, _| with(text, "ou,", "out,"))),
        ("has by two letters", reading(|text, _| with(text, "ha,", "has,"))),
    ]
}

/// The places of misspelt words.
fn over_places() -> Variants {
    /// The place moved by so many bytes where a word is right up to `start`.
    fn moved(text: &[u8], start: &str, by: i64) -> Result<Tree, Refusal> {
        r::read_pattern(text).map_err(|e| {
            let piece = text[..e.place as usize].rsplit(|&b| b == b',').next();
            let here = e.number == 3 && piece == Some(start.as_bytes());
            Refusal { place: if here { (e.place as i64 + by) as u64 } else { e.place }, ..e }
        })
    }
    vec![
        ("a place before o", reading(|text, _| moved(text, "o", -1))),
        ("a place after the byte after o", reading(|text, _| moved(text, "o", 1))),
        ("ou no start", reading(|text, _| moved(text, "ou", -1))),
        ("any byte after ou", reading(|text, _| moved(text, "ou", 1))),
        ("any byte after out", reading(|text, _| moved(text, "out", 1))),
        ("i no start", reading(|text, _| moved(text, "i", -1))),
        ("any byte after in", reading(|text, _| moved(text, "in", 1))),
        ("h no start", reading(|text, _| moved(text, "h", -1))),
        ("ha no start", reading(|text, _| moved(text, "ha", -1))),
        ("any byte after has", reading(|text, _| moved(text, "has", 1))),
    ]
}

/// Nodes and depth.
fn over_bounds() -> Variants {
    const THREE: [Op; 3] = [Op::In, Op::Out, Op::Has];
    /// The depth, where the three are as deep as their deepest operand.
    fn depth(tree: &Tree) -> usize {
        let below = tree.operands().iter().map(depth).max().unwrap_or(0);
        below + usize::from(!matches!(tree, Tree::Op { op, .. } if THREE.contains(op)))
    }
    /// The depth, where B of the three does not count.
    fn depth_of_a(tree: &Tree) -> usize {
        let counted = if matches!(tree, Tree::Op { op, .. } if THREE.contains(op)) { 1 } else { 31 };
        1 + tree.operands().iter().take(counted).map(depth_of_a).max().unwrap_or(0)
    }
    /// The nodes, where those of B of the three do not count.
    fn nodes(tree: &Tree) -> usize {
        let counted = if matches!(tree, Tree::Op { op, .. } if THREE.contains(op)) { 1 } else { 31 };
        1 + tree.operands().iter().take(counted).map(nodes).sum::<usize>()
    }
    /// A pattern refused as crowded or deep only where it is so by another measure.
    fn bounded(text: &[u8], number: u64, measure: fn(&Tree) -> usize, most: usize) -> Result<Tree, Refusal> {
        match (r::read_pattern(text), r::spelling(text)) {
            (Err(e), Ok(tree)) if e.number == number && measure(&tree) <= most => Ok(tree),
            (right, _) => right,
        }
    }
    vec![
        ("in, out and has not counted in the depth", reading(|text, _| bounded(text, 5, depth, 8))),
        ("B not counted in the depth", reading(|text, _| bounded(text, 5, depth_of_a, 8))),
        ("B not counted among the nodes", reading(|text, _| bounded(text, 4, nodes, 32))),
    ]
}
