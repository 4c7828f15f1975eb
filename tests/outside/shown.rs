//! docs/FORMATS.md on the lines that made a stretch: by its definitions, and then the same with speed in mind, for larger inputs and the
//! benchmark.
#![allow(dead_code)]

use crate::quick;
use crate::reference::{self as r, inside, Apply, List, Measure, Op, Record, Refusal, Stretch, Tree};

/// Cells that are enough for every pattern.
pub const ENOUGH: usize = 3 * r::NODES_MAX;

/// A node of a pattern in a log: its number, from 0 as the pattern is read, its operator (None for a leaf), its list, and its operands.
#[derive(Clone, PartialEq, Eq, Debug)]
pub struct Node {
    pub number: u32,
    pub op: Option<Op>,
    pub list: List,
    pub operands: Vec<Node>,
}

/// The node of a tree that has this number, over the readings of a log's lines.
pub fn node(tree: &Tree, number: u32, log: &[Option<Record>], apply: Apply, measure: Measure) -> Node {
    let mut next = number + 1;
    let mut operands = Vec::new();
    for operand in tree.operands() {
        operands.push(node(operand, next, log, apply, measure));
        next += operand.nodes() as u32;
    }
    match tree {
        Tree::Op { op, k, .. } => {
            let lists: Vec<List> = operands.iter().map(|operand| operand.list.clone()).collect();
            Node { number, op: Some(*op), list: apply(*op, *k, &lists, measure), operands }
        }
        leaf => Node { number, op: None, list: r::evaluate(leaf, log, apply, measure), operands },
    }
}

/// The outermost node of a pattern in a log, or the lowest refusal that applies.
pub fn outermost(pattern: &[u8], log: &[u8]) -> Result<Node, Refusal> {
    if log.len() > r::LOG_MAX {
        return r::refused(1);
    }
    let (tree, lines) = (r::read_pattern(pattern)?, r::read_log(log));
    Ok(node(&tree, 0, &lines, r::apply, &|a| r::sound_lines(&lines, a)))
}

/// Operands, each with its stretch.
pub type Below<'a> = Vec<(&'a Node, Stretch)>;

/// What is shown directly below a node for its stretch `a`: by `or` the first operand that has the same stretch, by `and` each operand's
/// first stretch inside, by `row` and `then` one after another, by `less`, `max` and `out` A's, by `in` also B's first that holds it, and by
/// `has` B's first inside.
pub fn below(node: &Node, a: Stretch) -> Below<'_> {
    let operands = node.operands.iter();
    let first_inside = |operand: &Node| operand.list.iter().copied().find(|&b| inside(b, a));
    let first_around = |operand: &Node| operand.list.iter().copied().find(|&b| inside(a, b));
    let with_b = |first: &dyn Fn(&Node) -> Option<Stretch>| {
        let (of_a, of_b) = (&node.operands[0], &node.operands[1]);
        [Some((of_a, a)), first(of_b).map(|b| (of_b, b))].into_iter().flatten().collect()
    };
    match node.op {
        None => vec![],
        Some(Op::Or) => operands.filter(|operand| operand.list.contains(&a)).take(1).map(|operand| (operand, a)).collect(),
        Some(Op::And) => operands.filter_map(|operand| first_inside(operand).map(|b| (operand, b))).collect(),
        Some(Op::Row) => in_turn(node, a, |before, b| b.s == before.e + 1),
        Some(Op::Then) => in_turn(node, a, |before, b| b.s > before.e),
        Some(Op::Less | Op::Max | Op::Out) => operands.take(1).map(|operand| (operand, a)).collect(),
        Some(Op::In) => with_b(&first_around),
        Some(Op::Has) => with_b(&first_inside),
    }
}

/// The first operand's stretch at the start of `a`, and then each next operand's first stretch that `follows` allows after the one before.
pub fn in_turn(node: &Node, a: Stretch, follows: impl Fn(Stretch, Stretch) -> bool) -> Below<'_> {
    let mut before: Option<Stretch> = None;
    let mut all = Vec::new();
    for operand in &node.operands {
        let allowed = |b: &&Stretch| before.map_or(b.s == a.s, |before| follows(before, **b));
        let Some(&next) = operand.list.iter().find(allowed) else { break };
        all.push((operand, next));
        before = Some(next);
    }
    all
}

/// What tells what is shown directly below a node.
pub type Way = fn(&Node, Stretch) -> Below<'_>;

/// A node that took part in an answer, and its stretch.
#[derive(Clone, Copy, PartialEq, Eq, Debug)]
pub struct Triple {
    pub node: u32,
    pub stretch: Stretch,
}

/// What is shown of a node for its stretch `a`: itself, and then what is shown of each one directly below.
pub fn shown(node: &Node, a: Stretch, below: Way) -> Vec<Triple> {
    let mut all = vec![Triple { node: node.number, stretch: a }];
    all.extend(below(node, a).into_iter().flat_map(|(operand, b)| shown(operand, b, below)));
    all
}

/// What is shown of the answer of a number; nothing beyond the last.
pub fn of_number(root: &Node, number: u64, below: Way) -> Vec<Triple> {
    let answer = usize::try_from(number).ok().and_then(|number| root.list.get(number));
    answer.map_or(vec![], |&a| shown(root, a, below))
}

/// Writes what is shown, node, start and end, as far as whole triples of cells reach, and gives the packed result.
pub fn write(shown: &Result<Vec<Triple>, Refusal>, cells: &mut [u32]) -> u64 {
    let shown = match shown {
        Ok(shown) => shown,
        Err(r) => return r::refusal_result(*r),
    };
    for (lent, triple) in cells.chunks_exact_mut(3).zip(shown) {
        lent.copy_from_slice(&[triple.node, triple.stretch.s, triple.stretch.e]);
    }
    (shown.len().min(cells.len() / 3) as u64) << 32
}

// With speed in mind

/// The node of a tree that has the next number, given the lists of its leaves from left to right and the number of sound lines before each
/// line.
fn quick_node(tree: &Tree, next: &mut u32, leaves: &mut std::vec::IntoIter<List>, before: &[u32]) -> Node {
    let number = *next;
    *next += 1;
    match tree {
        Tree::Op { op, k, operands } => {
            let mut operands: Vec<Node> = operands.iter().map(|t| quick_node(t, next, leaves, before)).collect();
            let lists: Vec<List> = operands.iter_mut().map(|operand| std::mem::take(&mut operand.list)).collect();
            let list = quick::apply(*op, *k, &lists, |a| before[a.e as usize + 1] - before[a.s as usize]);
            operands.iter_mut().zip(lists).for_each(|(operand, list)| operand.list = list);
            Node { number, op: Some(*op), list, operands }
        }
        _ => Node { number, op: None, list: leaves.next().unwrap(), operands: vec![] },
    }
}

/// The outermost node of a pattern in a log, or the lowest refusal that applies.
pub fn quick_outermost(pattern: &[u8], log: &[u8]) -> Result<Node, Refusal> {
    quick::search(pattern, log, |tree, leaves, before| quick_node(tree, &mut 0, leaves, before))
}

/// What is shown directly below a node for its stretch `a`. Each stretch is its operand's first from a line on: by `or`, `and` and `has` from
/// the start of `a`, by `row` and `then` from the line after the one before. That of B by `in` is the first that ends from the end of `a` on.
pub fn quick_below(node: &Node, a: Stretch) -> Below<'_> {
    let first_from = |operand: &Node, line: u32| operand.list.get(operand.list.partition_point(|b| b.s < line)).copied();
    let first_to = |operand: &Node, line: u32| operand.list.get(operand.list.partition_point(|b| b.e < line)).copied();
    let mut all = Vec::with_capacity(node.operands.len());
    let mut line = a.s;
    for operand in &node.operands {
        match (node.op, first_from(operand, line)) {
            (Some(Op::Less | Op::Max | Op::Out), _) => return vec![(operand, a)],
            (Some(Op::In | Op::Has), _) if all.is_empty() => all.push((operand, a)),
            (Some(Op::In), _) => all.extend(first_to(operand, a.e).map(|b| (operand, b))),
            (Some(Op::Has), Some(b)) => all.push((operand, b)),
            (Some(Op::Or), Some(b)) if b == a => return vec![(operand, b)],
            (Some(Op::Or), _) => {}
            (Some(Op::And), Some(b)) => all.push((operand, b)),
            (Some(Op::Row | Op::Then), Some(b)) => {
                all.push((operand, b));
                line = b.e + 1;
            }
            (None, _) | (_, None) => break,
        }
    }
    all
}
