//! Seeded logs with spells of damaged lines, and patterns with `max` for them.
#![allow(dead_code)]

use crate::inputs::{self, Rng};
use crate::quick;
use crate::reference::{self, Op, Tree};

/// `lines` damaged lines: all empty, or of every kind.
fn spell(rng: &mut Rng, lines: usize) -> Vec<u8> {
    let empty = rng.once_in(2);
    (0..lines).flat_map(|_| if empty { "\n" } else { rng.pick(&inputs::WRECKS) }.bytes()).collect()
}

/// How many damaged lines come before a line that would be line `at`: mostly none or few, else about a word of 64 lines or two, or so many that
/// the line is the last or the first of such a word.
fn spell_length(rng: &mut Rng, at: usize) -> usize {
    match rng.below(10) {
        0..=4 => 0,
        5 | 6 => rng.range(1, 3) as usize,
        7 => rng.pick(&[62, 63, 64, 65, 127, 128, 129]),
        _ => rng.pick(&[63, 64, 127, 128]) - at % 64,
    }
}

/// Whole lines, with spells of damaged ones before, among and after them, in at most `most` bytes; and the number that each of the lines then
/// has. Where the bytes do not suffice, the last lines have no spell before them.
pub fn with_spells(rng: &mut Rng, log: &[u8], most: usize) -> (Vec<u8>, Vec<u32>) {
    let (mut spelled, mut numbers, mut at, mut free) = (Vec::new(), Vec::new(), 0, most - log.len());
    let mut put = |rng: &mut Rng, spelled: &mut Vec<u8>, at: &mut usize| {
        let length = spell_length(rng, *at);
        let spell = spell(rng, length);
        if spell.len() <= free {
            free -= spell.len();
            *at += length;
            spelled.extend(spell);
        }
    };
    for line in reference::lines(log) {
        put(rng, &mut spelled, &mut at);
        numbers.push(at as u32);
        spelled.extend(line);
        at += 1;
    }
    put(rng, &mut spelled, &mut at);
    (spelled, numbers)
}

/// At most `most` bytes of `lines` lines, few of them spoiled, with spells of damaged ones among them; sometimes the last is not ended.
pub fn spelled(rng: &mut Rng, lines: usize, most: usize) -> Vec<u8> {
    let damage = rng.pick(&[0, 0, 8]);
    let mut log = inputs::log(rng, lines, damage);
    log.truncate(most);
    if log.last().is_some_and(|&b| b != b'\n') {
        log.pop();
        log.push(b'\n');
    }
    let mut log = with_spells(rng, &log, most).0;
    if rng.once_in(6) {
        log.pop();
    }
    log
}

/// A tree with `max` put over one in three of its nodes; at most twice as many nodes, and twice as deep.
fn under_max(rng: &mut Rng, tree: Tree) -> Tree {
    let tree = match tree {
        Tree::Op { op, k, operands } => Tree::Op { op, k, operands: operands.into_iter().map(|t| under_max(rng, t)).collect() },
        leaf => leaf,
    };
    if rng.once_in(3) {
        return Tree::Op { op: Op::Max, k: 1, operands: vec![tree] };
    }
    tree
}

/// A tree with each k of `max` about the number of sound lines, or of all lines, of some stretch that its operand has in a log, if it has one.
pub fn fitted(rng: &mut Rng, tree: Tree, log: &[u8]) -> Tree {
    let Tree::Op { op, k, operands } = tree else { return tree };
    let operands: Vec<Tree> = operands.into_iter().map(|t| fitted(rng, t, log)).collect();
    let list = if op == Op::Max { quick::answers(operands[0].spell().as_bytes(), log).unwrap_or_default() } else { vec![] };
    if list.is_empty() {
        let k = if op == Op::Max { rng.pick(&[1, 4, 12, 65_535]) } else { k };
        return Tree::Op { op, k, operands };
    }
    let any = rng.pick(&list);
    let a = rng.pick(&[list[0], any, list[list.len() - 1]]);
    let (sound, lines) = (reference::sound_lines(&reference::read_log(log), a), reference::length(a));
    let k = rng.pick(&[sound - 1, sound - 1, sound, sound, sound + 1, lines, (sound + lines) / 2]).max(1);
    Tree::Op { op, k, operands }
}

/// Codes of few lines, so that stretches between them are long.
const RARE: [u32; 2] = [200, 201];

/// A log with a few of its lines made sound ones with a rare code, often the first and the last among them.
pub fn with_rare(rng: &mut Rng, log: &[u8]) -> Vec<u8> {
    let mut lines: Vec<Vec<u8>> = reference::lines(log).into_iter().map(<[u8]>::to_vec).collect();
    let last = lines.len().saturating_sub(1);
    for _ in 0..rng.range(2, 6) {
        let at = rng.below(lines.len().max(1));
        if let Some(line) = lines.get_mut(rng.pick(&[0, at, at, last])) {
            *line = format!("1,4,{},3,{}\n", rng.pick(&RARE), rng.pick(&[0, 6])).into_bytes();
        }
    }
    lines.concat()
}

/// A leaf that few lines match, or one that many do.
fn leaf(rng: &mut Rng, rare: bool) -> Tree {
    match rng.below(4) {
        0 | 1 if rare => Tree::Ev { code: rng.pick(&RARE), lane: rng.pick(&[0, 4]) },
        0..=2 => Tree::Fr { frame: rng.pick(&[0, 3]), lane: 0 },
        _ => inputs::leaf(rng),
    }
}

/// A leaf, or the spans of few of them.
fn spans(rng: &mut Rng, rare: bool) -> Tree {
    if rng.once_in(3) {
        return leaf(rng, rare);
    }
    let (op, leaves) = (rng.pick(&[Op::And, Op::Then]), rng.range(2, 3));
    Tree::Op { op, k: 0, operands: (0..leaves).map(|_| leaf(rng, rare)).collect() }
}

/// A pattern, mostly an operator over spans.
fn without_max(rng: &mut Rng) -> Tree {
    let rare = rng.once_in(2);
    match rng.below(12) {
        0 => inputs::tree(rng, 8, 3),
        1..=3 => spans(rng, rare),
        _ => {
            let op = rng.pick(&[Op::Or, Op::And, Op::Row, Op::Row, Op::Then, Op::Less, Op::In, Op::Out, Op::Has]);
            Tree::Op { op, k: 0, operands: vec![spans(rng, rare), spans(rng, rare)] }
        }
    }
}

/// A pattern is accepted with a log, and has an answer in it.
pub fn finds(tree: &Tree, log: &[u8]) -> bool {
    quick::answers(tree.spell().as_bytes(), log).is_ok_and(|list| !list.is_empty())
}

/// A pattern with several `max`, over and under every operator, each k about what some stretch in a log has; mostly one that without them finds
/// something.
pub fn with_max(rng: &mut Rng, log: &[u8]) -> Tree {
    let mut tree = without_max(rng);
    for _ in 0..2 {
        if !finds(&tree, log) {
            tree = without_max(rng);
        }
    }
    tree = under_max(rng, tree);
    if rng.once_in(2) {
        tree = Tree::Op { op: Op::Max, k: 1, operands: vec![tree] };
    }
    fitted(rng, tree, log)
}
