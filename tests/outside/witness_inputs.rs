//! Seeded logs, and patterns for them of which many nodes take part in an answer.
#![allow(dead_code)]

use crate::inputs::{self, Rng};
use crate::reference::{Op, Tree, LOG_MAX};
use crate::spell_inputs::{self, finds};

/// An operator over one or two operands, and others beside them where it takes more: leaves, the first one again, its operands below an
/// operator that has stretches in common with it, or what holds some of its stretches.
fn over(rng: &mut Rng, mut operands: Vec<Tree>) -> Tree {
    let op = match operands.len() {
        1 => rng.pick(&[Op::Or, Op::Or, Op::And, Op::And, Op::Row, Op::Then, Op::Then, Op::Less, Op::Max, Op::In, Op::Out, Op::Has]),
        _ => rng.pick(&[Op::Or, Op::And, Op::Row, Op::Then, Op::Less, Op::In, Op::Out, Op::Has]),
    };
    if op == Op::Max {
        return Tree::Op { op, k: rng.pick(&[1, 3, 12, 100]), operands };
    }
    let (least, most) = op.takes();
    let count = rng.range(least, most.min(4)) as usize;
    operands.truncate(count);
    while operands.len() < count {
        let beside = match (rng.below(6), operands[0].clone()) {
            (0, other) => other,
            (1 | 2, Tree::Op { op: Op::And | Op::Then | Op::Row, operands, .. }) => {
                Tree::Op { op: rng.pick(&[Op::And, Op::Then, Op::Row]), k: 0, operands }
            }
            (3 | 4, other) if matches!(op, Op::In | Op::Out | Op::Has) => {
                Tree::Op { op: rng.pick(&[Op::And, Op::Then]), k: 0, operands: vec![other, inputs::leaf(rng)] }
            }
            _ => inputs::leaf(rng),
        };
        operands.insert(rng.below(operands.len() + 1), beside);
    }
    Tree::Op { op, k: 0, operands }
}

/// An accepted pattern with one operator put over another as long as it finds something in a log.
fn grown(rng: &mut Rng, log: &[u8]) -> Tree {
    let mut trees = [(); 2].map(|()| {
        let leaves = [(); 6].map(|()| inputs::leaf(rng));
        leaves.iter().find(|leaf| finds(leaf, log)).unwrap_or(&leaves[0]).clone()
    });
    for _ in 0..rng.pick(&[2, 8, 20]) {
        let below = if rng.once_in(4) { trees.to_vec() } else { vec![trees[0].clone()] };
        let tree = over(rng, below);
        if finds(&tree, log) {
            trees[0] = tree;
        }
        if rng.once_in(3) {
            trees.swap(0, 1);
        }
    }
    trees.into_iter().max_by_key(Tree::nodes).unwrap()
}

/// An accepted pattern that mostly finds something in a log.
pub fn finding(rng: &mut Rng, log: &[u8]) -> Tree {
    match rng.below(10) {
        0 => inputs::tree(rng, 32, 8),
        1 => inputs::crossing(rng),
        2 => spell_inputs::with_max(rng, log),
        3 | 4 => inputs::insides(rng),
        _ => grown(rng, log),
    }
}

/// A log of at most about `most` lines, with damaged ones, single or in spells.
pub fn some_log(rng: &mut Rng, most: usize) -> Vec<u8> {
    let lines = rng.below(most);
    if rng.once_in(4) {
        return spell_inputs::spelled(rng, lines.min(20), LOG_MAX / 3);
    }
    let damage = rng.pick(&[0, 0, 3, 12]);
    inputs::log(rng, lines, damage)
}
