//! What must hold of `in`, `out` and `has`, through the calls alone.

use crate::compare;
use crate::inputs::{self, Rng};
use crate::reference::{inside, List, Stretch, Tree, LOG_MAX, NODES_MAX};
use crate::witness_inputs::some_log;
use crate::{Outcome, Trial};

/// Whether a stretch of A is kept, given the list of B.
type Keeps = fn(Stretch, &[Stretch]) -> bool;

const KEPT: [(&str, Keeps); 4] = [
    ("in", |a, b| b.iter().any(|&b| inside(a, b))),
    ("out", |a, b| b.iter().all(|&b| !inside(a, b))),
    ("has", |a, b| b.iter().any(|&b| inside(b, a))),
    ("less", |a, b| b.iter().all(|&b| !inside(b, a))),
];

/// Patterns for A and B, so few nodes together that an operator fits over them.
fn operands(rng: &mut Rng) -> [Tree; 2] {
    let mut two = || {
        [(); 2].map(|()| match rng.below(4) {
            0 => inputs::leaf(rng),
            1 => inputs::tree(rng, 12, 5),
            2 => inputs::insides(rng),
            _ => inputs::crossing(rng),
        })
    };
    let mut drawn = two();
    while drawn.iter().map(Tree::nodes).sum::<usize>() >= NODES_MAX {
        drawn = two();
    }
    drawn
}

/// By the calls' own lists of A and of B, each of the three, and `less` beside `has`: some that are kept and some that are dropped, over logs up to
/// the largest.
pub fn laws(t: &Trial) -> Outcome {
    let mut rng = Rng(71);
    let (mut count, mut kept, mut dropped) = (0, [0; 4], [0; 4]);
    for round in 0..t.rounds(4_000) {
        let log = if round % 100 == 0 { inputs::sparse(&mut rng, 40, LOG_MAX) } else { some_log(&mut rng, 80) };
        let [a, b] = operands(&mut rng).map(|operand| operand.spell());
        let list = |pattern: &str| {
            let refused = |result| format!("no list: {result:#x}\n  {}", compare::input(pattern.as_bytes(), &log));
            compare::whole(t.calls, pattern.as_bytes(), &log).map_err(refused)
        };
        let (of_a, of_b) = (list(&a)?, list(&b)?);
        for (i, (word, keeps)) in KEPT.iter().enumerate() {
            let pattern = format!("{word},{a},{b}");
            let (given, due) = (list(&pattern)?, of_a.iter().copied().filter(|&a| keeps(a, &of_b)).collect::<List>());
            if given != due {
                let input = compare::input(pattern.as_bytes(), &log);
                return Err(format!("{given:?}, should be {due:?}\n  A has {of_a:?}\n  B has {of_b:?}\n  {input}"));
            }
            kept[i] += due.len();
            dropped[i] += of_a.len() - due.len();
            count += 1;
        }
    }
    if [kept, dropped].concat().contains(&0) {
        return Err(format!("one of them kept nothing or dropped nothing: kept {kept:?}, dropped {dropped:?}"));
    }
    Ok(count)
}
