//! Comparisons over lent lists.

use crate::compare::{self, Lists};
use crate::inputs::{self, Rng};
use crate::lent::{self, Taken};
use crate::reference::{self, List, Op, Refusal, OPS};
use crate::{quick, Outcome, Trial};

/// Lists for an operator, short ones most often.
fn random_lists(rng: &mut Rng, op: Op) -> Vec<List> {
    let (least, most) = op.takes();
    let few = if rng.once_in(10) { most } else { most.min(4) };
    let count = rng.range(least, few);
    let limit = rng.pick(&[4, 12, 30]);
    (0..count)
        .map(|_| {
            let most = if rng.once_in(12) { 0 } else { rng.below(9) };
            inputs::list(rng, most, limit)
        })
        .collect()
}

/// The answers over lent lists by the reference, literally or quickly.
fn answers(lent: &Lists, apply: reference::Apply) -> Result<List, Refusal> {
    lent::read_lists(lent.op, lent.k, lent.items, lent.ends).map(|(op, lists)| apply(op, lent.k, &lists, &reference::length))
}

/// Accepted lists under every operator, with all cells and starts around the number of answers; and long lists.
pub fn lists(t: &Trial) -> Outcome {
    let mut rng = Rng(11);
    let mut count = 0;
    for _ in 0..t.rounds(5_000) {
        let op = rng.pick(&OPS).0;
        let (items, ends) = inputs::lend(&random_lists(&mut rng, op));
        let k = if op == Op::Max { rng.pick(&[1, 2, 3, 5, 65_535]) } else { 0 };
        let lent = Lists { op: op as u32, k, items: &items, ends: &ends };
        let due = answers(&lent, reference::apply);
        for (cells, from) in compare::around(due.as_ref().map_or(0, List::len)) {
            compare::lists_fill(t.calls, &mut rng, &lent, &due, cells, from)?;
            count += 1;
        }
    }
    for round in 0..t.rounds(72).max(OPS.len()) {
        let (op, _, (least, most)) = OPS[round % OPS.len()];
        let lists = rng.pick(&[2, 3, 31]).clamp(least, most);
        let lists: Vec<List> = (0..lists).map(|_| inputs::list(&mut rng, 70_000 / lists as usize, 65_536)).collect();
        let (items, ends) = inputs::lend(&lists);
        let k = if op == Op::Max { 3 } else { 0 };
        let lent = Lists { op: op as u32, k, items: &items, ends: &ends };
        let due = answers(&lent, |op, k, lists, measure| quick::apply(op, k, lists, measure));
        let n = due.as_ref().map_or(0, List::len);
        for (cells, from) in [(2 * n + 1, 0), (2 * n, 1), (9, n as u64 / 2)] {
            compare::lists_fill(t.calls, &mut rng, &lent, &due, cells, from)?;
            count += 1;
        }
    }
    Ok(count)
}

/// A number at the edges of the rules.
fn edge(rng: &mut Rng) -> u32 {
    rng.pick(&[0, 1, 2, 3, 5, 6, 7, 9, 10, 30, 31, 32, 65_534, 65_535, 65_536, 65_537, 1 << 31, u32::MAX - 1, u32::MAX])
}

/// One or two changes to a call's numbers and lists.
fn spoil(rng: &mut Rng, op: &mut u32, k: &mut u32, items: &mut Vec<u32>, ends: &mut Vec<u32>) {
    for _ in 0..rng.range(1, 2) {
        let at = rng.next() as usize;
        let near = rng.pick(&[1, 2, 3, u32::MAX, u32::MAX - 1]);
        match rng.below(16) {
            0 => *op = rng.pick(&[0, 10, 11, 256, 257, u32::MAX]),
            1 => *op = rng.range(0, 10),
            2 => *k = edge(rng),
            3 => ends.truncate(at % 3),
            4 => {
                let last = ends.last().copied().unwrap_or(0);
                ends.resize(rng.pick(&[31, 32, 33, 40, 300]), last);
            }
            5 if !ends.is_empty() => {
                let i = at % ends.len();
                ends[i] = edge(rng);
            }
            6 | 7 if !ends.is_empty() => {
                let i = at % ends.len();
                ends[i] = ends[i].wrapping_add(near);
            }
            8 => items.truncate(at % (items.len() + 1)),
            9 => items.push(edge(rng)),
            10 if !items.is_empty() => {
                let i = at % items.len();
                items[i] = edge(rng);
            }
            11 if items.len() > 2 => {
                let i = at % (items.len() - 2);
                items[i + 2] = items[i];
            }
            12 => *k = rng.range(0, 2),
            13 => *k = rng.range(65_534, 65_537),
            _ if !items.is_empty() => {
                let i = at % items.len();
                items[i] = items[i].wrapping_add(near);
            }
            _ => {}
        }
    }
}

/// Calls that are mostly refused: 6, 7 and 8, alone and together.
pub fn spoiled(t: &Trial) -> Outcome {
    let mut rng = Rng(12);
    let rounds = t.rounds(60_000);
    for _ in 0..rounds {
        let kind = rng.pick(&OPS).0;
        let (mut items, mut ends) = inputs::lend(&random_lists(&mut rng, kind));
        let (mut op, mut k) = (kind as u32, if kind == Op::Max { rng.range(1, 4) } else { 0 });
        spoil(&mut rng, &mut op, &mut k, &mut items, &mut ends);
        let lent = Lists { op, k, items: &items, ends: &ends };
        let due = answers(&lent, reference::apply);
        let (cells, from) = (rng.below(9), rng.below(3) as u64);
        compare::lists_fill(t.calls, &mut rng, &lent, &due, cells, from)?;
        let count_cells = (ends.len() + rng.below(4)).saturating_sub(rng.below(3));
        let due = taken(&lent, count_cells, from);
        compare::take(t.calls, &mut rng, &lent, &due, count_cells, from)?;
    }
    Ok(rounds * 2)
}

/// What the taking call is to give.
fn taken(lent: &Lists, count_cells: usize, number: u64) -> Result<Taken, Refusal> {
    let (op, lists) = lent::read_taking(lent.op, lent.items, lent.ends, count_cells)?;
    Ok(match op {
        Op::Or => lent::take_or_by_algorithm(&lists, number),
        _ => lent::take_and(&lists, number),
    })
}

/// The taking call for every answer and past the last; stretches repeat among the lists, so that fronts are often equal.
pub fn taking(t: &Trial) -> Outcome {
    let mut rng = Rng(13);
    let mut count = 0;
    for round in 0..t.rounds(10_000) {
        let op = if round % 2 == 0 { Op::Or } else { Op::And };
        let mut lists = random_lists(&mut rng, op);
        if rng.once_in(3) {
            let last = lists.len() - 1;
            lists[last] = lists[0].clone();
        }
        let (items, ends) = inputs::lend(&lists);
        let lent = Lists { op: op as u32, k: 0, items: &items, ends: &ends };
        let n = reference::apply(op, 0, &lists, &reference::length).len() as u64;
        for number in (0..n + 2).chain([1 << 32, u64::MAX]) {
            let cells = lists.len() + rng.pick(&[0, 0, 1, 3]);
            compare::take(t.calls, &mut rng, &lent, &taken(&lent, cells, number), cells, number)?;
            count += 1;
        }
        let few = rng.below(lists.len());
        compare::take(t.calls, &mut rng, &lent, &taken(&lent, few, 0), few, 0)?;
    }
    for round in 0..t.rounds(12).max(2) {
        let op = 1 + round as u32 % 2;
        let lists: Vec<List> = (0..rng.pick(&[2, 3, 31])).map(|_| inputs::list(&mut rng, 2_000, 65_536)).collect();
        let (items, ends) = inputs::lend(&lists);
        let lent = Lists { op, k: 0, items: &items, ends: &ends };
        for number in [0, 100, 1_500, u64::MAX] {
            compare::take(t.calls, &mut rng, &lent, &taken(&lent, 31, number), 31, number)?;
            count += 1;
        }
    }
    Ok(count)
}
