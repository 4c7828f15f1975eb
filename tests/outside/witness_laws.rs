//! What must hold of what the call shows of an answer, through the calls alone.

use crate::calls::Calls;
use crate::compare::{self, Checked};
use crate::inputs::{self, Rng};
use crate::reference::{self, inside, Op, Stretch, Tree};
use crate::shown::{Triple, ENOUGH};
use crate::witness_inputs::{finding, some_log};
use crate::{Outcome, Trial};

/// The nodes of a tree as they are read, each with the number of the one above it.
fn numbered<'a>(tree: &'a Tree, above: Option<usize>, all: &mut Vec<(&'a Tree, Option<usize>)>) {
    let number = all.len();
    all.push((tree, above));
    tree.operands().iter().for_each(|operand| numbered(operand, Some(number), all));
}

/// What a call shows of an answer, with so many cells, each of which held 77: its result, the triples written, and the cells after them.
fn call(calls: &dyn Calls, pattern: &[u8], log: &[u8], (number, cells): (u64, usize)) -> (u64, Vec<Triple>, Vec<u32>) {
    let mut lent = vec![77; cells];
    let result = calls.witness(pattern, log, number, &mut lent);
    let rest = lent.split_off((3 * (result >> 32) as usize).min(cells) / 3 * 3);
    (result, lent.chunks_exact(3).map(|c| Triple { node: c[0], stretch: Stretch { s: c[1], e: c[2] } }).collect(), rest)
}

/// The span of some stretches.
fn span(of: &[Triple]) -> Option<Stretch> {
    let (s, e) = (of.iter().map(|part| part.stretch.s).min(), of.iter().map(|part| part.stretch.e).max());
    s.zip(e).map(|(s, e)| Stretch { s, e })
}

/// What is shown of an answer, held to the lists that the filling call gives and to nothing else.
fn hold(calls: &dyn Calls, tree: &Tree, log: &[u8], number: u64, fewer: usize) -> Checked {
    let pattern = tree.spell().into_bytes();
    let (result, parts, rest) = call(calls, &pattern, log, (number, ENOUGH));
    let law = |holds: bool, broken: &str| {
        let input = || compare::input(&pattern, log);
        holds.then_some(()).ok_or_else(|| format!("{broken}: result {result:#x}, shown {parts:?}\n  {}\n  answer {number}", input()))
    };
    let list = |tree: &Tree| compare::whole(calls, tree.spell().as_bytes(), log).unwrap_or_default();
    let mut nodes = Vec::new();
    numbered(tree, None, &mut nodes);
    law(result & 0xffff_ffff == 0 && parts.len() as u64 == result >> 32, "the result is not a number of triples that the cells hold")?;
    let first = list(tree).get(number as usize).map(|&stretch| Triple { node: 0, stretch });
    law(parts.first() == first.as_ref(), "what is shown does not begin with the answer at node 0")?;
    law(parts.windows(2).all(|two| two[0].node < two[1].node), "the nodes do not rise")?;
    law(parts.last().map_or(true, |last| (last.node as usize) < nodes.len()), "there is no such node")?;
    for part in &parts {
        let (tree, above) = nodes[part.node as usize];
        law(list(tree).contains(&part.stretch), "a stretch is no answer of its sub-pattern")?;
        law(above.map_or(true, |above| parts.iter().any(|part| part.node as usize == above)), "the node above is not shown")?;
        let operands: Vec<usize> = (0..nodes.len()).filter(|&n| nodes[n].1 == Some(part.node as usize)).collect();
        let below: Vec<Triple> = parts.iter().copied().filter(|part| operands.contains(&(part.node as usize))).collect();
        let expected = match tree {
            Tree::Op { op: Op::Or, .. } => below.len() == 1,
            Tree::Op { op: Op::Less | Op::Max | Op::Out, .. } => below.len() == 1 && below[0].node as usize == operands[0],
            Tree::Op { op: Op::And | Op::Row | Op::Then | Op::In | Op::Has, .. } | Tree::Ev { .. } | Tree::Fr { .. } => {
                below.len() == operands.len()
            }
        };
        law(expected, "too many or too few operands are shown")?;
        // What `in` and `has` show of B is no part of the span.
        let (proved, spanned) = match tree {
            Tree::Op { op: Op::In, .. } => (inside(part.stretch, below[1].stretch), &below[..1]),
            Tree::Op { op: Op::Has, .. } => (inside(below[1].stretch, part.stretch), &below[..1]),
            _ => (true, &below[..]),
        };
        law(proved, "what `in` shows of B does not hold the stretch, or what `has` shows is not inside it")?;
        law(operands.is_empty() || span(spanned) == Some(part.stretch), "a stretch is not the span of those shown directly below it")?;
    }
    law(rest.iter().all(|&cell| cell == 77), "a cell after the triples is changed")?;
    let (result, start, rest) = call(calls, &pattern, log, (number, fewer));
    let fitting = parts.len().min(fewer / 3);
    law(result == (fitting as u64) << 32 && start == parts[..fitting], &format!("with {fewer} cells {result:#x}, {start:?}"))?;
    law(rest.iter().all(|&cell| cell == 77), &format!("with {fewer} cells, those after the triples are {rest:?}"))
}

/// What must hold of what is shown, by the calls' own lists.
pub fn laws(t: &Trial) -> Outcome {
    let mut rng = Rng(64);
    let mut count = 0;
    for round in 0..t.rounds(6_000) {
        let log = some_log(&mut rng, if round % 60 == 0 { 3_000 } else { 60 });
        let tree = finding(&mut rng, &log);
        let found = compare::whole(t.calls, tree.spell().as_bytes(), &log).map_or(0, |list| list.len());
        for _ in 0..3 {
            let (number, fewer) = (rng.below(found + 1) as u64, rng.below(40));
            hold(t.calls, &tree, &log, number, fewer)?;
            count += 1;
        }
    }
    Ok(count)
}

/// What is shown of an answer within a run is what is shown of it in the run alone, whatever stands before and after, of a pattern without `in`
/// and `out`: every stretch shown lies inside the answer, and what of a list lies within the run is decided by the run.
pub fn runs(t: &Trial) -> Outcome {
    let mut rng = Rng(65);
    let mut count = 0;
    for _ in 0..t.rounds(6_000) {
        let [before, run, after] = [12, 40, 12].map(|most| inputs::ended(some_log(&mut rng, most)));
        let log = [&before[..], &run, &after].concat();
        let pattern = inputs::by_runs(finding(&mut rng, &run)).spell().into_bytes();
        let (lines, alone) = (reference::lines(&before).len() as u32, compare::whole(t.calls, &pattern, &run).unwrap_or_default());
        let all = compare::whole(t.calls, &pattern, &log).unwrap_or_default();
        for (number, a) in alone.iter().enumerate().take(12) {
            let moved = |a: Stretch| Stretch { s: a.s + lines, e: a.e + lines };
            let within = all.iter().position(|&b| b == moved(*a)).unwrap_or(all.len());
            let (_, mut due, _) = call(t.calls, &pattern, &run, (number as u64, ENOUGH));
            due.iter_mut().for_each(|part| part.stretch = moved(part.stretch));
            let (_, given, _) = call(t.calls, &pattern, &log, (within as u64, ENOUGH));
            if given != due {
                let input = compare::input_with_run(&pattern, &run, &log, lines);
                return Err(format!("in the log {given:?}, in the run alone {due:?}\n  {input}"));
            }
            count += 1;
        }
    }
    Ok(count)
}
