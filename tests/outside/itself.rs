//! The reference against itself and docs/FORMATS.md: quick against literal, places by completion, the two rules of taking, and the
//! worked cases.

use crate::compare::{self, Lists};
use crate::inputs::{self, Rng};
use crate::over_logs::SHEET_LOG;
use crate::reference::{self, List, Op, Refusal, Stretch, OPS};
use crate::witnesses::{BY_DEFINITION, QUICK};
use crate::{lent, quick, shown, witness_inputs, Outcome, Trial};
use std::collections::HashSet;

fn agree<T: PartialEq + std::fmt::Debug>(what: &str, a: T, b: T, input: impl FnOnce() -> String) -> Result<(), String> {
    if a == b {
        return Ok(());
    }
    Err(format!("{what}: {a:?} and {b:?}\n  {}", input()))
}

/// Whether some pattern starts with `text`: its last piece is completed in every way that can matter, then what may be missing is put
/// after it. (2 is in every range, and a numeral that is no value itself becomes one by a further 0, if at all.)
fn starts_some_pattern(text: &str) -> bool {
    let piece = text.rfind(',').map_or(0, |at| at + 1);
    let mut wholes: Vec<String> = ["ev", "fr", "or", "and", "row", "then", "less", "max", "in", "out", "has", "2"]
        .iter()
        .filter(|word| word.starts_with(&text[piece..]))
        .map(|word| format!("{}{word}", &text[..piece]))
        .collect();
    wholes.extend([text.to_string(), format!("{text}0")]);
    let mut tries = wholes.iter().flat_map(|whole| ["", ",2", ",2,2"].map(|numbers| format!("{whole}{numbers}")));
    tries.any(|start| (0..40).any(|missing| reference::spelling((start.clone() + &",ev,2,2".repeat(missing)).as_bytes()).is_ok()))
}

/// Starts of numbers by rule and by spelling out every number of each range.
fn starts_of_numbers() -> Outcome {
    let texts: Vec<String> = (1..=5).flat_map(|n| (0..10usize.pow(n)).map(move |v| format!("{v:0width$}", width = n as usize))).collect();
    for (low, high) in [(1, 255), (0, 99), (0, 10), (2, 31), (1, 65_535)] {
        let spelled = (low..=high).map(|v: u32| v.to_string());
        let starts: HashSet<String> = spelled.flat_map(|s| (1..=s.len()).map(move |n| s[..n].to_string())).collect();
        for text in &texts {
            let by_rule = reference::starts_number(text.as_bytes(), low, high, reference::value);
            agree("starts of numbers", by_rule, starts.contains(text), || format!("{text} of {low} to {high}"))?;
        }
    }
    Ok(5 * texts.len())
}

/// The reference's parts against each other.
pub fn reference(t: &Trial) -> Outcome {
    let mut rng = Rng(21);
    let mut count = starts_of_numbers()?;
    for _ in 0..t.rounds(4_000) {
        let lines = rng.below(24);
        let log = inputs::log(&mut rng, lines, 4);
        let tree = if rng.once_in(4) { inputs::insides(&mut rng) } else { inputs::tree(&mut rng, 14, 6) };
        let pattern = tree.spell();
        let input = || format!("{pattern}\n  {}", compare::show(&log));
        agree("literal and quick", reference::answers(pattern.as_bytes(), &log), quick::answers(pattern.as_bytes(), &log), input)?;
        let mut quick_lines = Vec::new();
        quick::read_log(&log, |_, line| quick_lines.push(line.map(|l| (l.lane, l.code, l.frame))));
        let lines = reference::read_log(&log).iter().map(|l| l.map(|r| (r.lane, r.code, r.frame))).collect();
        agree("lines literal and quick", lines, quick_lines, input)?;
        count += 2;
    }
    for _ in 0..t.rounds(4_000) {
        let log = witness_inputs::some_log(&mut rng, 20);
        let pattern = witness_inputs::finding(&mut rng, &log).spell();
        let [literal, quick] = [BY_DEFINITION, QUICK].map(|ways| {
            let root = (ways.outermost)(pattern.as_bytes(), &log);
            root.map(|root| (0..=root.list.len() as u64).map(|number| shown::of_number(&root, number, ways.below)).collect::<Vec<_>>())
        });
        agree("what is shown, literal and quick", literal, quick, || format!("{pattern}\n  {}", compare::show(&log)))?;
        count += 1;
    }
    for base in ["1,4,7,3,6\n", "1,04,7,3,6\n", "2,10,100,300,10,10\n"] {
        for line in inputs::edits(base.as_bytes()) {
            let mut sound = Vec::new();
            quick::read_log(&line, |_, l| sound.push(l.is_some()));
            let literal = reference::read_log(&line).iter().map(Option::is_some).collect();
            agree("a line literal and quick", literal, sound, || compare::show(&line))?;
            count += 1;
        }
    }
    for _ in 0..t.rounds(4_000) {
        let (op, _, (least, most)) = rng.pick(&OPS);
        let n = rng.range(least, most.min(5));
        let lists: Vec<List> = (0..n).map(|_| inputs::list(&mut rng, 7, 25)).collect();
        let input = || format!("{op:?} {lists:?}");
        let literal = reference::apply(op, 3, &lists, &reference::length);
        agree("lists literal and quick", &literal, &quick::apply(op, 3, &lists, reference::length), input)?;
        for p in 0..literal.len() as u64 + 2 {
            let answer = literal.get(p as usize).copied();
            if op == Op::Or {
                let by_rule = lent::take_or(&literal, &lists, p);
                agree("or by rule and by Algorithm 2", by_rule, lent::take_or_by_algorithm(&lists, p), input)?;
            } else if op == Op::And {
                agree("and by definition and by Algorithm 3", answer, lent::take_and(&lists, p).0, input)?;
            }
            count += 1;
        }
    }
    for _ in 0..t.rounds(6_000) {
        let list = inputs::list(&mut rng, 40, 90);
        for k in 0..=17 {
            agree("picks literal and quick", reference::picks(k, &list), quick::picks(k, &list), || format!("{k} of {list:?}"))?;
            count += 1;
        }
    }
    for _ in 0..t.rounds(1_500) {
        let mut text = inputs::tree(&mut rng, 6, 4).spell().into_bytes();
        inputs::spoil(&mut rng, &mut text);
        let (Ok(text), Err(place)) = (std::str::from_utf8(&text), reference::spelling(&text)) else { continue };
        if text.is_ascii() {
            agree("the place starts a pattern", true, starts_some_pattern(&text[..place]), || compare::show(text.as_bytes()))?;
            let longer = place < text.len() && starts_some_pattern(&text[..place + 1]);
            agree("one byte more starts a pattern", false, longer, || compare::show(text.as_bytes()))?;
            count += 2;
        }
    }
    Ok(count)
}

fn stretches(pairs: &[(u32, u32)]) -> List {
    pairs.iter().map(|&(s, e)| Stretch { s, e }).collect()
}

fn points(at: &[u32]) -> List {
    at.iter().map(|&p| Stretch { s: p, e: p }).collect()
}

/// The worked cases of docs/FORMATS.md and Figure 1 of Boldi and Vigna, "Efficient Optimally Lazy Algorithms for Minimal-Interval
/// Semantics": what they say against reference and calls.
pub fn cases(t: &Trial) -> Outcome {
    let mut rng = Rng(22);
    let mut count = 0;
    let (a, b) = (points(&[0, 2, 6]), points(&[1, 5]));
    let and = stretches(&[(0, 1), (1, 2), (2, 5), (5, 6)]);
    let figure = [points(&[2, 5, 17, 21, 33, 36]), points(&[1, 4, 7, 32, 35]), points(&[0, 3, 6, 31, 34])];
    let figure_answers =
        stretches(&[(0, 2), (1, 3), (2, 4), (3, 5), (4, 6), (5, 7), (6, 17), (7, 31), (21, 32), (31, 33), (32, 34), (33, 35), (34, 36)]);
    let over_lists: Vec<(Op, u32, Vec<List>, List)> = vec![
        (Op::And, 0, vec![a.clone(), b.clone()], and.clone()),
        (Op::Then, 0, vec![a.clone(), b.clone()], stretches(&[(0, 1), (2, 5)])),
        (Op::Row, 0, vec![a.clone(), b.clone()], stretches(&[(0, 1)])),
        (Op::Or, 0, vec![a.clone(), b.clone()], points(&[0, 1, 2, 5, 6])),
        (Op::Max, 2, vec![and.clone()], stretches(&[(0, 1), (1, 2), (5, 6)])),
        (Op::Less, 0, vec![and, points(&[1])], stretches(&[(2, 5), (5, 6)])),
        (Op::Then, 0, vec![a.clone(), a.clone()], stretches(&[(0, 2), (2, 6)])),
        (Op::And, 0, vec![a.clone(), a.clone()], a.clone()),
        (Op::Then, 0, vec![stretches(&[(0, 2)]), stretches(&[(2, 4)])], vec![]),
        (Op::Row, 0, vec![stretches(&[(0, 2)]), stretches(&[(3, 4)])], stretches(&[(0, 4)])),
        (Op::Or, 0, vec![stretches(&[(0, 4), (3, 8)]), stretches(&[(1, 4)])], stretches(&[(1, 4), (3, 8)])),
        (Op::And, 0, figure.to_vec(), figure_answers),
    ];
    for (op, k, lists, due) in over_lists {
        let (items, ends) = inputs::lend(&lists);
        agree("a worked case", &due, &reference::apply(op, k, &lists, &reference::length), || format!("{op:?} {lists:?}"))?;
        let lent = Lists { op: op as u32, k, items: &items, ends: &ends };
        compare::lists_fill(t.calls, &mut rng, &lent, &Ok(due.clone()), 2 * due.len() + 1, 0)?;
        count += 1;
    }

    let bb = vec![points(&[1, 5]), points(&[1, 5])];
    let taken: Vec<(Op, Vec<List>, u64, Option<(u32, u32)>, [u32; 2])> = vec![
        (Op::And, vec![a.clone(), b.clone()], 0, Some((0, 1)), [2, 1]),
        (Op::And, vec![a.clone(), b.clone()], 4, None, [3, 3]),
        (Op::And, bb.clone(), 0, Some((1, 1)), [1, 1]),
        (Op::And, bb.clone(), 1, Some((5, 5)), [2, 2]),
        (Op::And, bb, 2, None, [3, 2]),
        (Op::And, vec![stretches(&[(0, 5)]), points(&[1, 3])], 0, Some((0, 5)), [1, 1]),
        (Op::And, vec![a.clone(), vec![]], 0, None, [1, 1]),
        (Op::Or, vec![a.clone(), b.clone()], 0, Some((0, 0)), [1, 1]),
        (Op::Or, vec![a, b], 5, None, [4, 3]),
    ];
    for (op, lists, number, answer, counts) in taken {
        let (items, ends) = inputs::lend(&lists);
        let due = (answer.map(|(s, e)| Stretch { s, e }), counts.to_vec());
        let given = if op == Op::Or { lent::take_or_by_algorithm(&lists, number) } else { lent::take_and(&lists, number) };
        agree("a worked count", &due, &given, || format!("{op:?} {lists:?}, answer {number}"))?;
        let lent = Lists { op: op as u32, k: 0, items: &items, ends: &ends };
        compare::take(t.calls, &mut rng, &lent, &Ok(due), 3, number)?;
        count += 1;
    }

    let leaves = |n: usize| format!("or,{n}{}", ",ev,1,0".repeat(n));
    let feeds = |n: usize| "\n".repeat(n);
    let sheet_log = String::from_utf8(SHEET_LOG.to_vec()).unwrap();
    let over_logs: Vec<(String, String, Result<List, (u64, u64)>)> = vec![
        ("then,2,ev,7,0,ev,9,0".into(), sheet_log.clone(), Ok(stretches(&[(0, 3)]))),
        ("fr,10,0".into(), "2,4,12,10,3,0\n".into(), Ok(vec![])),
        ("fr,3,0".into(), "2,4,12,10,3,0\n".into(), Ok(points(&[0]))),
        ("fr,3,0".into(), "2,4,12,10,3,0".into(), Ok(vec![])),
        ("or,1,ev,1,0".into(), sheet_log.clone(), Err((3, 4))),
        ("ev,256,0".into(), sheet_log.clone(), Err((3, 5))),
        ("".into(), sheet_log, Err((3, 0))),
        ("or,0".into(), "".into(), Err((3, 3))),
        ("or,40".into(), "".into(), Err((3, 4))),
        ("max,65536".into(), "".into(), Err((3, 8))),
        ("fr,11".into(), "".into(), Err((3, 4))),
        ("ev,0".into(), "".into(), Err((3, 3))),
        ("ev,1,0,".into(), "".into(), Err((3, 6))),
        ("ev,1,\n".into(), "".into(), Err((3, 5))),
        ("max,9,".repeat(7) + "ev,1,0", "1,4,1,0,0\n".into(), Ok(points(&[0]))),
        ("max,9,".repeat(8) + "ev,1,0", "".into(), Err((5, 0))),
        (leaves(31), "1,4,1,0,0\n".into(), Ok(points(&[0]))),
        (leaves(31).replacen("ev,1,0", "max,1,ev,1,0", 1), "".into(), Err((4, 0))),
        ("ev,1,0".into(), feeds(61_440), Ok(vec![])),
        ("ev,1,0".into(), feeds(61_441), Err((1, 0))),
        ("row,2,ev,7,0,ev,9,0".into(), "1,4,7,0,0\noops\n1,4,9,0,0\n".into(), Ok(vec![])),
    ];
    for (pattern, log, due) in over_logs {
        let due = due.map_err(|(number, place)| Refusal { number, place });
        agree("a worked case", &due, &quick::answers(pattern.as_bytes(), log.as_bytes()), || pattern.clone())?;
        compare::fill(t.calls, &mut rng, pattern.as_bytes(), log.as_bytes(), &due, 7, 0)?;
        count += 1;
    }
    Ok(count)
}
