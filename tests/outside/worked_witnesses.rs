//! Worked by hand: which nodes took part in an answer, and with which stretches.

use crate::compare::{self, Checked};
use crate::reference::{Refusal, LOG_MAX, PATTERN_MAX};
use crate::shown::{self, Triple};
use crate::witnesses::{BY_DEFINITION, QUICK};
use crate::{Outcome, Trial};

/// The log of FORMATS.md, "What the operators mean": code 7 on lines 0, 2 and 6, code 9 on 1 and 5, code 2 on 3; frame 3 on 0 to 2, frame 4
/// on 3 and 5; line 4 is damaged.
const LOG: &str = "1,4,7,3,6\n1,4,9,3,0\n1,4,7,3,0\n1,4,2,4,8\noops\n1,4,9,4,0\n1,5,7,5,0\n";

/// In that log [0..1], [1..2], [2..5] and [5..6].
const AND: &str = "and,2,ev,7,0,ev,9,0";

/// In that log [0..1] and [2..5].
const THEN: &str = "then,2,ev,7,0,ev,9,0";

/// Nine nodes, with two answers in that log.
const NINE: &str = "less,and,2,then,2,ev,7,0,ev,9,0,or,2,fr,4,0,ev,2,0,ev,12,0";

/// Node, start, end.
type Parts<'a> = &'a [(u32, u32, u32)];

/// What holds an answer's number of a pattern in a log to what is due.
type Check<'a> = &'a mut dyn FnMut(&str, &str, u64, Result<Parts, (u64, u64)>) -> Checked;

/// Worked by hand, each with every number of cells up to some that are left over. The cells hold 77 before, and those after the triples
/// keep it.
pub fn cases(t: &Trial) -> Outcome {
    let mut count = 0;
    let mut check = |pattern: &str, log: &str, number: u64, due: Result<Parts, (u64, u64)>| -> Checked {
        let (pattern, log) = (pattern.as_bytes(), log.as_bytes());
        let roots = [BY_DEFINITION, QUICK].map(|ways| (ways, (ways.outermost)(pattern, log)));
        let of = |i: usize| -> Result<Vec<Triple>, Refusal> {
            let (ways, root) = &roots[i];
            root.as_ref().map(|root| shown::of_number(root, number, ways.below)).map_err(|refusal| *refusal)
        };
        let parts = due.unwrap_or_default();
        let word = |written: usize| due.map_or_else(|(number, place)| number | place << 16, |_| (written as u64) << 32);
        for cells in 0..=3 * parts.len() + 4 {
            let written = parts.len().min(cells / 3);
            let mut wanted: Vec<u32> = parts[..written].iter().flat_map(|&(node, s, e)| [node, s, e]).collect();
            wanted.resize(cells, 77);
            let ways: [(&str, &dyn Fn(&mut [u32]) -> u64); 3] = [
                ("by definition", &|lent| shown::write(&of(0), lent)),
                ("the quick way", &|lent| shown::write(&of(1), lent)),
                ("by call", &|lent| t.calls.witness(pattern, log, number, lent)),
            ];
            for (how, way) in ways {
                let mut given = vec![77; cells];
                let (result, due) = (way(&mut given), word(written));
                if (result, &given) != (due, &wanted) {
                    let input = compare::input(pattern, log);
                    let report = format!("{how} {result:#x} and {given:?}, should be {due:#x} and {wanted:?}");
                    return Err(format!("{report}\n  {input}\n  answer {number}"));
                }
                count += 1;
            }
        }
        Ok(())
    };
    leaves_and_or(&mut check)?;
    and(&mut check)?;
    in_turn(&mut check)?;
    filters(&mut check)?;
    insides(&mut check)?;
    bounds(&mut check)?;
    refusals(&mut check)?;
    Ok(count)
}

/// Checks patterns in the log above, each for an answer's number.
fn in_log(check: Check, cases: &[(&str, u64, Parts)]) -> Checked {
    cases.iter().try_for_each(|&(pattern, number, due)| check(pattern, LOG, number, Ok(due)))
}

fn leaves_and_or(check: Check) -> Checked {
    let cases: &[(&str, u64, Parts)] = &[
        ("ev,7,0", 0, &[(0, 0, 0)]),
        ("ev,7,0", 2, &[(0, 6, 6)]),
        ("ev,7,0", 3, &[]),
        ("fr,3,0", 1, &[(0, 1, 1)]),
        ("ev,1,0", 0, &[]),
        ("or,2,ev,7,0,ev,9,0", 0, &[(0, 0, 0), (1, 0, 0)]),
        ("or,2,ev,7,0,ev,9,0", 1, &[(0, 1, 1), (2, 1, 1)]),
        ("or,2,ev,7,0,ev,9,0", 4, &[(0, 6, 6), (1, 6, 6)]),
        // Several operands have the same stretch: the first.
        ("or,2,ev,7,0,ev,7,0", 1, &[(0, 2, 2), (1, 2, 2)]),
        ("or,3,ev,9,0,ev,7,0,ev,7,4", 0, &[(0, 0, 0), (2, 0, 0)]),
        ("or,2,ev,7,4,ev,7,0", 0, &[(0, 0, 0), (1, 0, 0)]),
        ("or,2,ev,7,4,ev,7,0", 2, &[(0, 6, 6), (2, 6, 6)]),
        ("or,3,ev,2,0,row,2,ev,7,0,ev,9,0,then,2,ev,7,0,ev,9,0", 0, &[(0, 0, 1), (2, 0, 1), (3, 0, 0), (4, 1, 1)]),
        ("or,2,and,2,ev,9,0,ev,7,0,then,2,ev,7,0,ev,9,0", 0, &[(0, 0, 1), (1, 0, 1), (2, 1, 1), (3, 0, 0)]),
        ("or,2,then,2,ev,7,0,ev,9,0,and,2,ev,9,0,ev,7,0", 1, &[(0, 1, 2), (4, 1, 2), (5, 1, 1), (6, 2, 2)]),
        // An operand has a longer stretch that starts or ends alike: [2..3], and [0..1].
        ("or,2,then,2,ev,7,0,ev,2,0,ev,7,0", 1, &[(0, 2, 2), (4, 2, 2)]),
        ("or,2,then,2,ev,7,0,ev,9,0,ev,9,0", 0, &[(0, 1, 1), (4, 1, 1)]),
        ("or,2,then,2,ev,7,0,ev,9,0,ev,2,0", 0, &[(0, 0, 1), (1, 0, 1), (2, 0, 0), (3, 1, 1)]),
        ("or,2,then,2,ev,7,0,ev,9,0,ev,2,0", 1, &[(0, 3, 3), (4, 3, 3)]),
    ];
    in_log(check, cases)
}

fn and(check: Check) -> Checked {
    let cases: &[(&str, u64, Parts)] = &[
        (AND, 0, &[(0, 0, 1), (1, 0, 0), (2, 1, 1)]),
        (AND, 1, &[(0, 1, 2), (1, 2, 2), (2, 1, 1)]),
        (AND, 2, &[(0, 2, 5), (1, 2, 2), (2, 5, 5)]),
        (AND, 3, &[(0, 5, 6), (1, 6, 6), (2, 5, 5)]),
        (AND, 4, &[]),
        ("and,2,ev,9,0,fr,4,0", 0, &[(0, 1, 3), (1, 1, 1), (2, 3, 3)]),
        ("and,2,ev,9,0,fr,4,0", 1, &[(0, 5, 5), (1, 5, 5), (2, 5, 5)]),
        ("and,2,ev,7,0,ev,7,0", 1, &[(0, 2, 2), (1, 2, 2), (2, 2, 2)]),
        // Of several inside [1..5] the first: 3 of 3 and 5; 2 of 2 and 3, though the operand begins with 0; [1..2], though with [0..1].
        ("and,2,then,2,ev,9,0,ev,9,0,fr,4,0", 0, &[(0, 1, 5), (1, 1, 5), (2, 1, 1), (3, 5, 5), (4, 3, 3)]),
        ("and,2,or,2,ev,7,0,ev,2,0,then,2,ev,9,0,ev,9,0", 0, &[(0, 1, 5), (1, 2, 2), (2, 2, 2), (4, 1, 5), (5, 1, 1), (6, 5, 5)]),
        (
            "and,2,then,2,ev,9,0,ev,9,0,and,2,or,2,ev,7,0,fr,4,0,or,2,ev,9,0,ev,2,0",
            0,
            &[(0, 1, 5), (1, 1, 5), (2, 1, 1), (3, 5, 5), (4, 1, 2), (5, 2, 2), (6, 2, 2), (8, 1, 1), (9, 1, 1)],
        ),
        // An operand that reaches neither end.
        ("and,3,ev,9,0,ev,2,0,ev,7,5", 0, &[(0, 3, 6), (1, 5, 5), (2, 3, 3), (3, 6, 6)]),
    ];
    in_log(check, cases)
}

fn in_turn(check: Check) -> Checked {
    let (then, row) = (format!("then,2,{AND},{AND}"), format!("row,2,{AND},{AND}"));
    // Of AND's, [1..2] starts on the line where [0..1] ends.
    let first: Parts = &[(0, 0, 5), (1, 0, 1), (2, 0, 0), (3, 1, 1), (4, 2, 5), (5, 2, 2), (6, 5, 5)];
    let second: Parts = &[(0, 1, 6), (1, 1, 2), (2, 2, 2), (3, 1, 1), (4, 5, 6), (5, 6, 6), (6, 5, 5)];
    let cases: &[(&str, u64, Parts)] = &[
        ("then,2,ev,7,0,ev,9,0", 0, &[(0, 0, 1), (1, 0, 0), (2, 1, 1)]),
        ("then,2,ev,7,0,ev,9,0", 1, &[(0, 2, 5), (1, 2, 2), (2, 5, 5)]),
        ("then,2,ev,7,0,ev,7,0", 0, &[(0, 0, 2), (1, 0, 0), (2, 2, 2)]),
        ("then,2,ev,7,0,ev,7,0", 1, &[(0, 2, 6), (1, 2, 2), (2, 6, 6)]),
        (&then, 0, first),
        (&then, 1, second),
        (&then, 2, &[]),
        // From the start of the answer, not the operand's first; then line 3 and not 5.
        ("then,2,fr,3,0,ev,2,0", 0, &[(0, 2, 3), (1, 2, 2), (2, 3, 3)]),
        ("then,3,ev,7,0,fr,4,0,ev,7,0", 0, &[(0, 2, 6), (1, 2, 2), (2, 3, 3), (3, 6, 6)]),
        ("then,2,fr,3,0,then,2,fr,4,0,ev,7,0", 0, &[(0, 2, 6), (1, 2, 2), (2, 5, 6), (3, 5, 5), (4, 6, 6)]),
        ("row,2,ev,9,0,ev,7,0", 0, &[(0, 1, 2), (1, 1, 1), (2, 2, 2)]),
        ("row,2,ev,9,0,ev,7,0", 1, &[(0, 5, 6), (1, 5, 5), (2, 6, 6)]),
        (&row, 0, first),
        (&row, 1, &[]),
        ("row,3,fr,3,0,fr,3,0,fr,3,0", 0, &[(0, 0, 2), (1, 0, 0), (2, 1, 1), (3, 2, 2)]),
        ("row,2,fr,3,0,fr,3,0", 1, &[(0, 1, 2), (1, 1, 1), (2, 2, 2)]),
    ];
    in_log(check, cases)
}

fn filters(check: Check) -> Checked {
    let (less, max_2, max_3) = (format!("less,{AND},ev,2,0"), format!("max,2,{AND}"), format!("max,3,{AND}"));
    let last: Parts = &[(0, 5, 6), (1, 5, 6), (2, 6, 6), (3, 5, 5)];
    let cases: &[(&str, u64, Parts)] = &[
        // [2..5] is dropped, so [5..6] has number 2.
        (&less, 1, &[(0, 1, 2), (1, 1, 2), (2, 2, 2), (3, 1, 1)]),
        (&less, 2, last),
        (&less, 3, &[]),
        (&max_2, 2, last),
        (&max_3, 2, &[(0, 2, 5), (1, 2, 5), (2, 2, 2), (3, 5, 5)]),
        (&max_3, 3, last),
        ("max,1,ev,9,0", 1, &[(0, 5, 5), (1, 5, 5)]),
        // That of FORMATS.md, "The lines that made a stretch".
        (NINE, 0, &[(0, 0, 3), (1, 0, 3), (2, 0, 1), (3, 0, 0), (4, 1, 1), (5, 3, 3), (6, 3, 3)]),
        (NINE, 1, &[(0, 2, 5), (1, 2, 5), (2, 2, 5), (3, 2, 2), (4, 5, 5), (5, 3, 3), (6, 3, 3)]),
        (NINE, 2, &[]),
        // The nodes of B are counted and not shown, also where B has stretches beside, before or around A's.
        ("or,2,less,ev,7,0,ev,9,0,ev,2,0", 2, &[(0, 3, 3), (4, 3, 3)]),
        ("and,2,less,ev,7,0,and,2,ev,9,0,ev,2,0,ev,9,0", 1, &[(0, 1, 2), (1, 2, 2), (2, 2, 2), (6, 1, 1)]),
        ("less,ev,9,0,then,2,ev,9,0,ev,9,0", 0, &[(0, 1, 1), (1, 1, 1)]),
        ("less,less,ev,7,0,ev,9,0,less,ev,2,0,ev,9,0", 1, &[(0, 2, 2), (1, 2, 2), (2, 2, 2)]),
        ("then,2,less,ev,7,0,ev,7,5,max,9,ev,9,0", 1, &[(0, 2, 5), (1, 2, 2), (2, 2, 2), (4, 5, 5), (5, 5, 5)]),
    ];
    in_log(check, cases)
}

/// `in` shows the first of B that holds its stretch, which may reach out of the answer, `has` the first inside, and `out` none.
fn insides(check: Check) -> Checked {
    let cases: &[(String, u64, Parts)] = &[
        (format!("in,ev,2,0,{THEN}"), 0, &[(0, 3, 3), (1, 3, 3), (2, 2, 5), (3, 2, 2), (4, 5, 5)]),
        (format!("in,ev,2,0,{THEN}"), 1, &[]),
        // Of two that hold it the first: line 1 is in [0..1] and [1..2], line 2 in [1..2] and [2..5], line 5 in [2..5] and [5..6].
        (format!("in,fr,3,0,{AND}"), 1, &[(0, 1, 1), (1, 1, 1), (2, 0, 1), (3, 0, 0), (4, 1, 1)]),
        (format!("in,fr,3,0,{AND}"), 2, &[(0, 2, 2), (1, 2, 2), (2, 1, 2), (3, 2, 2), (4, 1, 1)]),
        (format!("in,ev,9,0,{AND}"), 1, &[(0, 5, 5), (1, 5, 5), (2, 2, 5), (3, 2, 2), (4, 5, 5)]),
        (format!("in,ev,7,0,{AND}"), 2, &[(0, 6, 6), (1, 6, 6), (2, 5, 6), (3, 6, 6), (4, 5, 5)]),
        // An equal one, also behind [1..2], which only shares a line.
        (format!("in,{THEN},{AND}"), 1, &[(0, 2, 5), (1, 2, 5), (2, 2, 2), (3, 5, 5), (4, 2, 5), (5, 2, 2), (6, 5, 5)]),
        (format!("in,{AND},{THEN}"), 1, &[(0, 2, 5), (1, 2, 5), (2, 2, 2), (3, 5, 5), (4, 2, 5), (5, 2, 2), (6, 5, 5)]),
        ("in,ev,9,0,fr,4,0".into(), 0, &[(0, 5, 5), (1, 5, 5), (2, 5, 5)]),
        // B's [2..5] is no part of the span [3..6].
        (format!("and,2,in,ev,2,0,{THEN},ev,7,5"), 0, &[(0, 3, 6), (1, 3, 3), (2, 3, 3), (3, 2, 5), (4, 2, 2), (5, 5, 5), (6, 6, 6)]),
        (format!("then,2,in,ev,2,0,{THEN},ev,9,0"), 0, &[(0, 3, 5), (1, 3, 3), (2, 3, 3), (3, 2, 5), (4, 2, 2), (5, 5, 5), (6, 5, 5)]),
        // B an `in`, an `out` and an `or`, each with what it shows.
        (
            format!("in,fr,4,0,in,{AND},{THEN}"),
            0,
            &[(0, 3, 3), (1, 3, 3), (2, 2, 5), (3, 2, 5), (4, 2, 2), (5, 5, 5), (6, 2, 5), (7, 2, 2), (8, 5, 5)],
        ),
        (format!("in,ev,2,0,out,{THEN},ev,12,0"), 0, &[(0, 3, 3), (1, 3, 3), (2, 2, 5), (3, 2, 5), (4, 2, 2), (5, 5, 5)]),
        ("in,ev,9,0,or,3,fr,5,0,ev,9,5,fr,4,0".into(), 0, &[(0, 5, 5), (1, 5, 5), (2, 5, 5), (5, 5, 5)]),
        // `out` shows nothing of B, also where B shares lines or lies inside; B's nodes are counted.
        (format!("out,ev,7,0,{THEN}"), 0, &[(0, 6, 6), (1, 6, 6)]),
        (format!("out,{AND},{THEN}"), 0, &[(0, 1, 2), (1, 1, 2), (2, 2, 2), (3, 1, 1)]),
        (format!("out,{AND},ev,2,0"), 2, &[(0, 2, 5), (1, 2, 5), (2, 2, 2), (3, 5, 5)]),
        (format!("or,2,out,ev,7,0,{THEN},ev,2,0"), 0, &[(0, 3, 3), (6, 3, 3)]),
        (format!("or,2,out,ev,7,0,{THEN},ev,2,0"), 1, &[(0, 6, 6), (1, 6, 6), (2, 6, 6)]),
        // Of 3 and 5, both inside [2..5], the first; inside [1..5] the first is [1..2], though B begins with [0..1].
        (format!("has,{AND},fr,4,0"), 0, &[(0, 2, 5), (1, 2, 5), (2, 2, 2), (3, 5, 5), (4, 3, 3)]),
        (format!("has,{AND},fr,4,0"), 1, &[(0, 5, 6), (1, 5, 6), (2, 6, 6), (3, 5, 5), (4, 5, 5)]),
        (format!("has,{AND},fr,4,0"), 2, &[]),
        (format!("has,then,2,ev,9,0,ev,9,0,{AND}"), 0, &[(0, 1, 5), (1, 1, 5), (2, 1, 1), (3, 5, 5), (4, 1, 2), (5, 2, 2), (6, 1, 1)]),
        (format!("has,{AND},{THEN}"), 1, &[(0, 2, 5), (1, 2, 5), (2, 2, 2), (3, 5, 5), (4, 2, 5), (5, 2, 2), (6, 5, 5)]),
        // What `in` shows of B within what `has` shows of B.
        (
            format!("has,{AND},in,ev,2,0,{THEN}"),
            0,
            &[(0, 2, 5), (1, 2, 5), (2, 2, 2), (3, 5, 5), (4, 3, 3), (5, 3, 3), (6, 2, 5), (7, 2, 2), (8, 5, 5)],
        ),
    ];
    cases.iter().try_for_each(|(pattern, number, due)| check(pattern, LOG, *number, Ok(due)))
}

/// Patterns of 32 nodes and 8 deep, numbers beyond the last answer, damaged lines in the answer, and the largest log.
fn bounds(check: Check) -> Checked {
    let leaves = |operator: &str, leaf: &str| format!("{operator},31{}", format!(",{leaf}").repeat(31));
    let all = |of: &dyn Fn(u32) -> (u32, u32)| -> Vec<(u32, u32, u32)> { (0..32).map(|node| (node, of(node).0, of(node).1)).collect() };
    let sevens = "1,4,7,3,6\n".repeat(40);
    check(&leaves("and", "fr,3,0"), LOG, 1, Ok(&all(&|_| (1, 1))))?;
    let of = |n: usize| format!("and,{n}{}", ",fr,3,0".repeat(n));
    for word in ["in", "has"] {
        check(&format!("{word},{},{}", of(15), of(14)), LOG, 1, Ok(&all(&|_| (1, 1))))?;
    }
    check(&leaves("or", "ev,9,0"), LOG, 1, Ok(&[(0, 5, 5), (1, 5, 5)]))?;
    check(&(format!("or,31{}", ",ev,1,0".repeat(30)) + ",ev,9,0"), LOG, 1, Ok(&[(0, 5, 5), (31, 5, 5)]))?;
    for operator in ["row", "then"] {
        check(&leaves(operator, "ev,7,0"), &sevens, 5, Ok(&all(&|node| if node == 0 { (5, 35) } else { (node + 4, node + 4) })))?;
        check(&leaves(operator, "ev,7,0"), &sevens, 10, Ok(&[]))?;
    }
    let maxima: Vec<(u32, u32, u32)> = (0..8).map(|node| (node, 5, 5)).collect();
    check(&("max,9,".repeat(7) + "ev,9,0"), LOG, 1, Ok(&maxima))?;
    let each = "max,9,less,max,9,or,2,and,2,then,2,row,2,ev,7,0,fr,3,0,ev,7,4,fr,3,4,ev,9,0,ev,2,0";
    let shown = [(0, 1, 3), (1, 1, 3), (2, 1, 3), (3, 1, 3), (4, 1, 3), (5, 1, 3), (6, 1, 2), (7, 1, 1), (8, 2, 2), (9, 3, 3), (10, 1, 1)];
    check(each, &sevens, 1, Ok(&shown))?;
    for number in [4, 5, 256, 1 << 16, 1 << 32, (1 << 32) + 1, 1 << 63, u64::MAX] {
        check(AND, LOG, number, Ok(&[]))?;
    }
    for number in [0, 1, u64::MAX] {
        check(AND, "", number, Ok(&[]))?;
        check("ev,9,0", "1,4,9,0,0", number, Ok(&[]))?;
    }
    let spell = ["\n1,4,7,3,6\n", "oops\n1,4,2,3\n\n1,5,2,8,4\n\r\n", "1,4,9,3,0\n1,4,9,3,0"].concat();
    check("max,3,and,2,ev,2,0,then,2,ev,7,0,ev,9,0", &spell, 0, Ok(&[(0, 1, 7), (1, 1, 7), (2, 5, 5), (3, 1, 7), (4, 1, 1), (5, 7, 7)]))?;
    let far = format!("1,4,7,3,6\n{}1,4,9,3,0\n", "\n".repeat(LOG_MAX - 20));
    check(AND, &far, 0, Ok(&[(0, 0, 61_421), (1, 0, 0), (2, 61_421, 61_421)]))?;
    check("ev,1,0", &"1,4,1,0,0\n".repeat(6_144), 6_143, Ok(&[(0, 6_143, 6_143)]))
}

fn refusals(check: Check) -> Checked {
    let long = "\n".repeat(LOG_MAX + 1);
    let crowded = format!("or,31,max,1{}", ",ev,7,0".repeat(31));
    for number in [0, 1, u64::MAX] {
        check("ev,7,0", &long, number, Err((1, 0)))?;
        check("ev,256,0", &long, number, Err((1, 0)))?;
        check(&",".repeat(PATTERN_MAX + 1), LOG, number, Err((2, 0)))?;
        check(&",".repeat(PATTERN_MAX), LOG, number, Err((3, 0)))?;
        check("ev,256,0", LOG, number, Err((3, 5)))?;
        check("", LOG, number, Err((3, 0)))?;
        check(&crowded, LOG, number, Err((4, 0)))?;
        check(&("max,9,".repeat(8) + "ev,7,0"), LOG, number, Err((5, 0)))?;
    }
    Ok(())
}
