//! Worked by hand: `in`, `out` and `has` over lent lists, their refusals and the places of their words, in logs, and in runs.

use crate::compare::{self, Checked, Lists};
use crate::inputs::{self, Rng};
use crate::reference::{self, refused, List, Op, Refusal, Stretch};
use crate::{Outcome, Trial};

/// Starts and ends.
type Pairs<'a> = &'a [(u32, u32)];

fn stretches(pairs: Pairs) -> List {
    pairs.iter().map(|&(s, e)| Stretch { s, e }).collect()
}

/// Worked by hand.
pub fn cases(t: &Trial) -> Outcome {
    let mut rng = Rng(72);
    let mut count = lists(t)? + miscalled(t)?;
    let mut check = |pattern: &str, log: &str, due: Result<Pairs, (u64, u64)>| -> Checked {
        let due = due.map(stretches).map_err(|(number, place)| Refusal { number, place });
        count += compare::case(t.calls, &mut rng, pattern, log, due)?;
        Ok(())
    };
    places(&mut check)?;
    bounds(&mut check)?;
    logs(&mut check)?;
    runs(&mut check)?;
    Ok(count)
}

/// What holds a pattern's stretches in a log, or its refusal, to what is due.
type Check<'a> = &'a mut dyn FnMut(&str, &str, Result<Pairs, (u64, u64)>) -> Checked;

/// Of the short ones only [7..7] lies in none of the long ones.
///
///     line       0 1 2 3 4 5 6 7 8 9 10
///     SHORT      #                          [0..0]
///                    #####                  [2..4]
///                        ###                [4..5]
///                              #            [7..7]
///                                  ###      [9..10]
///     LONG       ###                        [0..1]
///                    #######                [2..5]
///                        #####              [4..6]
///                                #####      [8..10]
const SHORT: Pairs = &[(0, 0), (2, 4), (4, 5), (7, 7), (9, 10)];
const LONG: Pairs = &[(0, 1), (2, 5), (4, 6), (8, 10)];

/// [3..5] lies in the second and in the third.
///
///     line       0 1 2 3 4 5 6 7 8 9 10 12
///     STAIRS     ###                        [0..1]
///                  #################        [1..9]
///                    #####################  [2..12]
const STAIRS: Pairs = &[(0, 1), (1, 9), (2, 12)];

/// A, B, and what `in`, `out` and `has` keep of A.
fn lists(t: &Trial) -> Outcome {
    let cases: &[(Pairs, Pairs, [Pairs; 3])] = &[
        (SHORT, LONG, [&[(0, 0), (2, 4), (4, 5), (9, 10)], &[(7, 7)], &[]]),
        (LONG, SHORT, [&[], LONG, LONG]),
        (SHORT, SHORT, [SHORT, &[], SHORT]),
        // Equal, and alike at one end.
        (&[(3, 5)], &[(3, 5)], [&[(3, 5)], &[], &[(3, 5)]]),
        (&[(3, 5)], &[(3, 6)], [&[(3, 5)], &[], &[]]),
        (&[(3, 5)], &[(2, 5)], [&[(3, 5)], &[], &[]]),
        (&[(3, 5)], &[(2, 6)], [&[(3, 5)], &[], &[]]),
        (&[(3, 5)], &[(3, 4)], [&[], &[(3, 5)], &[(3, 5)]]),
        (&[(3, 5)], &[(4, 5)], [&[], &[(3, 5)], &[(3, 5)]]),
        (&[(3, 5)], &[(4, 4)], [&[], &[(3, 5)], &[(3, 5)]]),
        // Lines in common are not enough: of [1..4] and [4..8] neither holds [3..5], though together they have its lines.
        (&[(3, 5)], &[(1, 4)], [&[], &[(3, 5)], &[]]),
        (&[(3, 5)], &[(5, 8)], [&[], &[(3, 5)], &[]]),
        (&[(3, 5)], &[(1, 4), (4, 8)], [&[], &[(3, 5)], &[]]),
        (&[(2, 2)], &[(1, 1), (3, 3)], [&[], &[(2, 2)], &[]]),
        // Another one of B than the first, or than the last, may hold it.
        (&[(3, 5)], STAIRS, [&[(3, 5)], &[], &[]]),
        (&[(1, 9)], STAIRS, [&[(1, 9)], &[], &[(1, 9)]]),
        (&[(1, 1), (2, 2), (3, 10), (4, 13)], STAIRS, [&[(1, 1), (2, 2), (3, 10)], &[(4, 13)], &[]]),
        (&[(0, 9), (1, 12)], STAIRS, [&[], &[(0, 9), (1, 12)], &[(0, 9), (1, 12)]]),
        (&[(5, 6)], &[(0, 2), (1, 7), (6, 9)], [&[(5, 6)], &[], &[]]),
        // [3..7] reaches out of [2..6].
        (&[(0, 3), (2, 6), (5, 9)], &[(1, 2), (3, 7), (6, 8)], [&[], &[(0, 3), (2, 6), (5, 9)], &[(0, 3), (5, 9)]]),
        (&[], LONG, [&[], &[], &[]]),
        (SHORT, &[], [&[], SHORT, &[]]),
        (&[], &[], [&[], &[], &[]]),
        (&[(0, 0), (65_535, 65_535)], &[(0, 65_535)], [&[(0, 0), (65_535, 65_535)], &[], &[]]),
        (&[(0, 65_535)], &[(65_535, 65_535)], [&[], &[(0, 65_535)], &[(0, 65_535)]]),
    ];
    for (a, b, kept) in cases {
        let lists = [stretches(a), stretches(b)];
        let (items, ends) = inputs::lend(&lists);
        for (op, due) in [Op::In, Op::Out, Op::Has].into_iter().zip(kept.map(stretches)) {
            let by_reference = reference::apply(op, 0, &lists, &reference::length);
            if by_reference != due {
                return Err(format!("{op:?} of {lists:?} by reference {by_reference:?}, should be {due:?}"));
            }
            let lent = Lists { op: op as u32, k: 0, items: &items, ends: &ends };
            compare::lists_fill(t.calls, &mut Rng(73), &lent, &Ok(due), items.len() + 1, 0)?;
        }
    }
    Ok(3 * cases.len())
}

/// Operators 7, 8 and 9 take two lists and no k, there is no operator 10, and none of these is taken.
fn miscalled(t: &Trial) -> Outcome {
    let mut rng = Rng(74);
    let mut count = 0;
    for op in 7..=10 {
        for lists in [0, 1, 2, 3, 4, 31, 32] {
            let ends = vec![0; lists];
            let lent = |k| Lists { op, k, items: &[], ends: &ends };
            for k in [0, 1, 2, 65_535, u32::MAX] {
                let due = if op < 10 && lists == 2 && k == 0 { Ok(vec![]) } else { refused(6) };
                compare::lists_fill(t.calls, &mut rng, &lent(k), &due, 2, 0)?;
                count += 1;
            }
            compare::take(t.calls, &mut rng, &lent(0), &refused(6), lists + 1, 0)?;
            count += 1;
        }
        // 6 comes before 7 and 8: lists that do not end with the items, and stretches in no order.
        for (items, number) in [(vec![1, 2], 7), (vec![2, 1, 0, 0], 8)] {
            let last = if number == 7 { 0 } else { 4 };
            for (ends, number) in [(vec![0, last], if op < 10 { number } else { 6 }), (vec![last], 6), (vec![0, 0, last], 6)] {
                compare::lists_fill(t.calls, &mut rng, &Lists { op, k: 0, items: &items, ends: &ends }, &refused(number), 2, 0)?;
                count += 1;
            }
        }
    }
    Ok(count)
}

/// Where words are misspelt: `o` may become `or` or `out`, `i` `in`, `h` `has`.
fn places(check: Check) -> Checked {
    let cases = [
        ("o", 1),
        ("ot", 1),
        ("o,2", 1),
        ("ou", 2),
        ("oud", 2),
        ("ou,ev,7,0,ev,9,0", 2),
        ("our,2", 2),
        ("out", 3),
        ("outt", 3),
        ("out;", 3),
        ("out,", 4),
        ("out,2,ev,7,0,ev,9,0", 4),
        ("ort", 2),
        ("i", 1),
        ("it", 1),
        ("in", 2),
        ("inn", 2),
        ("in,", 3),
        ("in,1", 3),
        ("in,2,ev,7,0,ev,9,0", 3),
        ("h", 1),
        ("hs", 1),
        ("ha", 2),
        ("ha,ev,7,0,ev,9,0", 2),
        ("hat", 2),
        ("has", 3),
        ("hass", 3),
        ("has,,", 4),
        ("In", 0),
        ("OUT", 0),
        ("n", 0),
        ("u", 0),
        // One operand, unfinished; three; and further in.
        ("in,ev,7,0", 9),
        ("in,ev,7,0,", 10),
        ("in,ev,7,0,ev,9,0,", 16),
        ("in,ev,7,0,ev,9,0,ev,2,0", 16),
        ("has,ev,7,0,ev,9,0,ev,2,0", 17),
        ("and,2,in,ev,7,0,ev,9,0", 22),
        ("out,ev,7,0,oud", 13),
        ("in,in,ev,7,0,hat", 15),
        ("has,has", 7),
        ("ev,7,0,in", 6),
    ];
    cases.iter().try_for_each(|&(pattern, place)| check(pattern, LOG, Err((3, place))))
}

/// They count as nodes and in the depth as other operators do, and so does B.
fn bounds(check: Check) -> Checked {
    let log = "1,4,1,0,0\n";
    let leaves = |n: usize| format!("or,{n}{}", ",ev,1,0".repeat(n));
    for (word, due) in [("in", &[(0, 0)][..]), ("out", &[]), ("has", &[(0, 0)])] {
        let (in_a, in_b) = (format!("{word},").repeat(7), format!("{word},ev,1,0,").repeat(7));
        check(&format!("{in_a}ev,1,0{}", ",ev,1,0".repeat(7)), log, Ok(due))?;
        check(&format!("{word},{in_a}ev,1,0{}", ",ev,1,0".repeat(8)), log, Err((5, 0)))?;
        // `out` of all is none, and of none all: seven of them end with none.
        check(&format!("{in_b}ev,1,0"), log, Ok(due))?;
        check(&format!("{word},ev,1,0,{in_b}ev,1,0"), log, Err((5, 0)))?;
        check(&format!("{word},{},{}", leaves(15), leaves(14)), log, Ok(due))?;
        check(&format!("{word},{},{}", leaves(15), leaves(15)), log, Err((4, 0)))?;
        check(&format!("{word},ev,1,0,{}", leaves(29)), log, Ok(due))?;
        check(&format!("{word},ev,1,0,{}", leaves(30)), log, Err((4, 0)))?;
    }
    Ok(())
}

/// The log of FORMATS.md, "What the operators mean": code 7 on lines 0, 2 and 6, code 9 on 1 and 5, code 2 on 3; frame 3 on 0 to 2, frame 4
/// on 3 and 5; line 4 is damaged.
///
///     line       0 1 2 3 4 5 6
///     THEN       ###                [0..1]
///                    #######        [2..5]
///     AND        ###                [0..1]
///                  ###              [1..2]
///                    #######        [2..5]
///                          ###      [5..6]
const LOG: &str = "1,4,7,3,6\n1,4,9,3,0\n1,4,7,3,0\n1,4,2,4,8\noops\n1,4,9,4,0\n1,5,7,5,0\n";
const THEN: &str = "then,2,ev,7,0,ev,9,0";
const AND: &str = "and,2,ev,7,0,ev,9,0";

fn logs(check: Check) -> Checked {
    let cases: &[(String, Pairs)] = &[
        // [2..5] reaches over a damaged line.
        (format!("in,ev,2,0,{THEN}"), &[(3, 3)]),
        (format!("out,ev,2,0,{THEN}"), &[]),
        (format!("in,ev,7,0,{THEN}"), &[(0, 0), (2, 2)]),
        (format!("out,ev,7,0,{THEN}"), &[(6, 6)]),
        (format!("in,{AND},{THEN}"), &[(0, 1), (2, 5)]),
        (format!("out,{AND},{THEN}"), &[(1, 2), (5, 6)]),
        (format!("in,{THEN},{AND}"), &[(0, 1), (2, 5)]),
        (format!("in,{AND},ev,7,0"), &[]),
        (format!("out,{AND},ev,7,0"), &[(0, 1), (1, 2), (2, 5), (5, 6)]),
        (format!("has,{AND},ev,2,0"), &[(2, 5)]),
        (format!("has,{AND},fr,3,0"), &[(0, 1), (1, 2), (2, 5)]),
        (format!("has,{AND},{THEN}"), &[(0, 1), (2, 5)]),
        (format!("has,ev,7,0,{AND}"), &[]),
        ("has,ev,9,0,fr,4,0".into(), &[(5, 5)]),
        ("in,ev,9,0,fr,4,0".into(), &[(5, 5)]),
        ("out,ev,9,0,fr,4,0".into(), &[(1, 1)]),
        ("in,ev,9,0,ev,1,0".into(), &[]),
        ("out,ev,9,0,ev,1,0".into(), &[(1, 1), (5, 5)]),
        ("has,ev,9,0,ev,1,0".into(), &[]),
        // As A, as B, below `and` below `then`, and over each other.
        (format!("in,fr,4,0,in,{AND},{THEN}"), &[(3, 3), (5, 5)]),
        (format!("in,fr,4,0,out,{AND},{THEN}"), &[(5, 5)]),
        (format!("out,fr,3,0,has,{AND},ev,2,0"), &[(0, 0), (1, 1)]),
        (format!("has,in,{AND},{THEN},ev,2,0"), &[(2, 5)]),
        (format!("then,2,and,2,in,ev,7,0,{THEN},ev,9,0,ev,7,5"), &[(2, 6)]),
        (format!("or,2,out,{AND},{THEN},ev,2,0"), &[(1, 2), (3, 3), (5, 6)]),
        (format!("max,3,has,{AND},ev,2,0"), &[(2, 5)]),
        (format!("max,2,has,{AND},ev,2,0"), &[]),
        (format!("row,2,in,ev,7,0,{THEN},fr,4,0"), &[(2, 3)]),
    ];
    cases.iter().try_for_each(|(pattern, due)| check(pattern, LOG, Ok(due)))?;
    // Many answers: every line with the next one.
    let ones = "1,4,1,3,6\n".repeat(200);
    let (lines, pairs): (Vec<_>, Vec<_>) = ((0..200).map(|p| (p, p)).collect(), (0..199).map(|p| (p, p + 1)).collect());
    check("in,ev,1,0,row,2,ev,1,0,fr,3,0", &ones, Ok(&lines))?;
    check("out,ev,1,0,row,2,ev,1,0,fr,3,0", &ones, Ok(&[]))?;
    check("has,row,2,ev,1,0,fr,3,0,ev,1,0", &ones, Ok(&pairs))?;
    check("out,row,2,ev,1,0,fr,3,0,ev,1,0", &ones, Ok(&pairs))
}

/// A run decides its own stretches of `has`, and not those of `in` and `out`: a practice spell begins before it, and damage lies between. The run
/// is the lines 2 to 4, counted from 0 when it is alone.
///
///     line                      0 1 2 3 4 5
///     run (r = 2, n = 3)            #####
///     then,2,ev,7,0,ev,9,0      #######          [0..3]
///     in,ev,12,0,then,..            #            [2..2]  not in the run alone: there the `then` has none
///     out,ev,12,0,then,..               #        [4..4]  in the run alone [2..2], and line 2 as [0..0] beside it
///     has,and,..,ev,9,0             ###          [2..3]  in the run alone [0..1]
///                                     ###        [3..4]  in the run alone [1..2]
///                                       ###      [4..5]  across its end
fn runs(check: Check) -> Checked {
    let run = "1,4,12,4,0\n1,4,9,4,0\n1,4,12,5,0\n";
    let log = ["1,4,7,3,6\noops\n", run, "1,4,9,5,0\n"].concat();
    let within = [
        (format!("in,ev,12,0,{THEN}"), &[(2, 2)][..], &[][..]),
        (format!("out,ev,12,0,{THEN}"), &[(4, 4)], &[(0, 0), (2, 2)]),
        // Where B lies within the run, nothing changes.
        ("in,ev,9,0,then,2,ev,12,0,ev,12,0".into(), &[(3, 3)], &[(1, 1)]),
        ("out,ev,9,0,then,2,ev,12,0,ev,12,0".into(), &[(5, 5)], &[]),
        ("has,and,2,ev,12,0,ev,9,0,ev,9,0".into(), &[(2, 3), (3, 4), (4, 5)], &[(0, 1), (1, 2)]),
        ("has,then,2,ev,12,0,ev,12,0,ev,9,0".into(), &[(2, 4)], &[(0, 2)]),
        (format!("has,{THEN},ev,12,0"), &[(0, 3)], &[]),
    ];
    within.iter().try_for_each(|(pattern, in_log, alone)| {
        check(pattern, &log, Ok(in_log))?;
        check(pattern, run, Ok(alone))
    })
}
