//! Comparisons of the values of numbers in logs and in patterns: each digit at each place shows in an answer.

use crate::compare::{self, Answers, Checked, Search};
use crate::inputs::{self, Rng};
use crate::over_logs::SOUND;
use crate::reference::{self, List, Refusal, Stretch};
use crate::shown::ENOUGH;
use crate::witnesses::{self, Witness};
use crate::worked_spells::{max, BALL, CLEARED, JAM, THEN};
use crate::{quick, Outcome, Trial};

/// A line of each layout, by its fields.
const LINES: [&[&str]; 2] = [&["1", "4", "7", "3", "6"], &["2", "4", "7", "20", "3", "0"]];

/// A line with another text in a field.
fn with(fields: &[&str], at: usize, text: &str) -> String {
    let field = |i: usize| if i == at { text } else { fields[i] };
    (0..fields.len()).map(field).collect::<Vec<_>>().join(",") + "\n"
}

/// Every number of up to three digits, and of four and five those that would be small without one of their digits, the last before the next
/// first digit, and those about the greatest k and the greatest of 16 bits.
fn numbers() -> Vec<String> {
    let tens = [1_000, 10_000].into_iter().flat_map(|ten| (1..=9).map(move |digit| (digit * ten, ten)));
    let longer = tens.flat_map(|(n, ten)| [n, n + 1, n + 2, n + 10, n + ten - 1]);
    (0..1_000).chain(longer).chain(65_530..65_550).map(|n: u32| n.to_string()).collect()
}

/// A jam, its clearing, and lines between them: so many sound lines in all.
fn stretch_of(sound: usize) -> String {
    [JAM, &BALL.repeat(sound - 2), CLEARED].concat()
}

/// A pattern of an operator that gives a number of operands and has another: codes from 1 on.
fn over_codes(word: &str, said: &str, operands: usize) -> String {
    (1..=operands).fold(format!("{word},{said}"), |text, code| format!("{text},ev,{code},0"))
}

/// Compares the filling call over a pattern and a log, and the other calls as often as the trial's part says.
fn ask(t: &Trial, rng: &mut Rng, pattern: &str, log: &str, answers: Answers) -> Outcome {
    let (pattern, log) = (pattern.as_bytes(), log.as_bytes());
    let search = Search::new(t.calls, pattern, log, answers);
    let cells = 2 * search.found() + 1;
    search.fill(rng, cells, 0)?;
    if !rng.once_in(t.part) {
        return Ok(1);
    }
    search.steps(rng, cells)?;
    search.pick(rng, (16, 32), quick::picks)?;
    Witness::new(t.calls, pattern, log, witnesses::QUICK).show(rng, 0, ENOUGH)?;
    Ok(4)
}

/// Every number in every place where one can stand, and what the accepted ones say.
pub fn values(t: &Trial) -> Outcome {
    let mut rng = Rng(61);
    Ok(in_fields(t, &mut rng)? + in_patterns(t, &mut rng)? + operands(t, &mut rng)? + said(t, &mut rng)? + bounds(t, &mut rng)?)
}

/// Lines: which numbers are sound in each field of each layout.
fn in_fields(t: &Trial, rng: &mut Rng) -> Outcome {
    let numbers = numbers();
    let mut count = 0;
    for fields in LINES {
        for at in 0..fields.len() {
            let log: String = numbers.iter().map(|text| with(fields, at, text)).collect();
            compare::count(t.calls, log.as_bytes())?;
            Search::new(t.calls, SOUND.as_bytes(), log.as_bytes(), reference::answers).fill(rng, 2 * numbers.len(), 0)?;
            count += 2;
        }
    }
    Ok(count)
}

/// Patterns: which numbers are accepted in each place, and where the others are refused. An operator has one operand more than it can say, so the
/// place shows how many it has said.
fn in_patterns(t: &Trial, rng: &mut Rng) -> Outcome {
    let accepted = |rng: &mut Rng, pattern: String| -> Checked {
        let due = reference::answers(pattern.as_bytes(), b"");
        compare::fill(t.calls, rng, pattern.as_bytes(), b"", &due, 2, 0)
    };
    let numbers = numbers();
    for text in &numbers {
        for (before, after) in [("ev,", ",0"), ("ev,7,", ""), ("fr,", ",0"), ("fr,3,", ""), ("max,", ",ev,7,0")] {
            accepted(rng, [before, text, after].concat())?;
        }
        accepted(rng, over_codes("or", text, 32))?;
    }
    let all = (0..100_000).step_by(t.part);
    for k in all.clone() {
        accepted(rng, max(k, "ev,7,0"))?;
    }
    Ok(6 * numbers.len() + all.len())
}

/// Every number of operands, with as many, one fewer and one more.
fn operands(t: &Trial, rng: &mut Rng) -> Outcome {
    let log: String = (1..=32).map(|code| format!("1,4,{code},3,6\n")).collect();
    let mut count = 0;
    for word in ["or", "and", "row", "then"] {
        for n in 2..=31 {
            for operands in [n - 1, n, n + 1] {
                count += ask(t, rng, &over_codes(word, &n.to_string(), operands), &log, quick::answers)?;
            }
        }
    }
    Ok(count)
}

/// Every lane, code and frame in lines of both layouts, each asked for.
fn said(t: &Trial, rng: &mut Rng) -> Outcome {
    let log = |at: [usize; 2], texts: Vec<String>| -> String {
        LINES.iter().zip(at).flat_map(|(fields, at)| texts.iter().map(move |text| with(fields, at, text))).collect()
    };
    let spelt = |from: u32, to: u32| (from..=to).map(|n| n.to_string()).collect::<Vec<_>>();
    let lanes = log([1, 1], [spelt(1, 99), (1..=9).map(inputs::padded).collect()].concat());
    let asked = [
        ("ev,7,", "", 0..=99, &lanes),
        ("fr,3,", "", 0..=99, &lanes),
        ("fr,", ",0", 0..=10, &log([3, 4], spelt(0, 10))),
        ("ev,", ",0", 1..=255, &log([2, 2], spelt(1, 255))),
    ];
    let mut count = 0;
    for (before, after, numbers, log) in asked {
        for n in numbers {
            count += ask(t, rng, &format!("{before}{n}{after}"), log, reference::answers)?;
        }
    }
    Ok(count)
}

/// k of `max`: each digit at each place where a log has sound lines enough, by the stretch that is just kept and the one that is just dropped;
/// above, that long stretches are kept. Then k one by one, over stretches of 2, 3, 4 and so on sound lines.
fn bounds(t: &Trial, rng: &mut Rng) -> Outcome {
    let digits = [1, 10, 100, 1_000].into_iter().flat_map(|ten| (1..=9).map(move |digit| digit * ten));
    let counted = digits.filter(|k| (2..6_144).contains(k)).flat_map(|k| [(k, k), (k, k + 1)]);
    let above = [10_000, 10_001, 20_000, 30_000, 40_000, 50_000, 60_000, 65_535].map(|k| (k, 2_000));
    let mut count = 0;
    for (k, sound) in counted.chain(above).chain([6_143, 6_144, 9_999, 10_000, 65_535].map(|k| (k, 6_144))) {
        count += ask(t, rng, &max(k, THEN), &stretch_of(sound), quick::answers)?;
    }
    let log: String = (2..=101).map(stretch_of).collect();
    for k in (1..=101).step_by(t.part) {
        count += ask(t, rng, &max(k, THEN), &log, quick::answers)?;
    }
    Ok(count)
}

/// Seven sound lines and six damaged ones.
const LOG: &str = "1,12,34,5,6\n1,21,43,5,6\n2,90,205,300,10,10\n2,09,250,299,0,9\n1,99,255,10,0\n1,10,100,1,1\n1,01,101,7,8\n\
                   2,4,56,301,3,0\n2,4,256,30,3,0\n1,100,7,3,6\n1,1,1001,3,6\n1,67,89,11,2\n1,78,198,9,10001\n";

/// Patterns, and the lines of that log that each finds.
const FOUND: [(&str, &[u32]); 18] = [
    (SOUND, &[0, 1, 2, 3, 4, 5, 6]),
    ("ev,34,12", &[0]),
    ("ev,34,21", &[]),
    ("ev,43,21", &[1]),
    ("ev,43,12", &[]),
    ("fr,5,0", &[0, 1]),
    ("ev,205,90", &[2]),
    ("ev,250,0", &[3]),
    ("ev,250,9", &[3]),
    ("ev,250,90", &[]),
    ("fr,10,0", &[2, 4]),
    ("fr,0,9", &[3]),
    ("fr,1,0", &[5]),
    ("ev,255,99", &[4]),
    ("ev,100,10", &[5]),
    ("ev,101,1", &[6]),
    ("ev,1,0", &[]),
    ("fr,3,0", &[]),
];

/// Starts of patterns and the places where they are misspelt.
const MISSPELT: [(&str, u64); 16] = [
    ("ev,256,0", 5),
    ("ev,300,0", 5),
    ("ev,1000,0", 6),
    ("ev,7,100", 7),
    ("fr,11,0", 4),
    ("fr,20,0", 4),
    ("or,1,", 4),
    ("or,32,", 4),
    ("or,100,", 5),
    ("max,0,", 4),
    ("max,65536,", 8),
    ("max,65540,", 8),
    ("max,66000,", 8),
    ("max,70000,", 8),
    ("max,99999,", 8),
    ("max,100000,", 9),
];

/// k, the sound lines of a stretch, and whether it is kept.
const KEPT: [(usize, usize, bool); 19] = [
    (9, 9, true),
    (9, 10, false),
    (10, 10, true),
    (10, 11, false),
    (90, 91, false),
    (99, 100, false),
    (100, 100, true),
    (205, 206, false),
    (250, 206, true),
    (1_000, 1_001, false),
    (1_000, 2_000, false),
    (1_999, 2_000, false),
    (2_000, 2_000, true),
    (6_143, 6_144, false),
    (6_144, 6_144, true),
    (10_000, 2_000, true),
    (10_001, 2_000, true),
    (60_000, 6_144, true),
    (65_535, 6_144, true),
];

/// Worked by hand.
pub fn cases(t: &Trial) -> Outcome {
    let mut rng = Rng(62);
    let mut count = 0;
    let mut check = |pattern: &str, log: &str, due: Result<List, Refusal>| -> Checked {
        count += compare::case(t.calls, &mut rng, pattern, log, due)?;
        Ok(())
    };
    for (pattern, lines) in FOUND {
        check(pattern, LOG, Ok(lines.iter().map(|&p| Stretch { s: p, e: p }).collect()))?;
    }
    for (pattern, place) in MISSPELT {
        check(pattern, LOG, Err(Refusal { number: 3, place }))?;
    }
    for (k, sound, kept) in KEPT {
        let whole = Stretch { s: 0, e: sound as u32 - 1 };
        check(&max(k, THEN), &stretch_of(sound), Ok(Vec::from_iter(kept.then_some(whole))))?;
    }
    let due = 13 << 32 | 6 << 16;
    let given = [reference::count(LOG.as_bytes()), t.calls.count(LOG.as_bytes())];
    if given != [due; 2] {
        return Err(format!("a count: {given:x?}, should be {due:#x}\n  log {}", compare::show(LOG.as_bytes())));
    }
    Ok(count + 1)
}
