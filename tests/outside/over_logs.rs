//! Comparisons over a pattern and a log.

use crate::compare::{self, Checked, Search};
use crate::inputs::{self, Rng};
use crate::reference::{self, List, Op, Stretch, Tree, LOG_MAX, OPS, PATTERN_MAX};
use crate::shown::ENOUGH;
use crate::witnesses::{self, Witness};
use crate::{quick, Outcome, Trial};

/// The log of docs/FORMATS.md, "The printed sheet".
pub const SHEET_LOG: &[u8] = b"1,4,7,3,6\n2,4,12,20,3,0\noops\n1,4,9,0,0\n1,5,9,0,0\n";

/// Matches every sound line: one leaf for each frame.
pub const SOUND: &str = "or,11,fr,0,0,fr,1,0,fr,2,0,fr,3,0,fr,4,0,fr,5,0,fr,6,0,fr,7,0,fr,8,0,fr,9,0,fr,10,0";

/// Texts as patterns over one small log: every start and every single edit of a few patterns, every start of an operator's word before
/// operands, and with a letter more, then random ones.
pub fn patterns(t: &Trial) -> Outcome {
    let mut rng = Rng(1);
    let bases = [
        "then,2,ev,7,0,ev,9,0",
        "max,65535,or,31,ev,255,99",
        "less,fr,10,9,row,2,fr,0,10,ev,25,1",
        "and,2,max,9,ev,1,0,fr,3,4",
        "out,has,fr,3,0,ev,7,4,in,ev,9,0,fr,0,0",
    ];
    let mut texts: Vec<Vec<u8>> = Vec::new();
    for base in bases.map(str::as_bytes) {
        texts.extend((0..=base.len()).map(|n| base[..n].to_vec()));
        texts.extend(inputs::edits(base));
    }
    texts = texts.into_iter().step_by(t.part).collect();
    for (_, word, _) in OPS {
        let starts = (0..=word.len()).flat_map(|n| ["", "t"].map(|letter| format!("{}{letter},ev,7,0,ev,9,0", &word[..n])));
        texts.extend(starts.map(String::into_bytes));
    }
    texts.extend((0..t.rounds(40_000)).map(|_| inputs::pattern(&mut rng)));
    for text in &texts {
        let cells = rng.below(12);
        Search::new(t.calls, text, SHEET_LOG, reference::answers).fill(&mut rng, cells, 0)?;
    }
    Ok(texts.len())
}

/// Lines with every single edit, and every value of every field in several dresses, read through patterns that show soundness,
/// code, frame and lane.
pub fn lines(t: &Trial) -> Outcome {
    let mut rng = Rng(2);
    let bases = [
        "1,4,7,3,6\n",
        "2,4,7,20,3,0\n",
        "1,04,7,3,6\n",
        "2,09,7,20,3,0\n",
        "1,99,255,10,10\n",
        "2,10,100,300,10,10\n",
        "1,1,1,0,0\n",
        "2,1,1,0,0,0\n",
    ];
    let mut texts: Vec<Vec<u8>> = bases.iter().flat_map(|base| inputs::edits(base.as_bytes())).step_by(t.part).collect();
    for fields in [vec!["1", "4", "7", "3", "6"], vec!["2", "4", "7", "20", "3", "0"]] {
        for field in 0..fields.len() {
            for value in 0..320u32 {
                for dress in if t.part == 1 { &["", "0", "00", "+", "-", " "][..] } else { &["", "0"] } {
                    let put = format!("{dress}{value}");
                    let line: Vec<&str> = (0..fields.len()).map(|i| if i == field { &put } else { fields[i] }).collect();
                    texts.push((line.join(",") + "\n").into_bytes());
                }
            }
            for put in ["", "65536", "4294967297", "18446744073709551617", "99999999999999999999999999999999999999999", "1.0", "0x1", "1e0"]
            {
                let line: Vec<&str> = (0..fields.len()).map(|i| if i == field { put } else { fields[i] }).collect();
                texts.push((line.join(",") + "\n").into_bytes());
            }
        }
        texts.extend((0..9).map(|n| (fields.repeat(2)[..n].join(",") + "\n").into_bytes()));
    }
    let patterns = [SOUND, "ev,7,0", "ev,7,4", "fr,3,0", "fr,10,0", "fr,0,1", "ev,255,99", "ev,1,0", "fr,3,4"];
    let mut count = 0;
    for (round, part) in texts.chunks(3_000).enumerate() {
        let mut log = part.concat();
        log.truncate(LOG_MAX - round % 3);
        for pattern in patterns.map(str::as_bytes) {
            Search::new(t.calls, pattern, &log, quick::answers).fill(&mut rng, 2 * part.len() + 1, 0)?;
            count += reference::lines(&log).len();
        }
    }
    Ok(count)
}

/// Random patterns over random logs of a few lines, with all cells and starts around the number of answers.
pub fn logs(t: &Trial) -> Outcome {
    let mut rng = Rng(3);
    let mut count = 0;
    for _ in 0..t.rounds(5_000) {
        let lines = rng.below(16);
        let damage = rng.pick(&[0, 3, 8]);
        let log = inputs::log(&mut rng, lines, damage);
        let tree = if rng.once_in(4) { inputs::insides(&mut rng) } else { inputs::tree(&mut rng, 12, 5) };
        let pattern = tree.spell().into_bytes();
        let search = Search::new(t.calls, &pattern, &log, reference::answers);
        for (cells, from) in compare::around(search.found()) {
            search.fill(&mut rng, cells, from)?;
            count += 1;
        }
    }
    Ok(count)
}

/// Logs up to the largest, most of them random, some with lines of high numbers.
pub fn long(t: &Trial) -> Outcome {
    let mut rng = Rng(4);
    let mut count = 0;
    let mut check = |rng: &mut Rng, pattern: &[u8], log: &[u8]| -> Checked {
        let search = Search::new(t.calls, pattern, log, quick::answers);
        let n = search.found();
        for (cells, from) in [(2 * n + 3, 0), (2 * n, 0), (n, 1), (7, n as u64 / 2), (3, n as u64)] {
            search.fill(rng, cells, from)?;
            count += 1;
        }
        Ok(())
    };
    for round in 0..t.rounds(90).max(3) {
        let lines = rng.pick(&[200, 1_000, 3_000, 5_000]);
        let damage = rng.pick(&[0, 10, 50]);
        let mut log = inputs::log(&mut rng, lines, damage);
        if round % 3 == 1 {
            let feeds = (LOG_MAX - log.len().min(LOG_MAX)).saturating_sub(rng.below(3));
            log.splice(0..0, vec![b'\n'; feeds]);
        }
        log.truncate(LOG_MAX);
        let nodes = rng.pick(&[6, 16, 32]);
        for tree in [inputs::tree(&mut rng, nodes, 8), inputs::insides(&mut rng)] {
            check(&mut rng, tree.spell().as_bytes(), &log)?;
        }
    }
    for byte in *b"\n1,\0" {
        check(&mut rng, SOUND.as_bytes(), &vec![byte; LOG_MAX])?;
    }
    Ok(count)
}

/// Lengths of log and pattern around their bounds, with every lower and higher refusal beside them.
pub fn bounds(t: &Trial) -> Outcome {
    let mut rng = Rng(5);
    let mut texts: Vec<Vec<u8>> = ["", "ev,1,0", "ev,256,0", "or,1,ev,1,0", "or,2,ev,1,0"].map(Into::into).to_vec();
    for deep in 6..10 {
        texts.extend(["max,9,", "in,ev,1,0,", "out,ev,7,0,", "has,ev,1,0,"].map(|over| (over.repeat(deep) + "ev,1,0").into()));
    }
    for leaves in 2..=31 {
        let or = format!("or,{leaves}{}", ",ev,1,0".repeat(leaves));
        texts.extend(
            [or.clone(), format!("max,2,{or}"), format!("and,2,{or},{or}"), format!("less,{or},{or},"), format!("max,9,{or}x")]
                .map(Into::into),
        );
        texts.extend(["in", "out", "has"].map(|word| format!("{word},{or},{or}").into()));
    }
    for length in PATTERN_MAX - 9..PATTERN_MAX + 9 {
        let (pieces, longer) = ((length - 6) / 6, (length - 6) % 6);
        let text = "max,11,".repeat(longer) + &"max,1,".repeat(pieces - longer) + "ev,1,0";
        texts.extend([text.clone().into_bytes(), text[..text.len() - 1].into(), (text + ",").into_bytes()]);
        texts.extend([vec![b','; length], vec![b'e'; length], "or,31,".repeat(200)[..length].into()]);
    }
    let mut count = 0;
    for length in [0, 1, 10, LOG_MAX - 1, LOG_MAX, LOG_MAX + 1, LOG_MAX + 2, 70_000, 131_072] {
        let log: Vec<u8> = b"1,4,1,3,6\n".iter().copied().cycle().take(length).collect();
        for text in texts.iter().step_by(if (10..=LOG_MAX).contains(&length) { t.part } else { 1 }) {
            let cells = rng.below(7);
            Search::new(t.calls, text, &log, quick::answers).fill(&mut rng, cells, 0)?;
            count += 1;
        }
    }
    Ok(count)
}

/// Demand 3 through the calls alone: the stretches wholly within a run, counted from its first line, are the list of the run alone,
/// in two logs that hold it at two places, of a pattern without `in` and `out`.
pub fn runs(t: &Trial) -> Outcome {
    let mut rng = Rng(6);
    let whole = |rng: &mut Rng, most: usize| {
        let lines = rng.below(most);
        inputs::ended(inputs::log(rng, lines, 5))
    };
    for _ in 0..t.rounds(6_000) {
        let most = if rng.once_in(40) { 1_000 } else { 20 };
        let tree = if rng.once_in(4) { inputs::insides(&mut rng) } else { inputs::tree(&mut rng, 14, 6) };
        let pattern = inputs::by_runs(tree).spell().into_bytes();
        let run = whole(&mut rng, most);
        let alone = compare::whole(t.calls, &pattern, &run);
        for _ in 0..2 {
            let before = whole(&mut rng, most / 2);
            let damage = rng.pick(&[0, 2]);
            let lines = rng.below(9);
            let log = [&before[..], &run, &inputs::log(&mut rng, lines, damage)].concat();
            let (r, n) = (reference::lines(&before).len() as u32, reference::lines(&run).len() as u32);
            let within = compare::whole(t.calls, &pattern, &log).map(|list| {
                let inside = list.into_iter().filter(|a| a.s >= r && a.e < r + n);
                inside.map(|a| Stretch { s: a.s - r, e: a.e - r }).collect::<List>()
            });
            if within != alone {
                let input = compare::input_with_run(&pattern, &run, &log, r);
                return Err(format!("within the run {within:?}, alone {alone:?}\n  {input}"));
            }
        }
    }
    Ok(t.rounds(6_000) * 2)
}

/// The stretches taken one by one: few, and many more than a finder holds at a time; and of refused patterns and logs.
pub fn steps(t: &Trial) -> Outcome {
    let mut rng = Rng(8);
    let mut count = 0;
    let mut check = |rng: &mut Rng, pattern: &[u8], log: &[u8]| -> Checked {
        let search = Search::new(t.calls, pattern, log, quick::answers);
        let n = search.found();
        for cells in [0, 1, 2, 2 * n, 2 * n + 1, 2 * n + 4, rng.below(2 * n + 1)] {
            search.steps(rng, cells)?;
            count += 1;
        }
        Ok(())
    };
    for _ in 0..t.rounds(4_000) {
        let lines = if rng.once_in(4) { rng.below(400) } else { rng.below(16) };
        let damage = rng.pick(&[0, 3, 20]);
        let log = inputs::log(&mut rng, lines, damage);
        let pattern = if rng.once_in(3) { SOUND.to_string() } else { inputs::tree(&mut rng, 8, 4).spell() };
        check(&mut rng, pattern.as_bytes(), &log)?;
    }
    for lines in [63, 64, 65, 127, 128, 129, 191, 192, 193, 6_144] {
        check(&mut rng, SOUND.as_bytes(), &b"1,4,1,3,6\n".repeat(lines))?;
        check(&mut rng, b"row,2,ev,1,0,ev,1,4", &b"1,4,1,3,6\n".repeat(lines))?;
    }
    for (pattern, length) in [("ev,256,0", 10), ("", 0), ("ev,1,0", LOG_MAX + 1), ("ev,1,0", LOG_MAX), ("or,1,ev,1,0", LOG_MAX + 1)] {
        let log: Vec<u8> = b"1,4,1,3,6\n".iter().copied().cycle().take(length).collect();
        check(&mut rng, pattern.as_bytes(), &log)?;
    }
    Ok(count)
}

/// The sample log with each sample pattern; `max` keeps a stretch that it would lose if damaged lines counted.
pub fn samples(t: &Trial) -> Outcome {
    let log = std::fs::read("samples/evening.log").map_err(|e| e.to_string())?;
    let patterns = std::fs::read_to_string("samples/patterns.txt").map_err(|e| e.to_string())?;
    let mut count = 0;
    let mut shown = false;
    for pattern in patterns.lines().filter(|l| !l.is_empty() && !l.starts_with('#')) {
        let search = Search::new(t.calls, pattern.as_bytes(), &log, quick::answers);
        if let Ok(Tree::Op { op: Op::Max, k, .. }) = reference::read_pattern(pattern.as_bytes()) {
            shown |= compare::whole(t.calls, pattern.as_bytes(), &log).is_ok_and(|list| list.iter().any(|&a| reference::length(a) > k));
        }
        if search.found() == 0 {
            return Err(format!("the sample pattern {pattern} finds nothing"));
        }
        search.fill(&mut Rng(7), 2 * search.found() + 1, 0)?;
        search.steps(&mut Rng(7), 2 * search.found() + 1)?;
        search.pick(&mut Rng(7), (16, 33), quick::picks)?;
        let witness = Witness::new(t.calls, pattern.as_bytes(), &log, witnesses::QUICK);
        for number in [0, search.found() as u64 - 1] {
            witness.show(&mut Rng(7), number, ENOUGH)?;
        }
        count += 5;
    }
    if !shown {
        return Err("no sample pattern with max finds a stretch of more lines than k".into());
    }
    Ok(count)
}
