//! Wrong variants of reading leading zeros, in lines and in patterns.

use crate::inputs;
use crate::plain::{Plain, RIGHT};
use crate::reference::{self as r, Record, Refusal, Tree};
use std::cell::Cell;

/// Lines read with a field exchanged, where `change` gives its place and another text: layout, lane, code and so on, the last with the line
/// feed.
pub fn changed(log: &[u8], change: impl for<'a> Fn(&[&'a str]) -> Option<(usize, &'a str)>) -> Vec<Option<Record>> {
    let line = |line: &[u8]| {
        let text = String::from_utf8_lossy(line);
        let mut fields: Vec<&str> = text.split(',').collect();
        let other = if fields.len() < 5 { None } else { change(&fields) };
        if let Some((at, text)) = other {
            fields[at] = text;
        }
        r::record(fields.join(",").as_bytes())
    };
    r::lines(log).into_iter().map(line).collect()
}

/// Whether a lane field is padded.
pub fn is_padded(lane: &str) -> bool {
    matches!(lane.as_bytes(), [b'0', b'1'..=b'9'])
}

/// A number without a leading zero, if it has one.
fn unpadded(number: &str) -> Option<&str> {
    number.strip_prefix('0').filter(|rest| rest.starts_with(|next: char| next.is_ascii_digit()))
}

/// A misspelt pattern read without the leading zeros of the numbers `at` places after each `word`; where that is misspelt too, the right
/// refusal.
fn respelt(text: &[u8], word: &str, at: usize) -> Result<Tree, Refusal> {
    r::read_pattern(text).or_else(|refusal| {
        let text = String::from_utf8_lossy(text);
        let pieces: Vec<&str> = text.split(',').collect();
        let piece = |i: usize| unpadded(pieces[i]).filter(|_| i >= at && pieces[i - at] == word).unwrap_or(pieces[i]);
        let other = (0..pieces.len()).map(piece).collect::<Vec<_>>().join(",");
        r::read_pattern(other.as_bytes()).map_err(|_| refusal)
    })
}

/// The wrong variants.
pub fn variants() -> Vec<(&'static str, Plain)> {
    let mut all = over_lanes();
    all.extend(over_other_numbers());
    all.extend(over_log_alone());
    all
}

/// Wrong lanes of lines.
fn over_lanes() -> Vec<(&'static str, Plain)> {
    let log = |log| Plain { log, ..RIGHT };
    vec![
        ("padded lanes damaged", log(|log, _| changed(log, |f| is_padded(f[1]).then_some((1, ""))))),
        ("padded lanes damaged in layout 1", log(|log, _| changed(log, |f| (f[0] == "1" && is_padded(f[1])).then_some((1, ""))))),
        ("padded lanes damaged in layout 2", log(|log, _| changed(log, |f| (f[0] == "2" && is_padded(f[1])).then_some((1, ""))))),
        ("lane 01 damaged", log(|log, _| changed(log, |f| (f[1] == "01").then_some((1, ""))))),
        ("lane 09 damaged", log(|log, _| changed(log, |f| (f[1] == "09").then_some((1, ""))))),
        (
            "unpadded lanes damaged after a padded one",
            log(|log, _| {
                let seen = Cell::new(false);
                changed(log, |f| {
                    seen.set(seen.get() || is_padded(f[1]));
                    (seen.get() && f[1].len() == 1).then_some((1, ""))
                })
            }),
        ),
        ("lane 04 as 40", log(|log, _| changed(log, |f| (f[1] == "04").then_some((1, "40"))))),
        ("lane 00 as 1", log(|log, _| changed(log, |f| (f[1] == "00").then_some((1, "1"))))),
        (
            "lane 00 as 0",
            log(|log, _| {
                let as_one = changed(log, |f| (f[1] == "00").then_some((1, "1")));
                let as_zero = |record| Record { lane: 0, ..record };
                r::read_log(log).into_iter().zip(as_one).map(|(right, wrong)| right.or(wrong.map(as_zero))).collect()
            }),
        ),
        ("lanes 010 to 099 as 10 to 99", log(|log, _| changed(log, |f| unpadded(f[1]).filter(|n| n.len() == 2).map(|n| (1, n))))),
        ("lane 012 as 12", log(|log, _| changed(log, |f| (f[1] == "012").then_some((1, "12"))))),
        ("lane 099 as 99", log(|log, _| changed(log, |f| (f[1] == "099").then_some((1, "99"))))),
        ("lane 004 as 4", log(|log, _| changed(log, |f| (f[1] == "004").then_some((1, "4"))))),
    ]
}

/// Leading zeros accepted in other fields of lines, and in patterns.
fn over_other_numbers() -> Vec<(&'static str, Plain)> {
    let log = |log| Plain { log, ..RIGHT };
    let pattern = |pattern| Plain { pattern, ..RIGHT };
    vec![
        ("a padded layout", log(|log, _| changed(log, |f| unpadded(f[0]).map(|n| (0, n))))),
        ("a padded code", log(|log, _| changed(log, |f| unpadded(f[2]).map(|n| (2, n))))),
        ("a padded handicap", log(|log, _| changed(log, |f| unpadded(f[3]).filter(|_| f[0] == "2").map(|n| (3, n))))),
        ("a padded frame", log(|log, _| changed(log, |f| unpadded(f[f.len() - 2]).map(|n| (f.len() - 2, n))))),
        ("padded pins", log(|log, _| changed(log, |f| unpadded(f[f.len() - 1]).map(|n| (f.len() - 1, n))))),
        ("a padded lane in ev", pattern(|text, _| respelt(text, "ev", 2))),
        ("a padded lane in fr", pattern(|text, _| respelt(text, "fr", 2))),
        ("a padded code in ev", pattern(|text, _| respelt(text, "ev", 1))),
        ("a padded frame in fr", pattern(|text, _| respelt(text, "fr", 1))),
        ("a padded k in max", pattern(|text, _| respelt(text, "max", 1))),
        ("a padded number of operands", pattern(|text, _| respelt(text, "or", 1))),
    ]
}

/// Wrong counts, and wrong parts of a log.
fn over_log_alone() -> Vec<(&'static str, Plain)> {
    /// A count with a field exchanged in lines.
    fn counted(log: &[u8], change: impl for<'a> Fn(&[&'a str]) -> Option<(usize, &'a str)>) -> u64 {
        match r::count(log) {
            1 => 1,
            right => right & !0xffff_0000 | (r::damaged(&changed(log, change)) as u64) << 16,
        }
    }
    /// A log without padded lanes.
    fn without(log: &[u8]) -> Vec<u8> {
        inputs::with_lanes(log, |lane| lane.to_string())
    }
    let count = |count| Plain { count, ..RIGHT };
    vec![
        ("padded lanes counted as damaged", count(|log, _| counted(log, |f| is_padded(f[1]).then_some((1, ""))))),
        ("lane 00 counted as sound", count(|log, _| counted(log, |f| (f[1] == "00").then_some((1, "1"))))),
        ("lane 012 counted as sound", count(|log, _| counted(log, |f| (f[1] == "012").then_some((1, "12"))))),
        ("a padded code counted as sound", count(|log, _| counted(log, |f| unpadded(f[2]).map(|n| (2, n))))),
        (
            "parts as if no lane were padded",
            Plain { lines: |log, first, last| r::part_result(r::part(&without(log), first, last)), ..RIGHT },
        ),
    ]
}
