//! The proved calls of include/finder.h. Each pointer handed to them comes from a slice of the length given with it, and what is written from a
//! `&mut`.

use Unanswered::{Broken, Refused};

#[link(name = "finder_c", kind = "static")]
extern "C" {
    fn finder_fill(
        pattern: *const u8,
        pattern_len: usize,
        log: *const u8,
        log_len: usize,
        cells: *mut u32,
        cell_count: usize,
        from: u64,
    ) -> u64;
    fn finder_pick(
        pattern: *const u8,
        pattern_len: usize,
        log: *const u8,
        log_len: usize,
        k: u32,
        cells: *mut u32,
        cell_count: usize,
    ) -> u64;
    fn finder_witness(
        pattern: *const u8,
        pattern_len: usize,
        log: *const u8,
        log_len: usize,
        number: u64,
        cells: *mut u32,
        cell_count: usize,
    ) -> u64;
    fn finder_count(log: *const u8, log_len: usize) -> u64;
    fn finder_lines(log: *const u8, log_len: usize, first: u32, last: u32) -> u64;
}

pub const LOG_MAX: usize = 61_440;
pub const PATTERN_MAX: usize = 1_024;
pub const PICKS_MAX: usize = 16;
const NODES_MAX: usize = 32;
const BAD_COUNT: u64 = 10;

/// The refusals that a pattern over a log can get.
#[derive(Clone, Copy)]
pub enum Refusal {
    LongLog,
    LongPattern,
    Misspelt { place: usize },
    Crowded,
    Deep,
    BadCount { k: u32 },
}

/// Why there is no answer: a refusal, or a result that the promises rule out.
pub enum Unanswered {
    Refused(Refusal),
    Broken(&'static str),
}

/// The lines from first to last, both included.
#[derive(Clone, Copy, PartialEq)]
pub struct Stretch {
    pub first: u32,
    pub last: u32,
}

impl Stretch {
    pub fn lines(self) -> usize {
        (self.last - self.first) as usize + 1
    }
}

pub struct Count {
    pub lines: usize,
    pub damaged: usize,
}

/// The refusal in a result.
fn accepted(result: u64) -> Result<(), Unanswered> {
    Err(match result & 0xff {
        0 => return Ok(()),
        1 => Refused(Refusal::LongLog),
        2 => Refused(Refusal::LongPattern),
        3 => Refused(Refusal::Misspelt { place: (result >> 16 & 0xffff) as usize }),
        4 => Refused(Refusal::Crowded),
        5 => Refused(Refusal::Deep),
        _ => Broken("a refusal of an unknown number"),
    })
}

/// The lines of a log and how many of them are damaged.
pub fn count(log: &[u8]) -> Result<Count, Unanswered> {
    let result = unsafe { finder_count(log.as_ptr(), log.len()) };
    accepted(result)?;
    Ok(Count { lines: (result >> 32) as usize, damaged: (result >> 16 & 0xffff) as usize })
}

/// All stretches of a pattern in a log of so many lines: there are no more stretches than lines, so the cells suffice.
pub fn stretches(pattern: &[u8], log: &[u8], lines: usize) -> Result<Vec<Stretch>, Unanswered> {
    let mut cells = vec![0; 2 * lines];
    let result = unsafe { finder_fill(pattern.as_ptr(), pattern.len(), log.as_ptr(), log.len(), cells.as_mut_ptr(), cells.len(), 0) };
    accepted(result)?;
    if result >> 8 & 1 == 1 {
        return Err(Broken("more stretches than lines"));
    }
    written(&cells, result, lines)
}

/// At most k picks of a pattern in a log of so many lines, in the order of picking.
pub fn picks(pattern: &[u8], log: &[u8], lines: usize, k: u32) -> Result<Vec<Stretch>, Unanswered> {
    let mut cells = [0; 2 * PICKS_MAX];
    let result = unsafe { finder_pick(pattern.as_ptr(), pattern.len(), log.as_ptr(), log.len(), k, cells.as_mut_ptr(), cells.len()) };
    if result & 0xff == BAD_COUNT {
        return Err(Refused(Refusal::BadCount { k }));
    }
    accepted(result)?;
    let picks = written(&cells, result, lines)?;
    if picks.len() > k as usize {
        return Err(Broken("more picks than asked for"));
    }
    Ok(picks)
}

/// The stretches that an accepted call has written into cells.
fn written(cells: &[u32], result: u64, lines: usize) -> Result<Vec<Stretch>, Unanswered> {
    let written = cells.get(..2 * (result >> 32) as usize).ok_or(Broken("more stretches than cells"))?;
    written.chunks_exact(2).map(|pair| within(pair[0], pair[1], lines)).collect()
}

/// The lines from first to last of a log of so many lines.
fn within(first: u32, last: u32, lines: usize) -> Result<Stretch, Unanswered> {
    if first <= last && (last as usize) < lines {
        Ok(Stretch { first, last })
    } else {
        Err(Broken("a stretch of lines that the log does not have"))
    }
}

/// The nodes that took part in the stretch of this number, each by its own number and with its own stretch, in node order; none where there is
/// no such stretch.
pub fn witness(pattern: &[u8], log: &[u8], lines: usize, number: u64) -> Result<Vec<(usize, Stretch)>, Unanswered> {
    let mut cells = [0; 3 * NODES_MAX];
    let result = unsafe { finder_witness(pattern.as_ptr(), pattern.len(), log.as_ptr(), log.len(), number, cells.as_mut_ptr(), cells.len()) };
    accepted(result)?;
    let written = cells.get(..3 * (result >> 32) as usize).ok_or(Broken("more nodes than cells"))?;
    let shown = written.chunks_exact(3).map(|node| Ok((node[0] as usize, within(node[1], node[2], lines)?)));
    let shown = shown.collect::<Result<Vec<_>, _>>()?;
    if shown.is_sorted_by(|node, next| node.0 < next.0) {
        Ok(shown)
    } else {
        Err(Broken("nodes out of order"))
    }
}

/// The lines of a stretch, as that part of the log; empty where the log does not have them.
pub fn lines_of(log: &[u8], stretch: Stretch) -> &[u8] {
    let result = unsafe { finder_lines(log.as_ptr(), log.len(), stretch.first, stretch.last) };
    let (start, length) = (result as u32 as usize, (result >> 32) as usize);
    log.get(start..start + length).unwrap_or_default()
}

/// The lines of a log one by one, each with its line feed if it has one.
pub fn each_line(log: &[u8]) -> impl Iterator<Item = &[u8]> {
    let mut rest = log;
    std::iter::from_fn(move || {
        let line = lines_of(rest, Stretch { first: 0, last: 0 });
        rest = &rest[line.len()..];
        (!line.is_empty()).then_some(line)
    })
}

/// Whether a line, given with its line feed if it has one, is sound.
pub fn sound(line: &[u8]) -> bool {
    matches!(count(line), Ok(Count { lines: 1, damaged: 0 }))
}
