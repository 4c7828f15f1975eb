//! Seeded inputs: patterns, logs and lists, sound and spoiled.
#![allow(dead_code)]

use crate::reference::{self, List, Op, Stretch, Tree, OPS};

/// SplitMix64.
pub struct Rng(pub u64);

impl Rng {
    pub fn next(&mut self) -> u64 {
        self.0 = self.0.wrapping_add(0x9e37_79b9_7f4a_7c15);
        let z = (self.0 ^ self.0 >> 30).wrapping_mul(0xbf58_476d_1ce4_e5b9);
        let z = (z ^ z >> 27).wrapping_mul(0x94d0_49bb_1331_11eb);
        z ^ z >> 31
    }

    pub fn below(&mut self, n: usize) -> usize {
        (self.next() % n as u64) as usize
    }

    pub fn range(&mut self, low: u32, high: u32) -> u32 {
        low + self.below((high - low + 1) as usize) as u32
    }

    /// True once in n times.
    pub fn once_in(&mut self, n: usize) -> bool {
        self.below(n) == 0
    }

    pub fn pick<T: Copy>(&mut self, from: &[T]) -> T {
        from[self.below(from.len())]
    }
}

// Few values, so that patterns and logs meet; lanes reach from the least to the greatest that may be padded, and handicaps are also frames.
const LANES: [u32; 3] = [1, 4, 9];
const CODES: [u32; 4] = [1, 7, 9, 12];
const FRAMES: [u32; 4] = [0, 1, 3, 10];
const HANDICAPS: [u32; 6] = [0, 1, 3, 10, 20, 300];
/// Bytes and numbers at the edges of the rules.
const BYTES: &[u8] = b"0123456789,,,\n\n\r\0 +-.\tevforandwthlsmxiuE\x7f\x80\xff/:";
const NUMBERS: [&str; 29] = [
    "0",
    "1",
    "2",
    "3",
    "4",
    "10",
    "11",
    "31",
    "32",
    "99",
    "100",
    "255",
    "256",
    "300",
    "301",
    "65535",
    "65536",
    "99999",
    "00",
    "01",
    "04",
    "07",
    "004",
    "012",
    "099",
    "-1",
    "+1",
    "",
    "18446744073709551617",
];

pub fn leaf(rng: &mut Rng) -> Tree {
    let lane = if rng.once_in(10) { rng.range(0, 99) } else { rng.pick(&[0, 0, 0, 1, 4, 9]) };
    if rng.once_in(3) {
        Tree::Fr { frame: if rng.once_in(8) { rng.range(0, 10) } else { rng.pick(&FRAMES) }, lane }
    } else {
        Tree::Ev { code: if rng.once_in(12) { rng.range(1, 255) } else { rng.pick(&CODES) }, lane }
    }
}

/// `and` or `then` over so many leaves.
fn spans(rng: &mut Rng, leaves: u32, leaf: fn(&mut Rng) -> Tree) -> Tree {
    let op = rng.pick(&[Op::And, Op::Then]);
    Tree::Op { op, k: 0, operands: (0..leaves).map(|_| leaf(rng)).collect() }
}

/// The same over a few.
fn few_spans(rng: &mut Rng) -> Tree {
    let leaves = rng.range(2, 4);
    spans(rng, leaves, leaf)
}

/// A tree of at most `nodes` nodes and `depth` deep.
pub fn tree(rng: &mut Rng, nodes: usize, depth: usize) -> Tree {
    if nodes < 2 || depth < 2 || rng.once_in(8) {
        return leaf(rng);
    }
    let op = if nodes == 2 { Op::Max } else { rng.pick(&OPS).0 };
    let (least, most) = op.takes();
    let few = if rng.once_in(6) { most } else { most.min(3) };
    let count = rng.range(least, few.min(nodes as u32 - 1)) as usize;
    let mut left = nodes - 1;
    let mut operands = Vec::new();
    for i in 0..count {
        let later = count - i - 1;
        let share = if later == 0 { left } else { 1 + rng.below(left - later) };
        let around = matches!(op, Op::In | Op::Out) && i == 1 && share > 4 && depth > 2 && rng.once_in(2);
        let operand = if around { few_spans(rng) } else { tree(rng, share, depth - 1) };
        left -= operand.nodes();
        operands.push(operand);
    }
    let k = if op != Op::Max {
        0
    } else if rng.once_in(6) {
        rng.range(1, 65_535)
    } else {
        rng.range(1, 12)
    };
    Tree::Op { op, k, operands }
}

/// A pattern whose answers overlap in most logs: `and` or `then` over few leaves, alone or below another operator.
pub fn crossing(rng: &mut Rng) -> Tree {
    let over = |op, k, operands| Tree::Op { op, k, operands };
    let first = few_spans(rng);
    match rng.below(10) {
        0 => over(Op::Max, rng.range(1, 12), vec![first]),
        1 => over(Op::Less, 0, vec![first, leaf(rng)]),
        2 => over(Op::Or, 0, vec![first, leaf(rng)]),
        3 => over(rng.pick(&[Op::Or, Op::And, Op::Row, Op::Then]), 0, vec![first, few_spans(rng)]),
        4 => over(rng.pick(&[Op::In, Op::Out]), 0, vec![first, few_spans(rng)]),
        5 => over(Op::Has, 0, vec![first, leaf(rng)]),
        _ => first,
    }
}

/// A pattern with `in`, `out` or `has`, which in most logs keep some of their stretches and drop some: alone, below other operators, or as B of
/// one more.
pub fn insides(rng: &mut Rng) -> Tree {
    fn common(rng: &mut Rng) -> Tree {
        let (code, frame) = (rng.pick(&CODES), rng.pick(&FRAMES));
        if rng.once_in(3) {
            Tree::Fr { frame, lane: 0 }
        } else {
            Tree::Ev { code, lane: 0 }
        }
    }
    fn rare(rng: &mut Rng) -> Tree {
        Tree::Ev { code: rng.pick(&CODES), lane: rng.pick(&LANES) }
    }
    let over = |op, operands| Tree::Op { op, k: 0, operands };
    let short = |rng: &mut Rng| if rng.once_in(2) { common(rng) } else { spans(rng, 2, common) };
    let long = |rng: &mut Rng| {
        let leaves = rng.range(2, 3);
        spans(rng, leaves, rare)
    };
    let chosen = |rng: &mut Rng| match rng.pick(&[Op::In, Op::Out, Op::Has]) {
        Op::Has => over(Op::Has, vec![long(rng), short(rng)]),
        op => over(op, vec![short(rng), long(rng)]),
    };
    let first = chosen(rng);
    match rng.below(8) {
        0 => over(Op::Then, vec![over(Op::And, vec![first, common(rng)]), common(rng)]),
        1 => over(rng.pick(&[Op::In, Op::Out]), vec![short(rng), over(Op::And, vec![first, rare(rng)])]),
        2 => over(rng.pick(&[Op::In, Op::Out, Op::Has, Op::Less]), vec![short(rng), first]),
        3 => over(rng.pick(&[Op::Or, Op::And, Op::Row, Op::Then]), vec![first, chosen(rng)]),
        _ => first,
    }
}

/// A tree with other operators.
pub fn with_ops(tree: Tree, other: &dyn Fn(Op) -> Op) -> Tree {
    match tree {
        Tree::Op { op, k, operands } => {
            Tree::Op { op: other(op), k, operands: operands.into_iter().map(|operand| with_ops(operand, other)).collect() }
        }
        leaf => leaf,
    }
}

/// A tree with each `in` made a `has` and each `out` a `less`: what surrounds a run changes nothing of its stretches within it.
pub fn by_runs(tree: Tree) -> Tree {
    with_ops(tree, &|op| match op {
        Op::In => Op::Has,
        Op::Out => Op::Less,
        _ => op,
    })
}

/// One small change to a text.
pub fn spoil(rng: &mut Rng, text: &mut Vec<u8>) {
    let at = rng.below(text.len() + 1);
    let byte = if rng.once_in(4) { rng.next() as u8 } else { rng.pick(BYTES) };
    match rng.below(8) {
        0 => text.truncate(at),
        1 => text.insert(at, byte),
        2 if at < text.len() => text[at] = byte,
        3 if at < text.len() => drop(text.remove(at)),
        4 => {
            let to = (at + rng.below(12)).min(text.len());
            let part = text[at..to].to_vec();
            text.splice(at..at, part);
        }
        5 => {
            let starts: Vec<usize> = (0..text.len()).filter(|&i| i == 0 || text[i - 1] == b',').collect();
            if !starts.is_empty() {
                text.insert(rng.pick(&starts), b'0');
            }
        }
        _ => {
            let commas: Vec<usize> = (0..text.len()).filter(|&i| text[i] == b',').collect();
            if !commas.is_empty() {
                let start = rng.pick(&commas) + 1;
                let end = text[start..].iter().position(|b| b",\n".contains(b)).map_or(text.len(), |n| start + n);
                text.splice(start..end, rng.pick(&NUMBERS).bytes());
            }
        }
    }
}

/// A pattern: sound, spoiled, crowded, deep or over-long.
pub fn pattern(rng: &mut Rng) -> Vec<u8> {
    let (nodes, depth) = rng.pick(&[(4, 3), (12, 4), (32, 8), (32, 8), (33, 8), (34, 9), (60, 12), (200, 30)]);
    let mut text = tree(rng, nodes, depth).spell().into_bytes();
    if rng.once_in(12) {
        let before = ["max,9,", "max,65535,", "less,ev,1,0,", "and,2,fr,0,0,", "in,ev,1,0,", "out,ev,1,0,", "has,fr,0,0,", "in,2,ev,1,0,"];
        let times = if rng.once_in(3) { rng.below(200) } else { rng.below(9) };
        text.splice(0..0, rng.pick(&before).repeat(times).into_bytes());
    }
    for _ in 0..rng.pick(&[0, 0, 1, 1, 1, 2, 3]) {
        spoil(rng, &mut text);
    }
    text
}

/// A sound line; one in three of the lanes below ten is padded.
pub fn line(rng: &mut Rng) -> String {
    let (lane, code) = if rng.once_in(12) { (rng.range(1, 99), rng.range(1, 255)) } else { (rng.pick(&LANES), rng.pick(&CODES)) };
    let frame = if rng.once_in(8) { rng.range(0, 10) } else { rng.pick(&FRAMES) };
    let pins = rng.range(0, 10);
    let lane = if rng.once_in(3) { padded(lane) } else { lane.to_string() };
    if rng.once_in(2) {
        format!("1,{lane},{code},{frame},{pins}\n")
    } else {
        let handicap = if rng.once_in(4) { rng.range(0, 300) } else { rng.pick(&HANDICAPS) };
        format!("2,{lane},{code},{handicap},{frame},{pins}\n")
    }
}

/// A lane with a leading zero if it is below ten.
pub fn padded(lane: u32) -> String {
    format!("{lane:02}")
}

/// A log with the lanes of its sound lines as `spell` has them.
pub fn with_lanes(log: &[u8], spell: impl Fn(u32) -> String) -> Vec<u8> {
    let line = |line: &[u8]| match reference::record(line) {
        Some(record) => {
            let fields: Vec<&[u8]> = line.splitn(3, |&b| b == b',').collect();
            [fields[0], spell(record.lane).as_bytes(), fields[2]].join(&b',')
        }
        None => line.to_vec(),
    };
    reference::lines(log).into_iter().flat_map(line).collect()
}

/// Damaged lines of every kind.
pub const WRECKS: [&str; 18] = [
    "\n",
    "oops\n",
    "\r\n",
    "1,4,7,3,6\r\n",
    "1,4,7,3\n",
    "2,4,7,3,6\n",
    "1,4,7,20,3,6\n",
    " 1,4,7,3,6\n",
    "1,00,7,3,6\n",
    "2,012,7,20,3,6\n",
    "1,099,7,3,6\n",
    "1,004,7,3,6\n",
    "2,0,7,20,3,6\n",
    "01,4,7,3,6\n",
    "1,4,07,3,6\n",
    "2,4,7,020,3,6\n",
    "1,4,7,03,6\n",
    "1,4,7,3,06\n",
];

/// About `lines` lines, one in `damage` of them spoiled (0: none); sometimes the last is not ended.
pub fn log(rng: &mut Rng, lines: usize, damage: usize) -> Vec<u8> {
    let mut log = Vec::new();
    for _ in 0..lines {
        let mut text = line(rng).into_bytes();
        if damage > 0 && rng.once_in(damage) {
            if rng.once_in(2) {
                spoil(rng, &mut text);
            } else {
                text = rng.pick(&WRECKS).into();
            }
        }
        log.extend(text);
    }
    if rng.once_in(6) {
        log.pop();
    }
    log
}

/// A log with its last line ended.
pub fn ended(mut log: Vec<u8>) -> Vec<u8> {
    if log.last().is_some_and(|&b| b != b'\n') {
        log.push(b'\n');
    }
    log
}

/// At most `most` bytes: sound lines far apart, with up to `gap` empty lines before each.
pub fn sparse(rng: &mut Rng, gap: usize, most: usize) -> Vec<u8> {
    let mut log = Vec::new();
    while log.len() < most {
        log.extend(vec![b'\n'; rng.below(gap + 1)]);
        log.extend(line(rng).into_bytes());
    }
    log.truncate(most);
    log
}

/// A rising list of at most `count` stretches below `limit`.
pub fn list(rng: &mut Rng, count: usize, limit: u32) -> List {
    let mut list: List = Vec::new();
    let (gap, reach) = (rng.pick(&[1, 2, 6]), rng.pick(&[0, 1, 5, 20]));
    let (mut s, mut e) = (rng.range(0, gap), 0);
    for _ in 0..count {
        e = (s + rng.range(0, reach)).max(e + u32::from(!list.is_empty()));
        if e >= limit {
            break;
        }
        list.push(Stretch { s, e });
        s += 1 + rng.range(0, gap);
    }
    list
}

/// Lists as they are lent: starts and ends in turn, and the place where each list ends.
pub fn lend(lists: &[List]) -> (Vec<u32>, Vec<u32>) {
    let items = lists.iter().flatten().flat_map(|a| [a.s, a.e]).collect();
    let ends = lists.iter().scan(0, |at, list| {
        *at += 2 * list.len() as u32;
        Some(*at)
    });
    (items, ends.collect())
}

/// Every text that differs from `text` in one byte replaced, put in or left out.
pub fn edits(text: &[u8]) -> Vec<Vec<u8>> {
    let with = |from: usize, to: usize, part: &[u8]| [&text[..from], part, &text[to..]].concat();
    let mut all = Vec::new();
    for at in 0..=text.len() {
        all.extend((0..=255).map(|byte| with(at, at, &[byte])));
        if at < text.len() {
            all.extend((0..=255).map(|byte| with(at, at + 1, &[byte])));
            all.push(with(at, at + 1, &[]));
        }
    }
    all
}
