//! The calls in plain Rust, put together from the reference in parts that a wrong variant can exchange.

use crate::calls::Calls;
use crate::lent::{self, Taken};
use crate::quick;
use crate::reference::{self as r, refused, Apply, List, Op, Record, Refusal, Stretch, Tree, Value, LOG_MAX};
use crate::shown::{self, Node, Triple, Way};

/// The calls over a pattern and a log.
#[derive(Clone, Copy, PartialEq, Eq)]
pub enum Call {
    Fill,
    Steps,
    Pick,
}

#[derive(Clone, Copy)]
pub struct Plain {
    pub accept: fn(&Plain, &[u8], &[u8]) -> Result<Tree, Refusal>,
    pub pattern: fn(&[u8], Value) -> Result<Tree, Refusal>,
    pub pattern_value: Value<'static>,
    pub log: fn(&[u8], Value) -> Vec<Option<Record>>,
    pub log_value: Value<'static>,
    pub list: fn(&Plain, Call, &Tree, &[u8]) -> List,
    pub apply: Apply,
    pub sound_lines: fn(&[Option<Record>], Stretch) -> u32,
    pub over_lists: fn(&Plain, Op, u32, &[List]) -> List,
    pub lists: fn(u32, u32, &[u32], &[u32]) -> Result<(Op, Vec<List>), Refusal>,
    pub takes: fn(u32) -> bool,
    pub take_or: fn(&[List], u64) -> Taken,
    pub take_and: fn(&[List], u64) -> Taken,
    pub fill: fn(&Result<List, Refusal>, &mut [u32], u64) -> u64,
    pub steps: fn(&Result<List, Refusal>, &mut [u32]) -> u64,
    pub pick: fn(&Result<List, Refusal>, u32, &mut [u32]) -> u64,
    pub pick_in: fn(&Plain, &[u8], &Result<List, Refusal>, u32, &mut [u32]) -> u64,
    pub node: fn(&Plain, &Tree, &[u8]) -> Node,
    pub below: Way,
    pub shown: fn(&Plain, &Node, u64) -> Vec<Triple>,
    pub witness: fn(&Result<Vec<Triple>, Refusal>, &mut [u32]) -> u64,
    pub take: fn(&Result<Taken, Refusal>, &mut [u32]) -> u64,
    pub count: fn(&[u8], Value) -> u64,
    pub lines: fn(&[u8], u32, u32) -> u64,
}

/// Every part as the reference has it.
pub const RIGHT: Plain = Plain {
    accept: |parts, pattern, log| if log.len() > LOG_MAX { refused(1) } else { parts.tree(pattern) },
    pattern: r::read_pattern_by,
    pattern_value: r::BY_CHART,
    log: r::read_log_by,
    log_value: r::BY_CHART,
    list: |parts, _, tree, log| {
        let lines = parts.readings(log);
        r::evaluate(tree, &lines, parts.apply, &|a| (parts.sound_lines)(&lines, a))
    },
    apply: |op, k, lists, measure| quick::apply(op, k, lists, measure),
    sound_lines: r::sound_lines,
    over_lists: |parts, op, k, lists| (parts.apply)(op, k, lists, &r::length),
    lists: lent::read_lists,
    takes: |op| (1..=2).contains(&op),
    take_or: lent::take_or_by_algorithm,
    take_and: lent::take_and,
    fill: r::fill,
    steps: r::steps,
    pick: |answers, k, cells| r::pick(answers, k, cells, quick::picks),
    pick_in: |parts, _, answers, k, cells| (parts.pick)(answers, k, cells),
    node: |parts, tree, log| {
        let lines = parts.readings(log);
        shown::node(tree, 0, &lines, parts.apply, &|a| (parts.sound_lines)(&lines, a))
    },
    below: shown::quick_below,
    shown: |parts, root, number| shown::of_number(root, number, parts.below),
    witness: shown::write,
    take: lent::take,
    count: r::count_by,
    lines: |log, first, last| r::part_result(r::part(log, first, last)),
};

impl Plain {
    pub fn tree(&self, pattern: &[u8]) -> Result<Tree, Refusal> {
        (self.pattern)(pattern, self.pattern_value)
    }

    fn readings(&self, log: &[u8]) -> Vec<Option<Record>> {
        (self.log)(log, self.log_value)
    }

    fn answers(&self, call: Call, pattern: &[u8], log: &[u8]) -> Result<List, Refusal> {
        (self.accept)(self, pattern, log).map(|tree| (self.list)(self, call, &tree, log))
    }
}

impl Calls for Plain {
    fn fill(&self, pattern: &[u8], log: &[u8], cells: &mut [u32], from: u64) -> u64 {
        (self.fill)(&self.answers(Call::Fill, pattern, log), cells, from)
    }

    fn steps(&self, pattern: &[u8], log: &[u8], cells: &mut [u32]) -> u64 {
        (self.steps)(&self.answers(Call::Steps, pattern, log), cells)
    }

    fn pick(&self, pattern: &[u8], log: &[u8], k: u32, cells: &mut [u32]) -> u64 {
        (self.pick_in)(self, log, &self.answers(Call::Pick, pattern, log), k, cells)
    }

    fn witness(&self, pattern: &[u8], log: &[u8], number: u64, cells: &mut [u32]) -> u64 {
        let root = (self.accept)(self, pattern, log).map(|tree| (self.node)(self, &tree, log));
        (self.witness)(&root.map(|root| (self.shown)(self, &root, number)), cells)
    }

    fn lists_fill(&self, op: u32, k: u32, items: &[u32], ends: &[u32], cells: &mut [u32], from: u64) -> u64 {
        let answers = (self.lists)(op, k, items, ends).map(|(op, lists)| (self.over_lists)(self, op, k, &lists));
        (self.fill)(&answers, cells, from)
    }

    fn lists_take(&self, op: u32, items: &[u32], ends: &[u32], counts: &mut [u32], number: u64) -> u64 {
        let miscalled = !(self.takes)(op) || counts.len() < ends.len();
        let lists = if miscalled { refused(6) } else { (self.lists)(op, 0, items, ends) };
        let taken = lists.map(|(op, lists)| (if op == Op::Or { self.take_or } else { self.take_and })(&lists, number));
        (self.take)(&taken, counts)
    }

    fn count(&self, log: &[u8]) -> u64 {
        (self.count)(log, self.log_value)
    }

    fn lines(&self, log: &[u8], first: u32, last: u32) -> u64 {
        (self.lines)(log, first, last)
    }
}
