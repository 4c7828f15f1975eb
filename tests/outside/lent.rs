//! docs/FORMATS.md on lent lists: their refusals, and the taking of items by Algorithms 2 and 3 of Boldi and Vigna, "Efficient
//! Optimally Lazy Algorithms for Minimal-Interval Semantics".
#![allow(dead_code)]

use crate::reference::{inside, refusal_result, refused, List, Op, Refusal, Stretch, OPS, POSITION_MAX};
use std::cmp::Reverse;

/// Refusals 6 to 8 in order; else the lists.
pub fn read_lists(op: u32, k: u32, items: &[u32], ends: &[u32]) -> Result<(Op, Vec<List>), Refusal> {
    let Some(&(op, _, (least, most))) = OPS.get((op as usize).wrapping_sub(1)) else { return refused(6) };
    let k_allowed = if op == Op::Max { 1..=65_535 } else { 0..=0 };
    if !(least as usize..=most as usize).contains(&ends.len()) || !k_allowed.contains(&k) {
        return refused(6);
    }
    let fits = ends.iter().all(|end| end % 2 == 0) && ends.windows(2).all(|w| w[0] <= w[1]);
    if !fits || ends[ends.len() - 1] as usize != items.len() {
        return refused(7);
    }
    let starts = std::iter::once(0).chain(ends.iter().copied());
    let cut = |(from, to): (u32, &u32)| items[from as usize..*to as usize].chunks(2).map(|c| Stretch { s: c[0], e: c[1] }).collect();
    let lists: Vec<List> = starts.zip(ends).map(cut).collect();
    let ordered =
        |list: &List| list.iter().all(|a| a.s <= a.e && a.e <= POSITION_MAX) && list.windows(2).all(|w| w[0].s < w[1].s && w[0].e < w[1].e);
    if !lists.iter().all(ordered) {
        return refused(8);
    }
    Ok((op, lists))
}

/// The same for the taking call.
pub fn read_taking(op: u32, items: &[u32], ends: &[u32], count_cells: usize) -> Result<(Op, Vec<List>), Refusal> {
    if !(1..=2).contains(&op) || count_cells < ends.len() {
        return refused(6);
    }
    read_lists(op, 0, items, ends)
}

/// An answer or none, and the items taken of each list.
pub type Taken = (Option<Stretch>, Vec<u32>);

/// `or` by the closed rule: the items that end before the answer's end and one more; for none all, end marks too.
pub fn take_or(answers: &[Stretch], lists: &[List], p: u64) -> Taken {
    let answer = usize::try_from(p).ok().and_then(|p| answers.get(p).copied());
    let taken = |list: &List| list.iter().filter(|item| answer.map_or(true, |a| item.e < a.e)).count() as u32 + 1;
    (answer, lists.iter().map(taken).collect())
}

/// The queue of Algorithms 1 to 3: the front item of each list, None at its end mark, and the items taken.
struct Queue<'a> {
    lists: &'a [List],
    taken: Vec<usize>,
}

impl Queue<'_> {
    fn new(lists: &[List]) -> Queue<'_> {
        Queue { lists, taken: vec![1; lists.len()] }
    }

    fn front(&self, i: usize) -> Option<Stretch> {
        self.lists[i].get(self.taken[i] - 1).copied()
    }

    /// The queued list whose front is least by `key`; of equal ones the lowest number.
    fn top<K: Ord>(&self, key: impl Fn(Stretch) -> K) -> Option<usize> {
        (0..self.lists.len()).filter(|&i| self.front(i).is_some()).min_by_key(|&i| key(self.front(i).unwrap()))
    }

    fn full(&self) -> bool {
        (0..self.lists.len()).all(|i| self.front(i).is_some())
    }

    fn counts(&self) -> Vec<u32> {
        self.taken.iter().map(|&n| n as u32).collect()
    }
}

/// Algorithm 2.
pub fn take_or_by_algorithm(lists: &[List], p: u64) -> Taken {
    let mut q = Queue::new(lists);
    let order = |a: Stretch| (a.e, Reverse(a.s));
    let mut c: Option<Stretch> = None;
    for _ in 0..=p {
        while let (Some(c), Some(i)) = (c, q.top(order)) {
            if !inside(c, q.front(i).unwrap()) {
                break;
            }
            q.taken[i] += 1;
        }
        c = q.top(order).and_then(|i| q.front(i));
        if c.is_none() {
            break;
        }
    }
    (c, q.counts())
}

/// Algorithm 3, line by line; of equal front items the list of lower number moves first.
pub fn take_and(lists: &[List], p: u64) -> Taken {
    let mut q = Queue::new(lists);
    let order = |a: Stretch| (a.s, Reverse(a.e));
    let span = |q: &Queue| Stretch {
        s: q.front(q.top(order).unwrap()).unwrap().s,
        e: (0..lists.len()).map(|i| q.front(i).unwrap().e).max().unwrap(),
    };
    let mut c: Option<Stretch> = None;
    for _ in 0..=p {
        while q.full() && c.is_some_and(|c| inside(c, span(&q))) {
            let i = q.top(order).unwrap();
            q.taken[i] += 1;
        }
        if !q.full() {
            return (None, q.counts());
        }
        loop {
            let candidate = span(&q);
            c = Some(candidate);
            let i = q.top(order).unwrap();
            if q.front(i) == c {
                break;
            }
            q.taken[i] += 1;
            if !(q.full() && inside(span(&q), candidate)) {
                break;
            }
        }
    }
    (c, q.counts())
}

/// Writes the counts and gives the packed result.
pub fn take(taken: &Result<Taken, Refusal>, counts: &mut [u32]) -> u64 {
    match taken {
        Err(r) => refusal_result(*r),
        Ok((answer, taken)) => {
            counts[..taken.len()].copy_from_slice(taken);
            answer.map_or(0, |a| 1 << 8 | u64::from(a.s) << 16 | u64::from(a.e) << 32)
        }
    }
}
