//! The calls: the archives' through their C symbols, and behind one trait, so that any other maker of them can be compared too.
#![allow(dead_code)]

pub trait Calls {
    fn fill(&self, pattern: &[u8], log: &[u8], cells: &mut [u32], from: u64) -> u64;
    fn pick(&self, pattern: &[u8], log: &[u8], k: u32, cells: &mut [u32]) -> u64;
    fn witness(&self, pattern: &[u8], log: &[u8], number: u64, cells: &mut [u32]) -> u64;
    fn lists_fill(&self, op: u32, k: u32, items: &[u32], ends: &[u32], cells: &mut [u32], from: u64) -> u64;
    fn lists_take(&self, op: u32, items: &[u32], ends: &[u32], counts: &mut [u32], number: u64) -> u64;
    fn count(&self, log: &[u8]) -> u64;
    fn lines(&self, log: &[u8], first: u32, last: u32) -> u64;
    /// The stretches taken one by one into the cells; gives how many.
    fn steps(&self, pattern: &[u8], log: &[u8], cells: &mut [u32]) -> u64;
}

/// The calls of the archives.
pub struct Archive;

#[link(name = "finder_c", kind = "static")]
extern "C" {
    fn finder_fill(
        pattern: *const u8,
        pattern_len: usize,
        log: *const u8,
        log_len: usize,
        cells: *mut u32,
        cell_count: usize,
        from: u64,
    ) -> u64;
    fn finder_pick(
        pattern: *const u8,
        pattern_len: usize,
        log: *const u8,
        log_len: usize,
        k: u32,
        cells: *mut u32,
        cell_count: usize,
    ) -> u64;
    fn finder_witness(
        pattern: *const u8,
        pattern_len: usize,
        log: *const u8,
        log_len: usize,
        number: u64,
        cells: *mut u32,
        cell_count: usize,
    ) -> u64;
    fn finder_lists_fill(
        op: u32,
        k: u32,
        items: *const u32,
        item_count: usize,
        ends: *const u32,
        list_count: usize,
        cells: *mut u32,
        cell_count: usize,
        from: u64,
    ) -> u64;
    fn finder_lists_take(
        op: u32,
        items: *const u32,
        item_count: usize,
        ends: *const u32,
        list_count: usize,
        counts: *mut u32,
        count_cells: usize,
        number: u64,
    ) -> u64;
    fn finder_count(log: *const u8, log_len: usize) -> u64;
    fn finder_lines(log: *const u8, log_len: usize, first: u32, last: u32) -> u64;
}

#[link(name = "finder_steps", kind = "static")]
extern "C" {
    fn finder_steps(pattern: *const u8, pattern_len: usize, log: *const u8, log_len: usize, cells: *mut u32, cell_count: usize) -> u64;
}

// Each pointer comes from a slice of the length given with it, and what is written comes from a `&mut`.
impl Calls for Archive {
    fn fill(&self, pattern: &[u8], log: &[u8], cells: &mut [u32], from: u64) -> u64 {
        unsafe { finder_fill(pattern.as_ptr(), pattern.len(), log.as_ptr(), log.len(), cells.as_mut_ptr(), cells.len(), from) }
    }

    fn pick(&self, pattern: &[u8], log: &[u8], k: u32, cells: &mut [u32]) -> u64 {
        unsafe { finder_pick(pattern.as_ptr(), pattern.len(), log.as_ptr(), log.len(), k, cells.as_mut_ptr(), cells.len()) }
    }

    fn witness(&self, pattern: &[u8], log: &[u8], number: u64, cells: &mut [u32]) -> u64 {
        unsafe { finder_witness(pattern.as_ptr(), pattern.len(), log.as_ptr(), log.len(), number, cells.as_mut_ptr(), cells.len()) }
    }

    fn lists_fill(&self, op: u32, k: u32, items: &[u32], ends: &[u32], cells: &mut [u32], from: u64) -> u64 {
        unsafe { finder_lists_fill(op, k, items.as_ptr(), items.len(), ends.as_ptr(), ends.len(), cells.as_mut_ptr(), cells.len(), from) }
    }

    fn lists_take(&self, op: u32, items: &[u32], ends: &[u32], counts: &mut [u32], number: u64) -> u64 {
        unsafe { finder_lists_take(op, items.as_ptr(), items.len(), ends.as_ptr(), ends.len(), counts.as_mut_ptr(), counts.len(), number) }
    }

    fn count(&self, log: &[u8]) -> u64 {
        unsafe { finder_count(log.as_ptr(), log.len()) }
    }

    fn lines(&self, log: &[u8], first: u32, last: u32) -> u64 {
        unsafe { finder_lines(log.as_ptr(), log.len(), first, last) }
    }

    fn steps(&self, pattern: &[u8], log: &[u8], cells: &mut [u32]) -> u64 {
        unsafe { finder_steps(pattern.as_ptr(), pattern.len(), log.as_ptr(), log.len(), cells.as_mut_ptr(), cells.len()) }
    }
}
