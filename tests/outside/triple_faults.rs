//! Wrong variants of handing back what made an answer: other results, other cells.

use crate::plain::{Plain, RIGHT};
use crate::reference::Refusal;
use crate::shown::Triple;
use crate::shown_faults::Variants;

/// The wrong variants.
pub fn variants() -> Variants {
    [over_results(), over_cells(), over_kept_cells()].concat()
}

type Shown = Result<Vec<Triple>, Refusal>;

fn witness(witness: fn(&Shown, &mut [u32]) -> u64) -> Plain {
    Plain { witness, ..RIGHT }
}

fn write(shown: &Shown, cells: &mut [u32]) -> u64 {
    (RIGHT.witness)(shown, cells)
}

/// The number of parts, whether cells hold them or not.
fn parts(shown: &Shown) -> usize {
    shown.as_ref().map_or(0, Vec::len)
}

/// The right call, and then `after` on the cells, given the number of triples written.
fn and_then(shown: &Shown, cells: &mut [u32], after: impl Fn(&mut [u32], usize)) -> u64 {
    let result = write(shown, cells);
    if shown.is_ok() {
        after(cells, (result >> 32) as usize);
    }
    result
}

/// Wrong results.
fn over_results() -> Variants {
    vec![
        ("cells counted", witness(|shown, cells| if shown.is_ok() { 3 * write(shown, cells) } else { write(shown, cells) })),
        ("pairs counted", {
            witness(|shown, cells| {
                let result = write(shown, cells);
                shown.as_ref().map_or(result, |_| (3 * (result >> 32)).div_ceil(2) << 32)
            })
        }),
        (
            "triples counted that no cells hold",
            witness(|shown, cells| {
                let result = write(shown, cells);
                if shown.is_ok() {
                    (parts(shown) as u64) << 32
                } else {
                    result
                }
            }),
        ),
        ("more where triples are left", witness(|shown, cells| write(shown, cells) | u64::from(parts(shown) > cells.len() / 3) << 8)),
        (
            "a refusal where nothing is shown",
            witness(|shown, cells| if shown.as_ref().is_ok_and(Vec::is_empty) { 10 } else { write(shown, cells) }),
        ),
        ("a refusal without a place", witness(|shown, cells| write(shown, cells) & !0xffff_0000)),
        ("refused calls showing nothing", witness(|shown, cells| if shown.is_err() { 0 } else { write(shown, cells) })),
        (
            "a long log showing nothing",
            witness(|shown, cells| if shown.as_ref().is_err_and(|refusal| refusal.number == 1) { 0 } else { write(shown, cells) }),
        ),
    ]
}

/// Wrong triples in the cells.
fn over_cells() -> Variants {
    vec![
        (
            "a triple cut in two",
            witness(|shown, cells| {
                let mut more = [&*cells, &[0; 2]].concat();
                write(shown, &mut more);
                cells.copy_from_slice(&more[..cells.len()]);
                write(shown, cells)
            }),
        ),
        (
            "end before start",
            witness(|shown, cells| and_then(shown, cells, |cells, n| cells.chunks_mut(3).take(n).for_each(|c| c.swap(1, 2)))),
        ),
        (
            "the node last",
            witness(|shown, cells| and_then(shown, cells, |cells, n| cells.chunks_mut(3).take(n).for_each(|c| c.rotate_left(1)))),
        ),
        ("nothing written", witness(|shown, cells| write(shown, &mut cells.to_vec()))),
        ("nothing written where not all fit", witness(|shown, cells| if parts(shown) > cells.len() / 3 { 0 } else { write(shown, cells) })),
        (
            "the last triple of cells left free",
            witness(|shown, cells| {
                let fewer = cells.len().saturating_sub(3);
                write(shown, &mut cells[..fewer])
            }),
        ),
        (
            "a cell needed behind the last triple",
            witness(|shown, cells| {
                let fewer = cells.len().saturating_sub(1);
                write(shown, &mut cells[..fewer])
            }),
        ),
    ]
}

/// Cells that do not keep their contents.
fn over_kept_cells() -> Variants {
    vec![
        ("the cell after the triples cleared", {
            witness(|shown, cells| and_then(shown, cells, |cells, n| cells.iter_mut().skip(3 * n).take(1).for_each(|cell| *cell = 0)))
        }),
        ("all cells after the triples cleared", witness(|shown, cells| and_then(shown, cells, |cells, n| cells[3 * n..].fill(0)))),
        (
            "cells cleared where nothing is shown",
            witness(|shown, cells| {
                and_then(shown, cells, |cells, n| {
                    if n == 0 {
                        cells.iter_mut().take(3).for_each(|cell| *cell = 0)
                    }
                })
            }),
        ),
        (
            "a refused call that writes a cell",
            witness(|shown, cells| {
                if let (Err(_), Some(first)) = (shown, cells.first_mut()) {
                    *first = 0;
                }
                write(shown, cells)
            }),
        ),
    ]
}
