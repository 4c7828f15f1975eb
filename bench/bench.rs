//! Times the finder's filling, picking and witness calls beside the plain Rust evaluator of the tests, and steps and witnesses beside the
//! filling call: same machine, same inputs, all built for release, calls in turn. It measures and passes no judgement; only a difference
//! between the two results stops it.

#[path = "../tests/outside/calls.rs"]
mod calls;
#[path = "../tests/outside/inputs.rs"]
mod inputs;
#[path = "../tests/outside/quick.rs"]
mod quick;
#[path = "../tests/outside/reference.rs"]
mod reference;
#[path = "../tests/outside/shown.rs"]
mod shown;

use calls::Calls;
use inputs::Rng;
use shown::ENOUGH;
use std::hint::black_box;
use std::time::{Duration, Instant};

/// Six operators, over six leaves.
const SIX: &str = "less,max,900,and,2,then,2,or,2,ev,7,0,ev,12,0,ev,20,0,row,2,ev,3,0,ev,2,0,ev,15,2";

/// The medians of `a` and `b`, called in turn for about half a second.
fn side_by_side(mut a: impl FnMut(), mut b: impl FnMut()) -> (Duration, Duration) {
    let time = |f: &mut dyn FnMut()| {
        let start = Instant::now();
        f();
        start.elapsed()
    };
    let once = time(&mut a) + time(&mut b);
    let rounds = (Duration::from_millis(500).as_nanos() / once.as_nanos().max(1)).clamp(15, 5_000);
    let (mut of_a, mut of_b): (Vec<_>, Vec<_>) = (0..rounds).map(|_| (time(&mut a), time(&mut b))).unzip();
    of_a.sort();
    of_b.sort();
    (of_a[of_a.len() / 2], of_b[of_b.len() / 2])
}

/// The heads of a table: what is timed, beside what, and by what their times are divided.
fn print_heads(timed: &str, beside: &str, per: &str) {
    println!("{:<36} {:>6} {:>6} {timed:>10} {beside:>10} {:>7} {per:>9} {per:>9}", "", "bytes", "found", "ratio");
}

fn print_row(name: &str, bytes: usize, found: usize, (finder, plain): (Duration, Duration)) {
    let micro = |t: Duration| t.as_nanos() as f64 / 1e3;
    let per_byte = |t: Duration| t.as_nanos() as f64 / bytes.max(1) as f64;
    println!(
        "{name:<36} {bytes:>6} {found:>6} {:>10.1} {:>10.1} {:>7.2} {:>9.2} {:>9.2}",
        micro(finder),
        micro(plain),
        micro(finder) / micro(plain),
        per_byte(finder),
        per_byte(plain)
    );
}

/// One row: a pattern in each of the logs in turn, with cells for `pairs` answers.
fn over_logs(name: &str, pattern: &str, logs: &[Vec<u8>], pairs: usize) {
    let (pattern, mut of_finder, mut of_plain) = (pattern.as_bytes(), vec![0; 2 * pairs], vec![0; 2 * pairs]);
    let mut found = 0;
    for log in logs {
        let given = calls::Archive.fill(pattern, log, &mut of_finder, 0);
        let due = reference::fill(&quick::answers(pattern, log), &mut of_plain, 0);
        assert!(given == due && of_finder == of_plain, "{name}: the results differ: {given:#x} and {due:#x}");
        found += (given >> 32) as usize;
    }
    let (mut a, mut b) = (0, 0);
    let times = side_by_side(
        || {
            a = (a + 1) % logs.len();
            black_box(calls::Archive.fill(black_box(pattern), black_box(&logs[a]), &mut of_finder, 0));
        },
        || {
            b = (b + 1) % logs.len();
            black_box(reference::fill(&quick::answers(black_box(pattern), black_box(&logs[b])), &mut of_plain, 0));
        },
    );
    let bytes: usize = logs.iter().map(Vec::len).sum();
    print_row(name, bytes / logs.len(), found / logs.len(), times);
}

fn row(name: &str, pattern: &str, log: &[u8], pairs: usize) {
    over_logs(name, pattern, &[log.to_vec()], pairs);
}

/// 3,000 lines in which every number has as many digits as it can have.
fn long_numbers(rng: &mut Rng) -> Vec<u8> {
    let line = |_| format!("2,{},{},{},10,10\n", rng.range(10, 99), rng.range(100, 255), rng.range(100, 300));
    (0..3_000).map(line).collect::<String>().into_bytes()
}

/// One row: so many picks of a pattern's answers in a log.
fn pick_row(name: &str, pattern: &str, log: &[u8], k: u32) {
    let (pattern, mut of_finder, mut of_plain) = (pattern.as_bytes(), vec![0; 2 * k as usize], vec![0; 2 * k as usize]);
    let given = calls::Archive.pick(pattern, log, k, &mut of_finder);
    let due = reference::pick(&quick::answers(pattern, log), k, &mut of_plain, quick::picks);
    assert!(given == due && of_finder == of_plain, "{name}: the results differ: {given:#x} and {due:#x}");
    let times = side_by_side(
        || {
            black_box(calls::Archive.pick(black_box(pattern), black_box(log), k, &mut of_finder));
        },
        || {
            black_box(reference::pick(&quick::answers(black_box(pattern), black_box(log)), k, &mut of_plain, quick::picks));
        },
    );
    print_row(name, log.len(), (given >> 32) as usize, times);
}

/// What plain Rust shows of an answer, into cells.
fn plain_witness(pattern: &[u8], log: &[u8], number: u64, cells: &mut [u32]) -> u64 {
    let root = shown::quick_outermost(pattern, log);
    shown::write(&root.map(|root| shown::of_number(&root, number, shown::quick_below)), cells)
}

/// The number of a pattern's last answer in a log, and how many nodes took part in it. Finder and plain Rust must agree.
fn last_answer(name: &str, pattern: &[u8], log: &[u8]) -> (u64, usize) {
    let found = calls::Archive.fill(pattern, log, &mut vec![0; 2 * log.len()], 0) >> 32;
    assert!(found > 0, "{name}: no answer");
    let (mut of_finder, mut of_plain) = ([0; ENOUGH], [0; ENOUGH]);
    let given = calls::Archive.witness(pattern, log, found - 1, &mut of_finder);
    let due = plain_witness(pattern, log, found - 1, &mut of_plain);
    assert!(given == due && of_finder == of_plain, "{name}: the results differ: {given:#x} and {due:#x}");
    (found - 1, (given >> 32) as usize)
}

/// One row: what is shown of a pattern's last answer in a log.
fn witness_row(name: &str, pattern: &str, log: &[u8]) {
    let (pattern, mut of_finder, mut of_plain) = (pattern.as_bytes(), [0; ENOUGH], [0; ENOUGH]);
    let (last, nodes) = last_answer(name, pattern, log);
    let times = side_by_side(
        || {
            black_box(calls::Archive.witness(black_box(pattern), black_box(log), last, &mut of_finder));
        },
        || {
            black_box(plain_witness(black_box(pattern), black_box(log), last, &mut of_plain));
        },
    );
    print_row(name, log.len(), nodes, times);
}

/// One row: the same beside the filling of all answers.
fn witness_fill_row(name: &str, pattern: &str, log: &[u8], pairs: usize) {
    let (pattern, mut shown, mut filled) = (pattern.as_bytes(), [0; ENOUGH], vec![0; 2 * pairs]);
    let (last, nodes) = last_answer(name, pattern, log);
    let times = side_by_side(
        || {
            black_box(calls::Archive.witness(black_box(pattern), black_box(log), last, &mut shown));
        },
        || {
            black_box(calls::Archive.fill(black_box(pattern), black_box(log), &mut filled, 0));
        },
    );
    print_row(name, log.len(), nodes, times);
}

/// One row: the answers of a pattern in a log taken one by one beside the filling of all of them.
fn step_row(name: &str, pattern: &str, log: &[u8], pairs: usize) {
    let (pattern, mut taken, mut filled) = (pattern.as_bytes(), vec![0; 2 * pairs], vec![0; 2 * pairs]);
    let found = calls::Archive.steps(pattern, log, &mut taken);
    let due = calls::Archive.fill(pattern, log, &mut filled, 0) >> 32;
    assert!(found == due && taken == filled, "{name}: the results differ: {found} and {due}");
    let (steps, fill) = side_by_side(
        || {
            black_box(calls::Archive.steps(black_box(pattern), black_box(log), &mut taken));
        },
        || {
            black_box(calls::Archive.fill(black_box(pattern), black_box(log), &mut filled, 0));
        },
    );
    let micro = |t: Duration| t.as_nanos() as f64 / 1e3;
    let each = |t: Duration| micro(t) / found.max(1) as f64;
    println!(
        "{name:<36} {:>6} {found:>6} {:>10.1} {:>10.1} {:>7.2} {:>9.2} {:>9.2}",
        log.len(),
        micro(steps),
        micro(fill),
        micro(steps) / micro(fill),
        each(steps),
        each(fill)
    );
}

fn leaves(operator: &str) -> String {
    let leaf = |i: usize| format!(",ev,{},{}", [2, 3, 7, 9, 12][i % 5], i % 13);
    (0..31).fold(format!("{operator},31"), |text, i| text + &leaf(i))
}

/// Leaves of which every line of a dense log matches a third.
fn dense_leaves(operator: &str) -> String {
    let leaf = |i: usize| format!(",{},{},{}", ["ev", "fr"][i % 2], 1 + i / 2 % 2, i / 4 % 3);
    (0..31).fold(format!("{operator},31"), |text, i| text + &leaf(i))
}

/// A log of two lanes, two codes and two frames.
fn dense_log(rng: &mut Rng) -> Vec<u8> {
    let mut of_two = || rng.range(1, 2);
    (0..3_000).flat_map(|_| format!("1,{},{},{},{}\n", of_two(), of_two(), of_two(), of_two()).into_bytes()).collect()
}

/// A full log of sound lines in spells of damaged ones, half of them with code 1.
fn spelled_log(rng: &mut Rng) -> Vec<u8> {
    let mut log = Vec::new();
    while log.len() < reference::LOG_MAX {
        log.extend(vec![b'\n'; rng.below(121)]);
        log.extend(format!("1,4,{},3,6\n", rng.range(1, 2)).into_bytes());
    }
    log.truncate(reference::LOG_MAX);
    log
}

/// A log in which a `then` that is deep in a pattern is found at once, and the search for a shorter stretch goes through all lines; and the pattern.
fn deep_then() -> (String, Vec<u8>) {
    let pattern = format!("{}ev,7,0,max,1,and,2,ev,1,0,fr,3,0{}", "then,2,".repeat(5), ",ev,5,0".repeat(4));
    let first = ["1,4,7,2,6\n1,4,1,3,0\n", &"1,4,5,2,0\n".repeat(6), "1,4,7,2,6\n"].concat();
    (pattern, (first + &"1,4,1,1,0\n1,4,2,3,0\n".repeat(1_490)).into_bytes())
}

/// The lines of a log in another order.
fn shuffled(rng: &mut Rng, log: &[u8]) -> Vec<u8> {
    let mut lines: Vec<&[u8]> = log.split_inclusive(|&b| b == b'\n').collect();
    for i in (1..lines.len()).rev() {
        lines.swap(i, rng.below(i + 1));
    }
    lines.concat()
}

fn main() {
    let evening = std::fs::read("samples/evening.log").expect("samples/evening.log");
    let full: Vec<u8> = evening.iter().copied().cycle().take(reference::LOG_MAX).collect();
    println!("Medians of calls in turn; every call reads its pattern and its log anew and writes the answers into lent cells.");
    println!("Cells are lent once and not cleared between calls; plain Rust makes its lists anew in each call.");
    print_heads("finder us", "plain us", "ns/byte");
    row("3,000 lines, six operators", SIX, &evening, 3_000);
    row("3,000 lines, six, lanes padded", SIX, &inputs::with_lanes(&evening, inputs::padded), 3_000);
    row("3,000 lines, one leaf, no match", "ev,254,99", &evening, 3_000);
    row("3,000 lines, one leaf, most match", "ev,2,0", &evening, 3_000);
    row("3,000 lines, or of 31 leaves", &leaves("or"), &evening, 3_000);
    row("3,000 lines, and of 31 leaves", &leaves("and"), &evening, 3_000);
    row("3,000 lines, then of 31 leaves", &leaves("then"), &evening, 3_000);
    row("3,000 lines, six, first answer only", SIX, &evening, 1);
    let fifteen = (0..15).fold("or,15".to_string(), |text, i| text + &format!(",max,9,ev,{},{}", [2, 3, 7, 9, 12][i % 5], i % 13));
    row("3,000 lines, or of 15 max", &fifteen, &evening, 3_000);
    let ten =
        (0..10).fold("and,10".to_string(), |text, i| text + &format!(",or,2,ev,{},0,ev,{},0", [2, 3, 7][i % 3], [9, 12, 15, 20][i % 4]));
    row("3,000 lines, and of 10 or", &ten, &evening, 3_000);
    let mut rng = Rng(40);
    let long_leaves = (0..31).fold("or,31".to_string(), |text, i| text + &format!(",ev,{},{}", 225 + i, 69 + i));
    row("3,000 lines, long numbers", &long_leaves, &long_numbers(&mut rng), 3_000);
    row("no line, the same pattern", &long_leaves, b"", 1);
    let evenings: Vec<_> = (0..40).map(|_| shuffled(&mut rng, &evening)).collect();
    over_logs("40 logs in turn, six operators", SIX, &evenings, 3_000);
    over_logs("40 logs in turn, or of 31 leaves", &leaves("or"), &evenings, 3_000);
    let dense: Vec<_> = (0..40).map(|_| dense_log(&mut rng)).collect();
    for operator in ["or", "and", "then", "row"] {
        row(&format!("dense, {operator} of 31 leaves"), &dense_leaves(operator), &dense[0], 3_000);
    }
    over_logs("40 dense logs in turn, and of 31", &dense_leaves("and"), &dense, 3_000);
    // The long stretches overlap, a quarter of all lines starts one, and each reaches over some thirty lines.
    let (line, long) = ("ev,1,1", format!("then,8{}", ",ev,2,2".repeat(8)));
    for (operator, chosen, other) in [("in", line, &*long), ("out", line, &long), ("has", &long, line), ("less", &long, line)] {
        row(&format!("dense, {operator} with long stretches"), &format!("{operator},{chosen},{other}"), &dense[0], 3_000);
    }
    let six = format!("then,6{}", ",ev,2,2".repeat(6));
    let nested = format!("in,in,in,{line},in,{line},{six},in,{line},{six},{six}");
    row("dense, in within in on both sides", &nested, &dense[0], 3_000);
    row("full log, six operators", SIX, &full, 6_000);
    row("full log of line feeds", SIX, &vec![b'\n'; reference::LOG_MAX], 1);
    for part in [32, 16, 8, 4, 2, 1] {
        row(&format!("six operators, 1/{part} of a full log"), SIX, &full[..reference::LOG_MAX / part], 6_000);
    }
    // Each stretch has thousands of lines, and 42 to 71 sound ones.
    let (spelled, over_long) = (spelled_log(&mut rng), format!("max,60,then,30{}", ",ev,1,0".repeat(30)));
    row("full log, max over long stretches", &over_long, &spelled, 6_000);
    row("the same without max", &over_long["max,60,".len()..], &spelled, 6_000);
    for part in [8, 4, 2, 1] {
        row(&format!("max over long, 1/{part} of a full log"), &over_long, &spelled[..reference::LOG_MAX / part], 6_000);
    }
    let in_long = format!("in,ev,2,0,then,28{}", ",ev,1,0".repeat(28));
    for part in [8, 4, 2, 1] {
        row(&format!("in over long, 1/{part} of a full log"), &in_long, &spelled[..reference::LOG_MAX / part], 6_000);
    }
    println!();
    println!("Picks, found being their number.");
    print_heads("finder us", "plain us", "ns/byte");
    let every: Vec<u8> = b"1,4,1,3,6\n".repeat(reference::LOG_MAX / 10);
    pick_row("3,000 lines, six operators, 16", SIX, &evening, 16);
    pick_row("3,000 lines, most match, 16", "ev,2,0", &evening, 16);
    pick_row("3,000 lines, and of 2 leaves, 16", "and,2,ev,2,0,ev,3,0", &evening, 16);
    pick_row("dense, and of 31 leaves, 16", &dense_leaves("and"), &dense[0], 16);
    pick_row("full log, every line matches, 16", "ev,1,0", &every, 16);
    for k in [1, 4, 16] {
        pick_row(&format!("full log, rows of two lines, {k}"), "row,2,ev,1,0,ev,1,0", &every, k);
    }
    println!();
    println!("What is shown of the last answer, found being the nodes that took part.");
    print_heads("finder us", "plain us", "ns/byte");
    let (then, after_it) = deep_then();
    let shown: [(&str, &str, &[u8]); 9] = [
        ("3,000 lines, six operators", SIX, &evening),
        ("3,000 lines, one leaf, most match", "ev,2,0", &evening),
        ("3,000 lines, or of 31 leaves", &leaves("or"), &evening),
        ("3,000 lines, and of 10 or", &ten, &evening),
        ("dense, and of 31 leaves", &dense_leaves("and"), &dense[0]),
        ("dense, then of 31 leaves", &dense_leaves("then"), &dense[0]),
        ("full log, six operators", SIX, &full),
        ("full log, in over long stretches", &in_long, &spelled),
        ("3,000 lines, then in then, five deep", &then, &after_it),
    ];
    shown.iter().for_each(|(name, pattern, log)| witness_row(name, pattern, log));
    println!();
    println!("The same beside the filling of all answers.");
    print_heads("witness us", "fill us", "ns/byte");
    shown.iter().for_each(|(name, pattern, log)| witness_fill_row(name, pattern, log, 6_000));
    println!();
    println!("The same answers one by one, the last step saying none, beside the filling.");
    print_heads("steps us", "fill us", "us/answer");
    step_row("3,000 lines, six operators", SIX, &evening, 3_000);
    step_row("3,000 lines, one leaf, most match", "ev,2,0", &evening, 3_000);
    step_row("3,000 lines, or of 31 leaves", &leaves("or"), &evening, 3_000);
    step_row("dense, and of 31 leaves", &dense_leaves("and"), &dense[0], 3_000);
    step_row("full log, six operators", SIX, &full, 6_000);
    step_row("full log, in over long stretches", &in_long, &spelled, 6_000);
}
