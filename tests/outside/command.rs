//! Compares what find-stretches prints with the reference's answers, picks, lines and what made an answer: `command PROGRAM`, each pattern as an
//! argument, each log through standard input.

mod inputs;
mod piped;
mod quick;
mod reference;
mod shown;
mod spell_inputs;
mod witness_inputs;

use inputs::Rng;
use reference::{Refusal, Stretch, Tree, LOG_MAX, PATTERN_MAX};
use shown::{Node, Triple};
use std::ffi::OsStr;
use std::os::unix::ffi::OsStrExt;
use std::process::Command;

const PICKS_MAX: usize = reference::PICKS_MAX as usize;

/// What is asked for: every stretch, so many picks, or what made the stretch of a number.
#[derive(Clone, Copy, Debug)]
enum Asked {
    All,
    Picks(usize),
    Why(u64),
}

/// Status, standard output, and the first line of standard error.
#[derive(PartialEq)]
struct Printed(Option<i32>, String, String);

fn printed(program: &str, pattern: &[u8], log: &[u8], asked: Asked) -> std::io::Result<Printed> {
    let mut command = Command::new(program);
    match asked {
        Asked::All => {}
        Asked::Picks(k) => drop(command.arg(format!("--pick={k}"))),
        Asked::Why(number) => drop(command.arg(format!("--why={number}"))),
    }
    command.args(["--show", "--"]).arg(OsStr::from_bytes(pattern));
    let output = piped::output(&mut command, log)?;
    let text = |bytes: &[u8]| String::from_utf8_lossy(bytes).into_owned();
    let said = text(&output.stderr).lines().next().unwrap_or_default().into();
    Ok(Printed(output.status.code(), text(&output.stdout), said))
}

/// Three digits at most before the only comma that these numbers have.
fn grouped(n: usize) -> String {
    if n < 1_000 {
        n.to_string()
    } else {
        format!("{},{:03}", n / 1_000, n % 1_000)
    }
}

fn of(n: usize, one: &str, several: &str) -> String {
    format!("{} {}", grouped(n), if n == 1 { one } else { several })
}

fn refused(refusal: Refusal, pattern: &[u8], log: &[u8], asked: Asked) -> Printed {
    let said = match refusal.number {
        1 => format!("long log: {} bytes, at most 61,440", grouped(log.len())),
        2 => format!("long pattern: {} bytes, at most 1,024", grouped(pattern.len())),
        3 => {
            let early = if refusal.place as usize == pattern.len() { ": it ends too soon," } else { "" };
            format!("misspelt{early} after {}", of(refusal.place as usize, "byte", "bytes"))
        }
        4 => "crowded: more than 32 nodes".into(),
        5 => "deep: more than 8 deep".into(),
        _ => match asked {
            Asked::Picks(k) if k > 0 => format!("bad count: {} picks, at most 16", grouped(k)),
            _ => "bad count: 0 picks, at least 1".into(),
        },
    };
    Printed(Some(2), String::new(), format!("refused: {said}"))
}

/// A line of the log as it is shown.
fn line(line: &[u8]) -> String {
    let text = line.strip_suffix(b"\n").unwrap_or(line);
    let escaped = text.iter().map(|&byte| match byte {
        b'\\' => "\\\\".into(),
        32..=126 => (byte as char).to_string(),
        _ => format!("\\x{byte:02x}"),
    });
    match (reference::record(line), text.is_empty()) {
        (Some(_), _) => escaped.collect(),
        (None, true) => "damaged, empty".into(),
        (None, false) => format!("damaged: {}", escaped.collect::<String>()),
    }
}

/// The number of damaged lines.
fn damaged(lines: &[&[u8]]) -> usize {
    lines.iter().filter(|line| reference::record(line).is_none()).count()
}

/// The lines of a stretch.
fn held<'a>(lines: &'a [&'a [u8]], stretch: Stretch) -> &'a [&'a [u8]] {
    &lines[stretch.s as usize..=stretch.e as usize]
}

/// A stretch as it is printed.
fn ends(lines: &[&[u8]], stretch: Stretch) -> String {
    let held = held(lines, stretch);
    let broken = match damaged(held) {
        0 => String::new(),
        n => format!(", {} damaged", grouped(n)),
    };
    format!("{}..{} ({}{broken})", stretch.s, stretch.e, of(held.len(), "line", "lines"))
}

/// The lines of a stretch as --show prints them.
fn numbered(lines: &[&[u8]], stretch: Stretch) -> String {
    (stretch.s..).zip(held(lines, stretch)).map(|(number, text)| format!("{number:8}  {}\n", line(text))).collect()
}

/// The nodes of a tree, each with its word and numbers after two blanks for each node above it.
fn nodes(tree: &Tree, depth: usize) -> Vec<(&Tree, String)> {
    let below: usize = tree.operands().iter().map(|operand| operand.spell().len() + 1).sum();
    let spelt = tree.spell();
    let word = "  ".repeat(depth) + &spelt[..spelt.len() - below];
    std::iter::once((tree, word)).chain(tree.operands().iter().flat_map(|operand| nodes(operand, depth + 1))).collect()
}

/// A tree with what is shown of its nodes.
fn explained(tree: &Tree, lines: &[&[u8]], triples: &[Triple]) -> String {
    let nodes = nodes(tree, 0);
    let width = nodes.iter().map(|(_, word)| word.len()).max().unwrap_or_default();
    let beside = |number, node: &Tree| match triples.iter().find(|triple| triple.node == number) {
        None => "-".into(),
        Some(Triple { stretch, .. }) if node.operands().is_empty() => format!("{}  {}", stretch.s, line(lines[stretch.s as usize])),
        Some(Triple { stretch, .. }) => ends(lines, *stretch),
    };
    (0..).zip(&nodes).map(|(number, (node, word))| format!("{word:width$}  {}\n", beside(number, node))).collect()
}

fn found(root: &Node, tree: &Tree, log: &[u8], asked: Asked) -> Printed {
    let lines = reference::lines(log);
    let stretches = |list: &[Stretch]| list.iter().map(|&a| ends(&lines, a) + "\n" + &numbered(&lines, a)).collect::<String>();
    let (said, counted, text) = match asked {
        Asked::All => (String::new(), "lines", stretches(&root.list)),
        Asked::Picks(k) => {
            let picks = reference::picks(k, &root.list);
            (format!(", {} of {}", picks.len(), of(k, "pick", "picks")), "lines", stretches(&picks))
        }
        Asked::Why(number) => {
            let triples = shown::of_number(root, number, shown::below);
            let text = triples.first().map(|whole| explained(tree, &lines, &triples) + &numbered(&lines, whole.stretch));
            (format!(", {}number {number}", if text.is_some() { "" } else { "none with " }), "stretches and lines", text.unwrap_or_default())
        }
    };
    let (all, answers) = (of(lines.len(), "line", "lines"), of(root.list.len(), "stretch", "stretches"));
    let unended = lines.last().filter(|line| !line.ends_with(b"\n")).map_or("", |_| " (the last line has no line feed)");
    let broken = damaged(&lines);
    let head = format!("{all}, {} damaged{unended}; {answers}{said} ({counted} count from 0)\n", grouped(broken));
    let warned = !lines.is_empty() && broken == lines.len();
    let warning = if warned { "find-stretches: warning: every line of the log is damaged" } else { "" };
    Printed(Some(i32::from(text.is_empty())), head + &text, warning.into())
}

/// A pattern that can be an argument, and a log; also around the bounds, with spells of damaged lines, and patterns of which many nodes take part.
fn random(rng: &mut Rng) -> (Vec<u8>, Vec<u8>) {
    if rng.once_in(3) {
        let log = witness_inputs::some_log(rng, 40);
        return (witness_inputs::finding(rng, &log).spell().into_bytes(), log);
    }
    if rng.once_in(4) {
        let lines = rng.below(14);
        let log = spell_inputs::spelled(rng, lines, LOG_MAX);
        return (spell_inputs::with_max(rng, &log).spell().into_bytes(), log);
    }
    let mut pattern = if rng.once_in(3) { inputs::pattern(rng) } else { inputs::tree(rng, 12, 5).spell().into_bytes() };
    if rng.once_in(30) {
        pattern.resize(rng.pick(&[PATTERN_MAX, PATTERN_MAX + 1, 4_096]), b',');
    }
    pattern.retain(|&byte| byte != 0);
    let lines = if rng.once_in(12) { 4_500 } else { rng.below(40) };
    let mut log = inputs::log(rng, lines, 4);
    if rng.once_in(12) {
        log.resize(rng.pick(&[LOG_MAX, LOG_MAX + 1, 300_000]), b'\n');
    }
    (pattern, log)
}

/// What to ask for; also around the bounds.
fn random_asked(rng: &mut Rng, answers: usize) -> Asked {
    match rng.below(12) {
        0 => Asked::Picks(rng.pick(&[0, PICKS_MAX + 1, 65_537])),
        1..=3 => Asked::Picks(1 + rng.below(PICKS_MAX)),
        4 => Asked::Why(rng.pick(&[answers as u64, answers as u64 + 1, 1 << 32, u64::MAX - 1])),
        5..=9 => Asked::Why(rng.below(answers.max(1)) as u64),
        _ => Asked::All,
    }
}

fn main() {
    let program = std::env::args().nth(1).expect("usage: command PROGRAM");
    let mut rng = Rng(47);
    let rounds = 900;
    for round in 0..rounds {
        let (pattern, log) = random(&mut rng);
        let answers = shown::quick_outermost(&pattern, &log);
        let asked = random_asked(&mut rng, answers.as_ref().map_or(0, |root| root.list.len()));
        let due = match (answers, asked) {
            (Ok(_), Asked::Picks(k)) if !(1..=PICKS_MAX).contains(&k) => refused(Refusal { number: 10, place: 0 }, &pattern, &log, asked),
            (Ok(root), _) => found(&root, &reference::spelling(&pattern).expect("a pattern"), &log, asked),
            (Err(refusal), _) => refused(refusal, &pattern, &log, asked),
        };
        let given = printed(&program, &pattern, &log, asked).unwrap_or_else(|e| Printed(None, String::new(), e.to_string()));
        // A hint on carriage returns may follow the warning.
        let hinted = Printed(given.0, given.1.clone(), given.2.split(';').next().unwrap_or_default().into());
        if due != hinted {
            println!("command: DIFFERENCE in round {round}, pattern \"{}\", log of {} bytes, {asked:?}", pattern.escape_ascii(), log.len());
            println!("ended with {:?}, said {:?}, printed:\n{}", given.0, given.2, given.1);
            println!("should end with {:?}, say {:?}, print:\n{}", due.0, due.2, due.1);
            std::process::exit(1);
        }
    }
    println!("command: {rounds} compared with the reference, no difference");
}
