//! Compares the printed sheet of a program with the reference's, byte for byte: `sheet PROGRAM`, each input through standard input.

mod inputs;
mod piped;
mod quick;
mod reference;
mod spell_inputs;

use inputs::Rng;
use reference::{LOG_MAX, PATTERN_MAX};
use std::process::Command;

/// What the program prints for an input.
fn printed(program: &str, input: &[u8]) -> std::io::Result<Vec<u8>> {
    let output = piped::output(&mut Command::new(program), input)?;
    if !output.status.success() {
        return Err(std::io::Error::other(format!("ended with {}", output.status)));
    }
    Ok(output.stdout)
}

/// The example of docs/FORMATS.md, and inputs whose sheet follows from the rules at once.
fn known() -> Vec<(Vec<u8>, &'static str)> {
    let log = |bytes: usize| "\n".repeat(bytes);
    let example = "then,2,ev,7,0,ev,9,0\n1,4,7,3,6\n2,4,12,20,3,0\noops\n1,4,9,0,0\n1,5,9,0,0\n";
    let over = |bytes: usize| "x".repeat(70_000) + "\n" + &log(bytes);
    vec![
        (example.into(), "F,5,1,1\n0,3\n"),
        (example.trim_end().into(), "F,5,2,1\n0,3\n"),
        ("".into(), "R,3,0\n"),
        ("\n".into(), "R,3,0\n"),
        ("ev,1,0".into(), "F,0,0,0\n"),
        ("ev,1,0\n".into(), "F,0,0,0\n"),
        ("ev,1,0\n\n".into(), "F,1,1,0\n"),
        ("ev,1,0\n1,4,1,0,0".into(), "F,1,1,0\n"),
        ("ev,1,0\n1,4,1,0,0\n".into(), "F,1,0,1\n0,0\n"),
        ("ev,1,4\n1,04,1,0,0\n2,4,1,0,0,0\n2,04,1,0,0,0\n".into(), "F,3,0,3\n0,0\n1,1\n2,2\n"),
        ("ev,1,0\n1,00,1,0,0\n2,012,1,0,0,0\n1,4,01,0,0\n".into(), "F,3,3,0\n"),
        ("ev,1,04\n1,04,1,0,0\n".into(), "R,3,6\n"),
        ("max,2,then,2,ev,7,0,ev,9,0\n1,4,7,3,6\noops\n\n1,4,9,0,0\n".into(), "F,4,2,1\n0,3\n"),
        ("max,1,then,2,ev,7,0,ev,9,0\n1,4,7,3,6\noops\n\n1,4,9,0,0\n".into(), "F,4,2,0\n"),
        ("max,2,row,2,ev,7,0,ev,9,0\n1,4,7,3,6\noops\n1,4,9,0,0\n".into(), "F,3,1,0\n"),
        ("ev,1,0\r\n1,4,1,0,0\n".into(), "R,3,6\n"),
        ("ev,256,0".into(), "R,3,5\n"),
        (over(LOG_MAX + 1).into(), "R,1,0\n"),
        (over(LOG_MAX).into(), "R,2,0\n"),
        (over(0).into(), "R,2,0\n"),
        ("x".repeat(70_000).into(), "R,2,0\n"),
        ("x".repeat(PATTERN_MAX).into(), "R,3,0\n"),
        ("x".repeat(PATTERN_MAX + 1).into(), "R,2,0\n"),
        (("ev,1,0\n".to_string() + &log(LOG_MAX)).into(), "F,61440,61440,0\n"),
        (("ev,1,0\n".to_string() + &log(LOG_MAX + 1)).into(), "R,1,0\n"),
        (("misspelt\n".to_string() + &log(LOG_MAX + 1)).into(), "R,1,0\n"),
        (("misspelt\n".to_string() + &log(1_000_000)).into(), "R,1,0\n"),
        (("max,9,".repeat(8) + "ev,1,0\n").into(), "R,5,0\n"),
        ((format!("or,31{}\n", ",ev,1,0".repeat(31)).replacen("ev,1,0", "max,1,ev,1,0", 1)).into(), "R,4,0\n"),
    ]
}

/// A pattern with `max`, and a log with spells of damaged lines.
fn spells(rng: &mut Rng) -> Vec<u8> {
    let lines = rng.below(14);
    let log = spell_inputs::spelled(rng, lines, LOG_MAX);
    [spell_inputs::with_max(rng, &log).spell().as_bytes(), b"\n", &log].concat()
}

/// Pattern and log of random sizes, also around the bounds.
fn random(rng: &mut Rng) -> Vec<u8> {
    if rng.once_in(4) {
        return spells(rng);
    }
    let mut input = if rng.once_in(3) { inputs::pattern(rng) } else { inputs::tree(rng, 20, 7).spell().into_bytes() };
    if rng.once_in(30) {
        input.resize(rng.pick(&[PATTERN_MAX, PATTERN_MAX + 1, 4_096, 65_536, 100_000]), b',');
    }
    if !rng.once_in(20) {
        let lines = if rng.once_in(10) { 4_500 } else { rng.below(40) };
        let mut log = inputs::log(rng, lines, 9);
        if rng.once_in(12) {
            log.resize(rng.pick(&[LOG_MAX - 1, LOG_MAX, LOG_MAX + 1, 65_536, 65_537, 300_000]), b'\n');
        }
        input.push(b'\n');
        input.extend(log);
    }
    input
}

fn samples() -> Vec<Vec<u8>> {
    let log = std::fs::read("samples/evening.log").expect("samples/evening.log");
    let patterns = std::fs::read_to_string("samples/patterns.txt").expect("samples/patterns.txt");
    let patterns = patterns.lines().filter(|line| !line.is_empty() && !line.starts_with('#'));
    patterns.map(|pattern| [pattern.as_bytes(), b"\n", &log].concat()).collect()
}

fn main() {
    let program = std::env::args().nth(1).expect("usage: sheet PROGRAM");
    let mut failed = 0;
    let mut compare = |input: &[u8], due: &[u8]| {
        let given = printed(&program, input).unwrap_or_else(|e| format!("({e})").into_bytes());
        if given != due {
            let short = |text: &[u8]| format!("{} bytes \"{}\"", text.len(), text[..text.len().min(300)].escape_ascii());
            println!("sheet: DIFFERENCE: printed {}, should print {}\n  input {}", short(&given), short(due), short(input));
            failed += 1;
        }
    };
    let due = |input: &[u8]| reference::sheet(input, quick::answers);
    let mut count = 0;
    for (input, sheet) in known() {
        assert_eq!(due(&input).escape_ascii().to_string(), sheet.as_bytes().escape_ascii().to_string(), "the reference's own sheet");
        compare(&input, sheet.as_bytes());
        count += 1;
    }
    let mut rng = Rng(31);
    for input in samples().into_iter().chain((0..1_000).map(|_| random(&mut rng))) {
        compare(&input, &due(&input));
        count += 1;
    }
    println!("sheet: {count} compared, {failed} differ");
    std::process::exit(i32::from(failed > 0));
}
