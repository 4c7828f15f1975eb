//! Runs of a program with its input through a pipe.

use std::io::Write;
use std::process::{Command, Output, Stdio};

/// What a program prints, and its status.
pub fn output(command: &mut Command, input: &[u8]) -> std::io::Result<Output> {
    let mut child = command.stdin(Stdio::piped()).stdout(Stdio::piped()).stderr(Stdio::piped()).spawn()?;
    let mut pipe = child.stdin.take().unwrap();
    std::thread::scope(|scope| {
        // A program that refuses early need not read on: a broken pipe is no fault.
        scope.spawn(move || drop(pipe.write_all(input)));
        child.wait_with_output()
    })
}
