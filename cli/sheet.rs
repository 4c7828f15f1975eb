//! The printed sheet, as the proved program prints it.

use crate::text::{name, words};
use std::io::{self, Write};
use std::path::PathBuf;
use std::process::{Command, Stdio};

/// The program: the one that the launcher names, or else where `install` puts it, seen from this command.
fn program() -> io::Result<PathBuf> {
    if let Some(named) = std::env::var_os("FIND_STRETCHES_SHEET").filter(|path| !path.is_empty()) {
        return Ok(named.into());
    }
    let own = std::env::current_exe()?;
    let prefix = own.ancestors().nth(2).ok_or(io::ErrorKind::NotFound)?;
    Ok(prefix.join("libexec/bugrolm/find"))
}

/// The program's sheet of a pattern without line feed and a log, and what it says.
pub fn print(pattern: &[u8], log: &[u8]) -> Result<(Vec<u8>, Said), String> {
    let program = program().map_err(|error| words(&error))?;
    let failed = |error: io::Error| format!("{}: {}", name(program.as_os_str()), words(&error));
    let mut child = Command::new(&program).stdin(Stdio::piped()).stdout(Stdio::piped()).spawn().map_err(failed)?;
    let mut pipe = child.stdin.take().expect("a pipe");
    let input = [pattern, b"\n", log].concat();
    let (handed, output) = std::thread::scope(|scope| {
        let handing = scope.spawn(move || pipe.write_all(&input));
        let output = child.wait_with_output();
        (handing.join().expect("no panic"), output)
    });
    handed.map_err(failed)?;
    let output = output.map_err(failed)?;
    if !output.status.success() {
        return Err(failed(io::Error::other(output.status.to_string())));
    }
    let said = read(&output.stdout).ok_or_else(|| format!("{} printed no whole sheet", name(program.as_os_str())))?;
    Ok((output.stdout, said))
}

/// What a sheet says.
pub enum Said {
    Refused,
    Found(usize),
}

/// None for a sheet that is cut or is none.
fn read(sheet: &[u8]) -> Option<Said> {
    let mut lines = std::str::from_utf8(sheet).ok()?.strip_suffix('\n')?.split('\n');
    let (kind, first) = lines.next()?.split_once(',')?;
    let rows = lines.map(numbers).collect::<Option<Vec<_>>>()?;
    match (kind, &numbers(first)?[..]) {
        ("R", [_, _]) if rows.is_empty() => Some(Said::Refused),
        ("F", &[_, _, answers]) if rows.len() == answers && rows.iter().all(|row| row.len() == 2) => Some(Said::Found(answers)),
        _ => None,
    }
}

/// The numbers of a line, parted by commas.
fn numbers(line: &str) -> Option<Vec<usize>> {
    line.split(',').map(|number| number.parse().ok()).collect()
}
