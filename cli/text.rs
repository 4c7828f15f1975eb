//! Numbers and bytes in words that are safe to print.

use std::ffi::OsStr;
use std::io;
use std::os::unix::ffi::OsStrExt;

/// A number with its thousands parted by commas.
pub fn grouped(number: u64) -> String {
    let digits = number.to_string();
    let mut text = String::new();
    for (i, digit) in digits.chars().enumerate() {
        if i > 0 && (digits.len() - i) % 3 == 0 {
            text.push(',');
        }
        text.push(digit);
    }
    text
}

/// A number of things, the word for one or for several after it.
pub fn of(number: usize, one: &str, several: &str) -> String {
    format!("{} {}", grouped(number as u64), if number == 1 { one } else { several })
}

pub fn lines(number: usize) -> String {
    of(number, "line", "lines")
}

pub fn stretches(number: usize) -> String {
    of(number, "stretch", "stretches")
}

/// A byte as it is shown: itself if it is printable ASCII, else \xHH; a backslash is doubled, so that no text looks like an escape.
pub fn shown(byte: u8) -> String {
    match byte {
        b'\\' => "\\\\".into(),
        b' '..=b'~' => char::from(byte).into(),
        _ => format!("\\x{byte:02x}"),
    }
}

pub fn safe(bytes: &[u8]) -> String {
    bytes.iter().map(|&byte| shown(byte)).collect()
}

/// Text that people wrote, as titles and file names: as `safe`, but printable characters of any script stay.
pub fn prose(bytes: &[u8]) -> String {
    let mut text = String::new();
    for chunk in bytes.utf8_chunks() {
        for c in chunk.valid().chars() {
            if !c.is_ascii() && c.escape_debug().count() == 1 {
                text.push(c);
            } else {
                text += &safe(c.encode_utf8(&mut [0; 4]).as_bytes());
            }
        }
        text += &safe(chunk.invalid());
    }
    text
}

pub fn name(file: &OsStr) -> String {
    prose(file.as_bytes())
}

/// The system's words for an error, without its number.
pub fn words(error: &io::Error) -> String {
    let text = error.to_string();
    match text.find(" (os error ") {
        Some(end) => text[..end].into(),
        None => text,
    }
}

/// The columns that a pointed pattern takes at most, its cut ends aside.
const WIDTH: usize = 72;
/// Of them at most this many before the place.
const BEFORE: usize = 52;

/// A pattern, and below it a caret under the place; of a long pattern the part about the place, cut ends shown as three dots.
pub fn pointed(pattern: &[u8], place: usize) -> (String, String) {
    let (before, after) = pattern.split_at(place.min(pattern.len()));
    let kept = fitting(before.iter().rev(), BEFORE);
    let start = safe(&before[before.len() - kept..]);
    let rest = fitting(after.iter(), WIDTH - start.len());
    let dots = |cut: bool| if cut { "..." } else { "" };
    let front = format!("{}{start}", dots(kept < before.len()));
    let caret = format!("{}^", " ".repeat(front.len()));
    (format!("{front}{}{}", safe(&after[..rest]), dots(rest < after.len())), caret)
}

/// How many of the bytes, from the first on, fit into so many columns.
fn fitting<'a>(bytes: impl Iterator<Item = &'a u8>, columns: usize) -> usize {
    let ends = bytes.scan(0, |width, &byte| {
        *width += shown(byte).len();
        Some(*width)
    });
    ends.take_while(|&end| end <= columns).count()
}
