//! Colour, on a terminal only.

use std::io::IsTerminal;

pub const BOLD: &str = "1";
pub const RED: &str = "31";
pub const YELLOW: &str = "33";
pub const CYAN: &str = "36";

#[derive(Clone, Copy)]
pub struct Paint {
    on: bool,
}

impl Paint {
    pub fn for_stream(stream: &impl IsTerminal) -> Paint {
        let set = |name: &str| std::env::var_os(name).filter(|value| !value.is_empty());
        let able = set("TERM").is_some_and(|term| term != "dumb");
        Paint { on: stream.is_terminal() && able && set("NO_COLOR").is_none() }
    }

    pub fn paint(self, colour: &str, text: &str) -> String {
        if self.on && !text.is_empty() {
            format!("\x1b[{colour}m{text}\x1b[0m")
        } else {
            text.into()
        }
    }
}
