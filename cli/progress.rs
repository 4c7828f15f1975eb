//! A line on standard error, where that is a terminal, for what takes longer than half a second.

use std::io::{self, IsTerminal, Write};
use std::sync::atomic::{AtomicU64, Ordering::Relaxed};
use std::sync::mpsc::{channel, Receiver, RecvTimeoutError, Sender};
use std::sync::Arc;
use std::thread::{spawn, JoinHandle};
use std::time::Duration;

const FIRST: Duration = Duration::from_millis(500);
const NEXT: Duration = Duration::from_millis(200);
/// Clears the terminal's line.
const CLEAR: &str = "\r\x1b[K";

/// Shows how far something has come until it is dropped; then the line is gone.
pub struct Progress {
    done: Arc<AtomicU64>,
    shown: Option<(Sender<()>, JoinHandle<()>)>,
}

impl Progress {
    /// `words` says how far a number is.
    pub fn start(wanted: bool, words: impl Fn(u64) -> String + Send + 'static) -> Progress {
        let done = Arc::new(AtomicU64::new(0));
        let shown = (wanted && io::stderr().is_terminal()).then(|| {
            let (end, ended) = channel();
            let at = done.clone();
            (end, spawn(move || show(&ended, || words(at.load(Relaxed)))))
        });
        Progress { done, shown }
    }

    pub fn at(&self, number: u64) {
        self.done.store(number, Relaxed);
    }

    /// Prints a line on standard error, in the place of the one that shows how far.
    pub fn tell(&self, line: &str) {
        crate::tell(&if self.shown.is_some() { format!("{CLEAR}{line}") } else { line.into() });
    }
}

fn show(ended: &Receiver<()>, words: impl Fn() -> String) {
    let mut pause = FIRST;
    while ended.recv_timeout(pause) == Err(RecvTimeoutError::Timeout) {
        let _ = write!(io::stderr(), "{CLEAR}{}", words());
        pause = NEXT;
    }
    if pause == NEXT {
        let _ = write!(io::stderr(), "{CLEAR}");
    }
}

impl Drop for Progress {
    fn drop(&mut self) {
        if let Some((end, thread)) = self.shown.take() {
            drop(end);
            let _ = thread.join();
        }
    }
}
