//! How far the work is, on a terminal.

use std::io::{IsTerminal, Write};
use std::sync::atomic::{AtomicBool, Ordering};
use std::time::{Duration, Instant};

use crate::text::{amount, duration};

const BETWEEN: Duration = Duration::from_millis(200);

/// Whether the line stands on the terminal, where other output would run
/// into it. There is one terminal for all that prints.
static STANDING: AtomicBool = AtomicBool::new(false);

/// Clears the line, if it stands, for what is printed next.
pub fn clear() {
    if STANDING.swap(false, Ordering::Relaxed) {
        let _ = write!(std::io::stderr(), "\r\x1b[K");
    }
}

/// A line on standard error that is kept up to date; nothing at all if that
/// is no terminal.
#[derive(Debug)]
pub struct Progress {
    what: &'static str,
    shown: bool,
    started: Instant,
    latest: Option<Instant>,
}

impl Progress {
    /// Progress of something.
    pub fn new(what: &'static str, quiet: bool) -> Progress {
        Progress {
            what,
            shown: !quiet && std::io::stderr().is_terminal(),
            started: Instant::now(),
            latest: None,
        }
    }

    /// Tells how many bytes are done, and how many parts of how many in all
    /// if that is known.
    pub fn update(&mut self, bytes: u64, parts: u64, of: Option<u64>) {
        let now = Instant::now();
        let recent = self.latest.is_some_and(|latest| now - latest < BETWEEN);
        if !self.shown || recent {
            return;
        }
        self.latest = Some(now);
        let line = line(self.what, now - self.started, bytes, parts, of);
        let mut output = std::io::stderr().lock();
        // A terminal that went away is no reason to stop.
        let _ = write!(output, "\r{line}\x1b[K");
        let _ = output.flush();
        STANDING.store(true, Ordering::Relaxed);
    }
}

impl Drop for Progress {
    fn drop(&mut self) {
        clear();
    }
}

fn line(what: &str, elapsed: Duration, bytes: u64, parts: u64, of: Option<u64>) -> String {
    let seconds = elapsed.as_secs_f64().max(0.001);
    #[allow(clippy::cast_precision_loss)]
    let per_second = bytes as f64 / seconds;
    #[allow(clippy::cast_possible_truncation, clippy::cast_sign_loss)]
    let rate = amount(per_second as u64);
    let mut line = format!("{what} {}, {rate}/s", amount(bytes));
    if let Some(of) = of.filter(|of| *of > 0) {
        let parts = parts.min(of);
        let percent = u128::from(parts) * 100 / u128::from(of);
        line.push_str(&format!(", {percent}%"));
        if parts > 0 {
            #[allow(clippy::cast_precision_loss)]
            let left = seconds * (of - parts) as f64 / parts as f64;
            #[allow(clippy::cast_possible_truncation, clippy::cast_sign_loss)]
            let left = duration(left.ceil() as u64);
            line.push_str(&format!(", {left} left"));
        }
    }
    line
}

#[cfg(test)]
mod tests {
    use super::*;

    #[test]
    fn lines() {
        let ten = Duration::from_secs(10);
        assert_eq!(
            line("recording", ten, 50_000_000, 50, Some(100)),
            "recording 50.0 MB, 5.0 MB/s, 50%, 0:10 left"
        );
        assert_eq!(
            line("reading", ten, 20_000, 0, None),
            "reading 20.0 kB, 2.0 kB/s"
        );
        assert_eq!(
            line("reading", ten, 0, 200, Some(100)),
            "reading 0 bytes, 0 bytes/s, 100%, 0:00 left"
        );
    }
}
