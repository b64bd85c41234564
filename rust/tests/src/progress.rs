//! How far long work is: one line on a terminal, written anew in its place. In a pipe or a file there is nothing of it.

use std::io::{IsTerminal, Stderr, Write};
use std::time::{Duration, Instant};

/// A longer line would be broken by the terminal, and only its last part be written anew.
const WIDTH: usize = 79;

/// To the start of the line, and what stands there is gone.
const CLEAR: &str = "\r\x1b[K";

/// The line; it is cleared at the latest when this is dropped.
pub struct Progress<Out: Write = Stderr> {
    out: Option<Out>,
    shown: Option<Instant>,
}

impl Progress {
    /// On standard error, if that is a terminal.
    pub fn on_terminal() -> Progress {
        let errors = std::io::stderr();
        Progress::on(errors.is_terminal().then_some(errors))
    }
}

impl<Out: Write> Progress<Out> {
    fn on(out: Option<Out>) -> Progress<Out> {
        Progress { out, shown: None }
    }

    /// Writes the line.
    pub fn show(&mut self, line: &str) {
        let cut: String = line.chars().take(WIDTH).collect();
        self.write(&format!("{CLEAR}{cut}"));
        self.shown = Some(Instant::now());
    }

    /// Writes the line if the last one is a second old.
    pub fn each_second(&mut self, line: impl FnOnce() -> String) {
        let recent = |shown: Instant| shown.elapsed() < Duration::from_secs(1);
        if self.out.is_some() && !self.shown.is_some_and(recent) {
            self.show(&line());
        }
    }

    /// Clears the line: something else is to be printed.
    pub fn clear(&mut self) {
        if self.shown.take().is_some() {
            self.write(CLEAR);
        }
    }

    /// A line that cannot be written is no reason to end the work.
    fn write(&mut self, text: &str) {
        if let Some(out) = &mut self.out {
            let _ = out.write_all(text.as_bytes()).and_then(|()| out.flush());
        }
    }
}

impl<Out: Write> Drop for Progress<Out> {
    fn drop(&mut self) {
        self.clear();
    }
}

#[cfg(test)]
mod tests {
    use super::*;

    /// What is written to a terminal.
    fn written(work: impl FnOnce(&mut Progress<&mut Vec<u8>>)) -> String {
        let mut out = Vec::new();
        work(&mut Progress::on(Some(&mut out)));
        String::from_utf8(out).unwrap()
    }

    #[test]
    fn each_line_in_the_place_of_the_last() {
        let text = written(|progress| {
            progress.show("one");
            progress.show("two");
        });
        assert_eq!(text, "\r\x1b[Kone\r\x1b[Ktwo\r\x1b[K");
    }

    #[test]
    fn at_most_once_a_second() {
        let text = written(|progress| {
            progress.each_second(|| "one".to_string());
            progress.each_second(|| "too early".to_string());
            progress.shown = Instant::now().checked_sub(Duration::from_secs(1));
            progress.each_second(|| "two".to_string());
        });
        assert_eq!(text, "\r\x1b[Kone\r\x1b[Ktwo\r\x1b[K");
    }

    #[test]
    fn cleared_once() {
        let text = written(|progress| {
            progress.show("one");
            progress.clear();
            progress.clear();
        });
        assert_eq!(text, "\r\x1b[Kone\r\x1b[K");
        assert_eq!(written(|_| ()), "");
    }

    #[test]
    fn no_line_is_broken() {
        let text = written(|progress| progress.show(&"µ".repeat(200)));
        assert_eq!(text, format!("\r\x1b[K{}\r\x1b[K", "µ".repeat(79)));
    }

    #[test]
    fn nothing_where_there_is_no_terminal() {
        let mut progress: Progress<Vec<u8>> = Progress::on(None);
        progress.show("one");
        progress.each_second(|| panic!("the line is not even asked for"));
        progress.clear();
    }
}
