//! A line on the terminal that says what is going on, once it has gone on for a second.

use std::io::{IsTerminal, Write};
use std::sync::atomic::{AtomicUsize, Ordering};
use std::sync::mpsc::{channel, RecvTimeoutError, Sender};
use std::sync::Arc;
use std::thread::JoinHandle;
use std::time::{Duration, Instant};

/// Shows its line until it is dropped; then the line is gone.
pub struct Progress {
    done: Arc<AtomicUsize>,
    thread: Option<(Sender<()>, JoinHandle<()>)>,
}

/// What the line says, and when it is drawn.
struct Line {
    what: String,
    /// How many things are to be done, if they are counted.
    of: Option<usize>,
    first: Duration,
    again: Duration,
}

impl Progress {
    /// Nothing is shown where standard error is no terminal.
    pub fn start(what: String, of: Option<usize>) -> Progress {
        if !std::io::stderr().is_terminal() {
            return Progress { done: Arc::default(), thread: None };
        }
        let line = Line { what, of, first: Duration::from_secs(1), again: Duration::from_millis(200) };
        Progress::start_on(std::io::stderr(), line)
    }

    fn start_on(mut output: impl Write + Send + 'static, line: Line) -> Progress {
        let done = Arc::new(AtomicUsize::new(0));
        let (sender, stopped) = channel();
        let counted = done.clone();
        let thread = std::thread::spawn(move || {
            let begun = Instant::now();
            let mut wait = line.first;
            while stopped.recv_timeout(wait) == Err(RecvTimeoutError::Timeout) {
                let drawn = line.drawn(counted.load(Ordering::Relaxed), begun.elapsed());
                // A terminal that takes no line is no reason to stop.
                let _ = write!(output, "\r{drawn}\x1b[K").and_then(|()| output.flush());
                wait = line.again;
            }
            if wait == line.again {
                let _ = write!(output, "\r\x1b[K").and_then(|()| output.flush());
            }
        });
        Progress { done, thread: Some((sender, thread)) }
    }

    /// One more thing is done.
    pub fn advance(&self) {
        self.done.fetch_add(1, Ordering::Relaxed);
    }
}

impl Line {
    fn drawn(&self, done: usize, taken: Duration) -> String {
        let seconds = taken.as_secs();
        match self.of {
            Some(of) => format!("{}: {done} of {of}, {seconds} s", self.what),
            None => format!("{}: {seconds} s", self.what),
        }
    }
}

impl Drop for Progress {
    fn drop(&mut self) {
        if let Some((sender, thread)) = self.thread.take() {
            drop(sender);
            let _ = thread.join();
        }
    }
}

#[cfg(test)]
mod tests {
    use super::*;
    use std::sync::Mutex;

    #[derive(Clone, Default)]
    struct Terminal(Arc<Mutex<Vec<u8>>>);

    impl Write for Terminal {
        fn write(&mut self, bytes: &[u8]) -> std::io::Result<usize> {
            self.0.lock().expect("no writer panics").write(bytes)
        }

        fn flush(&mut self) -> std::io::Result<()> {
            Ok(())
        }
    }

    fn shown(first: Duration, work: Duration) -> String {
        let terminal = Terminal::default();
        let line = Line { what: "asking".to_string(), of: Some(9), first, again: Duration::from_millis(1) };
        let progress = Progress::start_on(terminal.clone(), line);
        progress.advance();
        std::thread::sleep(work);
        drop(progress);
        let bytes = terminal.0.lock().expect("no writer panics").clone();
        String::from_utf8(bytes).expect("the line is text")
    }

    #[test]
    fn short_work_shows_nothing() {
        assert_eq!(shown(Duration::from_secs(600), Duration::ZERO), "");
    }

    #[test]
    fn long_work_shows_a_line_and_takes_it_away() {
        let text = shown(Duration::from_millis(1), Duration::from_millis(500));
        assert!(text.starts_with("\rasking: 1 of 9, 0 s\x1b[K"), "{text:?}");
        assert!(text.ends_with("\r\x1b[K"), "{text:?}");
    }
}
