//! A line on the terminal while a large picture takes its time.

use std::io::{self, IsTerminal, Write};
use std::time::{Duration, Instant};

pub struct Progress {
    name: String,
    of: usize,
    done: usize,
    next: Option<Instant>, // none where nobody watches
    shown: bool,
}

impl Progress {
    pub fn new(name: impl Into<String>, of: usize) -> Progress {
        let watched = io::stderr().is_terminal();
        Progress {
            name: name.into(),
            of,
            done: 0,
            next: watched.then(|| Instant::now() + Duration::from_secs(1)),
            shown: false,
        }
    }

    pub fn step(&mut self) {
        self.done += 1;
        if self.next.is_some_and(|next| Instant::now() >= next) {
            let _ = write!(
                io::stderr(),
                "\r{}: {} of {} ",
                self.name,
                self.done,
                self.of
            );
            self.next = Some(Instant::now() + Duration::from_millis(200));
            self.shown = true;
        }
    }
}

impl Drop for Progress {
    fn drop(&mut self) {
        if self.shown {
            let _ = write!(io::stderr(), "\r\x1b[K"); // the counts follow on standard output
        }
    }
}
