//! How far a run is, for a person at a terminal who has waited for more than a second.

use crate::sys;
use std::io::{self, Write};
use std::time::{Duration, Instant};

const SECOND: Duration = Duration::from_secs(1);

pub struct Progress {
    start: String,
    size: Option<u64>,
    next: Option<Instant>,
    is_shown: bool,
}

impl Progress {
    /// For a run of so many bytes, where that is known. `start` is what the line begins with.
    pub fn new(start: String, size: Option<u64>, is_wanted: bool) -> Progress {
        let next = (is_wanted && sys::is_terminal(2)).then(|| Instant::now() + SECOND);
        Progress { start, size, next, is_shown: false }
    }

    pub fn none() -> Progress {
        Progress::new(String::new(), None, false)
    }

    /// So many bytes are done.
    pub fn at(&mut self, done: u64) {
        let now = Instant::now();
        if self.next.map_or(false, |next| now >= next) {
            self.next = Some(now + SECOND);
            self.is_shown = true;
            write(&format!("{}{}   \r", self.start, how_far(done, self.size)));
        }
    }
}

impl Drop for Progress {
    fn drop(&mut self) {
        if self.is_shown {
            write(&format!("{}\r", " ".repeat(self.start.len() + 24)));
        }
    }
}

fn write(text: &str) {
    let _ = io::stderr().write_all(text.as_bytes());
}

/// "41% of 60 MiB", or "25 MiB so far" where the size is not known, or was wrong.
fn how_far(done: u64, size: Option<u64>) -> String {
    match size {
        Some(size) if size >= done && size > 0 => {
            let percent = u128::from(done) * 100 / u128::from(size);
            format!("{percent}% of {} MiB", (size - 1) / 1_048_576 + 1)
        }
        _ => format!("{} MiB so far", done / 1_048_576),
    }
}

#[test]
fn it_says_how_far_it_is() {
    assert_eq!(how_far(25 << 20, None), "25 MiB so far");
    assert_eq!(how_far(41, Some(100)), "41% of 1 MiB");
    assert_eq!(how_far(3 << 20, Some(6 << 20)), "50% of 6 MiB");
    assert_eq!(how_far(2 << 20, Some(0)), "2 MiB so far");
    assert_eq!(how_far(u64::MAX, Some(u64::MAX)), "100% of 17592186044416 MiB");
}
