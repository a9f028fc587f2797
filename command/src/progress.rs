//! A bar that says how far a recording is: on a terminal, and nowhere else.

use std::io::{self, IsTerminal, Write};
use std::time::{Duration, Instant};

const WIDTH: u64 = 40;
const PAUSE: Duration = Duration::from_millis(100);

pub struct Bar {
    /// When it was drawn last; none where there is no terminal.
    drawn: Option<Instant>,
    shown: bool,
    whole: u64,
}

impl Bar {
    /// For so many frames.
    pub fn new(whole: u32) -> Bar {
        let drawn = io::stderr().is_terminal().then(Instant::now);
        Bar { drawn, shown: false, whole: u64::from(whole).max(1) }
    }

    pub fn at(&mut self, frames: u64) {
        if self.drawn.is_none_or(|drawn| drawn.elapsed() < PAUSE) {
            return;
        }
        let part = frames.min(self.whole);
        let full = (part * WIDTH / self.whole) as usize;
        let bar: String = (0..WIDTH as usize).map(|place| if place < full { '#' } else { '.' }).collect();
        eprint!("\r[{bar}] {:3}%  {} s", part * 100 / self.whole, frames / 44_100);
        let _ = io::stderr().flush(); // a bar that cannot be drawn is no reason to stop
        (self.drawn, self.shown) = (Some(Instant::now()), true);
    }
}

impl Drop for Bar {
    fn drop(&mut self) {
        if self.shown {
            eprint!("\r\x1b[K");
        }
    }
}
