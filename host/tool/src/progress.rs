//! A bar on standard error for what takes over a second, where a person watches.

use indicatif::{ProgressBar, ProgressStyle};
use std::io::{self, IsTerminal};
use std::sync::{Mutex, PoisonError};
use std::time::{Duration, Instant};

/// Nothing is shown before this has passed.
const PATIENCE: Duration = Duration::from_secs(1);

/// The clock is read, and the bar moved, once in so many frames.
const STRIDE: u32 = 65_536;

/// The one bar on the screen.
static BAR: Mutex<Option<ProgressBar>> = Mutex::new(None);

/// Does something with the bar.
fn with_bar<T>(work: impl FnOnce(&mut Option<ProgressBar>) -> T) -> T {
    work(&mut BAR.lock().unwrap_or_else(PoisonError::into_inner))
}

/// Does something, such as writing to the screen, without the bar in its way.
pub fn hidden<T>(work: impl FnOnce() -> T) -> T {
    with_bar(|bar| match bar {
        Some(bar) => bar.suspend(work),
        None => work(),
    })
}

/// How far a stream has been read.
pub struct Progress {
    length: Option<u64>,
    begun: Instant,
    frames: u32,
    bytes: u64,
    /// Whether the bar is this one's.
    shown: bool,
}

impl Progress {
    /// For a stream of so many bytes, if that is known.
    pub fn new(length: Option<u64>) -> Progress {
        Progress {
            length,
            begun: Instant::now(),
            frames: 0,
            bytes: 0,
            shown: false,
        }
    }

    /// One more frame, of so many bytes.
    pub fn advance(&mut self, bytes: usize) {
        self.bytes += bytes as u64;
        self.frames += 1;
        if self.frames == STRIDE {
            self.frames = 0;
            with_bar(|bar| self.show(bar));
        }
    }

    fn show(&mut self, bar: &mut Option<ProgressBar>) {
        let late = self.begun.elapsed() > PATIENCE;
        if bar.is_none() && late && io::stderr().is_terminal() {
            *bar = Some(new_bar(self.length));
            self.shown = true;
        }
        if let Some(bar) = bar.as_ref().filter(|_| self.shown) {
            bar.set_position(self.bytes);
        }
    }
}

impl Drop for Progress {
    fn drop(&mut self) {
        if self.shown {
            if let Some(bar) = with_bar(Option::take) {
                bar.finish_and_clear();
            }
        }
    }
}

/// A bar of a known length, or a count.
fn new_bar(length: Option<u64>) -> ProgressBar {
    let (bar, template) = match length {
        Some(length) => (
            ProgressBar::new(length),
            "{bar:40} {percent:>3} %  {bytes} of {total_bytes} of frames, {eta} to go",
        ),
        None => (ProgressBar::new_spinner(), "{bytes} of frames in {elapsed}"),
    };
    match ProgressStyle::with_template(template) {
        Ok(style) => bar.with_style(style),
        Err(_) => bar,
    }
}
