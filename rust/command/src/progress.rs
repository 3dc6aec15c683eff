//! How far a long trace has come, where standard error is a terminal.

use indicatif::{ProgressBar, ProgressDrawTarget, ProgressStyle};
use std::io::{self, Read};
use std::time::{Duration, Instant};

/// What is done sooner shows no progress.
const MOMENT: Duration = Duration::from_millis(300);

/// A trace as it is read, with a bar for it. Nothing is drawn where there is no terminal.
pub struct Watched<R> {
    source: R,
    bar: ProgressBar,
    begun: Instant,
}

impl<R> Watched<R> {
    /// The length, where it is known.
    pub fn new(source: R, length: Option<u64>) -> Watched<R> {
        let target = ProgressDrawTarget::hidden();
        let (bar, template) = match length {
            Some(length) => (
                ProgressBar::with_draw_target(Some(length), target),
                "{wide_bar} {bytes} of {total_bytes}, {bytes_per_sec}, {eta}",
            ),
            None => (
                ProgressBar::with_draw_target(None, target),
                "{spinner} {bytes}, {bytes_per_sec}",
            ),
        };
        let style = ProgressStyle::with_template(template);
        Watched {
            source,
            bar: bar.with_style(style.expect("a template of known words")),
            begun: Instant::now(),
        }
    }

    fn show(&self) {
        if self.bar.is_hidden() && self.begun.elapsed() > MOMENT {
            self.bar.set_draw_target(ProgressDrawTarget::stderr());
        }
    }
}

impl<R: Read> Read for Watched<R> {
    fn read(&mut self, bytes: &mut [u8]) -> io::Result<usize> {
        let read = self.source.read(bytes)?;
        self.show();
        self.bar.inc(read as u64);
        Ok(read)
    }
}

impl<R> Drop for Watched<R> {
    fn drop(&mut self) {
        self.bar.finish_and_clear();
    }
}
