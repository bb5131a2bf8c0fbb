//! What the benches share: which rows are wanted, and how both sides of a row are timed.

use std::time::{Duration, Instant};

/// Whether the command line has a word of the row's name, or no word at all.
pub fn is_wanted(name: &str) -> bool {
    let mut words = std::env::args()
        .skip(1)
        .filter(|word| !word.starts_with('-'))
        .peekable();
    words.peek().is_none() || words.any(|word| name.contains(word.as_str()))
}

/// How a row is timed.
pub struct Timing {
    /// How many elements a pass has.
    pub length: usize,
    /// How many samples are taken of each side. The least counts.
    pub samples: u32,
    /// How long a sample takes at least.
    pub sample: Duration,
}

impl Timing {
    /// Nanoseconds an element of one sample.
    fn sample(&self, mut pass: impl FnMut()) -> f64 {
        let start = Instant::now();
        let mut passes = 0;
        loop {
            pass();
            passes += 1;
            let taken = start.elapsed();
            if taken >= self.sample {
                return taken.as_nanos() as f64 / (self.length * passes) as f64;
            }
        }
    }

    /// Nanoseconds an element of a call, and by hand: each the least of the samples, which are taken in turn.
    pub fn least(&self, mut by_hand: impl FnMut(), mut call: impl FnMut()) -> (f64, f64) {
        let (mut ours, mut theirs) = (f64::MAX, f64::MAX);
        for _ in 0..self.samples {
            theirs = theirs.min(self.sample(&mut by_hand));
            ours = ours.min(self.sample(&mut call));
        }
        (ours, theirs)
    }

    /// Prints nanoseconds an element of both sides, and the ratio.
    pub fn row(&self, name: &str, by_hand: impl FnMut(), call: impl FnMut()) {
        let (ours, theirs) = self.least(by_hand, call);
        println!("{name:44} {theirs:8.3} {ours:8.3} {:6.2}", ours / theirs);
    }
}
