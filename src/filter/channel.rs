// Made by `make package` of crates/fixed_filter/src/channel.rt, which is proved: changes go there.

//! One channel of a bank.

use crate::filter::accumulation::{output_of, wrapped_sum_of_past};
use crate::filter::headroom::{places_with_room, weight};
use crate::filter::reply::Reply;
use crate::filter::samples::put_in_front;
use crate::filter::shape::Shape;
use crate::memory::Vec;
use crate::memory::{AllocError, Global};
use crate::word::{RawWord, Word};

/// Taps, of which there is at least one, and as many past samples, the newest first. The magnitudes of the taps add up
/// to `weight`, and no past sample has a magnitude above `peak`.
pub(crate) struct Channel<T: RawWord> {
    taps: Vec<T>,
    past: Vec<T>,
    weight: u128,
    peak: u64,
}

impl<T: RawWord> Channel<T> {
    /// Returns the channel with these taps and a past sample of 0 for each. Fails if memory runs out. Precondition:
    /// there is a tap.
    pub(crate) fn new(alloc: Global, taps: &[T]) -> Result<Self, AllocError> {
        let mut past = Vec::new(alloc);
        past.resize(taps.len(), T::ZERO)?;
        let weight = weight(taps);
        let taps = Vec::from_slice(alloc, taps)?;
        Ok(Channel {
            taps,
            past,
            weight,
            peak: 0,
        })
    }

    /// Returns the taps.
    pub(crate) fn taps(&self) -> &[T] {
        &self.taps
    }

    /// Returns the past samples, as many as there are taps.
    pub(crate) fn past(&self) -> &[T] {
        &self.past
    }
}

impl<T: Word> Channel<T> {
    /// Takes a sample and returns the reply to it. Precondition: each number of fraction bits is at most the width.
    pub(crate) fn push(&mut self, sample: T, shape: &Shape) -> Reply<T> {
        put_in_front(sample, &mut self.past);
        self.peak = self.peak.max(sample.magnitude());
        self.output(shape)
    }

    /// Returns the output after the past samples. Where the taps leave room for samples up to the peak, no partial sum is
    /// tested. Precondition: each number of fraction bits is at most the width.
    fn output(&self, shape: &Shape) -> Reply<T> {
        match places_with_room::<T>(shape, self.weight, self.peak, self.taps.len()) {
            Some(down) => Reply::Value(wrapped_sum_of_past(down, &self.taps, &self.past)),
            None => output_of(shape, &self.taps, &self.past),
        }
    }
}
