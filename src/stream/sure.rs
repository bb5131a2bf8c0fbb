// Made by `make package` of crates/fixed_stream/src/sure.rt, which is proved: changes go there.

//! A source in memory that never fails, and a sink in memory that fails only if memory runs out.

use crate::memory::Global;
use crate::memory::Vec;
use crate::stream::copy::copy_front;
use crate::stream::outside::{Failed, Refusal, Sink, Source};

/// A source in memory that never fails. It returns the bytes that it was created with.
pub struct SureSource {
    bytes: Vec<u8>,
    at: usize,
}

impl SureSource {
    /// Returns a source of these bytes.
    ///
    /// # Examples
    ///
    /// ```
    /// use zugyelmas::calc::{Sink, Source, SureSink, SureSource};
    /// use zugyelmas::memory::{Global, Vec};
    ///
    /// let bytes = Vec::from_slice(Global, b"abc").expect("memory");
    /// let mut source = SureSource::new(bytes);
    /// let mut buffer = [0; 8];
    /// assert_eq!(source.read(&mut buffer), Ok(3));
    /// assert_eq!(&buffer[..3], b"abc");
    /// ```
    ///
    /// # Proved
    ///
    /// ```text
    /// ensures { ⟦<SureSource as Source>⟧.state result
    ///     ≡ record { left = Some bytes.items; faults = 0 } }
    /// ```
    #[must_use]
    pub fn new(bytes: Vec<u8>) -> SureSource {
        SureSource { bytes, at: 0 }
    }
}

impl Source for SureSource {
    fn read(&mut self, buf: &mut [u8]) -> Result<usize, Failed> {
        let rest = &self.bytes[self.at..];
        let count = copy_front(rest, rest.len(), buf);
        self.at += count;
        Ok(count)
    }
}

/// A sink in memory that never returns `Refusal::Failed`. If it runs out of memory, its count of shortages rises.
pub struct SureSink {
    bytes: Vec<u8>,
    shortages: u64,
}

impl SureSink {
    /// Returns a sink that has taken no bytes.
    ///
    /// # Examples
    ///
    /// ```
    /// use zugyelmas::calc::{Sink, Source, SureSink, SureSource};
    /// use zugyelmas::memory::{Global, Vec};
    ///
    /// let sink = SureSink::new(Global);
    /// assert_eq!(sink.taken(), b"");
    /// ```
    ///
    /// # Proved
    ///
    /// ```text
    /// ensures { ⟦<SureSink as Sink>⟧.state result
    ///     ≡ record { taken = Some []; faults = 0; shortages = 0 } }
    /// ```
    #[must_use]
    pub fn new(alloc: Global) -> SureSink {
        SureSink {
            bytes: Vec::new(alloc),
            shortages: 0,
        }
    }

    /// Returns the bytes that the sink has taken.
    ///
    /// # Examples
    ///
    /// ```
    /// use zugyelmas::calc::{Sink, Source, SureSink, SureSource};
    /// use zugyelmas::memory::{Global, Vec};
    ///
    /// let mut sink = SureSink::new(Global);
    /// assert_eq!(sink.write(b"abc"), Ok(3));
    /// assert_eq!(sink.taken(), b"abc");
    /// ```
    ///
    /// # Proved
    ///
    /// ```text
    /// ensures { (⟦<SureSink as Sink>⟧.state self.now).taken ≡ Some result.now }
    /// ```
    #[must_use]
    pub fn taken(&self) -> &[u8] {
        &self.bytes
    }
}

impl Sink for SureSink {
    fn write(&mut self, bytes: &[u8]) -> Result<usize, Refusal> {
        match self.bytes.extend_from_slice(bytes) {
            Ok(()) => Ok(bytes.len()),
            Err(_) => {
                self.shortages = self.shortages.saturating_add(1);
                Err(Refusal::Memory)
            }
        }
    }
}
