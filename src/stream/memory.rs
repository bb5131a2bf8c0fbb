// Made by `make package` of crates/fixed_stream/src/memory.rt, which is proved: changes go there.

//! A source and a sink in memory that may fail, for tests of how a caller handles failing calls.
//!
//! Calls are numbered from 1. A call fails if its number is listed, and then increments the count of faults. The number
//! of calls and the count of faults saturate at `u64::MAX`. Other calls move as many bytes as they can, at most `most`,
//! unless a write runs out of memory.

use crate::memory::Global;
use crate::memory::Vec;
use crate::stream::copy::copy_front;
use crate::stream::outside::{Failed, Refusal, Sink, Source};

/// A source in memory that may fail. It returns the bytes that it was created with.
pub struct MemorySource {
    bytes: Vec<u8>,
    at: usize,
    most: usize,
    failing: Vec<u64>,
    calls: u64,
    faults: u64,
}

impl MemorySource {
    /// Returns a source of these bytes. Each read returns at most `most` of them, and fails if its number is listed in
    /// `failing`. Precondition: `most` is at least 1.
    ///
    /// # Examples
    ///
    /// ```
    /// use zugyelmas::calc::{MemorySource, Source};
    /// use zugyelmas::memory::{Global, Vec};
    /// let bytes = Vec::from_slice(Global, b"abc").expect("memory");
    ///
    /// let mut source = MemorySource::new(bytes, 2, Vec::new(Global));
    /// let mut buffer = [0; 8];
    /// assert_eq!(source.read(&mut buffer), Ok(2)); // at most 2 bytes a call
    /// assert_eq!(&buffer[..2], b"ab");
    /// ```
    ///
    /// ```should_panic
    /// # use zugyelmas::calc::{MemorySource, Source};
    /// # use zugyelmas::memory::{Global, Vec};
    /// # let bytes = Vec::from_slice(Global, b"abc").expect("memory");
    /// # std::panic::set_hook(Box::new(|_| {}));
    /// MemorySource::new(bytes, 0, Vec::new(Global)); // a call gives at least 1 byte
    /// ```
    ///
    /// # Panics
    ///
    /// Panics unless a call reads or writes at least 1 byte.
    ///
    /// # Proved
    ///
    /// ```text
    /// requires { 1 ≤ most }
    /// ensures { result ≡ record { left = bytes.items; most = most; failing = failing.items; calls = 0; faults = 0 } }
    /// ```
    #[track_caller]
    #[must_use]
    pub fn new(bytes: Vec<u8>, most: usize, failing: Vec<u64>) -> MemorySource {
        assert!(
            most >= 1,
            "precondition: a call reads or writes at least 1 byte"
        );
        MemorySource {
            bytes,
            at: 0,
            most,
            failing,
            calls: 0,
            faults: 0,
        }
    }
}

impl Source for MemorySource {
    fn read(&mut self, buf: &mut [u8]) -> Result<usize, Failed> {
        self.calls = self.calls.saturating_add(1);
        if self.failing.contains(&self.calls) {
            self.faults = self.faults.saturating_add(1);
            return Err(Failed);
        }
        let count = copy_front(&self.bytes[self.at..], self.most, buf);
        self.at += count;
        Ok(count)
    }
}

/// A sink in memory that may fail, or run out of memory.
pub struct MemorySink {
    bytes: Vec<u8>,
    most: usize,
    failing: Vec<u64>,
    calls: u64,
    faults: u64,
    shortages: u64,
}

impl MemorySink {
    /// Returns a sink that has taken no bytes. Each write takes at most `most` bytes, and fails if its number is listed
    /// in `failing`. Precondition: `most` is at least 1.
    ///
    /// # Examples
    ///
    /// ```
    /// use zugyelmas::calc::{MemorySink, Sink};
    /// use zugyelmas::memory::{Global, Vec};
    ///
    /// let mut sink = MemorySink::new(Global, 2, Vec::new(Global));
    /// assert_eq!(sink.write(b"abc"), Ok(2)); // at most 2 bytes a call
    /// assert_eq!(sink.taken(), b"ab");
    /// ```
    ///
    /// ```should_panic
    /// # use zugyelmas::calc::{MemorySink, Sink};
    /// # use zugyelmas::memory::{Global, Vec};
    /// # std::panic::set_hook(Box::new(|_| {}));
    /// MemorySink::new(Global, 0, Vec::new(Global)); // a call takes at least 1 byte
    /// ```
    ///
    /// # Panics
    ///
    /// Panics unless a call reads or writes at least 1 byte.
    ///
    /// # Proved
    ///
    /// ```text
    /// requires { 1 ≤ most }
    /// ensures { result ≡ record { taken = []; most = most; failing = failing.items; calls = 0; faults = 0; shortages = 0 } }
    /// ```
    #[track_caller]
    #[must_use]
    pub fn new(alloc: Global, most: usize, failing: Vec<u64>) -> MemorySink {
        assert!(
            most >= 1,
            "precondition: a call reads or writes at least 1 byte"
        );
        MemorySink {
            bytes: Vec::new(alloc),
            most,
            failing,
            calls: 0,
            faults: 0,
            shortages: 0,
        }
    }

    /// Returns the bytes that the sink has taken.
    ///
    /// # Examples
    ///
    /// ```
    /// use zugyelmas::calc::{MemorySink, Sink};
    /// use zugyelmas::memory::{Global, Vec};
    ///
    /// let mut sink = MemorySink::new(Global, 2, Vec::new(Global));
    /// assert_eq!(sink.taken(), b"");
    /// assert_eq!(sink.write(b"abc"), Ok(2));
    /// assert_eq!(sink.taken(), b"ab");
    /// ```
    ///
    /// # Proved
    ///
    /// ```text
    /// ensures { result.now ≡ self.now.taken }
    /// ```
    #[must_use]
    pub fn taken(&self) -> &[u8] {
        &self.bytes
    }
}

impl Sink for MemorySink {
    fn write(&mut self, bytes: &[u8]) -> Result<usize, Refusal> {
        self.calls = self.calls.saturating_add(1);
        if self.failing.contains(&self.calls) {
            self.faults = self.faults.saturating_add(1);
            return Err(Refusal::Failed);
        }
        let count = self.most.min(bytes.len());
        match self.bytes.extend_from_slice(&bytes[..count]) {
            Ok(()) => Ok(count),
            Err(_) => {
                self.shortages = self.shortages.saturating_add(1);
                Err(Refusal::Memory)
            }
        }
    }
}
