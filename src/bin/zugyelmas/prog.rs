// Made by `make package` of crates/fixed_prog/src/adapters.rt, which is proved: changes go there.

//! Standard input, output and error as a source, a sink and the errors. They do not state which bytes are left or
//! taken. The Rust crate `fixed` does not have them.

use crate::calc::{Failed, Refusal, Sink, Source};
use std::io::{Read, Write};

/// A source that reads from a reader, such as standard input. Each failed read increments its count of faults.
pub struct StdSource<R> {
    reader: R,
    faults: u64,
}

impl<R: Read> StdSource<R> {
    /// Returns the source of a reader, without faults.
    pub fn new(reader: R) -> StdSource<R> {
        StdSource { reader, faults: 0 }
    }
}

impl<R: Read> Source for StdSource<R> {
    fn read(&mut self, buf: &mut [u8]) -> Result<usize, Failed> {
        match self.reader.read(buf) {
            Ok(count) => Ok(count),
            Err(_) => {
                self.faults = self.faults.saturating_add(1);
                Err(Failed)
            }
        }
    }
}

/// A sink that writes to a writer, such as standard output. Each failed write, each write that takes none of some
/// bytes, and each failed flush increments its count of faults.
pub struct StdSink<W> {
    writer: W,
    faults: u64,
}

impl<W: Write> StdSink<W> {
    /// Returns the sink of a writer, without faults.
    pub fn new(writer: W) -> StdSink<W> {
        StdSink { writer, faults: 0 }
    }
}

impl<W: Write> Sink for StdSink<W> {
    fn write(&mut self, bytes: &[u8]) -> Result<usize, Refusal> {
        match self.writer.write(bytes) {
            Ok(count) => {
                if (count > 0 || bytes.is_empty()) && self.writer.flush().is_ok() {
                    return Ok(count);
                }
            }
            Err(_) => {}
        }
        self.faults = self.faults.saturating_add(1);
        Err(Refusal::Failed)
    }
}

/// A sink that writes to a writer, such as standard error. It counts faults as `StdSink` does.
pub struct StdErrors<W> {
    sink: StdSink<W>,
}

impl<W: Write> StdErrors<W> {
    /// Returns the errors of a writer, without faults.
    pub fn new(writer: W) -> StdErrors<W> {
        StdErrors {
            sink: StdSink::new(writer),
        }
    }
}

impl<W: Write> Sink for StdErrors<W> {
    fn write(&mut self, bytes: &[u8]) -> Result<usize, Refusal> {
        self.sink.write(bytes)
    }
}
