// Made by `make package` of crates/fixed_stream/src/outside.rt, which is proved: changes go there.

//! What a program reads from and writes to.

/// The error of a read that failed. It consumed nothing.
#[derive(Clone, Copy, Debug, PartialEq, Eq)]
pub struct Failed;

/// Why a write was refused. A refused write takes nothing.
#[derive(Clone, Copy, Debug, PartialEq, Eq)]
pub enum Refusal {
    /// The sink failed.
    Failed,
    /// The sink ran out of memory.
    Memory,
}

/// A source of bytes, such as a script.
pub trait Source {
    /// Moves some of the remaining bytes to the front of the buffer, and returns how many. `Ok(0)` on a buffer that is
    /// not empty is the end of input. Fails only if the count of faults rises or is saturated, and then consumes
    /// nothing.
    ///
    /// # Examples
    ///
    /// ```
    /// use zugyelmas::calc::{MemorySource, Source};
    /// use zugyelmas::memory::{Global, Vec};
    /// let bytes = Vec::from_slice(Global, b"abc").expect("memory");
    ///
    /// let mut source = MemorySource::new(bytes, 2, Vec::new(Global));
    /// let mut buffer = [0; 8];
    /// assert_eq!(source.read(&mut buffer), Ok(2));
    /// assert_eq!(source.read(&mut buffer), Ok(1));
    /// assert_eq!(source.read(&mut buffer), Ok(0)); // the end
    /// ```
    ///
    /// # Proved
    ///
    /// ```text
    /// read_gives: { Self → ℕ → Result ℕ Failed → Self → Type 0 } = { λ _ _ _ _. Unit {0} }
    /// ensures within { IfOk result (λ k. k ≤ length buf.new) }
    /// ensures bytes { ReadConsumes (state self.old).left (state self.new).left result buf.new }
    /// ensures faults { FaultsAfterRead (state self.old).faults (state self.new).faults result }
    /// ensures gives { read_gives self.old (length buf.old) result self.new }
    /// ```
    ///
    /// Definitions: [`FaultsAfterRead`].
    ///
    /// [`FaultsAfterRead`]: crate::definitions::stream_outside
    fn read(&mut self, buf: &mut [u8]) -> Result<usize, Failed>;
}

/// A sink of bytes, such as the output, or the line that reports an error.
pub trait Sink {
    /// Takes some of the bytes, from the first one on, and returns how many: at least one, unless there are none. Fails
    /// with `Refusal::Failed` only if the count of faults rises or is saturated, and with `Refusal::Memory` only if
    /// that of shortages rises or is saturated. A refused write takes nothing.
    ///
    /// # Examples
    ///
    /// ```
    /// use zugyelmas::calc::{MemorySink, Sink};
    /// use zugyelmas::memory::{Global, Vec};
    ///
    /// let mut sink = MemorySink::new(Global, 2, Vec::new(Global));
    /// assert_eq!(sink.write(b"abc"), Ok(2));
    /// assert_eq!(sink.write(b"c"), Ok(1));
    /// assert_eq!(sink.taken(), b"abc");
    /// ```
    ///
    /// # Proved
    ///
    /// ```text
    /// write_gives: { Self → List ℕ → Result ℕ Refusal → Self → Type 0 } = { λ _ _ _ _. Unit {0} }
    /// ensures within { IfOk result (λ k. k ≤ length bytes.now) }
    /// ensures some { 0 < length bytes.now → IfOk result (λ k. 0 < k) }
    /// ensures bytes { WriteAppends
    ///     (state self.old).taken (state self.new).taken result bytes.now }
    /// ensures counts { CountsAfterWrite (state self.old) (state self.new) result }
    /// ensures gives { write_gives self.old bytes.now result self.new }
    /// ```
    ///
    /// Definitions: [`CountsAfterWrite`].
    ///
    /// [`CountsAfterWrite`]: crate::definitions::stream_outside
    fn write(&mut self, bytes: &[u8]) -> Result<usize, Refusal>;
}
