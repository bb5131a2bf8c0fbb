// Made by `make package` of crates/fixed_calc/src/status.rt, which is proved: changes go there.

//! How a call of the program ends.

use crate::machine::Cause;

/// How a call of the program ended.
#[derive(Clone, Copy, Debug, PartialEq, Eq)]
pub enum Status {
    /// The whole output was written, or for `demo N` the whole summary.
    Done,
    /// A line of the script has this cause, which is the first. Nothing was written to the sink.
    Script(Cause),
    /// The words of the command line are not a form of the command. Nothing was read, and nothing written to the sink.
    Usage,
    /// The source failed. Nothing was written to the sink.
    ReadFault,
    /// The sink failed. It took a prefix of the output, or of the summary.
    WriteFault,
    /// More than 67,108,864 bytes were read. Nothing was written to the sink.
    TooLong,
    /// Memory ran out. The sink took a prefix of the output, or of the summary.
    Memory,
}

impl Status {
    /// Returns the exit status of the program: 0 to 6, in the order of the variants.
    ///
    /// # Examples
    ///
    /// ```
    /// use zugyelmas::calc::{Cause, Status};
    ///
    /// assert_eq!(Status::Done.code(), 0);
    /// assert_eq!(Status::Script(Cause::Overflow(2)).code(), 1);
    /// assert_eq!(Status::Memory.code(), 6);
    /// ```
    ///
    /// # Proved
    ///
    /// ```text
    /// ensures { result ≡ code_of self }
    /// ```
    ///
    /// Definitions: [`code_of`].
    ///
    /// [`code_of`]: crate::definitions::calc_headline
    #[must_use]
    pub fn code(self) -> u8 {
        match self {
            Status::Done => 0,
            Status::Script(_) => 1,
            Status::Usage => 2,
            Status::ReadFault => 3,
            Status::WriteFault => 4,
            Status::TooLong => 5,
            Status::Memory => 6,
        }
    }
}
