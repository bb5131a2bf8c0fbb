// Made by `make package` of crates/fixed_filter/src/reply.rt, which is proved: changes go there.

//! The reply of a filter to a sample.

use crate::filter::overflow::TapOverflow;

/// The output after a sample, or the first tap whose partial sum does not fit.
#[derive(Clone, Copy, PartialEq, Eq, Hash, Debug)]
pub enum Reply<T> {
    /// The output, with the fraction bits of outputs.
    Value(T),
    /// The index of the first tap whose partial sum does not fit. For a [`Biquad`](crate::filter::Biquad), this is the index of
    /// a coefficient.
    Overflow(usize),
}

impl<T> Reply<T> {
    /// Returns the output, or an error with the index of the tap, so that `?` works.
    ///
    /// # Examples
    ///
    /// ```
    /// use zugyelmas::filter::{Reply, TapOverflow};
    ///
    /// assert_eq!(Reply::Value(3).into_result(), Ok(3));
    /// let overflow = Reply::<i8>::Overflow(1).into_result();
    /// assert_eq!(overflow, Err(TapOverflow { tap: 1 }));
    /// assert_eq!(TapOverflow { tap: 1 }.to_string(), "overflow at tap 1");
    /// ```
    ///
    /// # Proved
    ///
    /// ```text
    /// ensures { result ≡ as_result self }
    /// ```
    ///
    /// Definitions: [`as_result`].
    ///
    /// [`as_result`]: crate::definitions::filter_replies
    pub fn into_result(self) -> Result<T, TapOverflow> {
        match self {
            Reply::Value(output) => Ok(output),
            Reply::Overflow(tap) => Err(TapOverflow { tap }),
        }
    }
}
