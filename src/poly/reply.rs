// Made by `make package` of crates/fixed_poly/src/reply.rt, which is proved: changes go there.

//! The reply of an evaluation.

use crate::poly::overflow::StepOverflow;

/// The value of a polynomial, or the first step whose value does not fit.
#[derive(Clone, Copy, PartialEq, Eq, Hash, Debug)]
pub enum PolyReply<T> {
    /// The value.
    Value(T),
    /// The first step whose value does not fit. A step is named by the index of the coefficient that it adds, and steps
    /// go from the highest index down to 0.
    Overflow(usize),
}

impl<T> PolyReply<T> {
    /// Returns the value, or an error with the step, so that `?` works.
    ///
    /// # Examples
    ///
    /// ```
    /// use zugyelmas::PolyReply;
    /// use zugyelmas::poly::StepOverflow;
    ///
    /// assert_eq!(PolyReply::Value(3).into_result(), Ok(3));
    /// let overflow = PolyReply::<i8>::Overflow(1).into_result();
    /// assert_eq!(overflow, Err(StepOverflow { step: 1 }));
    /// assert_eq!(StepOverflow { step: 1 }.to_string(), "overflow at coefficient 1");
    /// ```
    ///
    /// # Proved
    ///
    /// ```text
    /// ensures { result ≡ as_result self }
    /// ```
    ///
    /// Definitions: [`as_result`].
    ///
    /// [`as_result`]: crate::definitions::poly_horner
    pub fn into_result(self) -> Result<T, StepOverflow> {
        match self {
            PolyReply::Value(value) => Ok(value),
            PolyReply::Overflow(step) => Err(StepOverflow { step }),
        }
    }
}
