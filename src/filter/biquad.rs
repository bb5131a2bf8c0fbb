// Made by `make package` of crates/fixed_filter/src/biquad.rt, which is proved: changes go there.

//! Second-order sections.

use crate::filter::accumulation::output_of;
use crate::filter::reply::Reply;
use crate::filter::shape::Shape;
use crate::num::Fixed;
use crate::word::{RawWord, Word};

/// The coefficients of a second-order section, with G fraction bits. Without rounding, the output is
/// `b0 x + b1 x1 + b2 x2 + a1 y1 + a2 y2`, where x is the sample, x1 and x2 are the two samples before it, and y1 and
/// y2 are the two outputs before. For a transfer function with the denominator `1 + c1 z^-1 + c2 z^-2`, `a1` is `-c1`
/// and `a2` is `-c2`.
#[derive(Clone, Copy, PartialEq, Eq, Hash, Debug)]
pub struct Section<T: Word, const G: u32> {
    /// The coefficient of the sample.
    pub b0: Fixed<T, G>,
    /// The coefficient of the sample before.
    pub b1: Fixed<T, G>,
    /// The coefficient of the second sample before.
    pub b2: Fixed<T, G>,
    /// The coefficient of the output before.
    pub a1: Fixed<T, G>,
    /// The coefficient of the second output before.
    pub a2: Fixed<T, G>,
}

/// A second-order section in direct form I: its coefficients, and its last two samples and outputs. Samples and outputs
/// have F fraction bits, and coefficients have G.
#[derive(Clone, Copy, PartialEq, Eq, Hash, Debug)]
pub struct Biquad<T: Word, const F: u32, const G: u32> {
    /// The coefficients.
    pub section: Section<T, G>,
    /// The last sample.
    pub x1: Fixed<T, F>,
    /// The sample before the last one.
    pub x2: Fixed<T, F>,
    /// The last output.
    pub y1: Fixed<T, F>,
    /// The output before the last one.
    pub y2: Fixed<T, F>,
}

impl<T: Word, const F: u32, const G: u32> Biquad<T, F, G> {
    /// Returns the section at rest: its last two samples and outputs are 0.
    ///
    /// # Examples
    ///
    /// ```
    /// use zugyelmas::filter::{Biquad, Reply, Section};
    /// use zugyelmas::prelude::*;
    /// // The mean of a sample and the output before it.
    /// let half = FixedI16::<14>::from_num(0.5);
    /// let zero = FixedI16::<14>::ZERO;
    /// let section = Section { b0: half, b1: zero, b2: zero, a1: half, a2: zero };
    /// let one = FixedI16::<8>::from_num(1);
    ///
    /// let filter = Biquad::<i16, 8, 14>::new(section);
    /// // it is at rest
    /// assert_eq!((filter.x1, filter.y1), (FixedI16::ZERO, FixedI16::ZERO));
    /// ```
    ///
    /// # Proved
    ///
    /// ```text
    /// ensures { result ≡ record {
    ///     section = section;
    ///     x1 = record { bits = T.ZERO };
    ///     x2 = record { bits = T.ZERO };
    ///     y1 = record { bits = T.ZERO };
    ///     y2 = record { bits = T.ZERO };
    ///     } }
    /// ```
    #[must_use]
    pub fn new(section: Section<T, G>) -> Self {
        Biquad {
            section,
            x1: Fixed { bits: T::ZERO },
            x2: Fixed { bits: T::ZERO },
            y1: Fixed { bits: T::ZERO },
            y2: Fixed { bits: T::ZERO },
        }
    }

    /// Takes a sample and returns the output: the sum of the products of the five coefficients, each rounded down. If a
    /// partial sum does not fit, the reply is `Overflow` with the index of the first such coefficient, from 0 for `b0`
    /// to 4 for `a2`, and the section is unchanged. By [`output_law`](crate::filter::laws::output_law), the output lies at or
    /// below the exact sum of these products, by less than five units. By [`run_law`](crate::filter::laws::run_law), outputs of
    /// a run lie within `5 / (1 - A)` units of the exact ones if the magnitudes of `a1` and `a2` sum to A, below 1.
    /// Preconditions: F and G are at most the width.
    ///
    /// # Examples
    ///
    /// ```
    /// use zugyelmas::filter::{Biquad, Reply, Section};
    /// use zugyelmas::prelude::*;
    /// // The mean of a sample and the output before it.
    /// let half = FixedI16::<14>::from_num(0.5);
    /// let zero = FixedI16::<14>::ZERO;
    /// let section = Section { b0: half, b1: zero, b2: zero, a1: half, a2: zero };
    /// let one = FixedI16::<8>::from_num(1);
    ///
    /// let mut filter = Biquad::new(section);
    /// assert_eq!(filter.push(one), Reply::Value(FixedI16::from_num(0.5)));
    /// assert_eq!(filter.push(one), Reply::Value(FixedI16::from_num(0.75)));
    /// // 100 * 1.5 does not fit: the section stays as it was.
    /// let mut loud = Biquad::new(Section { b0: FixedI16::from_num(1.5), ..section });
    /// assert_eq!(loud.push(FixedI16::<8>::from_num(100)), Reply::Overflow(0));
    /// assert_eq!(loud.y1, FixedI16::ZERO);
    /// ```
    ///
    /// # Compile errors
    ///
    /// Compiles only if the fraction F is at most the width, and the fraction G is at most the width.
    ///
    /// # Proved
    ///
    /// ```text
    /// requires samples { F ≤ T.BITS }
    /// requires coefficients { G ≤ T.BITS }
    /// ensures reply { reply_map (λ y. T.value y.bits) result ≡ filter_reply T.SIGNED T.BITS (pos G)
    ///     ((T.value self.old.section.b0.bits, T.value sample.bits)
    ///     ∷ (T.value self.old.section.b1.bits, T.value self.old.x1.bits)
    ///     ∷ (T.value self.old.section.b2.bits, T.value self.old.x2.bits)
    ///     ∷ (T.value self.old.section.a1.bits, T.value self.old.y1.bits)
    ///     ∷ (T.value self.old.section.a2.bits, T.value self.old.y2.bits) ∷ []) }
    /// ensures state { self.new ≡ state_after self.old (λ y. record self.old {
    ///     x1 = sample;
    ///     x2 = self.old.x1;
    ///     y1 = y;
    ///     y2 = self.old.y1;
    ///     }) result }
    /// ```
    ///
    /// Definitions: [`filter_reply`], [`reply_map`], [`state_after`].
    ///
    /// [`filter_reply`]: crate::definitions::filter_replies
    /// [`reply_map`]: crate::definitions::filter_replies
    /// [`state_after`]: crate::definitions::filter_replies
    #[track_caller]
    pub fn push(&mut self, sample: Fixed<T, F>) -> Reply<Fixed<T, F>> {
        const {
            assert!(
                F <= T::BITS,
                "precondition: the fraction F is at most the width"
            )
        };
        const {
            assert!(
                G <= T::BITS,
                "precondition: the fraction G is at most the width"
            )
        };
        match self.output(sample) {
            Reply::Value(bits) => {
                let output = Fixed { bits };
                self.x2 = self.x1;
                self.x1 = sample;
                self.y2 = self.y1;
                self.y1 = output;
                Reply::Value(output)
            }
            Reply::Overflow(coefficient) => Reply::Overflow(coefficient),
        }
    }

    /// Returns the output after a sample. Preconditions: F and G are at most the width.
    #[inline]
    fn output(&self, sample: Fixed<T, F>) -> Reply<T> {
        let shape = Shape {
            out_frac: F,
            coef_frac: G,
            sample_frac: F,
        };
        let section = self.section;
        let coefs = [
            section.b0.bits,
            section.b1.bits,
            section.b2.bits,
            section.a1.bits,
            section.a2.bits,
        ];
        let past = [
            sample.bits,
            self.x1.bits,
            self.x2.bits,
            self.y1.bits,
            self.y2.bits,
        ];
        output_of(&shape, &coefs, &past)
    }
}
