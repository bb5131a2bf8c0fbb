// Made by `make package` of crates/fixed_filter/src/fir.rt, which is proved: changes go there.

//! Finite filters over typed numbers.

use crate::filter::block::{block, step};
use crate::filter::overflow::{BlockOverflow, TapOverflow};
use crate::filter::reply::Reply;
use crate::filter::shape::Shape;
use crate::num::Fixed;
use crate::word::{RawWord, Word};

/// A finite filter over typed numbers. Its taps have TAP fraction bits, its samples IN, and its outputs OUT. The caller
/// lends the slice of past samples, and the filter does not allocate. Contracts see it as the channel of a `Bank` with
/// the same words.
pub struct Fir<'t, 'p, T: Word, const OUT: u32, const TAP: u32, const IN: u32> {
    taps: &'t [Fixed<T, TAP>],
    past: &'p mut [Fixed<T, IN>],
}

impl<'t, 'p, T: Word, const OUT: u32, const TAP: u32, const IN: u32> Fir<'t, 'p, T, OUT, TAP, IN> {
    /// Returns the filter with these taps and past samples. The first tap is that of the newest sample, which is the
    /// first of the past samples. Preconditions: there is a tap, there are as many past samples as taps, and OUT, TAP
    /// and IN are at most the width.
    ///
    /// # Examples
    ///
    /// ```
    /// use zugyelmas::filter::{BlockOverflow, Fir, TapOverflow};
    /// use zugyelmas::prelude::*;
    /// // The mean of a sample and the one before it.
    /// let taps = [FixedI16::<14>::from_num(0.5); 2];
    /// let mut past = [FixedI16::<8>::ZERO; 2];
    /// let number = FixedI16::<8>::from_num::<f64>; // from -128 to 127.996
    ///
    /// let mut fir = Fir::<i16, 8, 14, 8>::new(&taps, &mut past);
    /// assert_eq!(fir.push(number(3.0)), Ok(number(1.5)));
    /// ```
    ///
    /// ```should_panic
    /// # use zugyelmas::filter::{BlockOverflow, Fir, TapOverflow};
    /// # use zugyelmas::prelude::*;
    /// # // The mean of a sample and the one before it.
    /// # let taps = [FixedI16::<14>::from_num(0.5); 2];
    /// # let mut past = [FixedI16::<8>::ZERO; 2];
    /// # let number = FixedI16::<8>::from_num::<f64>; // from -128 to 127.996
    /// # std::panic::set_hook(Box::new(|_| {}));
    /// Fir::<i16, 8, 14, 8>::new(&taps, &mut past[..1]); // two lengths
    /// ```
    ///
    /// # Compile errors
    ///
    /// Compiles only if the fraction OUT is at most the width, and the fraction TAP is at most the width, and the fraction IN is at most the width.
    ///
    /// # Panics
    ///
    /// Panics unless there is a tap, and both slices have the same length.
    ///
    /// # Proved
    ///
    /// ```text
    /// requires some { 0 < length taps.now }
    /// requires lengths { length taps.now ≡ length past.old }
    /// requires output { OUT ≤ T.BITS }
    /// requires tap { TAP ≤ T.BITS }
    /// requires sample { IN ≤ T.BITS }
    /// ensures taps { result.taps ≡ map (λ t. t.bits) taps.now }
    /// ensures past { result.past ≡ map (λ x. x.bits) past.old }
    /// ```
    #[track_caller]
    pub fn new(taps: &'t [Fixed<T, TAP>], past: &'p mut [Fixed<T, IN>]) -> Self {
        assert!(!taps.is_empty(), "precondition: there is a tap");
        assert!(
            taps.len() == past.len(),
            "precondition: both slices have the same length"
        );
        const {
            assert!(
                OUT <= T::BITS,
                "precondition: the fraction OUT is at most the width"
            )
        };
        const {
            assert!(
                TAP <= T::BITS,
                "precondition: the fraction TAP is at most the width"
            )
        };
        const {
            assert!(
                IN <= T::BITS,
                "precondition: the fraction IN is at most the width"
            )
        };
        Fir { taps, past }
    }

    /// Takes a sample and returns the output: the sum of the products of taps and past samples, each rounded down. If a
    /// partial sum does not fit, this fails with the index of the first such tap. In either case, the past samples have
    /// the new one in front, and the oldest one is dropped. By [`output_law`](crate::filter::laws::output_law), the output lies
    /// at or below the exact sum, by less than a unit for each tap.
    ///
    /// # Examples
    ///
    /// ```
    /// use zugyelmas::filter::{BlockOverflow, Fir, TapOverflow};
    /// use zugyelmas::prelude::*;
    /// // The mean of a sample and the one before it.
    /// let taps = [FixedI16::<14>::from_num(0.5); 2];
    /// let mut past = [FixedI16::<8>::ZERO; 2];
    /// let number = FixedI16::<8>::from_num::<f64>; // from -128 to 127.996
    ///
    /// let taps = [FixedI16::<14>::from_num(1.5); 2];
    /// let mut fir = Fir::new(&taps, &mut past);
    /// assert_eq!(fir.push(number(2.0)), Ok(number(3.0)));
    /// assert_eq!(fir.push(number(-1.0)), Ok(number(1.5))); // -1.5 + 3
    /// // 1.5 * 100 does not fit, and the past keeps the sample.
    /// assert_eq!(fir.push(number(100.0)), Err::<FixedI16<8>, _>(TapOverflow { tap: 0 }));
    /// assert_eq!(past, [number(100.0), number(-1.0)]);
    /// ```
    ///
    /// # Proved
    ///
    /// ```text
    /// ensures held { self.new ≡ with_sample sample.bits self.old }
    /// ensures reply { result_map (λ y. T.value y.bits) result
    ///     ≡ as_result (reply_of T.value T.SIGNED T.BITS (shape_with OUT TAP IN) self.new) }
    /// ```
    ///
    /// Definitions: [`as_result`], [`result_map`], [`reply_of`], [`shape_with`], [`with_sample`].
    ///
    /// [`as_result`]: crate::definitions::filter_replies
    /// [`result_map`]: crate::definitions::filter_replies
    /// [`reply_of`]: crate::definitions::filter_banks
    /// [`shape_with`]: crate::definitions::filter_banks
    /// [`with_sample`]: crate::definitions::filter_banks
    pub fn push(&mut self, sample: Fixed<T, IN>) -> Result<Fixed<T, OUT>, TapOverflow> {
        let shape = Self::shape();
        numbered(step(&shape, self.taps, self.past, sample))
    }

    /// Takes the samples of a block, the oldest first, and writes the output after each sample, as [`push`](Self::push)
    /// returns it. If an output does not fit, this fails with the indices of its sample and of the first tap whose
    /// partial sum does not fit. Then the filter has taken that sample and those before it, and the outputs from that
    /// sample on are unchanged. Precondition: there are as many outputs as samples.
    ///
    /// # Examples
    ///
    /// ```
    /// use zugyelmas::filter::{BlockOverflow, Fir, TapOverflow};
    /// use zugyelmas::prelude::*;
    /// // The mean of a sample and the one before it.
    /// let taps = [FixedI16::<14>::from_num(0.5); 2];
    /// let mut past = [FixedI16::<8>::ZERO; 2];
    /// let number = FixedI16::<8>::from_num::<f64>; // from -128 to 127.996
    ///
    /// let mut fir = Fir::new(&taps, &mut past);
    /// let mut output = [FixedI16::<8>::ZERO; 3];
    /// let samples = [number(1.0), number(2.0), number(-3.0)];
    /// assert_eq!(fir.push_block(&samples, &mut output), Ok(()));
    /// assert_eq!(output, [number(0.5), number(1.5), number(-0.5)]);
    /// ```
    ///
    /// ```should_panic
    /// # use zugyelmas::filter::{BlockOverflow, Fir, TapOverflow};
    /// # use zugyelmas::prelude::*;
    /// # // The mean of a sample and the one before it.
    /// # let taps = [FixedI16::<14>::from_num(0.5); 2];
    /// # let mut past = [FixedI16::<8>::ZERO; 2];
    /// # let number = FixedI16::<8>::from_num::<f64>; // from -128 to 127.996
    /// # std::panic::set_hook(Box::new(|_| {}));
    /// // two lengths
    /// let _ = Fir::<i16, 8, 14, 8>::new(&taps, &mut past).push_block(&[number(1.0)], &mut []);
    /// ```
    ///
    /// # Panics
    ///
    /// Panics unless both slices have the same length.
    ///
    /// # Proved
    ///
    /// ```text
    /// requires { length input.now ≡ length output.old }
    /// ensures outputs { let reply = reply_to T.value T.value T.SIGNED T.BITS (places_of (shape_with OUT TAP IN)) self.old.taps
    ///     in AreReplies reply (λ y. T.value y.bits) self.old.past (map (λ x. x.bits) input.now) output.new
    ///     (outputs_of (length input.now) result) }
    /// ensures unchanged { let done = outputs_of (length input.now) result
    ///     in drop done output.new ≡ drop done output.old }
    /// ensures taps { self.new.taps ≡ self.old.taps }
    /// ensures past { self.new.past
    ///     ≡ past_after self.old.past (take (taken_of (length input.now) result) (map (λ x. x.bits) input.now)) }
    /// ensures stop { let reply = reply_to T.value T.value T.SIGNED T.BITS (places_of (shape_with OUT TAP IN)) self.old.taps
    ///     in IfErr result (StopsAt reply self.old.past (map (λ x. x.bits) input.now)) }
    /// ```
    ///
    /// Definitions: [`places_of`], [`shape_with`], [`AreReplies`], [`StopsAt`], [`outputs_of`], [`past_after`], [`reply_to`], [`taken_of`].
    ///
    /// [`places_of`]: crate::definitions::filter_banks
    /// [`shape_with`]: crate::definitions::filter_banks
    /// [`AreReplies`]: crate::definitions::filter_blocks
    /// [`StopsAt`]: crate::definitions::filter_blocks
    /// [`outputs_of`]: crate::definitions::filter_blocks
    /// [`past_after`]: crate::definitions::filter_blocks
    /// [`reply_to`]: crate::definitions::filter_blocks
    /// [`taken_of`]: crate::definitions::filter_blocks
    #[track_caller]
    pub fn push_block(
        &mut self,
        input: &[Fixed<T, IN>],
        output: &mut [Fixed<T, OUT>],
    ) -> Result<(), BlockOverflow> {
        assert!(
            input.len() == output.len(),
            "precondition: both slices have the same length"
        );
        let shape = Self::shape();
        block(&shape, self.taps, self.past, input, output)
    }

    /// Sets each past sample to 0. The taps are unchanged.
    ///
    /// # Examples
    ///
    /// ```
    /// use zugyelmas::filter::{BlockOverflow, Fir, TapOverflow};
    /// use zugyelmas::prelude::*;
    /// // The mean of a sample and the one before it.
    /// let taps = [FixedI16::<14>::from_num(0.5); 2];
    /// let mut past = [FixedI16::<8>::ZERO; 2];
    /// let number = FixedI16::<8>::from_num::<f64>; // from -128 to 127.996
    ///
    /// let mut fir = Fir::new(&taps, &mut past);
    /// assert_eq!(fir.push(number(2.0)), Ok(number(1.0)));
    /// fir.reset();
    /// assert_eq!(fir.push(number(2.0)), Ok(number(1.0)));
    /// ```
    ///
    /// # Proved
    ///
    /// ```text
    /// ensures { self.new ≡ fresh T.ZERO self.old.taps }
    /// ```
    ///
    /// Definitions: [`fresh`].
    ///
    /// [`fresh`]: crate::definitions::filter_banks
    pub fn reset(&mut self) {
        clear(self.past);
    }

    /// Returns the numbers of fraction bits.
    fn shape() -> Shape {
        Shape {
            out_frac: OUT,
            coef_frac: TAP,
            sample_frac: IN,
        }
    }
}

/// Returns a reply as a result: a number, or an error with the tap.
#[inline]
fn numbered<T: RawWord, const F: u32>(reply: Reply<T>) -> Result<Fixed<T, F>, TapOverflow> {
    match reply {
        Reply::Value(bits) => Ok(Fixed { bits }),
        Reply::Overflow(tap) => Err(TapOverflow { tap }),
    }
}

/// Sets each sample to 0.
fn clear<T: RawWord, const F: u32>(past: &mut [Fixed<T, F>]) {
    for i in 0..past.len() {
        past[i] = Fixed { bits: T::ZERO };
    }
}
