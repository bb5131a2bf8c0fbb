// Made by `make package` of crates/fixed_filter/src/bank.rt, which is proved: changes go there.

//! Banks of channels.

#[cfg(feature = "runs")]
use crate::filter::channel::Channel;
use crate::filter::reply::Reply;
use crate::filter::shape::Shape;
use crate::memory::Vec;
use crate::memory::{AllocError, Global};
use crate::word::{RawWord, Word};

/// Channels of one shape. Each channel has its taps, and as many past samples of its own. Taps, samples and outputs are
/// bits, and the shape has their numbers of fraction bits. Contracts see the shape and the list of the channels.
pub struct Bank<T: Word> {
    alloc: Global,
    shape: Shape,
    channels: Vec<Channel<T>>,
}

impl<T: Word> Bank<T> {
    /// Returns a bank of this shape without channels. This does not allocate. Precondition: each number of fraction
    /// bits is at most the width.
    ///
    /// # Examples
    ///
    /// ```
    /// use zugyelmas::filter::{Bank, Reply, Shape};
    /// use zugyelmas::memory::Global;
    /// let shape = Shape { out_frac: 4, coef_frac: 4, sample_frac: 4 };
    /// let mut bank: Bank<i8> = Bank::new(Global, shape);
    ///
    /// assert_eq!(bank.channels(), 0);
    /// ```
    ///
    /// ```should_panic
    /// # use zugyelmas::filter::{Bank, Reply, Shape};
    /// # use zugyelmas::memory::Global;
    /// # let shape = Shape { out_frac: 4, coef_frac: 4, sample_frac: 4 };
    /// # let mut bank: Bank<i8> = Bank::new(Global, shape);
    /// # std::panic::set_hook(Box::new(|_| {}));
    /// // a fraction is above the width
    /// Bank::<i8>::new(Global, Shape { out_frac: 9, ..shape });
    /// ```
    ///
    /// # Panics
    ///
    /// Panics unless each fraction is at most the width.
    ///
    /// # Proved
    ///
    /// ```text
    /// requires { IsShape T.BITS shape }
    /// ensures { result ≡ record { shape = shape; channels = [] } }
    /// ```
    ///
    /// Definitions: [`IsShape`], [`IsShape`].
    ///
    /// [`IsShape`]: crate::definitions::filter_banks
    /// [`IsShape`]: crate::definitions::filter_banks
    #[track_caller]
    #[must_use]
    pub fn new(alloc: Global, shape: Shape) -> Self {
        assert!(
            shape.out_frac.max(shape.coef_frac).max(shape.sample_frac) <= T::BITS,
            "precondition: each fraction is at most the width"
        );
        Bank {
            alloc,
            shape,
            channels: Vec::new(alloc),
        }
    }

    /// Adds a channel with these taps, in units of `2^-coef_frac`. The first tap is that of the newest sample. The
    /// channel has a past sample of 0 for each tap, and its number is the number of channels before. Fails if memory
    /// runs out; the bank is then unchanged. Precondition: there is a tap.
    ///
    /// # Examples
    ///
    /// ```
    /// use zugyelmas::filter::{Bank, Reply, Shape};
    /// use zugyelmas::memory::Global;
    /// let shape = Shape { out_frac: 4, coef_frac: 4, sample_frac: 4 };
    /// let mut bank: Bank<i8> = Bank::new(Global, shape);
    ///
    /// bank.add_channel(&[16, 8]).expect("memory"); // 1 and 0.5
    /// assert_eq!((bank.channels(), bank.taps(0)), (1, 2));
    /// assert_eq!((bank.past(0, 0), bank.past(0, 1)), (0, 0));
    /// ```
    ///
    /// ```should_panic
    /// # use zugyelmas::filter::{Bank, Reply, Shape};
    /// # use zugyelmas::memory::Global;
    /// # let shape = Shape { out_frac: 4, coef_frac: 4, sample_frac: 4 };
    /// # let mut bank: Bank<i8> = Bank::new(Global, shape);
    /// # std::panic::set_hook(Box::new(|_| {}));
    /// let _ = bank.add_channel(&[]); // no tap
    /// ```
    ///
    /// # Panics
    ///
    /// Panics unless there is a tap.
    ///
    /// # Proved
    ///
    /// ```text
    /// requires { 0 < length taps.now }
    /// ensures added { OnOk result (self.new ≡ with_channel (fresh T.ZERO taps.now) self.old) }
    /// ensures kept { OnErr result (self.new ≡ self.old) }
    /// ```
    ///
    /// Definitions: [`fresh`], [`with_channel`].
    ///
    /// [`fresh`]: crate::definitions::filter_banks
    /// [`with_channel`]: crate::definitions::filter_banks
    #[track_caller]
    pub fn add_channel(&mut self, taps: &[T]) -> Result<(), AllocError> {
        assert!(!taps.is_empty(), "precondition: there is a tap");
        let channel = Channel::new(self.alloc, taps)?;
        self.channels.push(channel)?;
        Ok(())
    }

    /// Puts a sample, in units of `2^-sample_frac`, in front of the channel's past samples, drops the oldest one, and
    /// returns the output, in units of `2^-out_frac`: the sum of the products of taps and past samples, each rounded
    /// down. If a partial sum does not fit, the reply is `Overflow` with the index of the first such tap, and the
    /// channel has taken the sample all the same. This reads each tap at most once, and does not allocate.
    /// Precondition: the channel exists.
    ///
    /// # Examples
    ///
    /// ```
    /// use zugyelmas::filter::{Bank, Reply, Shape};
    /// use zugyelmas::memory::Global;
    /// let shape = Shape { out_frac: 4, coef_frac: 4, sample_frac: 4 };
    /// let mut bank: Bank<i8> = Bank::new(Global, shape);
    /// bank.add_channel(&[16, 8]).expect("memory"); // 1 and 0.5
    ///
    /// assert_eq!(bank.push(0, 32), Reply::Value(32)); // 2
    /// assert_eq!(bank.push(0, 16), Reply::Value(32)); // 1 + 0.5 * 2
    /// assert_eq!(bank.push(0, 127), Reply::Overflow(1)); // 7.9375 + 0.5 * 1
    /// ```
    ///
    /// ```should_panic
    /// # use zugyelmas::filter::{Bank, Reply, Shape};
    /// # use zugyelmas::memory::Global;
    /// # let shape = Shape { out_frac: 4, coef_frac: 4, sample_frac: 4 };
    /// # let mut bank: Bank<i8> = Bank::new(Global, shape);
    /// # bank.add_channel(&[16, 8]).expect("memory"); // 1 and 0.5
    /// # std::panic::set_hook(Box::new(|_| {}));
    /// bank.push(1, 32); // no such channel
    /// ```
    ///
    /// # Panics
    ///
    /// Panics unless the channel exists.
    ///
    /// # Proved
    ///
    /// ```text
    /// requires { channel < length self.old.channels }
    /// ensures held { self.new ≡ after_sample channel sample self.old }
    /// ensures reply { reply_map T.value result
    ///     ≡ reply_of T.value T.SIGNED T.BITS self.old.shape (filter_at self.new channel) }
    /// ```
    ///
    /// Definitions: [`reply_map`], [`after_sample`], [`filter_at`], [`reply_of`].
    ///
    /// [`reply_map`]: crate::definitions::filter_replies
    /// [`after_sample`]: crate::definitions::filter_banks
    /// [`filter_at`]: crate::definitions::filter_banks
    /// [`reply_of`]: crate::definitions::filter_banks
    #[track_caller]
    pub fn push(&mut self, channel: usize, sample: T) -> Reply<T> {
        assert!(
            channel < self.channels.len(),
            "precondition: the channel exists"
        );
        let shape = self.shape;
        let channel = &mut self.channels[channel];
        channel.push(sample, &shape)
    }

    /// Returns the number of channels.
    ///
    /// # Examples
    ///
    /// ```
    /// use zugyelmas::filter::{Bank, Reply, Shape};
    /// use zugyelmas::memory::Global;
    /// let shape = Shape { out_frac: 4, coef_frac: 4, sample_frac: 4 };
    /// let mut bank: Bank<i8> = Bank::new(Global, shape);
    /// bank.add_channel(&[16, 8]).expect("memory"); // 1 and 0.5
    ///
    /// assert_eq!(bank.channels(), 1);
    /// ```
    ///
    /// # Proved
    ///
    /// ```text
    /// ensures { result ≡ length self.now.channels }
    /// ```
    #[must_use]
    pub fn channels(&self) -> usize {
        self.channels.len()
    }

    /// Returns the number of taps of a channel, which is also the number of its past samples. Precondition: the channel
    /// exists.
    ///
    /// # Examples
    ///
    /// ```
    /// use zugyelmas::filter::{Bank, Reply, Shape};
    /// use zugyelmas::memory::Global;
    /// let shape = Shape { out_frac: 4, coef_frac: 4, sample_frac: 4 };
    /// let mut bank: Bank<i8> = Bank::new(Global, shape);
    /// bank.add_channel(&[16, 8]).expect("memory"); // 1 and 0.5
    ///
    /// assert_eq!(bank.taps(0), 2);
    /// ```
    ///
    /// ```should_panic
    /// # use zugyelmas::filter::{Bank, Reply, Shape};
    /// # use zugyelmas::memory::Global;
    /// # let shape = Shape { out_frac: 4, coef_frac: 4, sample_frac: 4 };
    /// # let mut bank: Bank<i8> = Bank::new(Global, shape);
    /// # bank.add_channel(&[16, 8]).expect("memory"); // 1 and 0.5
    /// # std::panic::set_hook(Box::new(|_| {}));
    /// bank.taps(1); // no such channel
    /// ```
    ///
    /// # Panics
    ///
    /// Panics unless the channel exists.
    ///
    /// # Proved
    ///
    /// ```text
    /// requires { channel < length self.now.channels }
    /// ensures taps { result ≡ length (filter_at self.now channel).taps }
    /// ensures past { result ≡ length (filter_at self.now channel).past }
    /// ```
    ///
    /// Definitions: [`filter_at`].
    ///
    /// [`filter_at`]: crate::definitions::filter_banks
    #[track_caller]
    #[must_use]
    pub fn taps(&self, channel: usize) -> usize {
        assert!(
            channel < self.channels.len(),
            "precondition: the channel exists"
        );
        let channel = &self.channels[channel];
        channel.past().len()
    }

    /// Returns a tap of a channel, in units of `2^-coef_frac`. The tap at 0 is that of the newest sample.
    /// Preconditions: the channel exists, and `index` is below the number of its taps.
    ///
    /// # Examples
    ///
    /// ```
    /// use zugyelmas::filter::{Bank, Reply, Shape};
    /// use zugyelmas::memory::Global;
    /// let shape = Shape { out_frac: 4, coef_frac: 4, sample_frac: 4 };
    /// let mut bank: Bank<i8> = Bank::new(Global, shape);
    /// bank.add_channel(&[16, 8]).expect("memory"); // 1 and 0.5
    ///
    /// assert_eq!(bank.tap(0, 1), 8); // 0.5
    /// ```
    ///
    /// ```should_panic
    /// # use zugyelmas::filter::{Bank, Reply, Shape};
    /// # use zugyelmas::memory::Global;
    /// # let shape = Shape { out_frac: 4, coef_frac: 4, sample_frac: 4 };
    /// # let mut bank: Bank<i8> = Bank::new(Global, shape);
    /// # bank.add_channel(&[16, 8]).expect("memory"); // 1 and 0.5
    /// # std::panic::set_hook(Box::new(|_| {}));
    /// bank.tap(0, 2); // no such tap
    /// ```
    ///
    /// # Panics
    ///
    /// Panics unless the channel exists, and the tap exists.
    ///
    /// # Proved
    ///
    /// ```text
    /// requires channel { channel < length self.now.channels }
    /// requires index { index < length (filter_at self.now channel).taps }
    /// ensures { slice_get (filter_at self.now channel).taps index ≡ Some result }
    /// ```
    ///
    /// Definitions: [`filter_at`].
    ///
    /// [`filter_at`]: crate::definitions::filter_banks
    #[track_caller]
    #[must_use]
    pub fn tap(&self, channel: usize, index: usize) -> T {
        assert!(
            channel < self.channels.len(),
            "precondition: the channel exists"
        );
        assert!(
            index < self.channels[channel].taps().len(),
            "precondition: the tap exists"
        );
        let channel = &self.channels[channel];
        channel.taps()[index]
    }

    /// Returns a past sample of a channel, in units of `2^-sample_frac`. The newest one is at 0. Preconditions: the
    /// channel exists, and `index` is below the number of its taps.
    ///
    /// # Examples
    ///
    /// ```
    /// use zugyelmas::filter::{Bank, Reply, Shape};
    /// use zugyelmas::memory::Global;
    /// let shape = Shape { out_frac: 4, coef_frac: 4, sample_frac: 4 };
    /// let mut bank: Bank<i8> = Bank::new(Global, shape);
    /// bank.add_channel(&[16, 8]).expect("memory"); // 1 and 0.5
    ///
    /// bank.push(0, 32);
    /// bank.push(0, 16);
    /// assert_eq!((bank.past(0, 0), bank.past(0, 1)), (16, 32)); // the newest first
    /// ```
    ///
    /// ```should_panic
    /// # use zugyelmas::filter::{Bank, Reply, Shape};
    /// # use zugyelmas::memory::Global;
    /// # let shape = Shape { out_frac: 4, coef_frac: 4, sample_frac: 4 };
    /// # let mut bank: Bank<i8> = Bank::new(Global, shape);
    /// # bank.add_channel(&[16, 8]).expect("memory"); // 1 and 0.5
    /// # std::panic::set_hook(Box::new(|_| {}));
    /// bank.past(0, 2); // no such tap
    /// ```
    ///
    /// # Panics
    ///
    /// Panics unless the channel exists, and the tap exists.
    ///
    /// # Proved
    ///
    /// ```text
    /// requires channel { channel < length self.now.channels }
    /// requires index { index < length (filter_at self.now channel).taps }
    /// ensures { slice_get (filter_at self.now channel).past index ≡ Some result }
    /// ```
    ///
    /// Definitions: [`filter_at`].
    ///
    /// [`filter_at`]: crate::definitions::filter_banks
    #[track_caller]
    #[must_use]
    pub fn past(&self, channel: usize, index: usize) -> T {
        assert!(
            channel < self.channels.len(),
            "precondition: the channel exists"
        );
        assert!(
            index < self.channels[channel].taps().len(),
            "precondition: the tap exists"
        );
        let channel = &self.channels[channel];
        channel.past()[index]
    }
}
