// Made by `make package` of crates/fixed_word/src/ledger.rt, which is proved: changes go there.

//! Ledgers, which count steps, and the handle with which generic code can only raise a count.

/// A count of steps that never decreases.
pub trait Ledger {
    /// The largest count, at which the ledger saturates.
    const LAST: u64;

    /// Counts one step: adds 1, unless the count is `LAST`.
    ///
    /// # Examples
    ///
    /// ```
    /// use zugyelmas::word::{Count, Ledger, Silent, Steps};
    ///
    /// let mut count = Count::new();
    /// count.tick();
    /// assert_eq!(count.count(), 1);
    /// ```
    ///
    /// # Proved
    ///
    /// ```text
    /// ensures { Ticks LAST (count self.old) (count self.new) }
    /// ```
    ///
    /// Definitions: [`Ticks`].
    ///
    /// [`Ticks`]: crate::definitions::word_ticks
    fn tick(&mut self);
}

/// A ledger that counts nothing, for callers that need no count.
#[derive(Clone, Copy, PartialEq, Eq, Hash, Default, Debug)]
pub struct Silent;

impl Silent {
    /// Returns the ledger whose count is always 0.
    ///
    /// # Examples
    ///
    /// ```
    /// use zugyelmas::word::{Count, Ledger, Silent, Steps};
    ///
    /// let mut counted = Steps::new(Silent::new());
    /// counted.tick(); // nothing is counted
    /// ```
    #[must_use]
    pub fn new() -> Silent {
        Silent
    }
}

impl Ledger for Silent {
    const LAST: u64 = 0;

    fn tick(&mut self) {}
}

/// A ledger that counts up to `u64::MAX`. Contracts see it as its count.
#[derive(Clone, PartialEq, Eq, Hash, Default, Debug)]
pub struct Count {
    count: u64,
}

impl Count {
    /// Returns a ledger whose count is 0.
    ///
    /// # Examples
    ///
    /// ```
    /// use zugyelmas::word::{Count, Ledger, Silent, Steps};
    ///
    /// assert_eq!(Count::new().count(), 0);
    /// ```
    ///
    /// # Proved
    ///
    /// ```text
    /// ensures { result ≡ 0 }
    /// ```
    #[must_use]
    pub fn new() -> Count {
        Count { count: 0 }
    }

    /// Returns the count of steps so far.
    ///
    /// # Examples
    ///
    /// ```
    /// use zugyelmas::word::{Count, Ledger, Silent, Steps};
    ///
    /// let mut count = Count::new();
    /// count.tick();
    /// count.tick();
    /// assert_eq!(count.count(), 2);
    /// ```
    ///
    /// # Proved
    ///
    /// ```text
    /// ensures { result ≡ self.now }
    /// ```
    #[must_use]
    pub fn count(&self) -> u64 {
        self.count
    }
}

impl Ledger for Count {
    const LAST: u64 = u64::MAX;

    fn tick(&mut self) {
        if self.count < u64::MAX {
            self.count += 1;
        }
    }
}

/// A handle of a ledger, with which generic code can only raise the count: it can neither make another ledger nor
/// reset this one. Contracts see the handle as its ledger.
#[derive(PartialEq, Eq, Hash, Default, Debug)]
pub struct Steps<L: Ledger> {
    ledger: L,
}

impl<L: Ledger> Steps<L> {
    /// Returns a handle of a ledger.
    ///
    /// # Examples
    ///
    /// ```
    /// use zugyelmas::word::{Count, Ledger, Silent, Steps};
    ///
    /// let counted = Steps::new(Count::new());
    /// assert_eq!(counted.ledger().count(), 0);
    /// ```
    ///
    /// # Proved
    ///
    /// ```text
    /// ensures { result ≡ ledger }
    /// ```
    #[must_use]
    pub fn new(ledger: L) -> Steps<L> {
        Steps { ledger }
    }

    /// Counts one step: adds 1, unless the count is the largest of the ledger.
    ///
    /// # Examples
    ///
    /// ```
    /// use zugyelmas::word::{Count, Ledger, Silent, Steps};
    ///
    /// let mut counted = Steps::new(Count::new());
    /// counted.tick();
    /// assert_eq!(counted.ledger().count(), 1);
    /// ```
    ///
    /// # Proved
    ///
    /// ```text
    /// ensures { Ticks L.LAST (L.count self.old) (L.count self.new) }
    /// ```
    ///
    /// Definitions: [`Ticks`].
    ///
    /// [`Ticks`]: crate::definitions::word_ticks
    pub fn tick(&mut self) {
        self.ledger.tick();
    }

    /// Returns the ledger, to read its count.
    ///
    /// # Examples
    ///
    /// ```
    /// use zugyelmas::word::{Count, Ledger, Silent, Steps};
    ///
    /// let mut counted = Steps::new(Count::new());
    /// counted.tick();
    /// counted.tick();
    /// assert_eq!(counted.ledger().count(), 2);
    /// ```
    ///
    /// # Proved
    ///
    /// ```text
    /// ensures { result.now ≡ self.now }
    /// ```
    #[must_use]
    pub fn ledger(&self) -> &L {
        &self.ledger
    }
}
