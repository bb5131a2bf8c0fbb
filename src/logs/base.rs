// Made by `make package` of crates/fixed_logs/src/base.rt, which is proved: changes go there.

//! Bases of logarithms.

/// A base of at least 2. Contracts see it as the number.
#[derive(Clone, Copy, PartialEq, Eq, Hash, Debug)]
pub struct Base {
    base: u32,
}

impl Base {
    /// Base 10.
    pub(crate) const TEN: Base = Base { base: 10 };

    /// Returns the base, or `None` if it is below 2.
    ///
    /// # Examples
    ///
    /// ```
    /// use zugyelmas::logs::Base;
    ///
    /// assert!(Base::new(2).is_some());
    /// assert!(Base::new(1).is_none()); // a base is at least 2
    /// ```
    ///
    /// # Proved
    ///
    /// ```text
    /// ensures { MatchOption result (base < 2) (λ b. (2 ≤ base) × (b ≡ base)) }
    /// ```
    #[must_use]
    pub fn new(base: u32) -> Option<Base> {
        if base < 2 { None } else { Some(Base { base }) }
    }

    /// Returns the base as a number.
    ///
    /// # Examples
    ///
    /// ```
    /// use zugyelmas::logs::Base;
    ///
    /// let ten = Base::new(10).expect("at least 2");
    /// assert_eq!(ten.get(), 10);
    /// ```
    ///
    /// # Proved
    ///
    /// ```text
    /// ensures value { result ≡ self }
    /// ensures at_least_two { 2 ≤ self }
    /// ```
    #[must_use]
    pub fn get(self) -> u32 {
        self.base
    }
}
