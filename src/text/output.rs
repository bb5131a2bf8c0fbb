// Made by `make package` of crates/fixed_text/src/output.rt, which is proved: changes go there.

//! The bytes that a run writes.

use crate::digits::{decimal_before, decimal_into};
use crate::memory::Vec;
use crate::memory::{AllocError, Global};
use crate::word::{RawWord, Word};

/// The bytes that a run has written. Contracts see them as a list.
pub struct Output {
    bytes: Vec<u8>,
}

impl Output {
    /// Returns an output without bytes. This does not allocate.
    ///
    /// # Examples
    ///
    /// ```
    /// use zugyelmas::memory::Global;
    /// use zugyelmas::text::Output;
    ///
    /// assert_eq!(Output::new(Global).as_bytes(), b"");
    /// ```
    ///
    /// # Proved
    ///
    /// ```text
    /// ensures { result ≡ [] }
    /// ```
    #[must_use]
    pub fn new(alloc: Global) -> Self {
        Output {
            bytes: Vec::new(alloc),
        }
    }

    /// Adds the bytes at the end. Fails if memory runs out; the bytes are then unchanged.
    ///
    /// # Examples
    ///
    /// ```
    /// use zugyelmas::memory::Global;
    /// use zugyelmas::text::Output;
    ///
    /// let mut output = Output::new(Global);
    /// output.append(b"a").expect("memory");
    /// output.append(b"b").expect("memory");
    /// assert_eq!(output.as_bytes(), b"ab");
    /// ```
    ///
    /// # Proved
    ///
    /// ```text
    /// ensures added { OnOk result (self.new ≡ self.old ++ bytes.now) }
    /// ensures kept { OnErr result (self.new ≡ self.old) }
    /// ```
    pub fn append(&mut self, bytes: &[u8]) -> Result<(), AllocError> {
        self.bytes.extend_from_slice(bytes)
    }

    /// Adds the decimal of a natural number at the end. Fails if memory runs out; the bytes are then unchanged.
    ///
    /// # Examples
    ///
    /// ```
    /// use zugyelmas::memory::Global;
    /// use zugyelmas::text::Output;
    ///
    /// let mut output = Output::new(Global);
    /// output.append_natural(12).expect("memory");
    /// assert_eq!(output.as_bytes(), b"12");
    /// ```
    ///
    /// # Proved
    ///
    /// ```text
    /// ensures added { OnOk result (self.new ≡ self.old ++ natural_text n) }
    /// ensures kept { OnErr result (self.new ≡ self.old) }
    /// ```
    ///
    /// Definitions: [`natural_text`].
    ///
    /// [`natural_text`]: crate::definitions::word_decimal
    pub fn append_natural(&mut self, n: u64) -> Result<(), AllocError> {
        let mut buffer = [0; 20];
        let start = decimal_into(n, &mut buffer);
        self.append(&buffer[start..])
    }

    /// Adds the decimal of a word's value at the end. Fails if memory runs out; a minus may then have been added.
    ///
    /// # Examples
    ///
    /// ```
    /// use zugyelmas::memory::Global;
    /// use zugyelmas::text::Output;
    ///
    /// let mut output = Output::new(Global);
    /// output.append_word(-128_i8).expect("memory");
    /// assert_eq!(output.as_bytes(), b"-128");
    /// ```
    ///
    /// # Proved
    ///
    /// ```text
    /// ensures { OnOk result (self.new ≡ self.old ++ whole_text (T.value word)) }
    /// ```
    ///
    /// Definitions: [`whole_text`].
    ///
    /// [`whole_text`]: crate::definitions::word_decimal
    pub fn append_word<T: Word>(&mut self, word: T) -> Result<(), AllocError> {
        if word.is_below_zero() {
            self.append(b"-")?;
        }
        self.append_natural(word.magnitude())
    }

    /// Adds the decimal of a word's value at the end, and a byte behind it. Fails if memory runs out; the bytes are then
    /// unchanged.
    ///
    /// # Examples
    ///
    /// ```
    /// use zugyelmas::memory::Global;
    /// use zugyelmas::text::Output;
    ///
    /// let mut output = Output::new(Global);
    /// output.append_word_and(-128_i8, b'\n').expect("memory");
    /// assert_eq!(output.as_bytes(), b"-128\n");
    /// ```
    ///
    /// # Proved
    ///
    /// ```text
    /// ensures added { OnOk result (self.new ≡ self.old ++ (whole_text (T.value word) ++ (byte ∷ []))) }
    /// ensures kept { OnErr result (self.new ≡ self.old) }
    /// ```
    ///
    /// Definitions: [`whole_text`].
    ///
    /// [`whole_text`]: crate::definitions::word_decimal
    pub fn append_word_and<T: Word>(&mut self, word: T, byte: u8) -> Result<(), AllocError> {
        let mut buffer = [byte; 22];
        let digits = decimal_before(word.magnitude(), &mut buffer, 21);
        if word.is_below_zero() {
            buffer[digits - 1] = b'-';
            self.append(&buffer[digits - 1..])
        } else {
            self.append(&buffer[digits..])
        }
    }

    /// Returns the bytes.
    ///
    /// # Examples
    ///
    /// ```
    /// use zugyelmas::memory::Global;
    /// use zugyelmas::text::Output;
    ///
    /// let mut output = Output::new(Global);
    /// output.append(b"ab").expect("memory");
    /// assert_eq!(output.as_bytes(), b"ab");
    /// ```
    ///
    /// # Proved
    ///
    /// ```text
    /// ensures { result.now ≡ self.now }
    /// ```
    #[must_use]
    pub fn as_bytes(&self) -> &[u8] {
        &self.bytes
    }
}
