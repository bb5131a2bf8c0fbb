// Made by `make package` of crates/fixed_calc/src/short_text.rt, which is proved: changes go there.

//! A short text, made without allocation.

use crate::digits::decimal_into;

/// A text of at most 96 bytes.
pub(crate) struct ShortText {
    bytes: [u8; 96],
    len: usize,
}

impl ShortText {
    pub(crate) fn new() -> ShortText {
        ShortText {
            bytes: [0; 96],
            len: 0,
        }
    }

    /// Adds bytes. Precondition: there is room for them.
    pub(crate) fn push(&mut self, bytes: &[u8]) {
        let end = self.len + bytes.len();
        self.bytes[self.len..end].copy_from_slice(bytes);
        self.len = end;
    }

    /// Adds the decimal of a number. Precondition: there is room for 20 digits.
    pub(crate) fn push_number(&mut self, number: u64) {
        let mut buffer = [0; 20];
        let start = decimal_into(number, &mut buffer);
        self.push(&buffer[start..]);
    }

    pub(crate) fn as_bytes(&self) -> &[u8] {
        &self.bytes[..self.len]
    }
}
