// Made by `make package` of crates/fixed_machine/src/buffer.rt, which is proved: changes go there.

//! A buffer that allocates its room once, so that adding to it does not allocate.

use crate::machine::answer::{SPARE, SignedAnswer, push_answer};
use crate::memory::Vec;
use crate::memory::{AllocError, Global};

/// Bytes, with room for a fixed number of them and spare room after it, and scratch space for the number of an answer.
pub(crate) struct Buffer {
    held: Vec<u8>,
    most: usize,
    text: [u8; 56],
}

impl Buffer {
    /// Returns an empty buffer with room for `room` bytes. Fails if memory runs out.
    pub(crate) fn with_room(alloc: Global, room: usize) -> Result<Self, AllocError> {
        match room.checked_add(SPARE) {
            Some(total) => Ok(Buffer {
                held: Vec::with_capacity(alloc, total)?,
                most: room,
                text: [0; 56],
            }),
            None => Err(AllocError),
        }
    }

    /// Returns for how many bytes there is room.
    pub(crate) fn room(&self) -> usize {
        self.most
    }

    /// Returns the bytes.
    pub(crate) fn bytes(&self) -> &[u8] {
        self.held.as_slice()
    }

    /// Turns the buffer into its bytes.
    pub(crate) fn into_bytes(self) -> Vec<u8> {
        self.held
    }

    /// Removes all bytes. The room stays.
    pub(crate) fn reset(&mut self) {
        self.held.clear();
    }

    /// Adds the text of an answer. Precondition: there is room for it.
    #[inline(always)]
    pub(crate) fn push_text(&mut self, answer: SignedAnswer) {
        push_answer(&mut self.held, &mut self.text, answer);
    }
}
