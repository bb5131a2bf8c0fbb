// Made by `make package` of crates/fixed_stream/src/copy.rt, which is proved: changes go there.

//! Copying bytes to the front of a buffer.

/// Copies as many bytes as there are, as fit and as `most` allows, and returns how many.
pub(crate) fn copy_front(bytes: &[u8], most: usize, buf: &mut [u8]) -> usize {
    let count = most.min(buf.len().min(bytes.len()));
    buf[..count].copy_from_slice(&bytes[..count]);
    count
}
