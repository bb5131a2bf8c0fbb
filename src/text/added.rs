// Made by `make package` of crates/fixed_text/src/added.rt, which is proved: changes go there.

//! Adding bytes at the end of a buffer that has room for them.

use crate::memory::Vec;

/// Adds the bytes at the end. Precondition: the buffer's capacity has room for them.
pub fn push_all(out: &mut Vec<u8>, bytes: &[u8]) {
    let _done = out.extend_from_slice(bytes);
}
