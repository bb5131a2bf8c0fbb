// Made by `make package` of crates/fixed_calc/src/writing.rt, which is proved: changes go there.

//! Writing to a sink until all is taken.

use crate::stream::{Refusal, Sink};

/// Offers all bytes that remain, until none do or a write is refused.
pub(crate) fn write_all<K: Sink>(bytes: &[u8], sink: &mut K) -> Result<(), Refusal> {
    let mut at = 0;
    while at < bytes.len() {
        match sink.write(&bytes[at..]) {
            Ok(count) => at += count,
            Err(refusal) => return Err(refusal),
        }
    }
    Ok(())
}
