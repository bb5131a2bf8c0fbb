// Made by `make package` of crates/fixed_calc/src/reading.rt, which is proved: changes go there.

//! Reading a source to its end.

use crate::memory::Global;
use crate::memory::Vec;
use crate::stream::Source;

/// A script has at most this many bytes.
const LIMIT: usize = 67_108_864;

/// A script has room for this many bytes before it grows. So much memory is mapped alone, and grows without a copy.
const FIRST_ROOM: usize = 1_048_576;

/// Why reading stops before the end.
#[derive(Clone, Copy, Debug, PartialEq, Eq)]
pub(crate) enum Stop {
    Failed,
    TooLong,
    Memory,
}

/// Reads a source to its end and returns its bytes. The limit is tested before the script grows.
pub(crate) fn read_all<S: Source>(alloc: Global, source: &mut S) -> Result<Vec<u8>, Stop> {
    let mut script = match Vec::with_capacity(alloc, FIRST_ROOM) {
        Ok(script) => script,
        Err(_) => return Err(Stop::Memory),
    };
    let mut buffer = [0; 4096];
    'reading: loop {
        let count = match source.read(&mut buffer) {
            Ok(count) => count,
            Err(_) => return Err(Stop::Failed),
        };
        if count == 0 {
            return Ok(script);
        }
        if count > LIMIT - script.len() {
            return Err(Stop::TooLong);
        }
        match script.extend_from_slice(&buffer[..count]) {
            Ok(()) => {}
            Err(_) => return Err(Stop::Memory),
        }
    }
}
