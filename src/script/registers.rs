// Made by `make package` of crates/fixed_script/src/registers.rt, which is proved: changes go there.

//! The names of registers.

use crate::digits::natural_of;

/// Returns the number of a register, or `None` if the token does not name one.
pub(crate) fn register_of(token: &[u8]) -> Option<u128> {
    match token {
        [b'r', number @ ..] => natural_of(number),
        _ => None,
    }
}

/// Returns the register of one digit that is the first token, and the bytes after its space. `None` decides nothing:
/// the token may be another register.
#[inline(always)]
pub(crate) fn front_short_register(bytes: &[u8]) -> Option<(u8, Option<&[u8]>)> {
    if bytes.len() < 2 || bytes[0] != b'r' || !bytes[1].is_ascii_digit() {
        return None;
    }
    let number = bytes[1] - b'0';
    if bytes.len() == 2 {
        return Some((number, None));
    }
    if bytes[2] == b' ' {
        return Some((number, Some(&bytes[3..])));
    }
    None
}
