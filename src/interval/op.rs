// Made by `make package` of crates/fixed_interval/src/op.rt, which is proved: changes go there.

//! The operations on two intervals.

/// An operation on two intervals. The names are `add sub mul div`.
#[derive(Clone, Copy, Debug, PartialEq, Eq)]
pub(crate) enum IntervalOp {
    Add,
    Sub,
    Mul,
    Div,
}

/// Returns the operation with this name, or `None` if there is none.
pub(crate) fn op_of(token: &[u8]) -> Option<IntervalOp> {
    if token == b"add".as_slice() {
        Some(IntervalOp::Add)
    } else if token == b"sub".as_slice() {
        Some(IntervalOp::Sub)
    } else if token == b"mul".as_slice() {
        Some(IntervalOp::Mul)
    } else if token == b"div".as_slice() {
        Some(IntervalOp::Div)
    } else {
        None
    }
}
