// Made by `make package` of crates/tests_num/src/lib.rt, which is proved: changes go there.

//! Tests of `fixed_num` and `fixed_ops`: the calls and operators of numbers beside known answers and plain
//! computations, and each trait through its bound.

pub mod bounds;
#[cfg(test)]
mod logarithms;
#[cfg(test)]
mod numbers;
#[cfg(test)]
mod operators;
#[cfg(test)]
mod plain_names;
#[cfg(test)]
mod same;
