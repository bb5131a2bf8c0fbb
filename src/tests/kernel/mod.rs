// Made by `make package` of crates/tests_kernel/src/lib.rt, which is proved: changes go there.

//! Tests of `fixed_word`, `fixed_root`, `fixed_logs`, `fixed_bits` and `fixed_kernel`: vectors of the Rust
//! crate, and plain computations beside the answers.

#[cfg(test)]
mod bits;
#[cfg(test)]
mod calls;
pub mod chained;
#[cfg(test)]
mod ends;
#[cfg(test)]
mod exhaustive;
#[cfg(test)]
mod families;
#[cfg(test)]
mod logarithms;
#[cfg(test)]
mod mixed;
#[cfg(test)]
mod named;
#[cfg(test)]
mod plain;
#[cfg(test)]
mod policies;
#[cfg(test)]
mod roots;
#[cfg(test)]
mod rounding;
#[cfg(test)]
mod vectors;
#[cfg(test)]
mod words;
