// Made by `make package` of crates/tests_math/src/lib.rt, which is proved: changes go there.

//! Tests of `fixed_elementary`, `fixed_math`, `fixed_natural` and `fixed_turns`: known numbers, and each call at a concrete type, through its bound.

#[cfg(test)]
mod calls;
pub mod fitting;
#[cfg(test)]
mod found;
#[cfg(test)]
mod natural;
#[cfg(test)]
mod radians;
#[cfg(test)]
mod turns;
pub mod turns_fitting;
