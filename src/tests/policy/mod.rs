// Made by `make package` of crates/tests_policy/src/lib.rt, which is proved: changes go there.

//! Tests of `fixed_policy`, `fixed_strict` and `fixed_guide`: the typed calls on vectors of the Rust crate, each
//! trait through its bound, and the code that the README and the guide show.

pub mod bounds;
#[cfg(test)]
mod calls;
#[cfg(test)]
mod first_lines;
#[cfg(test)]
mod fitting;
#[cfg(test)]
mod guide;
#[cfg(test)]
mod plain;
#[cfg(test)]
mod products;
#[cfg(test)]
mod rounded;
#[cfg(test)]
mod rows;
#[cfg(test)]
mod signs;
