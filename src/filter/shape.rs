// Made by `make package` of crates/fixed_filter/src/shape.rt, which is proved: changes go there.

//! The numbers of fraction bits of a filter.

/// The numbers of fraction bits of outputs, taps and samples. A number is its bits over 2 to the power of its number of
/// fraction bits. Calls that take a shape require that each number of fraction bits is at most the width of the word.
#[derive(Clone, Copy, PartialEq, Eq, Hash, Default, Debug)]
pub struct Shape {
    /// The number of fraction bits of outputs.
    pub out_frac: u32,
    /// The number of fraction bits of taps.
    pub coef_frac: u32,
    /// The number of fraction bits of samples.
    pub sample_frac: u32,
}
