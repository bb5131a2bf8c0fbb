// Made by `make package` of crates/fixed_turns/src/lib.rt, which is proved: changes go there.

//! Sines, cosines and angles of points, in turns or in radians, each rounded to the nearest within a proved bound.
//!
//! Each function `.._of` computes on bits, in units of `2^-frac`. It returns an [`Outcome`](crate::word::Outcome) for
//! each result: the wrapped result, and whether the result fits or is above or below the range. The methods of
//! [`Fixed`](crate::num::Fixed) are named by their policy and their operation. No function allocates.

mod angles;
mod checked;
mod constants;
mod directions;
mod guesses;
pub mod laws;
mod narrow;
mod numbers;
mod octants;
mod overflowing;
mod points;
mod radians;
mod saturating;
mod series;
mod signed;
mod sines;
mod strict;
mod unwrapped;
mod wrapping;

pub use checked::{CheckedRadians, CheckedTurns};
pub use directions::atan2_of;
pub use overflowing::{OverflowingRadians, OverflowingTurns};
pub use points::atan2_turns_of;
pub use radians::{cos_of, sin_cos_of, sin_of};
pub use saturating::{SaturatingRadians, SaturatingTurns};
pub use sines::{cos_turns_of, sin_cos_turns_of, sin_turns_of};
pub use strict::{StrictRadians, StrictTurns};
pub use unwrapped::{UnwrappedRadians, UnwrappedTurns};
pub use wrapping::{WrappingRadians, WrappingTurns};
