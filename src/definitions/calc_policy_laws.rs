// Made by `make package` of crates/fixed_calc/specs/PolicyLaws.antt: changes go there.

//! What the policies return for one number.
//!
//! From `crates/fixed_calc/specs/PolicyLaws.antt`:
//!
//! ```text
//! -- x fits: each policy returns it
//! pub record WhereItFits (signed : Bool) (n : ℕ) (x : ℤ) : Type 0 where
//!   pub by_checked : checked signed n (Some x) ≡ Some x
//!   pub by_saturating : saturating signed n (Some x) ≡ Some x
//!   pub by_wrapping : wrapping signed n (Some x) ≡ Some x
//!   pub by_overflowing : overflowing signed n (Some x) ≡ Some (x, false)
//!
//! -- x does not fit: checked returns nothing, saturating the nearest number that fits, wrapping the wrapped number, and
//! -- overflowing the wrapped number with the verdict
//! pub record WhereItMisses (signed : Bool) (n : ℕ) (x : ℤ) : Type 0 where
//!   pub by_checked : checked signed n (Some x) ≡ None
//!   pub by_saturating : saturating signed n (Some x) ≡ Some (clamp signed n x)
//!   pub by_wrapping : wrapping signed n (Some x) ≡ Some (wrap signed n x)
//!   pub by_overflowing : overflowing signed n (Some x) ≡ Some (wrap signed n x, true)
//! ```
