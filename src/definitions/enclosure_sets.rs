// Made by `make package` of crates/fixed_enclosure/specs/Sets.antt: changes go there.

//! Enclosures as sets of numbers.
//!
//! From `crates/fixed_enclosure/specs/Sets.antt`:
//!
//! ```text
//! -- x is between the ends
//! pub record Contains (e : Ends) (x : ℤ) : Type 0 where
//!   pub from_low : e.low ≤ℤ x
//!   pub to_high : x ≤ℤ e.high
//!
//! -- R holds for each number of a and each number of b
//! abbrev pub ForAll : (ℤ → ℤ → Type 0) → Ends → Ends → Type 0
//! ForAll R a b = (x y : ℤ) → Contains a x → Contains b y → R x y
//!
//! -- R holds for some number of a and some number of b
//! abbrev pub ForSome : (ℤ → ℤ → Type 0) → Ends → Ends → Type 0
//! ForSome R a b = (x : ℤ) × (y : ℤ) × Contains a x × Contains b y × R x y
//!
//! -- the narrowest ends around both
//! abbrev pub hull_of : Ends → Ends → Ends
//! hull_of a b = record { low = int_min a.low b.low; high = int_max a.high b.high }
//!
//! -- the ends of the numbers in both, if there are any
//! abbrev pub common_of : Ends → Ends → Option Ends
//! common_of a b =
//!     let e : Ends = record { low = int_max a.low b.low; high = int_min a.high b.high } in
//!     if int_le e.low e.high then Some e else None
//!
//! -- both ends fit the word
//! abbrev pub EndsFit : Bool → ℕ → Ends → Type 0
//! EndsFit signed n e = InRange signed n e.low × InRange signed n e.high
//! ```
