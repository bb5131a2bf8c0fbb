// Made by `make package` of crates/fixed_natural/specs/Bases.antt: changes go there.

//! The bases e and 10 as powers of 2, without real numbers: each exponent lies between two decimals.
//!
//! From `crates/fixed_natural/specs/Bases.antt`:
//!
//! ```text
//! -- decimals are numbers of units of 10^-39
//! abbrev pub decimals : ℕ
//! decimals = 10 ^ 39
//!
//! -- log2 e = 1.442695040888963407359924681001892137426.. lies between this decimal and the next
//! abbrev pub log2_e : ℕ
//! log2_e = 1442695040888963407359924681001892137426
//!
//! -- log2 10 = 3.321928094887362347870319429489390175864.. likewise
//! abbrev pub log2_10 : ℕ
//! log2_10 = 3321928094887362347870319429489390175864
//!
//! -- e = 1 + 1 / 1! + 1 / 2! + .. lies between e_sum n / n! and (e_sum n + 1) / n!: the sum has n! / i! for each i up to n
//! abbrev pub factorial : ℕ → ℕ
//! factorial zero = 1
//! factorial (suc n) = suc n * factorial n
//!
//! abbrev pub e_sum : ℕ → ℕ
//! e_sum zero = 1
//! e_sum (suc n) = suc n * e_sum n + 1
//! ```
