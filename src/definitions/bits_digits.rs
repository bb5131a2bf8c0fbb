// Made by `make package` of crates/fixed_bits/specs/Digits.antt: changes go there.

//! Words as lists of digits, the least first: of n bits, or of n / 8 bytes.
//!
//! From `crates/fixed_bits/specs/Digits.antt`:
//!
//! ```text
//! -- the number that a list of digits stands for: the sum of digit i times base ^ i
//! abbrev pub number_of : ℕ → List ℕ → ℕ
//! number_of base [] = 0
//! number_of base (digit ∷ rest) = digit + base * number_of base rest
//!
//! -- ds has k digits, and its sum differs from a by a multiple of base ^ k
//! pub record IsDigitList (base k : ℕ) (a : ℤ) (ds : List ℕ) : Type 0 where
//!   pub size : length ds ≡ k
//!   pub digits : All (λ d. d < base) ds
//!   pub sum : Congruent (base ^ k) a (pos (number_of base ds))
//!
//! -- the k lowest digits of a number
//! unfoldable pub lowest_digits : ℕ → ℕ → ℕ → List ℕ
//! lowest_digits base zero x = []
//! lowest_digits base (suc k) x = x % base ∷ lowest_digits base k (x / base)
//!
//! -- the bit list and the byte list of a word of n bits whose value is a
//! unfoldable pub bit_list : ℕ → ℤ → List ℕ
//! bit_list n a = lowest_digits 2 n (modulo a (2 ^ n))
//!
//! unfoldable pub byte_list : ℕ → ℤ → List ℕ
//! byte_list n a = lowest_digits 256 (n / 8) (modulo a (2 ^ n))
//!
//! -- ---- operations on lists of bits
//!
//! -- each digit in place of the other
//! abbrev pub complement : List ℕ → List ℕ
//! complement ds = map (λ d. 1 - d) ds
//!
//! -- f of the digits in one place
//! abbrev pub zip_with : (ℕ → ℕ → ℕ) → List ℕ → List ℕ → List ℕ
//! zip_with f (x ∷ xs) (y ∷ ys) = f x y ∷ zip_with f xs ys
//! zip_with f xs ys = []
//!
//! -- 1 where two binary digits differ
//! abbrev pub differ : ℕ → ℕ → ℕ
//! differ x y = (x + y) % 2
//!
//! -- digit i of xs stands at place (i + by) modulo the length in ys
//! pub record IsRotated (by : ℕ) (xs ys : List ℕ) : Type 0 where
//!   pub size : length ys ≡ length xs
//!   pub places : (i : ℕ) → i < length xs → slice_index ys ((i + by) % length xs) ≡ slice_index xs i
//! ```
