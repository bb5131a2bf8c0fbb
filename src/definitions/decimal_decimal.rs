// Made by `make package` of crates/fixed_decimal/specs/Decimal.antt: changes go there.

//! The texts that are decimals, and the number of units that each stands for.
//!
//! From `crates/fixed_decimal/specs/Decimal.antt`:
//!
//! ```text
//! abbrev pub is_point : ℕ → Bool
//! is_point b = b == 46
//!
//! -- after the sign: all bytes but the first point, and those after it
//! abbrev pub digits_in : List ℕ → List ℕ
//! digits_in bytes = before_first is_point bytes ++ after_first is_point bytes
//!
//! abbrev pub places_in : List ℕ → ℕ
//! places_in bytes = length (after_first is_point bytes)
//!
//! -- how many digits and points precede the first other byte
//! abbrev pub lead : List ℕ → ℕ
//! lead bytes = prefix_len (λ b. is_ascii_digit b || is_point b) bytes
//!
//! -- why the bytes are not digits alone, at least one: the first that is not a digit, or that there is none
//! abbrev pub fault_of : ℕ → List ℕ → Option DecimalError
//! fault_of place [] = Some NoDigits
//! fault_of place (b ∷ bs) = option_map (λ c. if is_point c then TooManyPoints else InvalidDigit place) (find (λ c. not (is_ascii_digit c)) (b ∷ bs))
//!
//! -- the index of the first byte after the sign that is neither a digit nor a point
//! abbrev pub place_in : List ℕ → ℕ
//! place_in text = length text - length (without_leading_sign text) + lead (without_leading_sign text)
//!
//! -- why a text is not a decimal
//! abbrev pub fault_in : List ℕ → Option DecimalError
//! fault_in text = fault_of (place_in text) (digits_in (without_leading_sign text))
//!
//! abbrev pub unless : {A E : Type 0} → Option E → A → Result A E
//! unless None x = Ok x
//! unless (Some e) x = Err e
//!
//! -- the number that a text's digits write, with its sign
//! abbrev pub number_in : List ℕ → ℤ
//! number_in text = with_sign (starts_with_minus text) (digits_value 10 (digits_in (without_leading_sign text)))
//!
//! -- a text's number in units of 2 ^ -f, rounded: its digits over a power of ten, times 2 ^ f
//! abbrev pub decimal_row : List ℕ → ℕ → Rounding → Result ℤ DecimalError
//! decimal_row text f r = unless (fault_in text) (rounded (number_in text *ℤ pos (2 ^ f)) (pos (10 ^ places_in (without_leading_sign text))) r)
//!
//! -- the number of the bytes after a sign is a whole number of units of 2 ^ -f
//! abbrev pub is_exact_in : List ℕ → ℕ → Bool
//! is_exact_in bytes f = digits_value 10 (digits_in bytes) * 2 ^ f % 10 ^ places_in bytes == 0
//!
//! -- the row of a text, if its number is a whole number of units
//! abbrev pub exact_row : List ℕ → ℕ → Result ℤ DecimalError
//! exact_row text f = if is_exact_in (without_leading_sign text) f then decimal_row text f Zero else result_and (decimal_row text f Zero) (Err Inexact)
//! ```
