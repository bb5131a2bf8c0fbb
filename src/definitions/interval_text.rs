// Made by `make package` of crates/fixed_interval/specs/Text.antt: changes go there.

//! Headers and lines of a script of intervals, with numbers of any size, and their text.
//!
//! From `crates/fixed_interval/specs/Text.antt`:
//!
//! ```text
//! -- a word, a number of fraction bits, and a number of registers
//! pub record IntervalHeader : Type 0 where
//!   pub word : WordName
//!   pub frac : ℕ
//!   pub count : ℕ
//!
//! -- two ends, or an operation with its registers
//! pub data IntervalRequest : Type 0 where
//!   SetTo : ℤ → ℤ → IntervalRequest
//!   OfTwo : IntervalOp → ℕ → ℕ → IntervalRequest
//!   RootOf : ℕ → IntervalRequest
//!
//! -- a destination, and what is stored in it
//! pub record IntervalLine : Type 0 where
//!   pub dest : ℕ
//!   pub request : IntervalRequest
//!
//! abbrev pub op_name : IntervalOp → List ℕ
//! op_name Add = codes "add"
//! op_name Sub = codes "sub"
//! op_name Mul = codes "mul"
//! op_name Div = codes "div"
//!
//! abbrev pub register_text : ℕ → List ℕ
//! register_text n = numbered_text 105 n
//!
//! abbrev pub header_tokens : IntervalHeader → List (List ℕ)
//! header_tokens h = codes "interval" ∷ word_name h.word ∷ natural_text h.frac ∷ natural_text h.count ∷ []
//!
//! abbrev pub request_tokens : IntervalRequest → List (List ℕ)
//! request_tokens (SetTo low high) = codes "set" ∷ whole_text low ∷ whole_text high ∷ []
//! request_tokens (OfTwo op a b) = op_name op ∷ register_text a ∷ register_text b ∷ []
//! request_tokens (RootOf a) = codes "sqrt" ∷ register_text a ∷ []
//!
//! abbrev pub line_tokens : IntervalLine → List (List ℕ)
//! line_tokens l = register_text l.dest ∷ request_tokens l.request
//!
//! abbrev pub header_text : IntervalHeader → List ℕ
//! header_text header = spaced (header_tokens header)
//!
//! abbrev pub line_text : IntervalLine → List ℕ
//! line_text line = spaced (line_tokens line)
//! ```
