// Made by `make package` of crates/fixed_interval/specs/Runs.antt: changes go there.

//! What a script of intervals prints, or its first cause.
//!
//! From `crates/fixed_interval/specs/Runs.antt`:
//!
//! ```text
//! -- the word, the number of fraction bits and the registers
//! pub record IntervalState : Type 0 where
//!   pub signed : Bool
//!   pub bits : ℕ
//!   pub frac : ℕ
//!   pub registers : List Ends
//!
//! abbrev pub zero_ends : Ends
//! zero_ends = record { low = pos 0; high = pos 0 }
//!
//! abbrev pub register_at : IntervalState → ℕ → Ends
//! register_at state i = slice_index_or state.registers i zero_ends
//!
//! abbrev pub with_register : ℕ → Ends → IntervalState → IntervalState
//! with_register i e state = record { signed = state.signed; bits = state.bits; frac = state.frac; registers = slice_set state.registers i e }
//!
//! abbrev pub is_register : IntervalState → ℕ → Bool
//! is_register state i = nat_lt i (length state.registers)
//!
//! -- ---- the header
//! abbrev pub most_registers : ℕ
//! most_registers = 1000000
//!
//! abbrev pub start : Bool → ℕ → ℕ → ℕ → IntervalState
//! start signed bits frac count = record { signed = signed; bits = bits; frac = frac; registers = replicate count zero_ends }
//!
//! abbrev pub started : Bool → ℕ → ℕ → ℕ → Reading IntervalState
//! started signed bits frac count =
//!     in_range (nat_le frac bits && (nat_le 1 count && nat_le count most_registers)) (Read (start signed bits frac count))
//!
//! abbrev pub header_read : Option IntervalHeader → Reading IntervalState
//! header_read None = Malformed
//! header_read (Some header) = started (is_signed header.word) (width header.word) header.frac header.count
//!
//! abbrev pub interval_first : List ℕ → Reading IntervalState
//! interval_first piece = header_read (header_of piece)
//!
//! -- ---- the lines
//! -- both ends, separated by one space, and a newline
//! abbrev pub ends_text : Ends → List ℕ
//! ends_text e = whole_text e.low ++ (32 ∷ []) ++ whole_text e.high ++ (10 ∷ [])
//!
//! -- the destination gets the ends, or does not change if there are none
//! abbrev pub answered : IntervalState → ℕ → Option Ends → Reading (IntervalState × List ℕ)
//! answered state dest None = Read (state, codes "none" ++ (10 ∷ []))
//! answered state dest (Some e) = Read (with_register dest e state, ends_text e)
//!
//! abbrev pub ends_by : IntervalOp → ℕ → Ends → Ends → Option Ends
//! ends_by Add frac a b = sum_ends a b
//! ends_by Sub frac a b = difference_ends a b
//! ends_by Mul frac a b = product_ends a b frac
//! ends_by Div frac a b = quotient_ends a b frac
//!
//! -- the results of operations on registers, if they fit
//! abbrev pub made_of_two : IntervalState → IntervalOp → ℕ → ℕ → Option Ends
//! made_of_two state op a b = fitting state.signed state.bits (ends_by op state.frac (register_at state a) (register_at state b))
//!
//! abbrev pub made_by_root : IntervalState → ℕ → Option Ends
//! made_by_root state a = fitting state.signed state.bits (root_ends (register_at state a) state.frac)
//!
//! -- the interval of two ends that fit and are in order
//! abbrev pub set_ends : Bool → ℕ → ℤ → ℤ → Option Ends
//! set_ends signed bits low high =
//!     if fits signed bits low && (fits signed bits high && int_le low high) then Some (record { low = low; high = high }) else None
//!
//! -- given ends are out of range if there is no interval with them
//! abbrev pub stored : IntervalState → ℕ → Option Ends → Reading (IntervalState × List ℕ)
//! stored state dest None = Misfit
//! stored state dest (Some e) = answered state dest (Some e)
//!
//! abbrev pub request_read : IntervalState → ℕ → IntervalRequest → Reading (IntervalState × List ℕ)
//! request_read state dest (SetTo low high) = stored state dest (set_ends state.signed state.bits low high)
//! request_read state dest (OfTwo op a b) = in_range (is_register state a) (in_range (is_register state b) (answered state dest (made_of_two state op a b)))
//! request_read state dest (RootOf a) = in_range (is_register state a) (answered state dest (made_by_root state a))
//!
//! abbrev pub line_read : IntervalState → Option IntervalLine → Reading (IntervalState × List ℕ)
//! line_read state None = Malformed
//! line_read state (Some l) = in_range (is_register state l.dest) (request_read state l.dest l.request)
//!
//! abbrev pub interval_line : IntervalState → List ℕ → Reading (IntervalState × List ℕ)
//! interval_line state piece = line_read state (line_of piece)
//!
//! -- ---- the run
//! abbrev pub interval_output : List ℕ → Meaning PieceCause
//! interval_output = output_by interval_first interval_line
//! ```
