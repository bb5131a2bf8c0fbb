// Made by `make package` of crates/fixed_filter/specs/Runs.antt: changes go there.

//! What a script of filters prints, or its first cause.
//!
//! From `crates/fixed_filter/specs/Runs.antt`:
//!
//! ```text
//! -- the word, the fractions, the taps of each channel, and all samples with their channels, the newest first
//! pub record FilterState : Type 0 where
//!   pub signed : Bool
//!   pub bits : ℕ
//!   pub shape : Shape
//!   pub bank : List (List ℤ)
//!   pub before : List (ℕ × ℤ)
//!
//! abbrev pub with_taps : List ℤ → FilterState → FilterState
//! with_taps taps state = record { signed = state.signed; bits = state.bits; shape = state.shape; bank = state.bank ++ taps ∷ []; before = state.before }
//!
//! abbrev pub with_own : ℕ → ℤ → FilterState → FilterState
//! with_own channel x state = record { signed = state.signed; bits = state.bits; shape = state.shape; bank = state.bank; before = (channel, x) ∷ state.before }
//!
//! abbrev pub has_begun : List (ℕ × ℤ) → Bool
//! has_begun [] = false
//! has_begun (e ∷ es) = true
//!
//! -- ---- the header
//! abbrev pub shape_fits : ℕ → Shape → Bool
//! shape_fits n shape = nat_le shape.out_frac n && (nat_le shape.coef_frac n && nat_le shape.sample_frac n)
//!
//! abbrev pub start : Bool → ℕ → Shape → FilterState
//! start signed bits shape = record { signed = signed; bits = bits; shape = shape; bank = []; before = [] }
//!
//! abbrev pub started : Bool → ℕ → Shape → Reading FilterState
//! started signed bits shape = in_range (shape_fits bits shape) (Read (start signed bits shape))
//!
//! abbrev pub shape_of : FilterHeader → Shape
//! shape_of h = record { out_frac = h.out; coef_frac = h.coef; sample_frac = h.sample }
//!
//! abbrev pub header_read : Option FilterHeader → Reading FilterState
//! header_read None = Malformed
//! header_read (Some header) = started (is_signed header.word) (width header.word) (shape_of header)
//!
//! abbrev pub filter_first : List ℕ → Reading FilterState
//! filter_first piece = header_read (header_of piece)
//!
//! -- ---- the lines
//! -- the decimal of the output, or the channel, the number of its sample and the tap that overflows; and a newline
//! abbrev pub reply_text : ℕ → ℕ → Reply ℤ → List ℕ
//! reply_text channel number (Value v) = whole_text v ++ (10 ∷ [])
//! reply_text channel number (Overflow tap) =
//!     codes "overflow " ++ natural_text channel ++ (32 ∷ []) ++ natural_text number ++ (32 ∷ []) ++ natural_text tap ++ (10 ∷ [])
//!
//! -- a sample is answered for with the samples of its channel alone
//! abbrev pub answer_text : FilterState → ℕ → ℤ → List ℕ
//! answer_text state channel x =
//!     reply_text channel (length (own channel state.before)) (reply_after state.signed state.bits (places_of state.shape) (taps_at state.bank channel) (x ∷ own channel state.before))
//!
//! -- a channel has its place before the first sample
//! abbrev pub taps_read : FilterState → List ℤ → Reading (FilterState × List ℕ)
//! taps_read state numbers =
//!     if has_begun state.before then Malformed else read_map (λ taps. (with_taps taps state, [])) (fitting_numbers state.signed state.bits (Some numbers))
//!
//! abbrev pub sample_read : FilterState → ℕ → ℤ → Reading (FilterState × List ℕ)
//! sample_read state channel number =
//!     in_range (nat_lt channel (length state.bank)) (read_map (λ x. (with_own channel x state, answer_text state channel x)) (fitting_number state.signed state.bits (Some number)))
//!
//! abbrev pub line_read : FilterState → Option FilterLine → Reading (FilterState × List ℕ)
//! line_read state None = Malformed
//! line_read state (Some (Taps c cs)) = taps_read state (c ∷ cs)
//! line_read state (Some (Sample channel x)) = sample_read state channel x
//!
//! abbrev pub filter_line : FilterState → List ℕ → Reading (FilterState × List ℕ)
//! filter_line state piece = line_read state (line_of piece)
//!
//! -- ---- the run
//! abbrev pub filter_output : List ℕ → Meaning PieceCause
//! filter_output = output_by filter_first filter_line
//! ```
