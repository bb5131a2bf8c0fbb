// Made by `make package` of crates/fixed_text/specs/Readings.antt: changes go there.

//! A piece in its place, as the runs of filters, polynomials and intervals read it.
//!
//! From `crates/fixed_text/specs/Readings.antt`:
//!
//! ```text
//! -- it is malformed, has a number out of range, or is read
//! pub data Reading (A : Type 0) : Type 0 where
//!   Malformed : Reading A
//!   Misfit : Reading A
//!   Read : A → Reading A
//!
//! -- the same reading, after a function of what was read
//! abbrev pub read_map : {A B : Type 0} → (A → B) → Reading A → Reading B
//! read_map make Malformed = Malformed
//! read_map make Misfit = Misfit
//! read_map make (Read x) = Read (make x)
//!
//! -- the reading, if its number passes the test
//! abbrev pub in_range : {A : Type 0} → Bool → Reading A → Reading A
//! in_range test reading = if test then reading else Misfit
//!
//! -- a number, and numbers, that must fit
//! abbrev pub fitting_number : Bool → ℕ → Option ℤ → Reading ℤ
//! fitting_number signed n None = Malformed
//! fitting_number signed n (Some x) = in_range (fits signed n x) (Read x)
//!
//! abbrev pub fitting_numbers : Bool → ℕ → Option (List ℤ) → Reading (List ℤ)
//! fitting_numbers signed n None = Malformed
//! fitting_numbers signed n (Some xs) = in_range (list_all (fits signed n) xs) (Read xs)
//!
//! -- ---- as a run
//! -- the cause of a piece, by the number of the piece
//! pub data PieceCause : Type 0 where
//!   NoForm : ℕ → PieceCause
//!   NoRange : ℕ → PieceCause
//!
//! abbrev pub at_piece : {A : Type 0} → ℕ → Reading A → Result A PieceCause
//! at_piece k Malformed = Err (NoForm k)
//! at_piece k Misfit = Err (NoRange k)
//! at_piece k (Read x) = Ok x
//!
//! -- a piece without a newline is malformed
//! abbrev pub piece_by : {A : Type 0} → (List ℕ → Reading A) → Option (List ℕ) → Reading A
//! piece_by read None = Malformed
//! piece_by read (Some bytes) = read bytes
//!
//! abbrev pub line_by : {S : Type 0} → (S → List ℕ → Reading (S × List ℕ)) → S → ℕ → List ℕ → Result (S × List ℕ) PieceCause
//! line_by line s k piece = at_piece k (piece_by (line s) (body piece))
//!
//! -- a first piece prints nothing
//! abbrev pub first_at : {S : Type 0} → Reading S → Result (S × List ℕ) PieceCause
//! first_at reading = at_piece 1 (read_map (λ s. (s, [])) reading)
//!
//! -- what a script prints, or its first cause, by the readings of its first piece and of its lines
//! abbrev pub output_by : {S : Type 0} → (List ℕ → Reading S) → (S → List ℕ → Reading (S × List ℕ)) → List ℕ → Meaning PieceCause
//! output_by first line script = meaning_of (run_of (λ piece. first_at (piece_by first (body piece))) (line_by line) script)
//! ```
