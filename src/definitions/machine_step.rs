// Made by `make package` of crates/fixed_machine/specs/Step.antt: changes go there.

//! What a step returns.
//!
//! From `crates/fixed_machine/specs/Step.antt`:
//!
//! ```text
//! abbrev pub cell_of : Register → Cell
//! cell_of r = record { bits = with_sign r.below_zero r.magnitude; fraction = r.fraction }
//!
//! abbrev pub cells_of : List Register → List Cell
//! cells_of rs = map cell_of rs
//!
//! abbrev pub state_in : WordName → List Cell → State
//! state_in word cells = record { word = word; registers = cells }
//!
//! -- a register of a format
//! pub record FitsFormat (signed : Bool) (n : ℕ) (cell : Cell) : Type 0 where
//!   pub value : IsTrue (fits signed n cell.bits)
//!   pub fraction : cell.fraction ≤ n
//!
//! -- a register of a word
//! abbrev pub IsCell : WordName → Cell → Type 0
//! IsCell word cell = FitsFormat (is_signed word) (width word) cell
//!
//! -- the answer of the move and its registers, or the line's cause and the unchanged registers
//! abbrev pub IsStepOfLine : State → Option ScriptLine → ℕ → Result Answer Cause → List Cell → Type 0
//! IsStepOfLine s None k (Ok a) cells = ⊥
//! IsStepOfLine s None k (Err c) cells = (c ≡ Syntax k) × (cells ≡ s.registers)
//! IsStepOfLine s (Some line) k (Ok a) cells = (cause s line k ≡ None) × (a ≡ answer s line) × (cells ≡ (move s line).registers)
//! IsStepOfLine s (Some line) k (Err c) cells = (cause s line k ≡ Some c) × (cells ≡ s.registers)
//! ```
