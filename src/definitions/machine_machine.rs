// Made by `make package` of crates/fixed_machine/specs/Machine.antt: changes go there.

//! The register machine: its states, the cause of a line, and its move.
//!
//! From `crates/fixed_machine/specs/Machine.antt`:
//!
//! ```text
//! -- ---- states
//! -- a register: its bits as a whole number, and its number of fraction bits
//! pub record Cell : Type 0 where
//!   pub bits : ℤ
//!   pub fraction : ℕ
//!
//! pub record State : Type 0 where
//!   pub word : WordName
//!   pub registers : List Cell
//!
//! -- an integer has no fraction bits
//! abbrev pub integer : ℤ → Cell
//! integer k = record { bits = k; fraction = 0 }
//!
//! abbrev pub cell_at : List Cell → ℕ → Cell
//! cell_at cells r = slice_index_or cells r (integer (pos 0))
//!
//! -- ---- what a line names
//! abbrev pub destination : ScriptLine → ℕ
//! destination (SetTo dest k) = dest
//! destination (Apply dest policy op xs rounding) = dest
//!
//! abbrev pub operand_registers : Operands → List ℕ
//! operand_registers (OneRegister a) = a ∷ []
//! operand_registers (TwoRegisters a b) = a ∷ b ∷ []
//! operand_registers (RegisterAndInt a k) = a ∷ []
//! operand_registers (ThreeRegisters a b c) = a ∷ b ∷ c ∷ []
//!
//! abbrev pub registers_of : ScriptLine → List ℕ
//! registers_of (SetTo dest k) = dest ∷ []
//! registers_of (Apply dest policy op xs rounding) = dest ∷ operand_registers xs
//!
//! abbrev pub literals_of : ScriptLine → List ℤ
//! literals_of (SetTo dest k) = k ∷ []
//! literals_of (Apply dest policy op (RegisterAndInt a k) rounding) = k ∷ []
//! literals_of (Apply dest policy op xs rounding) = []
//!
//! -- the operands that must have as many fraction bits as the destination
//! abbrev pub tied : Operands → Op → List ℕ
//! tied (ThreeRegisters c a b) AddProd = c ∷ []
//! tied (ThreeRegisters a m c) op = a ∷ c ∷ []
//! tied xs op = operand_registers xs
//!
//! -- ---- the row of a line
//! -- three operands, of which an operation takes the first ones
//! pub record OperandValues : Type 0 where
//!   pub a : Cell
//!   pub b : Cell
//!   pub c : Cell
//!
//! abbrev pub operand_values : List Cell → Operands → OperandValues
//! operand_values cells (OneRegister a) = record { a = cell_at cells a; b = integer (pos 0); c = integer (pos 0) }
//! operand_values cells (TwoRegisters a b) = record { a = cell_at cells a; b = cell_at cells b; c = integer (pos 0) }
//! operand_values cells (RegisterAndInt a k) = record { a = cell_at cells a; b = integer k; c = integer (pos 0) }
//! operand_values cells (ThreeRegisters a b c) = record { a = cell_at cells a; b = cell_at cells b; c = cell_at cells c }
//!
//! -- the exact result of an operation on such operands, by the rounding that a line names, if it names one
//! abbrev pub Row : Type 0
//! Row = Option Rounding → Op → OperandValues → Option ℤ
//!
//! abbrev pub row_by : Row
//! row_by rounding op t = exact op (rounding_of op rounding) t.a.bits t.b.bits t.c.bits t.a.fraction t.b.fraction t.c.fraction
//!
//! abbrev pub row_of : Op → OperandValues → Option ℤ
//! row_of op t = row_by None op t
//!
//! -- ---- causes
//! unfoldable pub is_unoffered : WordName → ScriptLine → Bool
//! is_unoffered word (SetTo dest k) = false
//! is_unoffered word (Apply dest policy op xs rounding) = not (is_offered (is_signed word) policy op)
//!
//! unfoldable pub is_out_of_range : State → ScriptLine → Bool
//! is_out_of_range s line = list_any (λ r. nat_le (length s.registers) r) (registers_of line) || list_any (λ k. not (fits (is_signed s.word) (width s.word) k)) (literals_of line)
//!
//! unfoldable pub is_mismatched : State → ScriptLine → Bool
//! is_mismatched s (SetTo dest k) = false
//! is_mismatched s (Apply dest policy op xs rounding) = list_any (λ r. not ((cell_at s.registers r).fraction == (cell_at s.registers dest).fraction)) (tied xs op)
//!
//! -- the cause of a row that is undefined, or that does not fit under a strict policy
//! unfoldable pub row_cause : Bool → ℕ → Policy → Option ℤ → Op → ℕ → Option Cause
//! row_cause signed n Checked None op k = None
//! row_cause signed n policy None Sqrt k = Some (NegativeRoot k)
//! row_cause signed n policy None op k = Some (ZeroDivisor k)
//! row_cause signed n Strict (Some x) op k = if fits signed n x then None else Some (Overflow k)
//! row_cause signed n policy (Some x) op k = None
//!
//! -- the cause of a line, if its first three tests find none
//! abbrev pub late_cause_by : Row → State → ScriptLine → ℕ → Option Cause
//! late_cause_by row s (SetTo dest x) k = None
//! late_cause_by row s (Apply dest policy op xs rounding) k = row_cause (is_signed s.word) (width s.word) policy (row rounding op (operand_values s.registers xs)) op k
//!
//! -- the first of these causes
//! abbrev pub cause_by : Row → State → ScriptLine → ℕ → Option Cause
//! cause_by row s line k =
//!     if is_unoffered s.word line then Some (Syntax k)
//!     else if is_out_of_range s line then Some (OutOfRange k)
//!     else if is_mismatched s line then Some (FractionMismatch k)
//!     else late_cause_by row s line k
//!
//! abbrev pub cause : State → ScriptLine → ℕ → Option Cause
//! cause = cause_by row_by
//!
//! -- ---- moves
//! unfoldable pub answer_by : Row → State → ScriptLine → Answer
//! answer_by row s (SetTo dest k) = Bits k
//! answer_by row s (Apply dest policy op xs rounding) = project policy (is_signed s.word) (width s.word) (row rounding op (operand_values s.registers xs))
//!
//! abbrev pub answer : State → ScriptLine → Answer
//! answer = answer_by row_by
//!
//! abbrev pub stored : List Cell → ℕ → Answer → List Cell
//! stored cells dest Absent = cells
//! stored cells dest (Bits x) = slice_set cells dest (record { bits = x; fraction = (cell_at cells dest).fraction })
//! stored cells dest (Flagged x verdict) = slice_set cells dest (record { bits = x; fraction = (cell_at cells dest).fraction })
//!
//! abbrev pub move_by : Row → State → ScriptLine → State
//! move_by row s line = record { word = s.word; registers = stored s.registers (destination line) (answer_by row s line) }
//!
//! abbrev pub move : State → ScriptLine → State
//! move = move_by row_by
//! ```
