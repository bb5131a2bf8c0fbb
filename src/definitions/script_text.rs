// Made by `make package` of crates/fixed_script/specs/Text.antt: changes go there.

//! Lines and headers, with numbers of any size, and their text.
//!
//! From `crates/fixed_script/specs/Text.antt`:
//!
//! ```text
//! -- a word, and the fractions of the registers: the first, and the others
//! pub record ScriptHeader : Type 0 where
//!   pub word : WordName
//!   pub first : ℕ
//!   pub others : List ℕ
//!
//! -- the operands of an operation: registers by number, and a whole number
//! pub data Operands : Type 0 where
//!   OneRegister : ℕ → Operands
//!   TwoRegisters : ℕ → ℕ → Operands
//!   RegisterAndInt : ℕ → ℤ → Operands
//!   ThreeRegisters : ℕ → ℕ → ℕ → Operands
//!
//! -- `set` with a destination and a number, or a destination, a policy, an operation, its operands and perhaps a rounding
//! pub data ScriptLine : Type 0 where
//!   SetTo : ℕ → ℤ → ScriptLine
//!   Apply : ℕ → Policy → Op → Operands → Option Rounding → ScriptLine
//!
//! abbrev pub arity_of : Operands → Arity
//! arity_of (OneRegister a) = Unary
//! arity_of (TwoRegisters a b) = Binary
//! arity_of (RegisterAndInt a k) = ByInteger
//! arity_of (ThreeRegisters a b c) = Ternary
//!
//! -- whether the operation may name its rounding
//! abbrev pub takes_rounding : Op → Bool
//! takes_rounding op = is_some (default_rounding op)
//!
//! -- whether the operation may name that rounding, or none
//! abbrev pub may_round : Op → Option Rounding → Bool
//! may_round op None = true
//! may_round op (Some rounding) = takes_rounding op
//!
//! -- the operands are those of the operation, which may name that rounding
//! abbrev pub IsLine : ScriptLine → Type 0
//! IsLine (SetTo dest value) = Unit {0}
//! IsLine (Apply dest policy op operands rounding) = (arity op ≡ arity_of operands) × (may_round op rounding ≡ true)
//!
//! abbrev pub register_text : ℕ → List ℕ
//! register_text n = 114 ∷ natural_text n
//!
//! abbrev pub operand_tokens : Operands → List (List ℕ)
//! operand_tokens (OneRegister a) = register_text a ∷ []
//! operand_tokens (TwoRegisters a b) = register_text a ∷ register_text b ∷ []
//! operand_tokens (RegisterAndInt a k) = register_text a ∷ whole_text k ∷ []
//! operand_tokens (ThreeRegisters a b c) = register_text a ∷ register_text b ∷ register_text c ∷ []
//!
//! abbrev pub line_tokens : ScriptLine → List (List ℕ)
//! line_tokens (SetTo dest value) = register_text dest ∷ codes "set" ∷ whole_text value ∷ []
//! line_tokens (Apply dest policy op operands rounding) =
//!     register_text dest ∷ policy_name policy ∷ op_name op ∷ (operand_tokens operands ++ map rounding_name (option_to_list rounding))
//!
//! abbrev pub header_tokens : ScriptHeader → List (List ℕ)
//! header_tokens h = word_name h.word ∷ natural_text h.first ∷ map natural_text h.others
//!
//! -- the tokens, joined by single spaces
//! abbrev pub line_text : ScriptLine → List ℕ
//! line_text line = join_with_byte 32 (line_tokens line)
//!
//! abbrev pub header_text : ScriptHeader → List ℕ
//! header_text header = join_with_byte 32 (header_tokens header)
//! ```
