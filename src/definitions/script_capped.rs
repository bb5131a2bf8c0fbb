// Made by `make package` of crates/fixed_script/specs/Capped.antt: changes go there.

//! Numbers as the code represents them: 2 ^ 64 stands for each one of 2 ^ 64 or more.
//!
//! From `crates/fixed_script/specs/Capped.antt`:
//!
//! ```text
//! -- a capped number keeps its sign
//! abbrev pub cap_whole : ℤ → ℤ
//! cap_whole (pos n) = pos (cap n)
//! cap_whole (negsuc n) = neg_ℤ (pos (cap (suc n)))
//!
//! abbrev pub cap_operands : Operands → Operands
//! cap_operands (OneRegister a) = OneRegister (cap a)
//! cap_operands (TwoRegisters a b) = TwoRegisters (cap a) (cap b)
//! cap_operands (RegisterAndInt a k) = RegisterAndInt (cap a) (cap_whole k)
//! cap_operands (ThreeRegisters a b c) = ThreeRegisters (cap a) (cap b) (cap c)
//!
//! -- the capped form of a line
//! abbrev pub capped : ScriptLine → ScriptLine
//! capped (SetTo dest value) = SetTo (cap dest) (cap_whole value)
//! capped (Apply dest policy op operands rounding) = Apply (cap dest) policy op (cap_operands operands) rounding
//!
//! -- the value of a literal
//! abbrev pub literal_value : Decimal → ℤ
//! literal_value l = if l.below_zero then neg_ℤ (pos l.magnitude) else pos l.magnitude
//!
//! -- the line, if the operation takes operands of that arity
//! abbrev pub of_arity : Arity → Arity → ScriptLine → Option ScriptLine
//! of_arity Unary Unary line = Some line
//! of_arity Binary Binary line = Some line
//! of_arity ByInteger ByInteger line = Some line
//! of_arity Ternary Ternary line = Some line
//! of_arity _ _ line = None
//!
//! -- the line, if the operation may name that rounding
//! abbrev pub if_rounds : Op → Option Rounding → Option ScriptLine → Option ScriptLine
//! if_rounds op rounding line = if may_round op rounding then line else None
//!
//! -- the abstract line that a line of the code stands for, with the same numbers and rounding
//! abbrev pub checked_script_line : Line → Option ScriptLine
//! checked_script_line (Set dest literal) = Some (SetTo dest (literal_value literal))
//! checked_script_line (One dest policy op a r) = if_rounds op r (of_arity (arity op) Unary (Apply dest policy op (OneRegister a) r))
//! checked_script_line (Two dest policy op a b r) = if_rounds op r (of_arity (arity op) Binary (Apply dest policy op (TwoRegisters a b) r))
//! checked_script_line (Int dest policy op a literal r) = if_rounds op r (of_arity (arity op) ByInteger (Apply dest policy op (RegisterAndInt a (literal_value literal)) r))
//! checked_script_line (Three dest policy op a b c r) = if_rounds op r (of_arity (arity op) Ternary (Apply dest policy op (ThreeRegisters a b c) r))
//! ```
