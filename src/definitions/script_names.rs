// Made by `make package` of crates/fixed_script/specs/Names.antt: changes go there.

//! The names that a script gives to policies, operations and roundings, and what a line of an operation has.
//!
//! From `crates/fixed_script/specs/Names.antt`:
//!
//! ```text
//! abbrev pub policy_name : Policy → List ℕ
//! policy_name Checked = codes "checked"
//! policy_name Saturating = codes "saturating"
//! policy_name Wrapping = codes "wrapping"
//! policy_name Overflowing = codes "overflowing"
//! policy_name Strict = codes "strict"
//!
//! -- an operation's name, its operands, and the rounding of a line that names none, if lines may name one
//! abbrev pub facts_of_op : Op → List ℕ × Arity × Option Rounding
//! facts_of_op Neg = (codes "neg", Unary, None)
//! facts_of_op Add = (codes "add", Binary, None)
//! facts_of_op Sub = (codes "sub", Binary, None)
//! facts_of_op Mul = (codes "mul", Binary, Some Down)
//! facts_of_op Div = (codes "div", Binary, Some Zero)
//! facts_of_op Recip = (codes "recip", Unary, Some Zero)
//! facts_of_op MulAdd = (codes "mul_add", Ternary, Some Down)
//! facts_of_op AddProd = (codes "add_prod", Ternary, Some Down)
//! facts_of_op MulInt = (codes "mul_int", ByInteger, None)
//! facts_of_op DivInt = (codes "div_int", ByInteger, Some Zero)
//! facts_of_op DivEuclid = (codes "div_euclid", Binary, None)
//! facts_of_op DivEuclidInt = (codes "div_euclid_int", ByInteger, None)
//! facts_of_op RemEuclidInt = (codes "rem_euclid_int", ByInteger, None)
//! facts_of_op NextMultipleOf = (codes "next_multiple_of", Binary, None)
//! facts_of_op Dist = (codes "dist", Binary, None)
//! facts_of_op Sqrt = (codes "sqrt", Unary, None)
//! facts_of_op Abs = (codes "abs", Unary, None)
//! facts_of_op Signum = (codes "signum", Unary, None)
//! facts_of_op Rem = (codes "rem", Binary, None)
//! facts_of_op RemInt = (codes "rem_int", ByInteger, None)
//! facts_of_op RemEuclid = (codes "rem_euclid", Binary, None)
//! facts_of_op NextPowerOfTwo = (codes "next_power_of_two", Unary, None)
//!
//! abbrev pub op_name : Op → List ℕ
//! op_name op = (facts_of_op op).0
//!
//! abbrev pub arity : Op → Arity
//! arity op = (facts_of_op op).1
//!
//! abbrev pub default_rounding : Op → Option Rounding
//! default_rounding op = (facts_of_op op).2
//!
//! abbrev pub rounding_name : Rounding → List ℕ
//! rounding_name Down = codes "down"
//! rounding_name Zero = codes "zero"
//! rounding_name Even = codes "even"
//!
//! abbrev pub policy_named : List ℕ → Option Policy
//! policy_named = named policy_name (Checked ∷ Saturating ∷ Wrapping ∷ Overflowing ∷ Strict ∷ [])
//!
//! abbrev pub all_ops : List Op
//! all_ops =
//!     Neg ∷ Add ∷ Sub ∷ Mul ∷ Div ∷ Recip ∷ MulAdd ∷ AddProd ∷ MulInt ∷ DivInt ∷ DivEuclid ∷ DivEuclidInt ∷ RemEuclidInt ∷ NextMultipleOf ∷ Dist ∷ Sqrt ∷ Abs ∷ Signum ∷ Rem ∷ RemInt ∷ RemEuclid ∷ NextPowerOfTwo ∷ []
//!
//! abbrev pub op_named : List ℕ → Option Op
//! op_named = named op_name all_ops
//!
//! abbrev pub rounding_named : List ℕ → Option Rounding
//! rounding_named = named rounding_name (Down ∷ Zero ∷ Even ∷ [])
//! ```
