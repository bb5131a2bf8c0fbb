// Made by `make package` of crates/fixed_calc/specs/Demo.antt: changes go there.

//! The script of `demo N`: a header, and N lines that a generator of numbers draws. Its answers, and their summary.
//!
//! From `crates/fixed_calc/specs/Demo.antt`:
//!
//! ```text
//! -- ---- the draws
//! -- the generator's state at line i
//! unfoldable pub state_at : ℕ → ℕ
//! state_at zero = 1
//! state_at (suc i) = (6364136223846793005 * state_at i + 1442695040888963407) % 2 ^ 64
//!
//! -- ---- the lines
//! -- digit i of t in base 8, where digit 0 is the lowest
//! abbrev pub octal_digit : ℕ → ℕ → ℕ
//! octal_digit t i = t / 8 ^ i % 8
//!
//! -- the eight lines of a draw t, with destination d and operands a and b
//! abbrev pub choices : ℕ → ℕ → ℕ → ℕ → List ScriptLine
//! choices t d a b =
//!     SetTo d (pos t)
//!     ∷ Apply d Wrapping Add (TwoRegisters a b) None
//!     ∷ Apply d Overflowing Sub (TwoRegisters a b) None
//!     ∷ Apply d Saturating Mul (TwoRegisters a b) None
//!     ∷ Apply d Checked Div (TwoRegisters a b) None
//!     ∷ Apply d Wrapping MulAdd (ThreeRegisters a b d) None
//!     ∷ Apply d Overflowing AddProd (ThreeRegisters d a b) None
//!     ∷ Apply d Checked Sqrt (OneRegister a) None
//!     ∷ []
//!
//! -- digits 0, 1 and 2 are the destination and the operands, and digit 3 chooses
//! unfoldable pub drawn_line : ℕ → ScriptLine
//! drawn_line t =
//!     let d = octal_digit t 0 in
//!     slice_index_or (choices t d (octal_digit t 1) (octal_digit t 2)) (octal_digit t 3) (SetTo d (pos t))
//!
//! -- ---- the script
//! -- eight registers of 64 bits with 32 fraction bits
//! abbrev pub demo_header : ScriptHeader
//! demo_header = record { word = I64; first = 32; others = replicate 7 32 }
//!
//! -- lines 1 to n: each state draws all but its 33 lowest bits
//! unfoldable pub demo_lines : ℕ → List ScriptLine
//! demo_lines zero = []
//! demo_lines (suc i) = demo_lines i ++ (drawn_line (state_at (suc i) / 2 ^ 33) ∷ [])
//!
//! unfoldable pub demo_text : ℕ → List ℕ
//! demo_text n = ended (header_text demo_header) ++ flat_map (λ line. ended (line_text line)) (demo_lines n)
//!
//! -- ---- its answers
//! -- the answers of lines, one after another, from a state on
//! abbrev pub answers_from : State → List ScriptLine → List Answer
//! answers_from s [] = []
//! answers_from s (line ∷ lines) = answer_by row_by s line ∷ answers_from (move_by row_by s line) lines
//!
//! unfoldable pub demo_answers : ℕ → List Answer
//! demo_answers n = answers_from (start demo_header) (demo_lines n)
//!
//! -- ---- the summary
//! -- the answer has no value
//! abbrev pub is_absent : Answer → Bool
//! is_absent Absent = true
//! is_absent _ = false
//!
//! -- the answer has a verdict, which is true
//! abbrev pub has_true_verdict : Answer → Bool
//! has_true_verdict (Flagged x verdict) = verdict
//! has_true_verdict _ = false
//!
//! abbrev pub summary_text : ℕ → ℕ → ℕ → List ℕ
//! summary_text lines absent verdicts =
//!     codes "lines " ++ natural_text lines ++ codes "\nnone " ++ natural_text absent ++ codes "\ntrue " ++ natural_text verdicts ++ codes "\n"
//!
//! -- how many lines were drawn, how many answers have no value, and how many have a verdict that is true
//! unfoldable pub summary : ℕ → List ℕ
//! summary n = summary_text n (count_by is_absent (demo_answers n)) (count_by has_true_verdict (demo_answers n))
//! ```
