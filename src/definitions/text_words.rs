// Made by `make package` of crates/fixed_text/specs/Words.antt: changes go there.

//! The names of the words, and their formats.
//!
//! From `crates/fixed_text/specs/Words.antt`:
//!
//! ```text
//! -- a word's name, whether the word is signed, and how many bits it has
//! abbrev pub facts_of : WordName → List ℕ × Bool × ℕ
//! facts_of I8 = (codes "i8", true, 8)
//! facts_of I16 = (codes "i16", true, 16)
//! facts_of I32 = (codes "i32", true, 32)
//! facts_of I64 = (codes "i64", true, 64)
//! facts_of U8 = (codes "u8", false, 8)
//! facts_of U16 = (codes "u16", false, 16)
//! facts_of U32 = (codes "u32", false, 32)
//! facts_of U64 = (codes "u64", false, 64)
//!
//! abbrev pub word_name : WordName → List ℕ
//! word_name word = (facts_of word).0
//!
//! abbrev pub is_signed : WordName → Bool
//! is_signed word = (facts_of word).1
//!
//! abbrev pub width : WordName → ℕ
//! width word = (facts_of word).2
//!
//! -- the first of the values whose name is the text
//! abbrev pub named : {X : Type 0} → (X → List ℕ) → List X → List ℕ → Option X
//! named name [] text = None
//! named name (x ∷ xs) text = if bytes_eq text (name x) then Some x else named name xs text
//!
//! abbrev pub word_named : List ℕ → Option WordName
//! word_named = named word_name (I8 ∷ I16 ∷ I32 ∷ I64 ∷ U8 ∷ U16 ∷ U32 ∷ U64 ∷ [])
//! ```
