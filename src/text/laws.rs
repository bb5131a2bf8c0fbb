// Made by `make package` of crates/fixed_text/src/laws.rt, which is proved: changes go there.

//! Laws of the definitions. These functions do nothing: the contract of each is the law.

/// A capped number fits the same words as the number, with the same value: a number that is changed fits no word.
///
/// # Proved
///
/// ```text
/// ensures { (signed : Bool) (n : ℕ) (x : ℤ) → IsWidth n
///     → checked signed n (Some (decimal_value (decimal_of x))) ≡ checked signed n (Some x) }
/// ```
///
/// Definitions: [`IsWidth`], [`checked`], [`decimal_of`], [`decimal_value`].
///
/// [`IsWidth`]: crate::definitions::word_format
/// [`checked`]: crate::definitions::word_policies
/// [`decimal_of`]: crate::definitions::text_decimals
/// [`decimal_value`]: crate::definitions::text_decimals
pub fn cap_law() {}

/// Reading a token returns the value whose text the token is. The tokens of a piece, joined by single spaces, are the
/// piece. The tokens of joined tokens without spaces are those tokens.
///
/// # Proved
///
/// ```text
/// ensures naturals { IsReader natural_text natural_in }
/// ensures wholes { IsReader whole_text whole_in }
/// ensures numbered { (letter : ℕ) → IsReader (numbered_text letter) (numbered_in letter) }
/// ensures words { IsReader word_name word_named }
/// ensures cut { (piece : List ℕ) → spaced (tokens_of piece) ≡ piece }
/// ensures joined { (token : List ℕ) (others : List (List ℕ))
///     → list_all no_space (token ∷ others) ≡ true
///     → tokens_of (spaced (token ∷ others)) ≡ token ∷ others }
/// ```
///
/// Definitions: [`natural_text`], [`whole_text`], [`natural_in`], [`numbered_in`], [`whole_in`], [`no_space`], [`numbered_text`], [`spaced`], [`tokens_of`], [`word_name`], [`word_named`].
///
/// [`natural_text`]: crate::definitions::word_decimal
/// [`whole_text`]: crate::definitions::word_decimal
/// [`natural_in`]: crate::definitions::text_numbers
/// [`numbered_in`]: crate::definitions::text_numbers
/// [`whole_in`]: crate::definitions::text_numbers
/// [`no_space`]: crate::definitions::text_texts
/// [`numbered_text`]: crate::definitions::text_texts
/// [`spaced`]: crate::definitions::text_texts
/// [`tokens_of`]: crate::definitions::text_tokens
/// [`word_name`]: crate::definitions::text_words
/// [`word_named`]: crate::definitions::text_words
pub fn reading_law() {}
