// Made by `make package` of crates/fixed_filter/src/laws.rt, which is proved: changes go there.

//! Laws of the definitions. These functions do nothing: the contract of each is the law.

/// If products are shifted right by s bits, an output lies at or below the exact sum, by at most `1 - 2^-s` units of
/// the output for each tap. If products are shifted left, the output is the exact sum.
///
/// # Proved
///
/// ```text
/// ensures from_zero { (signed : Bool) (n s : ℕ) (v : ℤ) (ps : List (ℤ × ℤ))
///     → filter_reply signed n (pos s) ps ≡ Value v
///     → pos 0 ≤ℤ (products ps -ℤ v *ℤ pos (2 ^ s)) }
/// ensures at_most { (signed : Bool) (n s : ℕ) (v : ℤ) (ps : List (ℤ × ℤ))
///     → filter_reply signed n (pos s) ps ≡ Value v
///     → (products ps -ℤ v *ℤ pos (2 ^ s)) ≤ℤ pos (length ps * (2 ^ s - 1)) }
/// ensures exact { (signed : Bool) (n t : ℕ) (v : ℤ) (ps : List (ℤ × ℤ))
///     → filter_reply signed n (negsuc t) ps ≡ Value v
///     → v ≡ products ps *ℤ pos (2 ^ suc t) }
/// ```
///
/// Definitions: [`products`], [`filter_reply`].
///
/// [`products`]: crate::definitions::policy_dot_product
/// [`filter_reply`]: crate::definitions::filter_replies
pub fn output_law() {}

/// If each output of a run of a second-order section fits, it lies within `5 (S - 1) / (S - A)` units of the output of
/// the exact run, which begins with the same samples and outputs, and rounds no product. S is `2^g`, and A, which is below
/// S, is the sum of the magnitudes of the bits of `a1` and `a2`. The clause has this bound times `S^k (S - A)`, where k
/// is the number of samples.
///
/// # Proved
///
/// ```text
/// ensures { (signed : Bool) (n g : ℕ) (c : Coefficients) (start last : SectionPast) (samples : List ℤ)
///     → computed_past signed n g c start samples ≡ Some last
///     → feedback c < 2 ^ g
///     → run_error g c start samples last.y1 * (2 ^ g - feedback c)
///     ≤ 5 * (2 ^ g - 1) * 2 ^ (g * length samples) }
/// ```
///
/// Definitions: [`computed_past`], [`feedback`], [`run_error`].
///
/// [`computed_past`]: crate::definitions::filter_sections
/// [`feedback`]: crate::definitions::filter_sections
/// [`run_error`]: crate::definitions::filter_sections
pub fn run_law() {}

/// The replies to the samples of one channel are those of a bank that has only this channel and takes only these
/// samples.
///
/// # Proved
///
/// ```text
/// ensures { (signed : Bool) (n : ℕ) (s : ℤ) (bank : List (List ℤ)) (channel : ℕ)
///     (samples : List (ℕ × ℤ))
///     → own channel (replies signed n s bank [] samples)
///     ≡ own 0 (replies signed n s (taps_at bank channel ∷ []) [] (alone (own channel samples))) }
/// ```
///
/// Definitions: [`alone`], [`own`], [`replies`], [`taps_at`].
///
/// [`alone`]: crate::definitions::filter_outputs
/// [`own`]: crate::definitions::filter_outputs
/// [`replies`]: crate::definitions::filter_outputs
/// [`taps_at`]: crate::definitions::filter_outputs
pub fn channel_law() {}

/// A script that adds channels and then gives them samples prints the replies to the samples, in order, if each number
/// of fraction bits is at most the width, taps and samples fit, and the channel of each sample exists.
/// [`channel_law`](channel_law) holds for these replies.
///
/// # Proved
///
/// ```text
/// ensures { (h : FilterHeader) (channels : List (ℤ × List ℤ)) (samples : List (ℕ × ℤ))
///     → shape_fits (width h.word) (shape_of h) ≡ true
///     → all_fit (is_signed h.word) (width h.word) (taps_of_channels channels) ≡ true
///     → are_samples (is_signed h.word) (width h.word) (length channels) samples ≡ true
///     → filter_output (script_text h (channels_and_samples channels samples))
///     ≡ Output (reply_texts [] (replies (is_signed h.word) (width h.word)
///     (places_of (shape_of h)) (taps_of_channels channels) [] samples)) }
/// ```
///
/// Definitions: [`is_signed`], [`width`], [`places_of`], [`replies`], [`filter_output`], [`shape_fits`], [`shape_of`], [`all_fit`], [`are_samples`], [`channels_and_samples`], [`reply_texts`], [`script_text`], [`taps_of_channels`].
///
/// [`is_signed`]: crate::definitions::text_words
/// [`width`]: crate::definitions::text_words
/// [`places_of`]: crate::definitions::filter_banks
/// [`replies`]: crate::definitions::filter_outputs
/// [`filter_output`]: crate::definitions::filter_runs
/// [`shape_fits`]: crate::definitions::filter_runs
/// [`shape_of`]: crate::definitions::filter_runs
/// [`all_fit`]: crate::definitions::filter_scripts
/// [`are_samples`]: crate::definitions::filter_scripts
/// [`channels_and_samples`]: crate::definitions::filter_scripts
/// [`reply_texts`]: crate::definitions::filter_scripts
/// [`script_text`]: crate::definitions::filter_scripts
/// [`taps_of_channels`]: crate::definitions::filter_scripts
pub fn script_law() {}

/// Reading a piece as a header, or as a line, returns the one whose text the piece is, and nothing if there is none.
///
/// # Proved
///
/// ```text
/// ensures headers { IsReader header_text header_of }
/// ensures lines { IsReader line_text line_of }
/// ```
///
/// Definitions: [`header_of`], [`line_of`], [`header_text`], [`line_text`].
///
/// [`header_of`]: crate::definitions::filter_lines
/// [`line_of`]: crate::definitions::filter_lines
/// [`header_text`]: crate::definitions::filter_text
/// [`line_text`]: crate::definitions::filter_text
pub fn text_law() {}
