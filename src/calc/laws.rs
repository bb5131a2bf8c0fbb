// Made by `make package` of crates/fixed_calc/src/laws.rt, which is proved: changes go there.

//! Laws of the definitions. These functions do nothing: the contract of each is the law.

pub use crate::script::laws::{reading_law, text_law};
use crate::stream::{MemorySink, MemorySource, Sink, Source};

/// If `2^64` stands for each number of `2^64` or more, neither the cause of a line nor its move changes.
///
/// # Proved
///
/// ```text
/// ensures { CapsAlike }
/// ```
///
/// Definitions: [`CapsAlike`].
///
/// [`CapsAlike`]: crate::definitions::machine_cap_law
pub fn cap_law() {}

/// The output of a script is at most twice as long as the script, so the room that is made for it suffices.
///
/// # Proved
///
/// ```text
/// ensures { (script bytes : List ℕ)
///     → meaning script ≡ Output bytes → length bytes ≤ 2 * length script }
/// ```
///
/// Definitions: [`meaning`].
///
/// [`meaning`]: crate::definitions::machine_meaning
pub fn output_law() {}

/// If a number fits, checked, saturating, wrapping and overflowing all return it, as strict does. If it does not fit,
/// checked returns nothing, saturating the nearest number that fits, wrapping the wrapped number, and overflowing the
/// wrapped number with the verdict.
///
/// # Proved
///
/// ```text
/// ensures fits { (s : Bool) (n : ℕ) (x : ℤ) → IsWidth n → fits s n x ≡ true → WhereItFits s n x }
/// ensures misses { (s : Bool) (n : ℕ) (x : ℤ) → fits s n x ≡ false → WhereItMisses s n x }
/// ```
///
/// Definitions: [`IsWidth`], [`fits`].
///
/// [`IsWidth`]: crate::definitions::word_format
/// [`fits`]: crate::definitions::word_format
pub fn policy_law() {}

/// The script of a demonstration has no cause, whatever its number of lines. Its output is the texts of its answers,
/// one for each line.
///
/// # Proved
///
/// ```text
/// ensures no_cause { (n : ℕ) → (script_run (demo_text n)).cause ≡ None }
/// ensures output { (n : ℕ)
///     → meaning (demo_text n) ≡ Output (flat_map answer_text (demo_answers n)) }
/// ensures one_each { (n : ℕ) → length (demo_answers n) ≡ n }
/// ```
///
/// Definitions: [`answer_text`], [`demo_answers`], [`demo_text`], [`meaning`], [`script_run`].
///
/// [`answer_text`]: crate::definitions::machine_answers
/// [`demo_answers`]: crate::definitions::calc_demo
/// [`demo_text`]: crate::definitions::calc_demo
/// [`meaning`]: crate::definitions::machine_meaning
/// [`script_run`]: crate::definitions::machine_meaning
pub fn demo_law() {}

/// A script has the same output with a wider word of the same sign in its header, if each row that it takes is
/// undefined or fits. So `run_in` on the second script leaves the same bytes. Each script that has an output begins
/// with a header.
///
/// # Proved
///
/// ```text
/// ensures widens { (header : ScriptHeader) (wide : WordName) (lines bytes : List ℕ)
///     → IsWider header.word wide → rows_fit (start header) (pieces lines) ≡ true
///     → meaning (script_of header lines) ≡ Output bytes
///     → meaning (script_of (with_word wide header) lines) ≡ Output bytes }
/// ensures headed { (script bytes : List ℕ) → meaning script ≡ Output bytes
///     → (header : ScriptHeader) × ((lines : List ℕ) × (script ≡ script_of header lines)) }
/// ```
///
/// Definitions: [`meaning`], [`start`], [`rows_fit`], [`script_of`], [`with_word`], [`pieces`].
///
/// [`meaning`]: crate::definitions::machine_meaning
/// [`start`]: crate::definitions::machine_meaning
/// [`rows_fit`]: crate::definitions::calc_widening
/// [`script_of`]: crate::definitions::calc_widening
/// [`with_word`]: crate::definitions::calc_widening
/// [`pieces`]: crate::definitions::word_pieces
pub fn widening_law() {}

/// If no piece of a script has a space and the name of a rounding before its newline, the script means what it meant
/// before lines could name a rounding.
///
/// # Proved
///
/// ```text
/// ensures meaning { MeansAsBefore }
/// ensures lines { ReadsOldLines }
/// ```
///
/// Definitions: [`MeansAsBefore`], [`ReadsOldLines`], [`meaning`].
///
/// [`MeansAsBefore`]: crate::definitions::calc_before
/// [`ReadsOldLines`]: crate::definitions::calc_before
/// [`meaning`]: crate::definitions::machine_meaning
pub fn before_law() {}

/// A script that is spelled out means what the script means: it has the same output, or the same cause of the same
/// line.
///
/// # Proved
///
/// ```text
/// ensures { KeepsMeaning }
/// ```
///
/// Definitions: [`KeepsMeaning`].
///
/// [`KeepsMeaning`]: crate::definitions::calc_spelled
pub fn spelling_law() {}

/// The number of calls of a run that reads all of a source in memory and writes all to a sink in memory. Each read
/// returns as many bytes of the input as it may, and one more read meets the end. Each write takes as many bytes of the
/// output as it may; an output without bytes has no write.
///
/// # Proved
///
/// ```text
/// ensures reads { (calls total : ℕ) (source source' : MemoryInput) → 1 ≤ source.most
///     → ReadsUntil ⟦<MemorySource as Source>⟧.read_gives calls total (Ok 0) source source'
///     → (total ≡ length source.left) × IsCallsFor (min source.most buffer_size) total calls
///     × (source.calls + calls < last_count → source'.calls ≡ source.calls + calls + 1) }
/// ensures writes { (bytes : List ℕ) (calls : ℕ) (sink sink' : MemoryOutput) → 1 ≤ sink.most
///     → TookBytes ⟦<MemorySink as Sink>⟧.write_gives bytes calls (length bytes) sink sink'
///     → IsCallsFor sink.most (length bytes) calls
///     × (sink.calls + calls ≤ last_count → sink'.calls ≡ sink.calls + calls) }
/// ```
///
/// Definitions: [`ReadsUntil`], [`TookBytes`], [`buffer_size`], [`IsCallsFor`], [`last_count`].
///
/// [`ReadsUntil`]: crate::definitions::calc_calls
/// [`TookBytes`]: crate::definitions::calc_calls
/// [`buffer_size`]: crate::definitions::calc_calls
/// [`IsCallsFor`]: crate::definitions::stream_memory
/// [`last_count`]: crate::definitions::stream_outside
pub fn calls_law() {}
