// Made by `make package` of crates/fixed_calc/src/top.rt, which is proved: changes go there.

//! The top call, which does all that the program does.

use crate::calc::command::{Command, command_of};
use crate::calc::error_line::write_error_line;
use crate::calc::reading::{Stop, read_all};
use crate::calc::status::Status;
use crate::calc::summary::demo_summary;
use crate::calc::writing::write_all;
use crate::machine::{ScriptFault, run};
use crate::memory::Global;
use crate::memory::String;
use crate::stream::{Refusal, Sink, Source};

/// Reads a script, runs it and writes its output.
fn read_run_write<S: Source, K: Sink>(alloc: Global, source: &mut S, sink: &mut K) -> Status {
    let script = match read_all(alloc, source) {
        Ok(script) => script,
        Err(Stop::Failed) => return Status::ReadFault,
        Err(Stop::TooLong) => return Status::TooLong,
        Err(Stop::Memory) => return Status::Memory,
    };
    let answers = match run(alloc, &script) {
        Ok(answers) => answers,
        Err(ScriptFault::Script(cause)) => return Status::Script(cause),
        Err(ScriptFault::Memory) => return Status::Memory,
    };
    match write_all(answers.as_bytes(), sink) {
        Ok(()) => Status::Done,
        Err(Refusal::Failed) => Status::WriteFault,
        Err(Refusal::Memory) => Status::Memory,
    }
}

/// Runs a demonstration and writes its summary.
fn demonstrate<K: Sink>(alloc: Global, lines: u32, sink: &mut K) -> Status {
    let summary = match demo_summary(alloc, lines) {
        Ok(summary) => summary,
        Err(_) => return Status::Memory,
    };
    match write_all(summary.as_bytes(), sink) {
        Ok(()) => Status::Done,
        Err(Refusal::Failed) => Status::WriteFault,
        Err(Refusal::Memory) => Status::Memory,
    }
}

/// Does all that `calc_main` does, except writing the line for the errors.
fn status_of<S: Source, K: Sink>(
    alloc: Global,
    words: &[String],
    source: &mut S,
    sink: &mut K,
) -> Status {
    match command_of(words) {
        Some(Command::Script) => read_run_write(alloc, source, sink),
        Some(Command::Demo(lines)) => demonstrate(alloc, lines, sink),
        None => Status::Usage,
    }
}

/// Runs the program, and returns how it ended. Without words, it reads a script from `source`, runs it and writes its
/// whole output to `sink`, or the line for its fault to `errors`. With the words `demo N`, where N is the decimal of a
/// number from 1 to 1,000,000, it reads nothing, makes the script of `demo_script`, runs it, and writes the number of
/// its lines, of its answers without a value, and of its verdicts that are true. With any other words, it returns
/// `Usage`, reads nothing, and writes nothing to `sink`.
///
/// The contract states, for each status, what was read and written. It uses the meaning of a script, which this crate's
/// specs define by a register machine: each line takes the exact result of its operation, and its policy makes the
/// answer of it.
///
/// The contract also states every read and write, in terms of the contracts of source, sink and errors. Each read uses
/// a buffer of 4,096 bytes. After a read that returned some bytes there is another, unless the limit is exceeded or the
/// status is `Memory`. After the end of the input, or after a failed read, there is none. Each write offers all bytes
/// that remain of the output, or of the line for the errors, unless none do. After a refused write there is none.
///
/// # Examples
///
/// ```
/// use zugyelmas::calc::{Status, SureSink, SureSource, calc_main};
/// use zugyelmas::memory::{Global, Vec};
/// let (mut sink, mut errors) = (SureSink::new(Global), SureSink::new(Global));
///
/// let script = Vec::from_slice(Global, b"i8 4\nr0 set 24\n").expect("memory");
/// let mut source = SureSource::new(script);
/// let status = calc_main(Global, &[], &mut source, &mut sink, &mut errors);
/// assert_eq!(status, Status::Done);
/// assert_eq!((sink.taken(), errors.taken()), (&b"24\n"[..], &b""[..]));
/// ```
///
/// # Proved
///
/// ```text
/// ensures usage { result ≡ Status.Usage ↔ IsNoCommand words.now }
/// ensures nothing_read { words.now ≢ [] → source.new ≡ source.old }
/// ensures source_faults { FaultsOfStatus (S.state source.old) (S.state source.new) result }
/// ensures sink_counts { CountsOfStatus (K.state sink.old) (K.state sink.new) result }
/// ensures nothing_written { result ≢ Status.Done
///     → result ≢ Status.WriteFault → result ≢ Status.Memory → sink.new ≡ sink.old }
/// ensures script { words.now ≡ [] → IsEndOfScript
///     (S.state source.old) (S.state source.new) (K.state sink.old) (K.state sink.new) result }
/// ensures too_long { words.now ≡ [] → WhenTooLong
///     (S.state source.old).left (S.state source.new).left (result ≡ Status.TooLong) }
/// ensures complete { words.now ≡ [] → WhenComplete
///     (S.state source.old) (S.state source.new) (K.state sink.old) (K.state sink.new) result }
/// ensures demo { (n : ℕ) → IsDemo words.now n
///     → IsEndOfDemo (K.state sink.old) (K.state sink.new) (summary n) result }
/// ensures reads { words.now ≡ [] → ReadsOfStatus S.read_gives source.old source.new result }
/// ensures writes { words.now ≡ [] → WritesOfStatus K.write_gives
///     (IsOutputOf (S.state source.old).left) sink.old sink.new result }
/// ensures demo_writes { (n : ℕ) → IsDemo words.now n
///     → WritesOfStatus K.write_gives (λ bytes. bytes ≡ summary n) sink.old sink.new result }
/// ensures line { WritesErrorLine (E.state errors.old) (E.state errors.new) result }
/// ensures line_writes { WritesOfLine E.write_gives (error_line result) errors.old errors.new }
/// ```
///
/// Definitions: [`CountsOfStatus`], [`FaultsOfStatus`], [`IsEndOfDemo`], [`IsEndOfScript`], [`IsOutputOf`], [`WhenComplete`], [`WhenTooLong`], [`WritesErrorLine`], [`error_line`], [`WritesOfLine`], [`ReadsOfStatus`], [`WritesOfStatus`], [`summary`], [`IsNoCommand`].
///
/// [`CountsOfStatus`]: crate::definitions::calc_headline
/// [`FaultsOfStatus`]: crate::definitions::calc_headline
/// [`IsEndOfDemo`]: crate::definitions::calc_headline
/// [`IsEndOfScript`]: crate::definitions::calc_headline
/// [`IsOutputOf`]: crate::definitions::calc_headline
/// [`WhenComplete`]: crate::definitions::calc_headline
/// [`WhenTooLong`]: crate::definitions::calc_headline
/// [`WritesErrorLine`]: crate::definitions::calc_headline
/// [`error_line`]: crate::definitions::calc_headline
/// [`WritesOfLine`]: crate::definitions::calc_calls
/// [`ReadsOfStatus`]: crate::definitions::calc_calls
/// [`WritesOfStatus`]: crate::definitions::calc_calls
/// [`summary`]: crate::definitions::calc_demo
/// [`IsNoCommand`]: crate::definitions::calc_command_line
pub fn calc_main<S: Source, K: Sink, E: Sink>(
    alloc: Global,
    words: &[String],
    source: &mut S,
    sink: &mut K,
    errors: &mut E,
) -> Status {
    let status = status_of(alloc, words, source, sink);
    write_error_line(status, errors);
    status
}
