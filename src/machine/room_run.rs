// Made by `make package` of crates/fixed_machine/src/room_run.rt, which is proved: changes go there.

//! Running a whole script in a room.

use crate::machine::cause::{Cause, ScriptFault};
use crate::machine::quick::{LONGEST, quick_line};
use crate::machine::room::{Answers, Room, spaces_in};
use crate::memory::Global;
use crate::script::{Header, header_of_piece};
use crate::text::{WordName, piece_end};
use crate::word::Word;

/// Runs the first line of the rest, and returns where it ends.
fn answer_line(rest: &[u8], number: u64, room: &mut Room) -> Result<usize, Cause> {
    let end = piece_end(rest);
    match room.step_piece(&rest[..end], number) {
        Ok(answer) => {
            room.push(answer);
            Ok(end)
        }
        Err(cause) => Err(cause),
    }
}

/// Runs the first line of the rest, if the fast path reads it and it has no cause, and returns where it ends. If it
/// returns `None`, nothing has changed. Preconditions: as many bytes remain as such a line may have, there are `count`
/// registers or more, and if `one_fraction`, all registers have one number of fraction bits.
#[inline(always)]
fn answer_quick_line<T: Word>(
    word: WordName,
    rest: &[u8],
    count: u8,
    one_fraction: bool,
    number: u64,
    room: &mut Room,
) -> Option<usize> {
    let (line, end) = match quick_line(rest, count) {
        Some(found) => found,
        None => return None,
    };
    match room.step_quick_line::<T>(word, one_fraction, line, number) {
        Some(answer) => {
            room.push(answer);
            Some(end)
        }
        None => None,
    }
}

/// Runs the lines from a place on, as long as the fast path reads them and they have no cause. Returns where the next
/// line begins, and its number. If `one_fraction`, all registers have one number of fraction bits.
#[inline(always)]
fn answer_quick_lines<T: Word>(
    word: WordName,
    lines: &[u8],
    one_fraction: bool,
    from: usize,
    first: u64,
    room: &mut Room,
) -> (usize, u64) {
    let count = room.registers().min(100) as u8;
    let mut at = from;
    let mut number = first;
    while lines.len() - at >= LONGEST {
        match answer_quick_line::<T>(word, &lines[at..], count, one_fraction, number, room) {
            Some(end) => at += end,
            None => return (at, number),
        }
        number += 1;
    }
    (at, number)
}

/// Runs the lines after the header, on the word of that name and type.
fn answer_lines_as<T: Word>(word: WordName, lines: &[u8], room: &mut Room) -> Result<(), Cause> {
    let one_fraction = room.has_one_fraction();
    let mut at = 0;
    let mut number = 2;
    while at < lines.len() {
        (at, number) = answer_quick_lines::<T>(word, lines, one_fraction, at, number, room);
        if at < lines.len() {
            match answer_line(&lines[at..], number, room) {
                Ok(end) => at += end,
                Err(cause) => return Err(cause),
            }
            number += 1;
        }
    }
    Ok(())
}

/// Runs the lines after the header.
fn answer_lines(word: WordName, lines: &[u8], room: &mut Room) -> Result<(), Cause> {
    match word {
        WordName::I8 => answer_lines_as::<i8>(word, lines, room),
        WordName::I16 => answer_lines_as::<i16>(word, lines, room),
        WordName::I32 => answer_lines_as::<i32>(word, lines, room),
        WordName::I64 => answer_lines_as::<i64>(word, lines, room),
        WordName::U8 => answer_lines_as::<u8>(word, lines, room),
        WordName::U16 => answer_lines_as::<u16>(word, lines, room),
        WordName::U32 => answer_lines_as::<u32>(word, lines, room),
        WordName::U64 => answer_lines_as::<u64>(word, lines, room),
    }
}

/// Returns the header of a script, and where its lines begin, or `None` if its first piece is not a header.
fn open_script(script: &[u8]) -> Option<(Header<'_>, usize)> {
    if script.is_empty() {
        return None;
    }
    let end = piece_end(script);
    match header_of_piece(&script[..end]) {
        Some(header) => Some((header, end)),
        None => None,
    }
}

/// Declares the registers of a script's header and runs the lines, which begin at `end`. Precondition: there is room.
fn run_from(script: &[u8], header: &Header<'_>, end: usize, room: &mut Room) -> Result<(), Cause> {
    match room.declare(header) {
        Ok(()) => answer_lines(header.word(), &script[end..], room),
        Err(cause) => Err(cause),
    }
}

/// Runs a script from a fresh start, without allocation. Leaves all answers in the room. If a line has a cause, returns
/// the first one and leaves the registers and the answers of the lines before it in the room. Precondition: the room
/// suffices for the script, as `suffices` tests.
///
/// # Examples
///
/// ```
/// use zugyelmas::calc::{Cause, Room, run_in};
/// use zugyelmas::memory::Global;
/// let script = b"i8 4\nr0 set 24\n";
/// let mut room = Room::for_script(Global, script).expect("memory");
///
/// assert_eq!(run_in(script, &mut room), Ok(()));
/// assert_eq!(room.answers(), b"24\n");
/// // no such register
/// assert_eq!(run_in(b"i8 4\nr1 set 5\n", &mut room), Err(Cause::OutOfRange(2)));
/// ```
///
/// ```should_panic
/// # use zugyelmas::calc::{Cause, Room, run_in};
/// # use zugyelmas::memory::Global;
/// # let script = b"i8 4\nr0 set 24\n";
/// # let mut room = Room::for_script(Global, script).expect("memory");
/// # std::panic::set_hook(Box::new(|_| {}));
/// let _ = run_in(b"i8 4 6\nr0 set 24\n", &mut room); // the room does not suffice
/// ```
///
/// # Panics
///
/// Panics unless the room suffices for the script.
///
/// # Proved
///
/// ```text
/// requires { Suffices script.now room.old }
/// ensures tells { IsAnswerOfRun (script_run script.now) result room.new }
/// ensures kept { KeepsRoom room.old room.new }
/// ```
///
/// Definitions: [`script_run`], [`IsAnswerOfRun`].
///
/// [`script_run`]: crate::definitions::machine_meaning
/// [`IsAnswerOfRun`]: crate::definitions::machine_rooms
#[track_caller]
pub fn run_in(script: &[u8], room: &mut Room) -> Result<(), Cause> {
    assert!(
        room.suffices(script),
        "precondition: the room suffices for the script"
    );
    match open_script(script) {
        Some((header, end)) => run_from(script, &header, end, room),
        None => {
            room.clear();
            Err(Cause::Syntax(1))
        }
    }
}

/// Runs a script and returns its answers. Fails with the first cause of a line, or if memory runs out, and then returns
/// no answers.
///
/// # Examples
///
/// ```
/// use zugyelmas::calc::{Cause, ScriptFault, run};
/// use zugyelmas::memory::Global;
///
/// let answers = run(Global, b"i8 4\nr0 set 24\nr0 checked add r0 r0\n").expect("a script");
/// assert_eq!(answers.as_bytes(), b"24\n48\n");
/// let fault = run(Global, b"i8 4\nr1 set 24\n").err();
/// // no such register
/// assert_eq!(fault, Some(ScriptFault::Script(Cause::OutOfRange(2))));
/// ```
///
/// # Proved
///
/// ```text
/// ensures { IsAnswerOfMeaning (meaning script.now) result }
/// ```
///
/// Definitions: [`meaning`], [`IsAnswerOfMeaning`].
///
/// [`meaning`]: crate::definitions::machine_meaning
/// [`IsAnswerOfMeaning`]: crate::definitions::machine_rooms
pub fn run(alloc: Global, script: &[u8]) -> Result<Answers, ScriptFault> {
    let Some((header, end)) = open_script(script) else {
        return Err(ScriptFault::Script(Cause::Syntax(1)));
    };
    let mut room = match Room::of_size(alloc, spaces_in(&script[..end]), 2 * script.len()) {
        Ok(room) => room,
        Err(_) => return Err(ScriptFault::Memory),
    };
    match run_from(script, &header, end, &mut room) {
        Ok(()) => Ok(room.into_answers()),
        Err(cause) => Err(ScriptFault::Script(cause)),
    }
}
