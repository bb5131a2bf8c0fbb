// Made by `make package` of crates/fixed_machine/src/room.rt, which is proved: changes go there.

//! The registers and the answers of a script, with room that is allocated once.

use crate::machine::answer::{Answer, SignedAnswer};
use crate::machine::buffer::Buffer;
use crate::machine::cause::Cause;
use crate::machine::piece::read_and_step;
use crate::machine::quick::QuickLine;
use crate::machine::quick_step::quick_step;
use crate::machine::register::{Register, with_sign};
use crate::machine::stepping::step_registers;
use crate::memory::Vec;
use crate::memory::{AllocError, Global};
use crate::script::{Header, Line};
use crate::text::{WordName, piece_end};
use crate::word::Word;

/// Returns whether each register has that number of fraction bits.
fn have_fraction(registers: &[Register], fraction: u32) -> bool {
    registers
        .iter()
        .all(|register| register.fraction == fraction)
}

/// Adds a register with bits 0 for each number of fraction bits, and returns whether none exceeds the width. Stops at
/// the first that does.
fn push_fractions(registers: &mut Vec<Register>, header: &Header<'_>) -> bool {
    let width = u128::from(header.word().width());
    let mut fractions = header.fractions();
    while let Some(fraction) = fractions.next() {
        if width < fraction {
            return false;
        }
        registers.push_reserved(Register {
            magnitude: 0,
            fraction: fraction as u32,
            below_zero: false,
        });
    }
    true
}

/// The word of a script's header, its registers and the bytes of its answers, with room that was made for the script.
/// Contracts see it as a `Space`: these three, and for how many registers and answer bytes there is room.
pub struct Room {
    word: Option<WordName>,
    registers: Vec<Register>,
    most: usize,
    answers: Buffer,
}

/// The bytes of all answers, each of which is one line. Contracts see them as a list of bytes.
pub struct Answers {
    bytes: Vec<u8>,
}

impl Answers {
    /// Returns answers with these bytes. This does not allocate.
    ///
    /// # Examples
    ///
    /// ```
    /// use zugyelmas::calc::Answers;
    /// use zugyelmas::memory::{Global, Vec};
    /// let bytes = Vec::from_slice(Global, b"24\n").expect("memory");
    /// let answers = Answers::new(bytes);
    ///
    /// assert_eq!(answers.as_bytes(), b"24\n");
    /// ```
    ///
    /// # Proved
    ///
    /// ```text
    /// ensures { result ≡ bytes.items }
    /// ```
    #[must_use]
    pub fn new(bytes: Vec<u8>) -> Answers {
        Answers { bytes }
    }

    /// Returns the bytes.
    ///
    /// # Examples
    ///
    /// ```
    /// use zugyelmas::calc::Answers;
    /// use zugyelmas::memory::{Global, Vec};
    /// let bytes = Vec::from_slice(Global, b"24\n").expect("memory");
    /// let answers = Answers::new(bytes);
    ///
    /// assert_eq!(answers.as_bytes(), b"24\n");
    /// ```
    ///
    /// # Proved
    ///
    /// ```text
    /// ensures { result.now ≡ self.now }
    /// ```
    #[must_use]
    pub fn as_bytes(&self) -> &[u8] {
        &self.bytes
    }

    /// Turns the answers into their bytes. This does not allocate.
    ///
    /// # Examples
    ///
    /// ```
    /// use zugyelmas::calc::Answers;
    /// use zugyelmas::memory::{Global, Vec};
    /// let bytes = Vec::from_slice(Global, b"24\n").expect("memory");
    /// let answers = Answers::new(bytes);
    ///
    /// assert_eq!(answers.into_bytes().as_slice(), b"24\n");
    /// ```
    ///
    /// # Proved
    ///
    /// ```text
    /// ensures { result.items ≡ self }
    /// ```
    #[must_use]
    pub fn into_bytes(self) -> Vec<u8> {
        self.bytes
    }
}

impl Room {
    /// Returns a room without a header, registers and answers. It has room for as many registers as the script's first
    /// piece has spaces, and for twice as many answer bytes as the script has bytes. Fails if memory runs out.
    ///
    /// # Examples
    ///
    /// ```
    /// use zugyelmas::calc::{Cause, Room, WordName, parse_header};
    /// use zugyelmas::memory::Global;
    /// let mut room = Room::for_script(Global, b"i8 4 6\nr0 set 24\n").expect("memory");
    /// let header = parse_header(b"i8 4 6").expect("a header");
    /// let larger = parse_header(b"i8 4 6 7").expect("a header");
    ///
    /// assert_eq!((room.registers(), room.word()), (0, None));
    /// assert!(room.has_room_for(&header));
    /// ```
    ///
    /// # Proved
    ///
    /// ```text
    /// ensures { IfOk result
    ///     (λ room. IsEmptySpace (spaces script.now) (2 * length script.now) room) }
    /// ```
    ///
    /// Definitions: [`spaces`], [`spaces`].
    ///
    /// [`spaces`]: crate::definitions::machine_rooms
    /// [`spaces`]: crate::definitions::machine_rooms
    pub fn for_script(alloc: Global, script: &[u8]) -> Result<Room, AllocError> {
        Room::of_size(alloc, spaces_of(script), 2 * script.len())
    }

    /// Returns a room without a header, registers and answers, with room for so many registers and answer bytes. Fails
    /// if memory runs out.
    pub(crate) fn of_size(alloc: Global, most: usize, bytes: usize) -> Result<Room, AllocError> {
        Ok(Room {
            word: None,
            registers: Vec::with_capacity(alloc, most)?,
            most,
            answers: Buffer::with_room(alloc, bytes)?,
        })
    }

    /// Returns whether the room is at least as large as the one that `for_script` returns.
    ///
    /// # Examples
    ///
    /// ```
    /// use zugyelmas::calc::{Cause, Room, WordName, parse_header};
    /// use zugyelmas::memory::Global;
    /// let mut room = Room::for_script(Global, b"i8 4 6\nr0 set 24\n").expect("memory");
    /// let header = parse_header(b"i8 4 6").expect("a header");
    /// let larger = parse_header(b"i8 4 6 7").expect("a header");
    ///
    /// assert!(room.suffices(b"i8 4 6\nr0 set 24\n"));
    /// assert!(!room.suffices(b"i8 4 6 7\n")); // no room for 3 registers
    /// ```
    ///
    /// # Proved
    ///
    /// ```text
    /// ensures { IsTrue result ↔ Suffices script.now self.now }
    /// ```
    #[must_use]
    pub fn suffices(&self, script: &[u8]) -> bool {
        spaces_of(script) <= self.most && 2 * script.len() <= self.answers.room()
    }

    pub(crate) fn clear(&mut self) {
        self.word = None;
        self.registers.clear();
        self.answers.reset();
    }

    /// Declares the registers of a header, with bits 0, and removes all answers. Fails with `OutOfRange(1)` if a number
    /// of fraction bits exceeds the width; the room then has no header, registers and answers. Precondition: there is
    /// room for the header's registers.
    ///
    /// # Examples
    ///
    /// ```
    /// use zugyelmas::calc::{Cause, Room, WordName, parse_header};
    /// use zugyelmas::memory::Global;
    /// let mut room = Room::for_script(Global, b"i8 4 6\nr0 set 24\n").expect("memory");
    /// let header = parse_header(b"i8 4 6").expect("a header");
    /// let larger = parse_header(b"i8 4 6 7").expect("a header");
    ///
    /// assert_eq!(room.declare(&header), Ok(()));
    /// assert_eq!((room.registers(), room.word()), (2, Some(WordName::I8)));
    /// let wrong = parse_header(b"i8 9").expect("a header");
    /// // the fraction is above the width
    /// assert_eq!(room.declare(&wrong), Err(Cause::OutOfRange(1)));
    /// ```
    ///
    /// ```should_panic
    /// # use zugyelmas::calc::{Cause, Room, WordName, parse_header};
    /// # use zugyelmas::memory::Global;
    /// # let mut room = Room::for_script(Global, b"i8 4 6\nr0 set 24\n").expect("memory");
    /// # let header = parse_header(b"i8 4 6").expect("a header");
    /// # let larger = parse_header(b"i8 4 6 7").expect("a header");
    /// # std::panic::set_hook(Box::new(|_| {}));
    /// let _ = room.declare(&larger); // no room for 3 registers
    /// ```
    ///
    /// # Panics
    ///
    /// Panics unless there is room for the header's registers.
    ///
    /// # Proved
    ///
    /// ```text
    /// requires { length header.now.fractions ≤ self.old.register_room }
    /// ensures ok { OnOk result ((is_wide header.now.word header.now.fractions ≡ false)
    ///     × IsStarted header.now self.new) }
    /// ensures err { IfErr result (λ cause. (is_wide header.now.word header.now.fractions ≡ true)
    ///     × (cause ≡ Cause.OutOfRange 1)
    ///     × IsEmptySpace self.old.register_room self.old.answer_room self.new) }
    /// ensures kept { KeepsRoom self.old self.new }
    /// ```
    #[track_caller]
    pub fn declare(&mut self, header: &Header<'_>) -> Result<(), Cause> {
        assert!(
            self.has_room_for(header),
            "precondition: there is room for the header's registers"
        );
        self.clear();
        if !push_fractions(&mut self.registers, header) {
            self.registers.clear();
            return Err(Cause::OutOfRange(1));
        }
        self.word = Some(header.word());
        Ok(())
    }

    /// Runs one line.
    pub(crate) fn step_line(&mut self, line: &Line, number: u64) -> Result<Answer, Cause> {
        let word = self.word.unwrap();
        match step_registers(word, &mut self.registers, line, number) {
            Ok(answer) => Ok(answer.into_answer()),
            Err(cause) => Err(cause),
        }
    }

    /// Runs one piece.
    pub(crate) fn step_piece(&mut self, piece: &[u8], number: u64) -> Result<SignedAnswer, Cause> {
        let word = self.word.unwrap();
        read_and_step(word, &mut self.registers, piece, number)
    }

    /// Runs a line that the fast path read and returns its answer. If it returns `None`, the line may have a cause, and
    /// the registers have not changed. The word is given by its name and by its type. If `one_fraction`, all registers
    /// have one number of fraction bits.
    #[inline(always)]
    pub(crate) fn step_quick_line<T: Word>(
        &mut self,
        word: WordName,
        one_fraction: bool,
        line: QuickLine,
        number: u64,
    ) -> Option<SignedAnswer> {
        quick_step::<T>(word, &mut self.registers, one_fraction, line, number)
    }

    /// Adds the text of an answer. Precondition: there is room for it.
    #[inline(always)]
    pub(crate) fn push(&mut self, answer: SignedAnswer) {
        self.answers.push_text(answer);
    }

    /// Returns the word of the declared header, or `None` if there is none. Precondition of `step`: there is one.
    ///
    /// # Examples
    ///
    /// ```
    /// use zugyelmas::calc::{Cause, Room, WordName, parse_header};
    /// use zugyelmas::memory::Global;
    /// let mut room = Room::for_script(Global, b"i8 4 6\nr0 set 24\n").expect("memory");
    /// let header = parse_header(b"i8 4 6").expect("a header");
    /// let larger = parse_header(b"i8 4 6 7").expect("a header");
    ///
    /// assert_eq!(room.word(), None);
    /// assert_eq!(room.declare(&header), Ok(()));
    /// assert_eq!(room.word(), Some(WordName::I8));
    /// ```
    ///
    /// # Proved
    ///
    /// ```text
    /// ensures { result ≡ self.now.word }
    /// ```
    #[must_use]
    pub fn word(&self) -> Option<WordName> {
        self.word
    }

    /// Returns whether there is room for the header's registers. Precondition of `declare`: there is.
    ///
    /// # Examples
    ///
    /// ```
    /// use zugyelmas::calc::{Cause, Room, WordName, parse_header};
    /// use zugyelmas::memory::Global;
    /// let mut room = Room::for_script(Global, b"i8 4 6\nr0 set 24\n").expect("memory");
    /// let header = parse_header(b"i8 4 6").expect("a header");
    /// let larger = parse_header(b"i8 4 6 7").expect("a header");
    ///
    /// assert!(room.has_room_for(&header));
    /// assert!(!room.has_room_for(&larger)); // no room for 3 registers
    /// ```
    ///
    /// # Proved
    ///
    /// ```text
    /// ensures { IsTrue result ↔ (length header.now.fractions ≤ self.now.register_room) }
    /// ```
    #[must_use]
    pub fn has_room_for(&self, header: &Header<'_>) -> bool {
        let mut left = self.most;
        let mut fractions = header.fractions();
        while fractions.next().is_some() {
            if left == 0 {
                return false;
            }
            left -= 1;
        }
        true
    }

    /// Returns whether all registers have one number of fraction bits.
    pub(crate) fn has_one_fraction(&self) -> bool {
        match self.registers.first() {
            Some(first) => have_fraction(&self.registers, first.fraction),
            None => true,
        }
    }

    /// Returns the number of registers.
    ///
    /// # Examples
    ///
    /// ```
    /// use zugyelmas::calc::{Answer, Cause, Room, parse_header, parse_line, step};
    /// use zugyelmas::memory::Global;
    /// let mut room = Room::for_script(Global, b"i8 4 6\nr0 set 24\n").expect("memory");
    /// let header = parse_header(b"i8 4 6").expect("a header");
    /// let line = parse_line(b"r0 set 24").expect("a line");
    ///
    /// assert_eq!(room.declare(&header), Ok(()));
    /// assert_eq!(room.registers(), 2);
    /// ```
    ///
    /// # Proved
    ///
    /// ```text
    /// ensures { result ≡ length self.now.registers }
    /// ```
    #[must_use]
    pub fn registers(&self) -> usize {
        self.registers.len()
    }

    /// Returns the bits of a register. Precondition: `index` is below the number of registers.
    ///
    /// # Examples
    ///
    /// ```
    /// use zugyelmas::calc::{Answer, Cause, Room, parse_header, parse_line, step};
    /// use zugyelmas::memory::Global;
    /// let mut room = Room::for_script(Global, b"i8 4 6\nr0 set 24\n").expect("memory");
    /// let header = parse_header(b"i8 4 6").expect("a header");
    /// let line = parse_line(b"r0 set 24").expect("a line");
    ///
    /// assert_eq!(room.declare(&header), Ok(()));
    /// assert_eq!(room.bits_at(0), 0);
    /// assert_eq!(step(&mut room, &line, 2), Ok(Answer::Bits(24)));
    /// assert_eq!(room.bits_at(0), 24);
    /// ```
    ///
    /// ```should_panic
    /// # use zugyelmas::calc::{Answer, Cause, Room, parse_header, parse_line, step};
    /// # use zugyelmas::memory::Global;
    /// # let mut room = Room::for_script(Global, b"i8 4 6\nr0 set 24\n").expect("memory");
    /// # let header = parse_header(b"i8 4 6").expect("a header");
    /// # let line = parse_line(b"r0 set 24").expect("a line");
    /// # std::panic::set_hook(Box::new(|_| {}));
    /// room.bits_at(0); // no register, since no header was declared
    /// ```
    ///
    /// # Panics
    ///
    /// Panics unless the register exists.
    ///
    /// # Proved
    ///
    /// ```text
    /// requires { index < length self.now.registers }
    /// ensures { result ≡ (cell_at self.now.registers index).bits }
    /// ```
    ///
    /// Definitions: [`cell_at`].
    ///
    /// [`cell_at`]: crate::definitions::machine_machine
    #[track_caller]
    #[must_use]
    pub fn bits_at(&self, index: usize) -> i128 {
        assert!(
            index < self.registers.len(),
            "precondition: the register exists"
        );
        let register = self.registers[index];
        with_sign(register.below_zero, register.magnitude)
    }

    /// Returns the number of fraction bits of a register. Precondition: `index` is below the number of registers.
    ///
    /// # Examples
    ///
    /// ```
    /// use zugyelmas::calc::{Answer, Cause, Room, parse_header, parse_line, step};
    /// use zugyelmas::memory::Global;
    /// let mut room = Room::for_script(Global, b"i8 4 6\nr0 set 24\n").expect("memory");
    /// let header = parse_header(b"i8 4 6").expect("a header");
    /// let line = parse_line(b"r0 set 24").expect("a line");
    ///
    /// assert_eq!(room.declare(&header), Ok(()));
    /// assert_eq!((room.fraction_at(0), room.fraction_at(1)), (4, 6));
    /// ```
    ///
    /// ```should_panic
    /// # use zugyelmas::calc::{Answer, Cause, Room, parse_header, parse_line, step};
    /// # use zugyelmas::memory::Global;
    /// # let mut room = Room::for_script(Global, b"i8 4 6\nr0 set 24\n").expect("memory");
    /// # let header = parse_header(b"i8 4 6").expect("a header");
    /// # let line = parse_line(b"r0 set 24").expect("a line");
    /// # std::panic::set_hook(Box::new(|_| {}));
    /// room.fraction_at(0); // no register, since no header was declared
    /// ```
    ///
    /// # Panics
    ///
    /// Panics unless the register exists.
    ///
    /// # Proved
    ///
    /// ```text
    /// requires { index < length self.now.registers }
    /// ensures { result ≡ (cell_at self.now.registers index).fraction }
    /// ```
    ///
    /// Definitions: [`cell_at`].
    ///
    /// [`cell_at`]: crate::definitions::machine_machine
    #[track_caller]
    #[must_use]
    pub fn fraction_at(&self, index: usize) -> u32 {
        assert!(
            index < self.registers.len(),
            "precondition: the register exists"
        );
        self.registers[index].fraction
    }

    /// Returns the bytes of the answers so far.
    ///
    /// # Examples
    ///
    /// ```
    /// use zugyelmas::calc::{Cause, Room, run_in};
    /// use zugyelmas::memory::Global;
    /// let script = b"i8 4\nr0 set 24\n";
    /// let mut room = Room::for_script(Global, script).expect("memory");
    ///
    /// assert_eq!(run_in(script, &mut room), Ok(()));
    /// assert_eq!(room.answers(), b"24\n");
    /// ```
    ///
    /// # Proved
    ///
    /// ```text
    /// ensures { result.now ≡ self.now.answers }
    /// ```
    #[must_use]
    pub fn answers(&self) -> &[u8] {
        self.answers.bytes()
    }

    /// Turns the room into its answers so far. This does not allocate.
    ///
    /// # Examples
    ///
    /// ```
    /// use zugyelmas::calc::{Cause, Room, run_in};
    /// use zugyelmas::memory::Global;
    /// let script = b"i8 4\nr0 set 24\n";
    /// let mut room = Room::for_script(Global, script).expect("memory");
    ///
    /// assert_eq!(run_in(script, &mut room), Ok(()));
    /// assert_eq!(room.into_answers().as_bytes(), b"24\n");
    /// ```
    ///
    /// # Proved
    ///
    /// ```text
    /// ensures { result ≡ self.answers }
    /// ```
    #[must_use]
    pub fn into_answers(self) -> Answers {
        Answers::new(self.answers.into_bytes())
    }
}

/// Runs one line of a script: stores its number, if there is one, in the destination, and returns its answer. If the
/// line has a cause, returns that with the given line number and changes no register. A line whose operation takes
/// other operands has the cause `Syntax`. The header and the answers in the room do not change. This does not allocate.
/// Precondition: a header was declared.
///
/// # Examples
///
/// ```
/// use zugyelmas::calc::{Answer, Cause, Room, parse_header, parse_line, step};
/// use zugyelmas::memory::Global;
/// let mut room = Room::for_script(Global, b"i8 4 6\nr0 set 24\n").expect("memory");
/// let header = parse_header(b"i8 4 6").expect("a header");
/// let line = parse_line(b"r0 set 24").expect("a line");
///
/// assert_eq!(room.declare(&header), Ok(()));
/// assert_eq!(step(&mut room, &line, 2), Ok(Answer::Bits(24)));
/// let line = parse_line(b"r0 strict mul_int r0 6").expect("a line");
/// assert_eq!(step(&mut room, &line, 3), Err(Cause::Overflow(3))); // 144 does not fit
/// ```
///
/// ```should_panic
/// # use zugyelmas::calc::{Answer, Cause, Room, parse_header, parse_line, step};
/// # use zugyelmas::memory::Global;
/// # let mut room = Room::for_script(Global, b"i8 4 6\nr0 set 24\n").expect("memory");
/// # let header = parse_header(b"i8 4 6").expect("a header");
/// # let line = parse_line(b"r0 set 24").expect("a line");
/// # std::panic::set_hook(Box::new(|_| {}));
/// let _ = step(&mut room, &line, 2); // no header was declared
/// ```
///
/// # Panics
///
/// Panics unless a header was declared.
///
/// # Proved
///
/// ```text
/// requires { IsSome room.old.word }
/// ensures tells { IfSome room.old.word (λ word. IsStepOfLine
///     (state_in word room.old.registers) (checked_script_line line.now) number result room.new.registers) }
/// ensures kept { KeepsTheRest room.old room.new }
/// ```
///
/// Definitions: [`checked_script_line`], [`IsStepOfLine`], [`state_in`], [`checked_script_line`], [`IsStepOfLine`], [`state_in`].
///
/// [`checked_script_line`]: crate::definitions::script_capped
/// [`IsStepOfLine`]: crate::definitions::machine_step
/// [`state_in`]: crate::definitions::machine_step
/// [`checked_script_line`]: crate::definitions::script_capped
/// [`IsStepOfLine`]: crate::definitions::machine_step
/// [`state_in`]: crate::definitions::machine_step
#[track_caller]
pub fn step(room: &mut Room, line: &Line, number: u64) -> Result<Answer, Cause> {
    assert!(room.word().is_some(), "precondition: a header was declared");
    room.step_line(line, number)
}

/// Returns the number of spaces of a piece.
pub(crate) fn spaces_in(piece: &[u8]) -> usize {
    piece.iter().filter(|byte| **byte == b' ').count()
}

/// Returns the number of spaces of the first piece.
fn spaces_of(script: &[u8]) -> usize {
    if script.is_empty() {
        return 0;
    }
    spaces_in(&script[..piece_end(script)])
}
