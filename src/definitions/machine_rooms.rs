// Made by `make package` of crates/fixed_machine/specs/Rooms.antt: changes go there.

//! What a room holds, for how much it has room, and what a run in it returns.
//!
//! From `crates/fixed_machine/specs/Rooms.antt`:
//!
//! ```text
//! -- a room as contracts see it: what it holds, and for how many registers and answer bytes it has room
//! pub record Space : Type 0 where
//!   pub word : Option WordName
//!   pub registers : List Cell
//!   pub answers : List ℕ
//!   pub register_room : ℕ
//!   pub answer_room : ℕ
//!
//! -- without a header there are no registers; with one, each is of its word
//! abbrev pub IsRoom : Option WordName → List Cell → Type 0
//! IsRoom None cells = cells ≡ []
//! IsRoom (Some word) cells = All (IsCell word) cells
//!
//! -- no header, no registers and no answers, and this room
//! pub record IsEmptySpace (registers bytes : ℕ) (room : Space) : Type 0 where
//!   pub no_word : room.word ≡ None
//!   pub no_registers : room.registers ≡ []
//!   pub no_answers : room.answers ≡ []
//!   pub for_registers : room.register_room ≡ registers
//!   pub for_answers : room.answer_room ≡ bytes
//!
//! -- the header, the answers and the room are as before
//! pub record KeepsTheRest (old new : Space) : Type 0 where
//!   pub same_word : new.word ≡ old.word
//!   pub same_answers : new.answers ≡ old.answers
//!   pub same_register_room : new.register_room ≡ old.register_room
//!   pub same_answer_room : new.answer_room ≡ old.answer_room
//!
//! -- the header's registers, and no answers
//! pub record IsStarted (h : CappedHeader) (room : Space) : Type 0 where
//!   pub its_word : room.word ≡ Some h.word
//!   pub its_registers : room.registers ≡ zeros h.fractions
//!   pub no_answers : room.answers ≡ []
//!
//! -- the room is as before
//! pub record KeepsRoom (old new : Space) : Type 0 where
//!   pub same_register_room : new.register_room ≡ old.register_room
//!   pub same_answer_room : new.answer_room ≡ old.answer_room
//!
//! -- how many spaces a piece has
//! abbrev pub spaces_in : List ℕ → ℕ
//! spaces_in piece = count_by (λ b. b == 32) piece
//!
//! -- the spaces of the first piece
//! abbrev pub spaces_of : List (List ℕ) → ℕ
//! spaces_of [] = 0
//! spaces_of (p ∷ ps) = spaces_in p
//!
//! abbrev pub spaces : List ℕ → ℕ
//! spaces script = spaces_of (pieces script)
//!
//! -- the room is large enough for a script
//! pub record Suffices (script : List ℕ) (room : Space) : Type 0 where
//!   pub for_registers : spaces script ≤ room.register_room
//!   pub for_answers : 2 * length script ≤ room.answer_room
//!
//! -- the room's header and registers are those of the state
//! abbrev pub HoldsState : Option State → Space → Type 0
//! HoldsState None room = (room.word ≡ None) × (room.registers ≡ [])
//! HoldsState (Some s) room = (room.word ≡ Some s.word) × (room.registers ≡ s.registers)
//!
//! -- the room holds what a run leaves
//! pub record Holds (run : Run State Cause) (room : Space) : Type 0 where
//!   pub its_answers : room.answers ≡ run.output
//!   pub its_state : HoldsState run.state room
//!
//! -- Ok exactly if the run has no cause, and otherwise the first one
//! abbrev pub IsAnswerOfRun : Run State Cause → Result (Unit {0}) Cause → Space → Type 0
//! IsAnswerOfRun run (Ok _) room = (run.cause ≡ None) × Holds run room
//! IsAnswerOfRun run (Err c) room = (run.cause ≡ Some c) × Holds run room
//!
//! -- what a run returns, by the meaning
//! abbrev pub IsAnswerOfMeaning : Meaning Cause → Result (List ℕ) ScriptFault → Type 0
//! IsAnswerOfMeaning m (Ok bytes) = m ≡ Output bytes
//! IsAnswerOfMeaning m (Err (Script cause)) = m ≡ Fault cause
//! IsAnswerOfMeaning m (Err Memory) = ⊤
//! ```
