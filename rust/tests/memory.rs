//! How many requests for memory the calculator makes: none in a room, and two for a room.

mod counting;

use counting::requests;
use zugyelmas::calc::{Room, parse_line, run, run_in, step};
use zugyelmas::memory::Global;

const WORDS: [&str; 8] = ["i8", "i16", "i32", "i64", "u8", "u16", "u32", "u64"];
const POLICIES: [&str; 5] = ["checked", "overflowing", "wrapping", "saturating", "strict"];

/// Each operation with operands, and each of those that take a rounding with one.
const LINES: [&str; 28] = [
    "neg r1",
    "recip r1",
    "sqrt r1",
    "abs r1",
    "signum r1",
    "next_power_of_two r1",
    "add r1 r2",
    "sub r1 r2",
    "mul r1 r2",
    "div r1 r2",
    "rem r1 r2",
    "rem_euclid r1 r2",
    "div_euclid r1 r2",
    "next_multiple_of r1 r2",
    "dist r1 r2",
    "mul_int r1 3",
    "div_int r1 3",
    "rem_int r1 3",
    "rem_euclid_int r1 3",
    "div_euclid_int r1 3",
    "mul_add r1 r2 r3",
    "add_prod r1 r2 r3",
    "mul r1 r2 even",
    "div r1 r2 zero",
    "recip r1 down",
    "div_int r1 3 even",
    "mul_add r1 r2 r3 zero",
    "add_prod r1 r2 r3 even",
];

fn script(word: &str, policy: &str, line: &str) -> String {
    format!(
        "{word} 2 2 2 2\nr1 set 9\nr2 set 4\nr3 set 5\nr0 {policy} {line}\nr0 {policy} {line}\n"
    )
}

/// How many requests a run of the script in a room makes, and whether it has no cause.
fn requests_in(room: &mut Room, script: &str) -> (usize, bool) {
    assert!(room.suffices(script.as_bytes()), "{script}");
    let (count, result) = requests(|| run_in(script.as_bytes(), room));
    (count, result.is_ok())
}

/// Each operation under each policy over each word, where it is offered and where not. Not offered are three
/// remainders under three policies, abs and signum on unsigned words, and next_power_of_two on signed words and under
/// two policies; an unsigned 9 has no strict negative.
#[test]
fn a_run_in_a_room_asks_for_none() {
    let longest = script("i16", "overflowing", "add_prod r1 r2 r3 even");
    let mut room = Room::for_script(Global, longest.as_bytes()).expect("memory");
    let mut done = 0;
    for word in WORDS {
        for policy in POLICIES {
            for line in LINES {
                let script = script(word, policy, line);
                let (count, is_done) = requests_in(&mut room, &script);
                assert_eq!(count, 0, "{script}");
                done += usize::from(is_done);
            }
        }
    }
    let refused = 3 * 3 * 8 + 2 * 5 * 4 + (5 * 4 + 2 * 4) + 4;
    assert_eq!(done, 8 * 5 * LINES.len() - refused);
}

#[test]
fn a_run_in_a_room_asks_for_none_at_a_cause() {
    let longest = script("i16", "overflowing", "add_prod r1 r2 r3 even");
    let mut room = Room::for_script(Global, longest.as_bytes()).expect("memory");
    for script in [
        "",
        "i8 9\n",
        "i8 4 x\n",
        "i8 4\nr0 set 128\n",
        "i8 4\nr7 set 1\n",
        "i8 4\nr0 strict div r0 r0\n",
        "i8 4\nr0 set -1\nr0 wrapping sqrt r0\n",
        "i8 4\nr0 set 127\nr0 strict add r0 r0\n",
        "i8 4 5\nr0 wrapping add r0 r1\n",
    ] {
        assert_eq!(requests_in(&mut room, script), (0, false), "{script}");
    }
}

/// One for the registers and one for the answers, with a few bytes to spare. Without a register it is one.
#[test]
fn a_room_asks_for_two() {
    for script in ["i8 4\nr0 set 1\n", &script("u64", "strict", "add r1 r2")] {
        let (count, room) = requests(|| Room::for_script(Global, script.as_bytes()));
        assert_eq!((count, room.is_ok()), (2, true));
        let (count, answers) = requests(|| run(Global, script.as_bytes()));
        assert_eq!((count, answers.is_ok()), (2, true));
    }
    for script in ["i8\n", ""] {
        let (count, room) = requests(|| Room::for_script(Global, script.as_bytes()));
        assert_eq!((count, room.is_ok()), (1, true));
    }
}

#[test]
fn a_step_asks_for_none() {
    let start = b"i32 16 16\nr0 set 98304\nr1 set 131072\n"; // 1.5 and 2
    let mut room = Room::for_script(Global, start).expect("memory");
    run_in(start, &mut room).expect("no cause");
    for text in [
        "r0 set 7",
        "r0 checked mul r0 r1",
        "r1 wrapping add r0 r1",
        "r0 strict div r0 r2",
    ] {
        let (count, line) = requests(|| parse_line(text.as_bytes()));
        assert_eq!(count, 0, "{text}");
        let line = line.expect("a line");
        let (count, answer) = requests(|| step(&mut room, &line, 2));
        assert_eq!(
            (count, answer.is_ok()),
            (0, !text.ends_with("r2")),
            "{text}"
        );
    }
}
