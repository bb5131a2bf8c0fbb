//! The runs over text as Cargo builds them: scripts with known answers.

use zugyelmas::filter::{Bank, FilterFault, Reply, Shape, filter_run};
use zugyelmas::interval::{IntervalFault, interval_run};
use zugyelmas::memory::Global;
use zugyelmas::poly::{PolyFault, poly_run};

#[test]
fn the_examples_answer_as_stated() {
    let smooth = include_str!("../../examples/runs/smooth.txt");
    let output = filter_run(Global, smooth.as_bytes()).expect("no cause");
    let answers = include_str!("../../examples/runs/smooth.answers");
    assert_eq!(output.as_bytes(), answers.as_bytes());
    let plate = include_str!("../../examples/runs/plate.txt");
    let output = interval_run(Global, plate.as_bytes()).expect("no cause");
    let answers = include_str!("../../examples/runs/plate.answers");
    assert_eq!(output.as_bytes(), answers.as_bytes());
}

#[test]
fn filters() {
    let interleaved = "filter i8 0 0 0\ntaps 100 1\ntaps 1\nc0 1\nc0 2\nc1 5\nc0 0\n";
    for (script, answer) in [
        (interleaved, Ok("100\noverflow 0 1 0\n5\n2\n")),
        ("filter i8 9 0 0\n", Err(FilterFault::OutOfRange(1))),
        ("filter i8 0 0 0\ntaps\n", Err(FilterFault::Syntax(2))),
    ] {
        let done = filter_run(Global, script.as_bytes());
        let done = done.as_ref().map(|output| output.as_bytes());
        assert_eq!(done, answer.as_ref().map(|text| text.as_bytes()));
    }
}

#[test]
fn polynomials() {
    for (script, answer) in [
        ("poly i16 8\ncoefs 256 128 64\nat 128\n", Ok("336\n")),
        (
            "poly i8 4\ncoefs 0 100 100\nat 16\nat 0\n",
            Ok("overflow 1\n0\n"),
        ),
        ("poly i8 4\nat 1\n", Err(PolyFault::Syntax(2))),
        ("poly i8 4\ncoefs 128\n", Err(PolyFault::OutOfRange(2))),
    ] {
        let done = poly_run(Global, script.as_bytes());
        let done = done.as_ref().map(|output| output.as_bytes());
        assert_eq!(done, answer.as_ref().map(|text| text.as_bytes()));
    }
}

/// Lines after the header `interval i8 4 2`, and what they print.
const LINES: [(&str, &str); 8] = [
    // 16 * 16 / 48 is 5 and a third, and 24 * 16 / 32 is 12.
    (
        "i0 set 16 24\ni1 set 32 48\ni0 div i0 i1\n",
        "16 24\n32 48\n5 12\n",
    ),
    // The corners are -24 * 3, -24 * 8, 40 * 3 and 40 * 8 over 16, of which -12 is the least and 20 the greatest.
    (
        "i0 set -24 40\ni1 set 3 8\ni0 mul i0 i1\n",
        "-24 40\n3 8\n-12 20\n",
    ),
    // A third, of which no end is exact.
    ("i0 set 1 1\ni1 set 3 3\ni0 div i0 i1\n", "1 1\n3 3\n5 6\n"),
    // 5 * 16 / -1 is -80, and 0 over anything is 0.
    (
        "i0 set 0 5\ni1 set -3 -1\ni0 div i0 i1\n",
        "0 5\n-3 -1\n-80 0\n",
    ),
    // A divisor that holds 0 leaves the register as it is.
    (
        "i1 set -1 0\ni0 div i0 i1\ni1 add i1 i1\ni1 sub i0 i1\n",
        "-1 0\nnone\n-2 0\n0 2\n",
    ),
    // 5^2 <= 2 * 16 < 6^2, and 22^2 < 32 * 16 <= 23^2.
    ("i0 set 2 32\ni0 sqrt i0\n", "2 32\n5 23\n"),
    ("i0 set -1 32\ni0 sqrt i0\n", "-1 32\nnone\n"),
    // 127 + 1 does not fit.
    (
        "i0 set 1 1\ni1 set -128 127\ni0 add i0 i1\ni1 sub i0 i0\n",
        "1 1\n-128 127\nnone\n0 0\n",
    ),
];

#[test]
fn intervals() {
    for (lines, answer) in LINES {
        let script = format!("interval i8 4 2\n{lines}");
        let output = interval_run(Global, script.as_bytes()).expect("no cause");
        assert_eq!(output.as_bytes(), answer.as_bytes(), "{lines}");
    }
}

/// A bank for bytes with 4 fraction bits, and the taps of its one channel.
fn bank(taps: &[i8]) -> Bank<i8> {
    let shape = Shape {
        out_frac: 4,
        coef_frac: 4,
        sample_frac: 4,
    };
    let mut bank = Bank::new(Global, shape);
    bank.add_channel(taps).expect("memory");
    bank
}

#[test]
fn a_bank() {
    let mut bank = bank(&[16, 8]); // 1 and 1/2
    assert_eq!(bank.push(0, 32), Reply::Value(32)); // 2
    assert_eq!(bank.push(0, 16), Reply::Value(32)); // 1 + 2/2
    assert_eq!((bank.tap(0, 1), bank.past(0, 1)), (8, 32));
}

/// A test for each call of a bank: it stops, and the message has the condition in words.
macro_rules! stops {
    ($($name:ident, $words:literal, $call:expr;)*) => {$(
        #[test]
        #[should_panic(expected = $words)]
        fn $name() {
            let _ = $call;
        }
    )*};
}

stops! {
    no_tap, "there is a tap", bank(&[]);
    no_channel_to_push, "the channel exists", bank(&[16]).push(1, 16);
    no_channel_with_taps, "the channel exists", bank(&[16]).taps(1);
    no_channel_with_a_tap, "the channel exists", bank(&[16]).tap(1, 0);
    no_such_tap, "the tap exists", bank(&[16]).tap(0, 1);
    no_such_past_sample, "the tap exists", bank(&[16]).past(0, 1);
    no_such_shape, "each fraction is at most the width", Bank::<i8>::new(Global, Shape {
        coef_frac: 9,
        ..Shape::default()
    });
}

#[test]
fn faults_of_intervals() {
    for (script, fault) in [
        ("interval i8 4\n", IntervalFault::Syntax(1)),
        ("interval i8 9 1\n", IntervalFault::OutOfRange(1)),
        ("interval i8 4 0\n", IntervalFault::OutOfRange(1)),
        ("interval i8 4 1\ni0 neg i0\n", IntervalFault::Syntax(2)),
        (
            "interval i8 4 1\ni0 set 2 1\n",
            IntervalFault::OutOfRange(2),
        ),
        (
            "interval u8 4 1\ni0 set 0 256\n",
            IntervalFault::OutOfRange(2),
        ),
        (
            "interval i8 4 1\ni0 set 1 1\ni0 add i0 i1\n",
            IntervalFault::OutOfRange(3),
        ),
        (
            "interval i8 4 1\ni0 set 1 1\ni0 sqrt i0",
            IntervalFault::Syntax(3),
        ),
    ] {
        let found = interval_run(Global, script.as_bytes()).err();
        assert_eq!(found, Some(fault), "{script}");
    }
}
