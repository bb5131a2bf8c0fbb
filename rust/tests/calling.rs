//! The programs of docs/CALLING.md as Cargo builds them, and that the page quotes what stands in the sources.

use std::fs;
use std::path::PathBuf;
use zugyelmas::calc::{
    Cause, Failed, Room, ScriptFault, Source, Status, SureSink, calc_main, demo_script, run_in,
};
use zugyelmas::memory::Global;
use zugyelmas::prelude::*;

fn transfer(from: &mut FixedI64<8>, to: &mut FixedI64<8>, amount: FixedI64<8>) -> Option<()> {
    let less = from.checked_sub(amount)?;
    let more = to.checked_add(amount)?;
    *from = less;
    *to = more;
    Some(())
}

#[test]
fn checked_input() {
    let (mut from, mut to) = (FixedI64::MIN, FixedI64::ZERO);
    assert_eq!(transfer(&mut from, &mut to, FixedI64::DELTA), None);
    assert_eq!((from, to), (FixedI64::MIN, FixedI64::ZERO));
    assert_eq!(transfer(&mut to, &mut from, FixedI64::DELTA), Some(()));
    assert_eq!(to, FixedI64::from_bits(-1));
}

#[test]
fn saturating_control() {
    let (error, gain) = (FixedI16::<8>::MAX, FixedI16::<12>::MAX);
    let output = error.saturating_mul_add(gain, FixedI16::ZERO);
    assert_eq!(output, FixedI16::MAX); // 128 times 8 is held at the end
}

fn left(stock: FixedU32<12>, taken: FixedU32<12>) -> FixedU32<12> {
    stock.strict_sub(taken)
}

#[test]
fn strict_under_a_condition() {
    let stock = FixedU32::from_bits(4096);
    assert_eq!(left(stock, stock), FixedU32::ZERO);
}

#[test]
#[should_panic]
fn strict_stops() {
    left(FixedU32::ZERO, FixedU32::DELTA);
}

fn sum_of_three<N: Checked>(a: N, b: N, c: N) -> Option<N> {
    let sum = a.checked_add(b)?;
    sum.checked_add(c)
}

#[test]
fn any_format() {
    let one = FixedU8::<7>::from_bits(128);
    assert_eq!(sum_of_three(one, one, one), None); // 3 is past 1.99
    let one = FixedI64::<32>::from_bits(1 << 32);
    let three = FixedI64::from_bits(3 << 32);
    assert_eq!(sum_of_three(one, one, one), Some(three));
}

fn split(amount: FixedU32<8>, part: FixedU32<32>) -> (FixedU32<8>, FixedU32<8>) {
    let mut share = amount;
    share *= part;
    (share, amount - share)
}

#[test]
fn a_proof_of_ones_own() {
    let (share, rest) = split(FixedU32::from_bits(1001), FixedU32::from_num(0.25));
    assert_eq!((share.to_bits(), rest.to_bits()), (250, 751)); // 250.25 is rounded down
    let (share, rest) = split(FixedU32::MAX, FixedU32::MAX);
    assert_eq!((share.to_bits(), rest.to_bits()), (u32::MAX - 1, 1));
    let page =
        fs::read_to_string(PathBuf::from(env!("CARGO_MANIFEST_DIR")).join("docs/CALLING.md"));
    let page = page.expect("the page");
    for line in ["share *= part;", "(share, amount - share)"] {
        assert!(page.contains(line), "{line}");
    }
}

fn run_again(script: &[u8], room: &mut Room) -> Result<(), ScriptFault> {
    if !room.suffices(script) {
        *room = Room::for_script(Global, script).map_err(|_| ScriptFault::Memory)?;
    }
    run_in(script, room).map_err(ScriptFault::Script)
}

#[test]
fn one_room() {
    let mut room = Room::for_script(Global, b"i8 4\nr0 set 5\n").expect("memory");
    assert_eq!(run_again(b"i8 4\nr0 set 7\n", &mut room), Ok(()));
    assert_eq!(room.answers(), b"7\n");
    let longer = b"i8 4 4\nr0 set 7\nr1 checked add r0 r0\n";
    assert_eq!(run_again(longer, &mut room), Ok(()));
    assert_eq!(room.answers(), b"7\n14\n");
    let fault = ScriptFault::Script(Cause::OutOfRange(2));
    assert_eq!(run_again(b"i8 4\nr0 set 128\n", &mut room), Err(fault));
}

#[test]
#[should_panic(expected = "the room suffices for the script")]
fn a_room_that_is_too_small() {
    let mut room = Room::for_script(Global, b"i8 4\nr0 set 5\n").expect("memory");
    let _ = run_in(b"i8 4 4\nr0 set 7\nr1 checked add r0 r0\n", &mut room);
}

#[test]
#[should_panic(expected = "there are at most 1,000,000 lines")]
fn a_demonstration_of_too_many_lines() {
    let _ = demo_script(Global, 1_000_001);
}

struct Arriving<'a> {
    left: &'a [u8],
}

impl Source for Arriving<'_> {
    fn read(&mut self, buf: &mut [u8]) -> Result<usize, Failed> {
        let count = buf.len().min(self.left.len()).min(16);
        let (arrived, left) = self.left.split_at(count);
        buf[..count].copy_from_slice(arrived);
        self.left = left;
        Ok(count)
    }
}

#[test]
fn a_source_of_ones_own() {
    let left = b"i32 16\nr0 set 65536\nr0 saturating add r0 r0\n";
    let mut source = Arriving { left };
    let (mut sink, mut errors) = (SureSink::new(Global), SureSink::new(Global));
    let status = calc_main(Global, &[], &mut source, &mut sink, &mut errors);
    assert_eq!(status, Status::Done);
    assert_eq!(sink.taken(), b"65536\n131072\n");
}

/// Each block of code of the page stands, line for line, in this file or in one of the proved programs.
#[test]
fn the_page_quotes_the_sources() {
    let top = PathBuf::from(env!("CARGO_MANIFEST_DIR"));
    let mut sources = include_str!("calling.rs").to_string();
    for entry in fs::read_dir(top.join("crates/fixed_guide/src")).expect("the programs") {
        let file = entry.expect("a program").path();
        sources.push_str(&fs::read_to_string(file).expect("its text"));
    }
    let page = fs::read_to_string(top.join("docs/CALLING.md")).expect("the page");
    let mut blocks = 0;
    for part in page.split("```rust\n").skip(1) {
        let (block, _) = part.split_once("```").expect("the end of a block");
        assert!(sources.contains(block), "stands nowhere:\n{block}");
        blocks += 1;
    }
    assert!(blocks >= 3);
}
