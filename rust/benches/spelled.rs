//! Seconds in which a script is spelled out, beside a copy of the same bytes.
//!
//!     cargo bench --features calc --bench spelled [-- SCRIPT..]
//!
//! The scripts are those of the files that are named; with no words, or the word `spelled`, that of `demo 1000000`.
//! What is spelled out is tried first: spelled out again it stays as it is. The least of many samples counts.

use std::hint::black_box;
use std::time::Instant;
use zugyelmas::calc;
use zugyelmas::memory::Global;

const SAMPLES: u32 = 51;

fn spelled(script: &[u8]) -> calc::Script {
    calc::explicit(Global, script).expect("a script whose pieces all have a form")
}

/// The seconds that a call takes, with giving back the memory of its answer.
fn seconds<T>(call: impl Fn() -> T) -> f64 {
    let start = Instant::now();
    drop(black_box(call()));
    start.elapsed().as_secs_f64()
}

fn measure(name: &str, script: &[u8]) {
    let once = spelled(script);
    assert!(spelled(once.as_bytes()).as_bytes() == once.as_bytes());
    let (mut ours, mut copy) = (f64::INFINITY, f64::INFINITY);
    for _ in 0..SAMPLES {
        ours = ours.min(seconds(|| spelled(black_box(script))));
        copy = copy.min(seconds(|| black_box(script).to_vec()));
    }
    let (before, after) = (script.len(), once.as_bytes().len());
    println!("{name}: {before} bytes become {after} in {ours:.4} s, copied in {copy:.4} s");
}

fn main() {
    let words: Vec<String> = std::env::args().skip(1).collect();
    let files = words
        .iter()
        .filter(|word| std::path::Path::new(word).is_file());
    if words.iter().all(|word| word.starts_with('-')) || words.iter().any(|word| word == "spelled")
    {
        let demo = calc::demo_script(Global, 1_000_000).expect("memory");
        measure("demo 1000000", demo.as_bytes());
    }
    for file in files {
        measure(file, &std::fs::read(file).expect("a file that can be read"));
    }
}
