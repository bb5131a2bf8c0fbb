//! The programs of README.md, docs/TUTORIAL.md and the pages of runs: each block of a page stands in a source that is
//! compiled and run, or is a script, and prints what the page says. (docs/CALLING.md has a test of its own;
//! docs/COMING_FROM.md and docs/GUIDE.md are doctests.)

use std::fs::{self, File};
use std::io::Write;
use std::path::PathBuf;
use std::process::{Command, Output, Stdio};

#[allow(dead_code)]
#[path = "../examples/sensor.rs"]
mod sensor;

fn top() -> PathBuf {
    PathBuf::from(env!("CARGO_MANIFEST_DIR"))
}

fn read(path: &str) -> String {
    fs::read_to_string(top().join(path)).unwrap_or_else(|error| panic!("{path}: {error}"))
}

/// The blocks of a page in a language.
fn blocks(page: &str, language: &str) -> Vec<String> {
    let mark = format!("\n```{language}\n");
    let parts = page.split(&mark).skip(1);
    parts
        .map(|part| part.split_once("```").expect("the end of a block").0)
        .map(str::to_string)
        .collect()
}

/// The only block of a page in a language.
fn block(page: &str, language: &str) -> String {
    let [block] = blocks(page, language).try_into().expect("one block");
    block
}

/// An example that Cargo built with the tests.
fn example(name: &str) -> Command {
    let tests = std::env::current_exe().expect("the test's path");
    let built = tests
        .parent()
        .and_then(|deps| deps.parent())
        .expect("a folder");
    Command::new(built.join("examples").join(name))
}

/// What an example does with the file of an input.
fn run(name: &str, input: &str) -> Output {
    example(name)
        .stdin(Stdio::from(
            File::open(top().join(input)).expect("an input"),
        ))
        .output()
        .expect("the example runs")
}

#[test]
fn the_first_program_in_rust() {
    let page = read("README.md");
    assert!(read("rust/examples/first.rs").ends_with(&block(&page, "rust")));
    let done = run("first", "README.md");
    let printed = String::from_utf8(done.stdout).expect("text");
    assert!(blocks(&page, "text").contains(&printed), "{printed}");
}

#[test]
fn the_first_program_in_c() {
    // `examples/c/run` compiles it, and compares what it prints.
    let page = read("README.md");
    assert!(read("examples/c/first.c").ends_with(&block(&page, "c")));
    assert!(blocks(&page, "text").contains(&read("examples/c/first.answers")));
}

#[test]
fn the_first_script() {
    let blocks = blocks(&read("README.md"), "text");
    let shown = blocks
        .iter()
        .find(|block| block.starts_with("i32 "))
        .expect("a script");
    let (mut script, mut answers) = (String::new(), String::new());
    for line in shown.lines() {
        let (said, answer) = line.split_once("  ").unwrap_or((line, ""));
        script += &format!("{said}\n");
        if !answer.is_empty() {
            answers += &format!("{}\n", answer.trim());
        }
    }
    assert_eq!(script, read("examples/first.txt"));
    assert_eq!(answers, read("examples/first.answers"));
}

#[test]
fn the_first_program_in_rattle() {
    let program = block(&read("README.md"), "rattle");
    assert!(read("crates/fixed_guide/src/stock.rt").contains(&program));
}

#[test]
fn the_names_of_the_whole_library_in_rattle() {
    let names = block(&read("crates/fixed/README.md"), "rattle");
    assert!(read("crates/fixed_guide/src/controller.rt").contains(&names));
}

#[test]
fn the_tutorial() {
    let page = read("docs/TUTORIAL.md");
    let source = read("rust/examples/sensor.rs");
    let blocks_of_rust = blocks(&page, "rust");
    assert!(blocks_of_rust.len() > 3);
    for block in blocks_of_rust {
        assert!(source.contains(&block), "stands nowhere:\n{block}");
    }
    let done = run("sensor", "examples/samples.csv");
    let printed = String::from_utf8(done.stdout).expect("text");
    assert_eq!(printed.lines().count(), 48);
    assert!(printed.starts_with(&block(&page, "text")), "{printed}");
    let refused = run("sensor", "examples/amounts.csv");
    assert_eq!(refused.status.code(), Some(1));
}

#[test]
fn the_scripts_of_runs() {
    for (kind, prints) in [
        ("filter", "1638\n"),
        ("poly", "336\n"),
        ("interval", "1901 2050\n"),
    ] {
        let shown = block(&read(&format!("crates/fixed_{kind}/README.md")), "text");
        let script: Vec<&str> = shown
            .lines()
            .map(|line| line.split_once("  ").map_or(line, |(said, _)| said))
            .collect();
        let mut run = example("runs")
            .arg(kind)
            .stdin(Stdio::piped())
            .stdout(Stdio::piped())
            .spawn()
            .expect("the example starts");
        let mut input = run.stdin.take().expect("the example reads");
        writeln!(input, "{}", script.join("\n")).expect("a script");
        drop(input);
        let done = run.wait_with_output().expect("the example ends");
        let printed = String::from_utf8(done.stdout).expect("text");
        assert!(printed.ends_with(prints), "{kind}: {printed}");
    }
}
