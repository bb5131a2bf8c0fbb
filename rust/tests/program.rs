//! The calculator as Cargo builds it: the stored scripts with their answers, and how it ends.

use std::fs;
use std::io::Write;
use std::path::PathBuf;
use std::process::{Command, Output, Stdio};

fn examples() -> PathBuf {
    PathBuf::from(env!("CARGO_MANIFEST_DIR")).join("examples")
}

/// What the program writes to a script, with these words on its command line.
fn run(words: &[&str], script: &[u8]) -> Output {
    let mut program = Command::new(env!("CARGO_BIN_EXE_zugyelmas"))
        .args(words)
        .stdin(Stdio::piped())
        .stdout(Stdio::piped())
        .stderr(Stdio::piped())
        .spawn()
        .expect("the program starts");
    let mut input = program.stdin.take().expect("the program reads");
    // With words it reads nothing, and may have ended.
    let _ = input.write_all(script);
    drop(input);
    program.wait_with_output().expect("the program ends")
}

#[test]
fn each_example_answers_as_stated() {
    let mut tried = 0;
    for entry in fs::read_dir(examples()).expect("the examples are there") {
        let script = entry.expect("an example").path();
        if script
            .extension()
            .is_some_and(|extension| extension == "txt")
        {
            let done = run(&[], &fs::read(&script).expect("a script"));
            let answers = fs::read(script.with_extension("answers")).expect("its answers");
            assert_eq!(done.stdout, answers, "{}", script.display());
            assert_eq!(done.status.code(), Some(0), "{}", script.display());
            tried += 1;
        }
    }
    assert_eq!(tried, 6);
}

#[test]
fn each_end() {
    let overflow = b"i8 4\nr0 set 127\nr0 strict add r0 r0\n";
    for (words, script, code, out, errors) in [
        (&[][..], &b"i8 4\nr0 set 5\n"[..], 0, "5\n", ""),
        (&[], overflow, 1, "", "line 3: overflow\n"),
        (&[], b"", 1, "", "line 1: syntax\n"),
        (&["demo"], b"", 2, "", "usage: fixed_prog [demo N]\n"),
        (
            &["demo", "20000"],
            b"",
            0,
            "lines 20000\nnone 894\ntrue 578\n",
            "",
        ),
    ] {
        let done = run(words, script);
        assert_eq!(done.status.code(), Some(code), "{words:?}");
        assert_eq!(String::from_utf8_lossy(&done.stdout), out, "{words:?}");
        assert_eq!(String::from_utf8_lossy(&done.stderr), errors, "{words:?}");
    }
}
