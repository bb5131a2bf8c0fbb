//! Conditions on constants are compile errors, which name the line of the caller; and so is a word of another crate.

use std::path::PathBuf;
use std::process::Command;
use std::time::SystemTime;
use std::{env, fs};

/// Each call that does not compile, and the condition in words.
const REFUSED: [(&str, &str); 26] = [
    ("Past::int_nbits()", "the fraction F is at most the width"),
    ("past * past", "the fraction F is at most the width"),
    (
        "past.checked_mul(past)",
        "the fraction F is at most the width",
    ),
    (
        "past.wrapping_sqrt()",
        "the fraction F is at most the width",
    ),
    ("past.strict_recip()", "the fraction F is at most the width"),
    (
        "past.unwrapped_rem_int(0)",
        "the fraction F is at most the width",
    ),
    (
        "past.saturating_signum()",
        "the fraction F is at most the width",
    ),
    ("past.recip()", "the fraction F is at most the width"),
    ("past.wrapping_ln()", "the fraction F is at most the width"),
    (
        "past.checked_pow(past)",
        "the fraction F is at most the width",
    ),
    (
        "byte.checked_mul_add(past, byte)",
        "the fraction G is at most the width",
    ),
    (
        "byte.add_prod(past, byte)",
        "the fraction A is at most the width",
    ),
    (
        "horner(&[past], past)",
        "the fraction F is at most the width",
    ),
    (
        "Fir::<i8, 9, 4, 4>::new(&[byte], &mut [byte])",
        "the fraction OUT is at most the width",
    ),
    (
        "Fir::<i8, 4, 9, 4>::new(&[past], &mut [byte])",
        "the fraction TAP is at most the width",
    ),
    (
        "Fir::<i8, 4, 4, 9>::new(&[byte], &mut [past])",
        "the fraction IN is at most the width",
    ),
    (
        "past.to_float::<f32>()",
        "the fraction is at most the width",
    ),
    (
        "past.compare_float(1.5)",
        "the fraction is at most the width",
    ),
    (
        "byte.checked_mul_into::<_, Past>(past)",
        "the fraction of `rhs` is at most its width",
    ),
    ("byte.wide_mul::<4, 9>(byte)", "H is F + G"),
    ("byte.wide_div::<4, 9>(byte)", "H + G is the width and F"),
    (
        "byte.wide_sdiv::<4, 8>(byte)",
        "H + G + 1 is the width and F",
    ),
    (
        "FixedI16::<8>::from(7_u8)",
        "the format holds every integer of the type",
    ),
    (
        "FixedI16::<13>::from(byte)",
        "the format holds every number of the source's",
    ),
    ("FixedI8::<7>::from(true)", "the format holds 1"),
    ("f64::from(past)", "the fraction F is at most the width"),
];

const START: &str = "use zugyelmas::{filter::Fir, horner, prelude::*};
type Past = FixedI8<9>;
fn main() {
    let past = Past::from_bits(1);
    let byte = FixedI8::<4>::from_bits(1);
";

/// The library that this test was linked with: the newest beside it.
fn library() -> PathBuf {
    let test = env::current_exe().expect("the path of the test");
    let folder = test.parent().expect("a folder of libraries");
    let files = fs::read_dir(folder)
        .expect("libraries")
        .map(|file| file.expect("a file").path());
    let name = |path: &PathBuf| {
        path.file_name()
            .map_or(String::new(), |name| name.to_string_lossy().to_string())
    };
    let libraries = files
        .filter(|path| name(path).starts_with("libzugyelmas-") && name(path).ends_with(".rlib"));
    let written = |path: &PathBuf| {
        fs::metadata(path)
            .and_then(|file| file.modified())
            .unwrap_or(SystemTime::UNIX_EPOCH)
    };
    libraries.max_by_key(written).expect("the library")
}

/// What rustc says of a program.
fn compiled(name: &str, program: &str) -> String {
    let folder = PathBuf::from(env!("CARGO_TARGET_TMPDIR"));
    let source = folder.join(format!("{name}.rs"));
    fs::write(&source, program).expect("the program is written");
    let rustc = env::var("RUSTC").unwrap_or("rustc".to_string());
    let output = Command::new(rustc)
        .args(["--edition", "2024", "--emit", "obj", "-A", "unused", "-o"])
        .arg(folder.join(format!("{name}.o")))
        .arg("--extern")
        .arg(format!("zugyelmas={}", library().display()))
        .arg(&source)
        .output();
    String::from_utf8(output.expect("rustc runs").stderr).expect("text")
}

#[test]
fn each_is_a_compile_error() {
    let calls = REFUSED
        .iter()
        .map(|(call, _)| format!("    let _ = {call};\n"));
    let said = compiled(
        "fractions",
        &format!("{START}{}}}\n", calls.collect::<String>()),
    );
    let errors: Vec<&str> = said.split("error[E0080]").skip(1).collect();
    for (at, (call, words)) in REFUSED.iter().enumerate() {
        let line = format!("fractions.rs:{}:", START.lines().count() + 1 + at);
        let refused = |error: &&&str| error.contains(words) && error.contains(&line);
        assert!(errors.iter().any(|error| refused(&error)), "{call}: {said}");
    }
}

#[test]
fn what_is_at_the_width_compiles() {
    let at = "let at = FixedI8::<8>::from_bits(127);";
    let calls =
        "at.checked_mul(at); at * at; at.wide_mul::<8, 16>(at); byte.wide_div::<4, 8>(byte);";
    let from = "FixedI16::<7>::from(7_u8); FixedI16::<12>::from(byte); FixedI8::<6>::from(true);";
    let said = compiled(
        "at_the_width",
        &format!("{START}    {at} {calls} {from}\n}}\n"),
    );
    assert_eq!(said, "");
}

const FOREIGN: &str = "#[derive(Clone, Copy)]
struct Byte(u8);
impl zugyelmas::word::Valued for Byte {
    const BITS: u32 = 8;
}
fn main() {}
";

#[test]
fn a_word_of_another_crate() {
    let said = compiled("foreign", FOREIGN);
    assert!(
        said.contains("`Byte: zugyelmas::sealed::Sealed` is not satisfied"),
        "{said}"
    );
    assert_eq!(said.matches("error[").count(), 1, "{said}");
}
