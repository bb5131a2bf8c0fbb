//! The script on small sources.

use script::conditions::{Condition, Known};
use script::erasing::Erasing;
use script::items::Source;
use script::traits::Traits;

/// The source read as a file of a library, whose public calls are offered or not.
fn erased(text: &str, known: Option<&Known>) -> Result<String, String> {
    let source = Source::new(text)?;
    let mut traits = Traits::default();
    traits.read("a::b", &source)?;
    let erasing = Erasing {
        source: &source,
        file: "a/b",
        known,
        offered: None,
        is_strict: false,
        traits: &traits,
        pages: None,
    };
    Ok(erasing.edits()?.applied(text))
}

fn library(source: &str) -> Result<String, String> {
    erased(source, Some(&Known::new()))
}

/// The source read as one of a library, where no clause is unknown.
fn read(source: &str) -> String {
    library(source).unwrap()
}

#[test]
fn braces_are_as_any_sign() {
    let body = "
    // }
    let _ = (b'}', \"}\\\"}\", '\\'');
    '{' // }
}

const B: &str = \"}\"; // {

fn g() {}
";
    let private = format!("fn f<'a>(frac: u32, x: &'a u8) -> char {{{body}");
    assert_eq!(read(&private), private);
    let head = "pub fn f<'a>(frac: u32, x: &'a u8) -> char";
    let clauses = "\n    requires { frac ≤ T.BITS }\n    ensures { result ≡ code \"}{\" }\n";
    let assertion =
        "assert!(frac <= T::BITS, \"precondition: the fraction frac is at most the width\");";
    assert_eq!(
        read(&format!("{head}{clauses}{{{body}")),
        format!("#[track_caller]\n{head} {{\n    {assertion}{body}")
    );
}

#[test]
fn braces_that_close_nothing() {
    let source = "fn f() -> [char; 2]
    ensures { result ≡ \"}\" ++ codes \"{\" }
{
    // }
    ['}', '{']
}
";
    assert_eq!(
        read(source),
        "fn f() -> [char; 2] {\n    // }\n    ['}', '{']\n}\n"
    );
}

#[test]
fn nested_clauses() {
    let source = "fn f<T>(x: T) -> T
where
    T: Copy,
    // why
    requires a { record { b = { x } } }
    ensures { IfSome x (λ y. { y }) }
{
    x
}
";
    assert_eq!(
        read(source),
        "fn f<T>(x: T) -> T\nwhere\n    T: Copy, {\n    x\n}\n"
    );
}

#[test]
fn ghost_fields_and_members() {
    let source = "ghost use A.{b, c};

#[derive(Debug, Drop)]
struct S {
    at: usize,
    ghost within: { at ≤ length (x, y) },
}

#[derive(Drop)]
struct D;
";
    assert_eq!(
        read(source).trim(),
        "#[derive(Debug)]
struct S {
    at: usize,
}

struct D;"
    );
    let source = "trait V {
    const B: u32;

    // The state.
    ghost state: { Self → ℕ };

    fn v(&self);
}

impl Model for S {
    ghost Value = { ℕ };
}
";
    assert_eq!(
        read(source).trim(),
        "trait V {\n    const B: u32;\n\n\n    fn v(&self);\n}"
    );
}

#[test]
fn a_clone_by_hand() {
    let source = "#[derive(Copy, Debug)]
pub struct P<T: Word> {
    at: T,
}

impl<T: Word> Clone for P<T> {
    ghost is_infallible = { λ _. Unit {0} };

    fn clone(&self) -> Result<Self, AllocError> {
        Ok(*self)
    }
}

#[derive(Clone, Copy)]
struct Q;
";
    assert_eq!(
        read(source),
        "#[derive(Clone, Copy, Debug)]
pub struct P<T: Word> {
    at: T,
}


#[derive(Clone, Copy)]
struct Q;
"
    );
}

#[test]
fn what_the_prover_reads() {
    let source = "//! A crate.
#![tactic(auto)]

use std::marker::Model;
use std::ops::Add;

#[tactic(auto, using(a::b))]
fn f() {}
";
    assert_eq!(
        read(source),
        "//! A crate.\n\nuse std::ops::Add;\n\nfn f() {}\n"
    );
}

#[test]
fn a_public_call() {
    let source = "/// The quotient.
#[inline]
pub fn div<T: Word>(a: T, b: T, frac: u32) -> T
    requires frac { frac ≤ T.BITS }
    requires divisor { T.value b
        ≢ pos 0 }
    ensures { T.value result ≡ x }
{
    a
}
";
    let want = "/// The quotient.
///
/// # Panics
///
/// Panics unless the fraction frac is at most the width, and the divisor is not 0.
///
/// # Proved
///
/// ```text
/// requires frac { frac ≤ T.BITS }
/// requires divisor { T.value b
///     ≢ pos 0 }
/// ensures { T.value result ≡ x }
/// ```
#[inline]
#[track_caller]
pub fn div<T: Word>(a: T, b: T, frac: u32) -> T {
    assert!(frac <= T::BITS, \"precondition: the fraction frac is at most the width\");
    assert!(b != T::ZERO, \"precondition: the divisor is not 0\");
    a
}
";
    assert_eq!(read(source), want);
    let private = read(&source.replace("pub ", ""));
    assert!(
        !private.contains("assert") && !private.contains("Panics"),
        "{private}"
    );
    let inside = erased(source, None).unwrap();
    assert!(
        !inside.contains("assert") && !inside.contains("Panics"),
        "{inside}"
    );
}

#[test]
fn a_trait_hands_its_clauses_on() {
    let source = "pub trait Shift: Number {
    fn shift(self, rhs: u32) -> Self
        requires { rhs < Self.BITS };
}

impl<T: Word, const F: u32> Shift for Fixed<T, F> {
    fn shift(self, rhs: u32) -> Self {
        self
    }
}
";
    let text = read(source);
    assert_eq!(text.matches("assert!(rhs < T::BITS").count(), 1, "{text}");
    assert!(text.contains("fn shift(self, rhs: u32) -> Self;"), "{text}");
}

#[test]
fn an_operator() {
    let source = "impl<T: Word, const F: u32> Div for Fixed<T, F> {
    type Output = Self;

    ghost can_div = { λ a b. (F ≤ T.BITS) × (T.value b.bits ≢ pos 0)
        × InRange T.SIGNED T.BITS (q a.bits) };

    /// The quotient.
    fn div(self, rhs: Self) -> Self {
        exact_number(self)
    }
}
";
    let text = read(source);
    assert!(text.contains("const { assert!(F <= T::BITS"), "{text}");
    assert!(text.contains("assert!(rhs.bits != T::ZERO"), "{text}");
    assert!(
        text.contains("/// With debug assertions, panics unless the number fits"),
        "{text}"
    );
    assert!(
        text.contains("/// can_div = { λ a b. (F ≤ T.BITS) × (T.value b.bits ≢ pos 0)"),
        "{text}"
    );
}

#[test]
fn a_clause_that_always_holds() {
    let source = "impl Iterator for S {
    type Item = u8;

    ghost can_next = { λ _. Unit {0} };

    fn next(&mut self) -> Option<u8> {
        None
    }
}
";
    let text = read(source);
    assert!(
        !text.contains("assert") && !text.contains("Panics"),
        "{text}"
    );
}

#[test]
fn an_unknown_clause() {
    let source = "pub fn f(x: u8)\n    requires { x ≡ 7 }\n{}\n";
    assert_eq!(
        library(source),
        Err("1: f: a clause of no known form: x ≡ 7".to_string())
    );
    assert!(library(&source.replace("pub ", "")).is_ok());
}

#[test]
fn a_condition_that_nothing_sees() {
    let source = "pub fn f<T: Word>(a: T) -> T
    requires { InRange T.SIGNED T.BITS (neg_ℤ (T.value a)) }
{
    exact_number(a)
}
";
    assert!(library(source).is_ok());
    let unseen = library(&source.replace("exact_number", "wrapped"));
    let error = "1: f: nothing in its body stops unless the number fits";
    assert_eq!(unseen, Err(error.to_string()));
}

#[test]
fn modified_functions() {
    let modified = "pub extern \"C\" fn f(x: u8)\n    requires { x ≡ 7 }\n{}\n";
    assert!(library(modified).is_err());
}

fn condition(fact: &str) -> Result<Condition, String> {
    Known::new().condition(fact, &[";"])
}

#[test]
fn forms_of_clauses() {
    let fraction = |name: &str| {
        let found = condition(&format!("{name} ≤ T.BITS")).unwrap();
        (found.kind, found.test)
    };
    let asserted = |kind: &str, test: &str| (kind.to_string(), test.to_string());
    assert_eq!(fraction("frac"), asserted("assert", "frac <= T::BITS"));
    assert_eq!(fraction("G"), asserted("const", "G <= T::BITS"));
    let fits = "InRange T.SIGNED T.BITS (neg_ℤ (T.value a))";
    assert_eq!(condition(fits).unwrap().kind, "debug_assert");
    let shape = condition("IsShape T.BITS shape.now").unwrap();
    assert!(shape.test.starts_with("shape.out_frac.max("), "{shape:?}");
    for unknown in ["F + G ≤ T.BITS", " ≤ T.BITS", ""] {
        assert!(condition(unknown).is_err(), "{unknown}");
    }
}

#[test]
fn tests_without_the_runtime() {
    let source = "use std::process::Abort;

#[test]
fn t(rt: HostRuntime) {
    assert_eq!(rt; f(&rt, 1), 2, \"rt; a\");
    assert!(rt;
        g(
            &rt,
            1,
        )
    );
}

fn f(rt: &impl Abort, x: u8) -> u8 {
    h(rt)
}
";
    let want = "
#[test]
fn t() {
    assert_eq!(f(1), 2, \"rt; a\");
    assert!(
        g(
            1,
        )
    );
}

fn f(x: u8) -> u8 {
    h()
}
";
    assert_eq!(read(source), want);
}
