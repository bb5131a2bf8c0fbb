//! The script over the sources with something planted: nothing is lost in silence.

use script::modules::{CALCULATOR, LIBRARY, written};
use script::pointers::with_pointers;
use std::collections::BTreeMap;
use std::fs;
use std::path::{Path, PathBuf};

/// A copy of crates, in which each file of a list has other text.
fn copied(name: &str, crates: &[&str], changes: &[(&str, &str, &str)]) -> PathBuf {
    let top = PathBuf::from(env!("CARGO_TARGET_TMPDIR")).join(name);
    let _ = fs::remove_dir_all(&top);
    for krate in crates {
        let folder = top.join(format!("fixed_{krate}/src"));
        fs::create_dir_all(&folder).expect("a folder");
        let from = Path::new(env!("CARGO_MANIFEST_DIR")).join(format!("crates/fixed_{krate}/src"));
        for file in fs::read_dir(from).expect("sources") {
            let file = file.expect("a source");
            fs::copy(file.path(), folder.join(file.file_name())).expect("a copy");
        }
    }
    for (path, old, new) in changes {
        let path = top.join(path);
        let text = fs::read_to_string(&path).unwrap_or_default();
        assert!(text.contains(old), "{old}");
        fs::write(&path, text.replacen(old, new, 1)).expect("a planted source");
    }
    top
}

/// What the script makes of crates with changes. Paths in an error begin at the crates.
fn of_crates(
    name: &str,
    crates: &[&str],
    changes: &[(&str, &str, &str)],
) -> Result<String, String> {
    written_of(&copied(name, crates, changes), crates).map(joined)
}

/// What it makes of the whole library, with each feature.
fn with_changes(name: &str, changes: &[(&str, &str, &str)]) -> Result<String, String> {
    let crates = [&LIBRARY[..], &CALCULATOR].concat();
    written_of(&copied(name, &crates, changes), &crates).map(joined)
}

type Files = BTreeMap<String, String>;

/// What it makes of a copy, which it removes: the gate reads each source below the top.
fn written_of(top: &Path, crates: &[&str]) -> Result<Files, String> {
    let from = format!("{}/", top.display());
    let made = written(top, crates, None).map_err(|error| error.replace(&from, ""));
    fs::remove_dir_all(top).expect("the copy");
    made
}

/// Files as one text, each behind its path.
fn joined(files: Files) -> String {
    let of_file = |(path, text)| format!("==> {path}\n{text}");
    files.into_iter().map(of_file).collect()
}

/// What it makes of `fixed_num` with one more file.
fn with_file(name: &str, text: &str) -> Result<String, String> {
    let at_end = [
        (
            "fixed_num/src/lib.rt",
            "mod wide;",
            "mod wide;\npub mod planted;",
        ),
        ("fixed_num/src/planted.rt", "", text),
    ];
    of_crates(name, &["num"], &at_end)
}

/// The lines of a file.
fn module<'a>(library: &'a str, name: &str) -> &'a str {
    let (_, text) = library
        .split_once(&format!("{name}.rs\n"))
        .expect("the module");
    text.split_once("\n==> ").map_or(text, |(text, _)| text)
}

/// Sources of which something would be lost, and the error.
const REFUSED: [(&str, &str, &str); 20] = [
    (
        "an_unknown_clause_behind_another_on_its_line",
        "pub fn f(x: u8) -> u8\n    ensures { result ≡ x } requires { x ≡ 7 }\n{\n    x\n}\n",
        "1: f: a clause of no known form: x ≡ 7",
    ),
    (
        "a_clause_on_memory",
        "\npub fn f(x: u8) -> u8\n    requires* { x ≡ 7 }\n{\n    x\n}\n",
        "2: f: a clause that speaks of memory",
    ),
    (
        "a_clause_on_memory_with_a_name",
        "pub fn f(by: u8) -> u8\n    requires* owned { by ≤ 64 }\n{\n    by\n}\n",
        "1: f: a clause that speaks of memory",
    ),
    (
        "two_traits_of_one_name_in_a_file",
        "trait A {}\n\ntrait A {}\n",
        "3: a second trait of this name",
    ),
    (
        "another_name_of_a_parameter",
        "trait A: Word {\n    fn f(self, by: u32)\n        requires { by ≤ 64 };\n}\n\nimpl A for u8 {\n    fn f(self, rhs: u32) {}\n}\n",
        "7: A::f: parameters [\"self\", \"rhs\"], and in the trait [\"self\", \"by\"]",
    ),
    (
        "parameters_of_another_order",
        "trait A {\n    fn f(a: u32, by: u32)\n        requires { by ≤ 64 };\n}\nimpl A for u8 {\n    fn f(by: u32, a: u32) {}\n}\n",
        "6: A::f: parameters [\"by\", \"a\"], and in the trait [\"a\", \"by\"]",
    ),
    (
        "constants_of_another_order",
        "trait A<const A: u32, const B: u32> {\n    fn f()\n        requires { A ≤ T.BITS };\n}\nimpl<const A: u32, const B: u32> A<B, A> for u8 {\n    fn f() {}\n}\n",
        "6: A::f: arguments [\"B\", \"A\"], and in the trait [\"A\", \"B\"]",
    ),
    (
        "the_left_side_of_an_implication",
        "pub fn f<T: Word>(a: T) -> T\n    requires { InRange T.SIGNED T.BITS (T.value a) → a ≡ a }\n{\n    exact_number(a)\n}\n",
        "1: f: a clause of no known form: InRange T.SIGNED T.BITS (T.value a) → a ≡ a",
    ),
    (
        "one_side_of_a_choice",
        "pub fn f<T: Word>(a: T) -> T\n    requires { InRange T.SIGNED T.BITS (T.value a) ⊎ a ≡ a }\n{\n    exact_number(a)\n}\n",
        "1: f: a clause of no known form: InRange T.SIGNED T.BITS (T.value a) ⊎ a ≡ a",
    ),
    (
        "a_stop_in_a_comment",
        "pub fn f<T: Word>(a: T) -> T\n    requires { InRange T.SIGNED T.BITS (T.value a) }\n{\n    // exact_number(a)\n    a\n}\n",
        "1: f: nothing in its body stops unless the number fits",
    ),
    (
        "a_stop_in_a_string",
        "pub fn f<T: Word>(a: T) -> &str\n    requires { InRange T.SIGNED T.BITS (T.value a) }\n{\n    \"exact_number(a)\"\n}\n",
        "1: f: nothing in its body stops unless the number fits",
    ),
    (
        "a_stop_in_one_branch",
        "pub fn f<T: Word>(a: T) -> T\n    requires { InRange T.SIGNED T.BITS (T.value a) }\n{\n    if a == T::ZERO { a } else { exact_number(a) }\n}\n",
        "1: f: nothing in its body stops unless the number fits",
    ),
    (
        "a_stop_behind_a_return",
        "pub fn f<T: Word>(a: T) -> T\n    requires { InRange T.SIGNED T.BITS (T.value a) }\n{\n    exact_number(if a == T::ZERO { return a } else { a })\n}\n",
        "1: f: nothing in its body stops unless the number fits",
    ),
    (
        "a_clause_of_a_function_in_a_body",
        "pub fn f() {\n    fn g(by: u32)\n        requires { by ≤ 64 }\n    {}\n}\n",
        "3: a clause of no function",
    ),
    (
        "an_operator_without_its_function",
        "impl Neg for S {\n    ghost can_neg = { λ a. a };\n}\n",
        "2: a clause of no function: can_neg",
    ),
    (
        "docs_above_a_ghost_item",
        "impl Neg for S {\n    /// The negated number.\n    ghost neg_gives = { λ a r. a };\n\n    fn neg(self) -> S {}\n}\n",
        "3: docs above a ghost item",
    ),
    (
        "a_trait_that_is_not_found",
        "impl super::super::FromDecimal for S {\n    fn from_decimal() {}\n}\n",
        "2: FromDecimal::from_decimal: no known trait: num::super::FromDecimal",
    ),
    (
        "a_clone_that_nothing_derives",
        "#[derive(Debug)]\npub struct S;\n\nimpl Clone for S {\n    fn clone(&self) -> Result<Self, AllocError> {\n        Ok(S)\n    }\n}\n",
        "4: a Clone by hand of S, which does not derive Copy first",
    ),
    (
        "brackets_without_an_end",
        "pub fn f() {\n    (\n}\n",
        "1: brackets without an end",
    ),
    (
        "a_clause_without_braces",
        "pub fn f(by: u32)\n    requires by ≤ 64\n{}\n",
        "2: a clause without braces",
    ),
];

#[test]
fn what_would_be_lost_stops_the_build() {
    for (name, text, error) in REFUSED {
        let said = with_file(name, text).err();
        assert_eq!(
            said,
            Some(format!("fixed_num/src/planted.rt:{error}")),
            "{name}"
        );
    }
}

#[test]
fn a_public_module_of_any_name() {
    let planted = [
        (
            "fixed_num/src/lib.rt",
            "mod wide;",
            "mod wide;\npub mod line;",
        ),
        (
            "fixed_num/src/line.rt",
            "",
            "/// One.\npub fn one() -> u8 {\n    let line;\n    line = 1;\n    line\n}\n",
        ),
    ];
    let library = of_crates("line", &["num"], &planted).expect("a library");
    let body =
        "/// One.\n#[must_use]\npub fn one() -> u8 {\n    let line;\n    line = 1;\n    line\n}\n";
    assert!(
        module(&library, "line").ends_with(body.trim_end()),
        "{}",
        module(&library, "line")
    );
}

/// A file that a table of the script names, and an item of one, has to be there.
#[test]
fn entries_that_match_nothing() {
    let no_module = |krate, name| {
        let path = format!("fixed_{krate}/src/lib.rt");
        let item = format!("mod {name};\n");
        of_crates(name, &[krate], &[(&path, &item, "")])
            .err()
            .unwrap_or_default()
    };
    assert_eq!(
        no_module("interval", "op"),
        "rust/script/modules.rs: no file interval/op"
    );
    assert_eq!(
        no_module("logs", "exact"),
        "rust/script/modules.rs: no file logs/exact"
    );
    let without = |name, path, old, new| {
        with_changes(name, &[(path, old, new)])
            .err()
            .unwrap_or_default()
    };
    let outcome = "fixed_num/src/from_outcome.rt";
    let item = without("item", outcome, "fn exact_number", "fn fitting_number");
    assert_eq!(
        item,
        "rust/script/added.txt:4: nothing matches num/from_outcome::exact_number"
    );
    let powers = "fixed_kernel/src/powers.rt";
    let clause = (powers, "requires { T.SIGNED ≡ false }", "");
    let form = with_changes("form", &[clause, clause])
        .err()
        .unwrap_or_default();
    assert!(form.ends_with("nothing matches T.SIGNED ≡ false"), "{form}");
}

/// The files whose clauses no call tests are not offered.
#[test]
fn what_is_inside() {
    let text = of_crates("text", &["text"], &[]).expect("a library");
    assert!(
        text.contains("pub(crate) use pieces::{body_of, piece_end};"),
        "{text}"
    );
    let public = [("fixed_text/src/lib.rt", "mod pieces;", "pub mod pieces;")];
    let said = of_crates("inside_and_public", &["text"], &public).err();
    let error = "fixed_text/src/lib.rt:15: a public module of a file that is not offered";
    assert_eq!(said.as_deref(), Some(error));
}

/// A public module for other crates: users have what its crate offers of it, with each condition.
#[test]
fn what_is_shared() {
    let power = (
        "fixed_elementary/src/exponentials.rt",
        "requires bits { bits ≤ 64 }",
        "requires bits { bits ≤ 63 }",
    );
    let crates = ["elementary"];
    let library = of_crates("shared", &crates, &[power]).expect("a library");
    for name in ["exponentials", "logarithms", "wide"] {
        let module = format!("pub(crate) mod {name};");
        assert!(library.contains(&module), "{name}");
    }
    let exponentials = module(&library, "exponentials");
    assert!(exponentials.contains("assert!(frac <= T::BITS"));
    assert!(!exponentials.contains("assert!(bits"));
    let offered = (
        "fixed_elementary/src/lib.rt",
        "exponentials::exp2_of",
        "exponentials::{exp2_of, power_of}",
    );
    let said = of_crates("shared_and_offered", &crates, &[offered]).err();
    let error =
        "fixed_elementary/src/exponentials.rt:246: power_of: a clause of no known form: bits ≤ 64";
    assert_eq!(said.as_deref(), Some(error));
}

/// A clause counts wherever it stands.
#[test]
fn a_clause_behind_another_on_its_line() {
    let text =
        "pub fn f(by: u32) -> u32\n    ensures { result ≡ by } requires { by ≤ 64 } { by }\n";
    let library = with_file("one_line", text).expect("a library");
    assert!(
        module(&library, "planted").contains("assert!(by <= 64"),
        "{}",
        module(&library, "planted")
    );
}

const SHIFT: &str = "pub trait Shift: Word {\n    fn shift(self, by: u32) -> Self\n        requires { by ≤ 64 };\n}\n";

/// An `impl` has the clauses of the trait that it names: by a path, before the trait is read, and where another trait has
/// the same name.
#[test]
fn an_implementation_anywhere() {
    let other = "pub trait Shift {\n    fn shift(self, by: u32) -> Self;\n}\n";
    let by_path = "impl crate::traits::Shift for u8 {\n    fn shift(self, by: u32) -> u8 {\n        self\n    }\n}\n";
    let imported = by_path.replace("crate::traits::", "");
    let texts = [
        by_path.to_string(),
        format!("use crate::traits::Shift;\n\n{imported}"),
        format!(
            "use crate::traits::{{self, Shift as Moved}};\n\n{}",
            imported.replace("Shift", "Moved")
        ),
        format!("use fixed_num::traits::Shift;\n\n{imported}"),
        format!("use crate::traits;\n\n{}", by_path.replace("crate::", "")),
        format!("use crate::Shift;\n\n{imported}"),
    ];
    for (at, text) in texts.iter().enumerate() {
        let modules =
            "mod wide;\npub mod planted;\npub mod others;\npub mod traits;\npub use traits::Shift;";
        let planted = [
            ("fixed_num/src/lib.rt", "mod wide;", modules),
            ("fixed_num/src/planted.rt", "", text),
            ("fixed_num/src/others.rt", "", other),
            ("fixed_num/src/traits.rt", "", SHIFT),
        ];
        let library = of_crates(&format!("anywhere_{at}"), &["num"], &planted).expect("a library");
        assert!(
            module(&library, "planted").contains("assert!(by <= 64"),
            "{text}"
        );
    }
    let of_other = format!("use crate::others::Shift;\n\n{imported}");
    let planted = [
        (
            "fixed_num/src/lib.rt",
            "mod wide;",
            "mod wide;\npub mod planted;\npub mod others;\npub mod traits;",
        ),
        ("fixed_num/src/planted.rt", "", of_other.as_str()),
        ("fixed_num/src/others.rt", "", other),
        ("fixed_num/src/traits.rt", "", SHIFT),
    ];
    let library = of_crates("of_the_other", &["num"], &planted).expect("a library");
    assert!(!module(&library, "planted").contains("assert!"));
}

/// The strict calls keep their assertions where their trait is named by its path.
#[test]
fn strict_calls_by_the_path_of_their_trait() {
    let strict = "fixed_strict/src/strict.rt";
    let named = (
        "Strict for Fixed<T, F>",
        "crate::strict::Strict for Fixed<T, F>",
    );
    let before = with_changes("strict", &[]).expect("a library");
    let after = with_changes("strict_by_path", &[(strict, named.0, named.1)]).expect("a library");
    let expected = before.replacen(named.0, "crate::strict::strict::Strict for Fixed<T, F>", 1);
    let differing = expected.lines().zip(after.lines()).find(|(a, b)| a != b);
    assert_eq!(differing, None);
    assert!(module(&after, "strict/strict").contains("assert!(rhs < T::BITS"));
}

/// What the face for C is with a change in the file of one word.
fn face(name: &str, old: &str, new: &str) -> Result<String, String> {
    let planted = [("fixed_c/src/signed_8_functions.rt", old, new)];
    with_pointers(written_of(&copied(name, &["c"], &planted), &["c"])?).map(joined)
}

/// Each slice that an export takes becomes a pointer and a count.
#[test]
fn slices_of_exports() {
    let whole = face("face", "", "").expect("a face");
    assert!(whole.contains("coefs: *const i8, coefs_count: usize,"));
    assert!(whole.contains("past: *mut u64, past_count: usize,"));
    assert_eq!(
        whole
            .matches("unsafe { crate::slice(coefs, coefs_count) }")
            .count(),
        8
    );
    assert_eq!(
        whole
            .matches("unsafe { crate::slice_mut(past, past_count) }")
            .count(),
        16
    );
}

/// Each other slice, and each that is not there, stops the build.
#[test]
fn other_slices_of_exports() {
    let refused = [
        (
            "    x: i8,\n",
            "    x: &[i8],\n",
            "a slice that is not in the table: fixed_i8_horner: x",
        ),
        (
            "coefs: &[i8]",
            "coefs: Option<&[i8]>",
            "fixed_i8_horner: a slice of no known form: Option < & [ i8 ]",
        ),
        (
            "fn fixed_i8_horner",
            "fn fixed_i8_value",
            "nothing matches the slice fixed_i8_horner: coefs",
        ),
        (
            "horner(coefs, x, frac",
            "horner(if x == 0 { coefs } else { coefs }, x, frac",
            "fixed_i8_horner: coefs is not used once",
        ),
    ];
    for (at, (old, new, error)) in refused.into_iter().enumerate() {
        let said = face(&format!("face_{at}"), old, new).err();
        assert_eq!(said, Some(format!("fixed_c: {error}")));
    }
}
