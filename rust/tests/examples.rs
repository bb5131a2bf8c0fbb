//! The tables of examples and the pages of the docs, on small ones.

use script::examples::Examples;
use script::pages::{Definitions, linked};

const NUM: &str = "# Comments go.

with
    use zugyelmas::$;

mean
    assert_eq!(mean(1, 2), 1); // rounded down

Fixed::floor
    assert_eq!(floor(1.5), 1);
    floor(NAN) panics // no number
";

const OPERATIONS: &str = "
mul
    a.?mul(b) is c
    a.?mul(d) wraps to e, saturates to f // too large
    a.?mul(g) is undefined // no number
";

fn examples() -> Examples {
    let mut examples = Examples::default();
    examples.read("num", NUM).unwrap();
    examples.read("operations", OPERATIONS).unwrap();
    examples
}

fn error_of(table: &str) -> String {
    Examples::default().read("num", table).unwrap_err()
}

#[test]
fn a_call_has_its_statements() {
    let docs = examples().docs("num", "mean").unwrap();
    assert_eq!(
        docs,
        "
# Examples

```
use zugyelmas::mean;

assert_eq!(mean(1, 2), 1); // rounded down
```
"
    );
}

#[test]
fn a_panic_has_a_doctest_of_its_own() {
    let docs = examples().docs("num", "Fixed::floor").unwrap();
    assert_eq!(docs.matches("```should_panic").count(), 1);
    assert!(docs.contains("# use zugyelmas::floor;\n"));
    assert!(docs.contains("floor(NAN); // no number\n```\n"));
}

#[test]
fn an_operation_by_each_policy() {
    let table = [
        ("checked_mul", ["Some(c)", "None", "None"].as_slice(), 0),
        ("overflowing_mul", &["(c, false)", "(e, true)"], 1),
        ("wrapping_mul", &["c", "e"], 1),
        ("saturating_mul", &["c", "f"], 1),
        ("strict_mul", &["c"], 2),
        ("unwrapped_mul", &["c"], 2),
        ("mul", &["c"], 1),
    ];
    for (name, returned, panics) in table {
        let docs = examples()
            .docs("policy", &format!("Calls::{name}"))
            .unwrap();
        let statements = ["b", "d", "g"].iter().zip(returned);
        for (operand, result) in statements {
            let statement = format!("assert_eq!(a.{name}({operand}), {result});");
            assert!(docs.contains(&statement), "{statement} in {docs}");
        }
        assert_eq!(docs.matches("assert_eq!").count(), returned.len(), "{name}");
        assert_eq!(docs.matches("should_panic").count(), panics, "{name}");
    }
}

#[test]
fn a_call_without_an_example() {
    let error = examples().docs("num", "Fixed::ceil").unwrap_err();
    assert_eq!(error, "rust/docs has no example of num::Fixed::ceil");
    // A function of a crate is no operation by a policy.
    assert!(examples().docs("num", "checked_mul").is_err());
    assert_eq!(examples().docs("num", "laws::mul_law"), Ok(String::new()));
}

#[test]
fn an_entry_of_no_call() {
    let examples = examples();
    examples.docs("num", "mean").unwrap();
    examples.docs("policy", "Calls::mul").unwrap();
    let error = examples.end().unwrap_err();
    assert_eq!(error, "rust/docs: no public call is num::Fixed::floor");
    examples.docs("num", "Fixed::floor").unwrap();
    assert_eq!(examples.end(), Ok(()));
}

#[test]
fn tables_of_no_form() {
    let message = "num::mean: an example is empty or stands twice";
    assert_eq!(error_of("mean\n"), message);
    assert_eq!(error_of("mean\n    a;\nmean\n    a;\n"), message);
    let mut examples = Examples::default();
    examples.read("operations", "mul\n    a.?mul(b)\n").unwrap();
    let error = examples.docs("policy", "Calls::mul").unwrap_err();
    assert_eq!(error, "mul: a.?mul(b)");
}

#[test]
fn a_contract_links_to_its_definitions() {
    let mut definitions = Definitions::default();
    definitions.add("word", "Format", "abbrev pub wrap : N\n");
    definitions.add("kernel", "RoundedRows", "abbrev pub rounded : N\n");
    definitions.add("kernel", "Format", "use Rattle.fixed_word.specs.Format\n");
    let source = "ghost use Rattle.fixed_kernel.specs.Format.{wrap};
ghost use Rattle.fixed_kernel.specs.RoundedRows.{rounded, unrounded};
";
    let contract = ["ensures { rounded (wrap x) }".to_string()];
    assert_eq!(
        definitions.links(source, &contract),
        "
Definitions: [`wrap`], [`rounded`].

[`wrap`]: crate::definitions::word_format
[`rounded`]: crate::definitions::kernel_rounded_rows
"
    );
    assert_eq!(definitions.links("", &contract), "");
}

#[test]
fn links_of_pages() {
    let page = "[a](GUIDE.md#b) [c](../crates/fixed_num/README.md#d) [e](#f)";
    assert_eq!(
        linked(page, &["num"]).unwrap(),
        "[a](crate::guide#b) [c](crate::num) [e](#f)"
    );
    let error = linked(page, &[]).unwrap_err();
    let link = "../crates/fixed_num/README.md#d";
    assert_eq!(
        error,
        format!("the docs of the package have no page for the link {link}")
    );
}
