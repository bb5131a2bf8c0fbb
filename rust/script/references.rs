//! The operators on references to numbers, as Rust's integers have them. They are not proved: each copies what it
//! refers to and forwards to a proved operator.

const NUMBER: &str = "Fixed<T, F>";

/// The operators of two operands: the trait, the method, and the types that stand on the right.
const BINARY: [(&str, &str, &[&str]); 10] = [
    ("Add", "add", &[NUMBER]),
    ("Sub", "sub", &[NUMBER]),
    ("Mul", "mul", &[NUMBER, "T"]),
    ("Div", "div", &[NUMBER, "T"]),
    ("Rem", "rem", &[NUMBER, "T"]),
    ("BitAnd", "bitand", &[NUMBER]),
    ("BitOr", "bitor", &[NUMBER]),
    ("BitXor", "bitxor", &[NUMBER]),
    ("Shl", "shl", &["u32"]),
    ("Shr", "shr", &["u32"]),
];

/// The operators of one operand: the trait and the method.
const UNARY: [(&str, &str); 2] = [("Neg", "neg"), ("Not", "not")];

/// An operator with a reference on its left.
const ON_THE_LEFT: &str = "
impl<T: Word, const F: u32, R> core::ops::$Trait<R> for &Fixed<T, F>
where
    Fixed<T, F>: core::ops::$Trait<R, Output = Fixed<T, F>>,
{
    type Output = Fixed<T, F>;

    #[track_caller]
    fn $call(self, rhs: R) -> Fixed<T, F> {
        core::ops::$Trait::$call(*self, rhs)
    }
}
";

/// An operator with a reference on its right, and its assigning form.
const ON_THE_RIGHT: &str = "
impl<T: Word, const F: u32> core::ops::$Trait<&$Right> for Fixed<T, F>
where
    Fixed<T, F>: core::ops::$Trait<$Right, Output = Fixed<T, F>>,
{
    type Output = Fixed<T, F>;

    #[track_caller]
    fn $call(self, rhs: &$Right) -> Fixed<T, F> {
        core::ops::$Trait::$call(self, *rhs)
    }
}

impl<T: Word, const F: u32> core::ops::$TraitAssign<&$Right> for Fixed<T, F>
where
    Fixed<T, F>: core::ops::$TraitAssign<$Right>,
{
    #[track_caller]
    fn $call_assign(&mut self, rhs: &$Right) {
        core::ops::$TraitAssign::$call_assign(self, *rhs);
    }
}
";

/// An operator whose one operand is a reference.
const ALONE: &str = "
impl<T: Word, const F: u32> core::ops::$Trait for &Fixed<T, F>
where
    Fixed<T, F>: core::ops::$Trait<Output = Fixed<T, F>>,
{
    type Output = Fixed<T, F>;

    #[track_caller]
    fn $call(self) -> Fixed<T, F> {
        core::ops::$Trait::$call(*self)
    }
}
";

/// The operators on references as a file of Rust.
pub fn references() -> String {
    let head = "// Made by `make package` of the tables in rust/script/references.rs: changes go there.\n\nuse super::{Fixed, Word};\n";
    let of_two = BINARY.map(|(of_trait, call, rights)| {
        let with =
            |right: &&str| implemented(ON_THE_RIGHT, of_trait, call).replace("$Right", right);
        implemented(ON_THE_LEFT, of_trait, call) + &rights.iter().map(with).collect::<String>()
    });
    let of_one = UNARY.map(|(of_trait, call)| implemented(ALONE, of_trait, call));
    head.to_string() + &of_two.concat() + &of_one.concat()
}

/// A form for an operator.
fn implemented(form: &str, of_trait: &str, call: &str) -> String {
    form.replace("$Trait", of_trait).replace("$call", call)
}
