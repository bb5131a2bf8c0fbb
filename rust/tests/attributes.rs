//! Which calls the script marks with `#[must_use]`.

use script::attributes::mark;
use script::edits::Edits;
use script::items::Source;

/// Items of a module, in which `+` stands for the attribute.
const ITEMS: &str = "
+pub fn f(x: u8) -> u8 {
    x
}

pub(crate) fn inside(x: u8) -> u8 {
    x
}

pub fn changes(x: &mut u8) -> u8 {
    *x
}

pub fn fails(x: u8) -> Result<u8, u8> {
    Ok(x)
}

pub fn gives_nothing(x: u8) {
    f(x);
}

pub trait Shifts: Copy {
    /// A shift.
    #[inline]
    +fn shift(self, by: u32) -> Option<Self>
    where
        Self: Sized;

    fn count(self, steps: &mut u64) -> u32;

    +fn over_lines(
        self,
        by: u32,
    ) -> bool {
        by > 1
    }
}

impl Shifts for u8 {
    fn shift(self, by: u32) -> Option<Self> {
        None
    }
}

impl<T> Pair<T> {
    +pub const fn first(self) -> T {
        self.first
    }

    fn own(self) -> T {
        self.second
    }
}
";

#[test]
fn a_call_that_only_returns_a_value() {
    let written = ITEMS.replace("    +", "    #[must_use]\n    ");
    let written = written.replace("\n+", "\n#[must_use]\n");
    let text = ITEMS.replace('+', "");
    let mut edits = Edits::default();
    mark(&Source::new(&text).expect("items"), &mut edits);
    assert_eq!(edits.applied(&text), written);
}
