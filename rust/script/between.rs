//! The conversions between words that Rust wants spelled out for each pair, since a pair has `From` or `TryFrom` and
//! not both. They are not proved: each forwards to a proved call.

/// The words: the name, how many bits it has, and whether it holds numbers below 0.
const WORDS: [(&str, u32, bool); 8] = [
    ("i8", 8, true),
    ("i16", 16, true),
    ("i32", 32, true),
    ("i64", 64, true),
    ("u8", 8, false),
    ("u16", 16, false),
    ("u32", 32, false),
    ("u64", 64, false),
];

/// The floats: the name, and how many bits its significand has.
const FLOATS: [(&str, u32); 2] = [("f32", 24), ("f64", 53)];

/// An integer beside numbers of any format.
const INTEGER: &str = "
impl<T: Castable, const F: u32> PartialEq<$Source> for Fixed<T, F> {
    #[inline]
    fn eq(&self, other: &$Source) -> bool {
        self.equals(*other)
    }
}

impl<T: Castable, const F: u32> PartialOrd<$Source> for Fixed<T, F> {
    #[inline]
    fn partial_cmp(&self, other: &$Source) -> Option<Ordering> {
        Some(self.compare(*other))
    }
}

/// The integer; fails if the number is none of its type.
impl<T: Castable, const F: u32> TryFrom<Fixed<T, F>> for $Source {
    type Error = ConversionError;

    #[inline]
    fn try_from(number: Fixed<T, F>) -> Result<$Source, ConversionError> {
        exact(number)
    }
}
";

/// An integer that some words hold with at least one fraction bit.
const NARROW_INTEGER: &str = "
/// The same number. If the format does not hold every integer of the type, it is a compile error.
impl<T: Castable, const F: u32> From<$Source> for Fixed<T, F>
where
    ($Source, T): Narrower,
{
    #[inline]
    fn from(source: $Source) -> Fixed<T, F> {
        const { assert!(holds::<$Source, T>(0, F), \"the format holds every integer of the type\") }
        Fixed::from_num(source)
    }
}
";

/// An integer that a word may not hold, or not with a fraction bit.
const INTEGER_IN: &str = "
/// The same number; fails if it does not fit.
impl<const F: u32> TryFrom<$Source> for Fixed<$Word, F> {
    type Error = ConversionError;

    #[inline]
    fn try_from(source: $Source) -> Result<Fixed<$Word, F>, ConversionError> {
        exact(source)
    }
}
";

/// A number of another word, likewise.
const NUMBER_IN: &str = "
/// The same number; fails if it is none of the format.
impl<const F: u32, const G: u32> TryFrom<Fixed<$Source, G>> for Fixed<$Word, F> {
    type Error = ConversionError;

    #[inline]
    fn try_from(source: Fixed<$Source, G>) -> Result<Fixed<$Word, F>, ConversionError> {
        exact(source)
    }
}
";

/// A number of a word that a float holds.
const FLOAT: &str = "
/// The same number: the float has as many bits as the word.
impl<const F: u32> From<Fixed<$Source, F>> for $Float {
    #[inline]
    fn from(number: Fixed<$Source, F>) -> $Float {
        const { assert!(F <= $Source::BITS, \"the fraction F is at most the width\") }
        number.to_float()
    }
}
";

/// The conversions as a file of Rust.
pub fn between() -> String {
    let head = "// Made by `make package` of the tables in rust/script/between.rs: changes go there.\n\nuse super::{\n    Castable, ConversionError, Distinct, Fixed, FromNum, Narrower, Numeric, Order, ToFloat, exact, holds,\n};\nuse core::cmp::Ordering;\n\n";
    head.to_string() + &WORDS.map(of_source).concat()
}

/// What a word has as a source.
fn of_source((source, bits, is_signed): (&str, u32, bool)) -> String {
    // Whether a word holds the source's numbers with at least one fraction bit.
    let is_narrower = |width: u32, signed: bool| {
        (signed || !is_signed) && bits + u32::from(signed && !is_signed) < width
    };
    let mut text = INTEGER.to_string();
    if WORDS
        .iter()
        .any(|(_, width, signed)| is_narrower(*width, *signed))
    {
        text += NARROW_INTEGER;
    }
    for (word, width, signed) in WORDS {
        let is_other = word != source;
        if is_other {
            text += "impl Distinct for ($Word, $Source) {}\n";
        }
        if is_narrower(width, signed) {
            text += "impl Narrower for ($Source, $Word) {}\n";
        } else {
            text += INTEGER_IN;
            text += if is_other { NUMBER_IN } else { "" };
        }
        text = text.replace("$Word", word);
    }
    for (float, _) in FLOATS.iter().filter(|(_, digits)| bits <= *digits) {
        text += &FLOAT.replace("$Float", float);
    }
    text.replace("$Source", source)
}
