// Made by `make package` of crates/fixed_text/src/numbers.rt, which is proved: changes go there.

//! Reading tokens as numbers and as words.

use crate::digits::natural_of;
use crate::memory::Global;
use crate::memory::Vec;
use crate::text::decimal::{Decimal, read_decimal, value_in};
#[cfg(any(feature = "calc", feature = "runs"))]
use crate::text::fault::LineFault;
use crate::text::tokens::Tokens;
use crate::word::{RawWord, Word};

/// Returns the natural number with this decimal, or `2^64` if it is larger. Returns `None` if no natural number has it.
///
/// # Examples
///
/// ```
/// use zugyelmas::text::{Decimal, read_natural};
///
/// assert_eq!(read_natural(b"12"), Some(12));
/// assert_eq!(read_natural(b"012"), None); // no 0 in front
/// // 2^64 + 1 is held as 2^64
/// assert_eq!(read_natural(b"18446744073709551617"), Some(1 << 64));
/// ```
///
/// # Proved
///
/// ```text
/// ensures { result ≡ option_map cap (natural_in token.now) }
/// ```
///
/// Definitions: [`natural_in`], [`cap`].
///
/// [`natural_in`]: crate::definitions::text_numbers
/// [`cap`]: crate::definitions::digits_numerals
#[must_use]
pub fn read_natural(token: &[u8]) -> Option<u128> {
    natural_of(token)
}

/// Returns the natural number whose decimal follows the letter, or `2^64` if it is larger. Returns `None` if the token
/// is not this letter and a decimal.
///
/// # Examples
///
/// ```
/// use zugyelmas::text::{Decimal, read_numbered};
///
/// assert_eq!(read_numbered(b'r', b"r12"), Some(12));
/// assert_eq!(read_numbered(b'r', b"i12"), None);
/// ```
///
/// # Proved
///
/// ```text
/// ensures { result ≡ option_map cap (numbered_in letter token.now) }
/// ```
///
/// Definitions: [`numbered_in`], [`cap`].
///
/// [`numbered_in`]: crate::definitions::text_numbers
/// [`cap`]: crate::definitions::digits_numerals
#[must_use]
pub fn read_numbered(letter: u8, token: &[u8]) -> Option<u128> {
    match token {
        [first, digits @ ..] => {
            if *first == letter {
                read_natural(digits)
            } else {
                None
            }
        }
        [] => None,
    }
}

/// Returns the whole number that the remaining tokens write, or `None` unless they are one decimal and nothing else.
///
/// # Examples
///
/// ```
/// use zugyelmas::text::{Decimal, Tokens, read_only_number};
///
/// let twelve = Decimal { below_zero: true, magnitude: 12 };
/// assert_eq!(read_only_number(Tokens::new(b"-12")), Some(twelve));
/// assert_eq!(read_only_number(Tokens::new(b"1 2")), None);
/// ```
///
/// # Proved
///
/// ```text
/// ensures { result ≡ option_map decimal_of (only_number tokens.entry) }
/// ```
///
/// Definitions: [`decimal_of`], [`only_number`].
///
/// [`decimal_of`]: crate::definitions::text_decimals
/// [`only_number`]: crate::definitions::text_numbers
#[must_use]
pub fn read_only_number(tokens: Tokens<'_>) -> Option<Decimal> {
    match tokens.rest() {
        Some(rest) => read_decimal(rest),
        None => None,
    }
}

/// Returns the word of a number. Fails with `LineFault::Unfit` if the number does not fit.
///
/// # Examples
///
/// ```
/// use zugyelmas::text::{Decimal, LineFault, fitting};
///
/// let least = Decimal { below_zero: true, magnitude: 128 };
/// assert_eq!(fitting(&least), Ok(-128_i8));
/// let large = Decimal { below_zero: false, magnitude: 128 };
/// assert_eq!(fitting::<i8>(&large), Err(LineFault::Unfit));
/// ```
///
/// # Proved
///
/// ```text
/// ensures { IsAnswerOfReading T.value
///     (fitting_number T.SIGNED T.BITS (Some (decimal_value number.now))) result }
/// ```
///
/// Definitions: [`decimal_value`], [`fitting_number`], [`IsAnswerOfReading`].
///
/// [`decimal_value`]: crate::definitions::text_decimals
/// [`fitting_number`]: crate::definitions::text_readings
/// [`IsAnswerOfReading`]: crate::definitions::text_answers
pub fn fitting<T: Word>(number: &Decimal) -> Result<T, LineFault> {
    match value_in(number) {
        Some(word) => Ok(word),
        None => Err(LineFault::Unfit),
    }
}

/// Returns the word of the number with this decimal. Fails with `LineFault::Unformed` if no number has it, and with
/// `LineFault::Unfit` if the number does not fit.
///
/// # Examples
///
/// ```
/// use zugyelmas::text::{Decimal, LineFault, read_word};
///
/// assert_eq!(read_word(b"-128"), Ok(-128_i8));
/// assert_eq!(read_word::<i8>(b"128"), Err(LineFault::Unfit));
/// assert_eq!(read_word::<i8>(b"x"), Err(LineFault::Unformed));
/// ```
///
/// # Proved
///
/// ```text
/// ensures { IsAnswerOfReading T.value (fitting_number T.SIGNED T.BITS (whole_in token.now)) result }
/// ```
///
/// Definitions: [`whole_in`], [`fitting_number`], [`IsAnswerOfReading`].
///
/// [`whole_in`]: crate::definitions::text_numbers
/// [`fitting_number`]: crate::definitions::text_readings
/// [`IsAnswerOfReading`]: crate::definitions::text_answers
pub fn read_word<T: Word>(token: &[u8]) -> Result<T, LineFault> {
    match read_decimal(token) {
        Some(number) => fitting(&number),
        None => Err(LineFault::Unformed),
    }
}

/// Returns the words of the numbers with these decimals, in order. Fails with `LineFault::Unformed` if a token is not a
/// decimal, and otherwise with `LineFault::Unfit` if a number does not fit. Whatever the tokens are, it may fail with
/// `LineFault::Wanting`, if memory runs out.
///
/// # Examples
///
/// ```
/// use zugyelmas::memory::Global;
/// use zugyelmas::text::{LineFault, Tokens, read_words};
///
/// let words = read_words::<i8>(Global, Tokens::new(b"1 -2")).expect("numbers that fit");
/// assert_eq!(words.as_slice(), [1, -2]);
/// let refused = read_words::<i8>(Global, Tokens::new(b"128 x"));
/// assert_eq!(refused, Err(LineFault::Unformed)); // an unformed token comes first
/// ```
///
/// # Proved
///
/// ```text
/// ensures { IsAnswerOfReading (λ words. map T.value words.items)
///     (fitting_numbers T.SIGNED T.BITS (wholes_in tokens.entry)) result }
/// ```
///
/// Definitions: [`wholes_in`], [`fitting_numbers`], [`IsAnswerOfReading`].
///
/// [`wholes_in`]: crate::definitions::text_numbers
/// [`fitting_numbers`]: crate::definitions::text_readings
/// [`IsAnswerOfReading`]: crate::definitions::text_answers
pub fn read_words<T: Word>(alloc: Global, mut tokens: Tokens<'_>) -> Result<Vec<T>, LineFault> {
    let mut words = Vec::new(alloc);
    let mut fit = true;
    'each: while let Some(token) = tokens.take() {
        match read_word(token) {
            Ok(word) => match words.push(word) {
                Ok(()) => {}
                Err(_) => return Err(LineFault::Wanting),
            },
            Err(LineFault::Unfit) => fit = false,
            Err(refusal) => return Err(refusal),
        }
    }
    if fit {
        Ok(words)
    } else {
        Err(LineFault::Unfit)
    }
}
