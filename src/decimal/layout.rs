// Made by `make package` of crates/fixed_decimal/src/layout.rt, which is proved: changes go there.

//! Writing a number with its padding.

use core::fmt::{self, Alignment, Write};

/// Writes a number as `pad_integral` does, with `zeros` zeros after its digits. The prefix is written if the formatter
/// is alternate. Precondition: the prefix has as many characters as bytes.
///
/// # Examples
///
/// ```
/// use std::fmt;
/// use zugyelmas::decimal::pad_number;
/// struct Hundred;
/// impl fmt::Display for Hundred {
///     fn fmt(&self, f: &mut fmt::Formatter<'_>) -> fmt::Result {
///         pad_number(f, false, "0d", "1", 2)
///     }
/// }
///
/// assert_eq!(format!("{Hundred}"), "100"); // two zeros at the end of "1"
/// assert_eq!(format!("{Hundred:06}"), "000100");
/// assert_eq!(format!("{Hundred:#}"), "0d100"); // with its prefix
/// ```
///
/// # Panics
///
/// Panics unless the prefix is ASCII.
///
/// # Proved
///
/// ```text
/// requires { char_count prefix.now ≡ length prefix.now }
/// ensures { WritesStyledOnOk W.write_str_gives f.old result
///     (padded_integral (formatter_spec f.old) below_zero prefix.now (digits.now ++ replicate zeros 48)) f.new }
/// ```
#[track_caller]
pub fn pad_number(
    f: &mut fmt::Formatter<'_>,
    below_zero: bool,
    prefix: &str,
    digits: &str,
    zeros: usize,
) -> fmt::Result {
    assert!(prefix.is_ascii(), "precondition: the prefix is ASCII");
    if zeros == 0 {
        return f.pad_integral(!below_zero, prefix, digits);
    }
    let sign = sign_shown(f.sign_plus(), below_zero);
    let base = prefix_shown(f.alternate(), prefix);
    let width = f.width().unwrap_or(0);
    let room = width.saturating_sub(digits.len()).saturating_sub(zeros);
    let padding = room.saturating_sub(sign.len()).saturating_sub(base.len());
    let is_zero_padded = f.sign_aware_zero_pad();
    let inner = if is_zero_padded { padding } else { 0 };
    let before = if is_zero_padded {
        0
    } else {
        fill_before(f, padding)
    };
    let fill = f.fill();
    write_repeated(f, fill, before)?;
    f.write_str(sign)?;
    f.write_str(base)?;
    write_repeated(f, '0', inner)?;
    f.write_str(digits)?;
    write_repeated(f, '0', zeros)?;
    write_repeated(f, fill, padding - before - inner)
}

/// Returns the sign to write: `-` below 0, `+` for other numbers if `plus`, and otherwise nothing.
#[inline]
fn sign_shown(plus: bool, below_zero: bool) -> &'static str {
    if below_zero {
        "-"
    } else if plus {
        "+"
    } else {
        ""
    }
}

/// Returns the prefix if the formatter is alternate, and otherwise nothing.
#[inline]
fn prefix_shown(alternate: bool, prefix: &str) -> &str {
    if alternate { prefix } else { "" }
}

/// Returns how much of the padding precedes the number.
#[inline]
fn fill_before(f: &fmt::Formatter<'_>, padding: usize) -> usize {
    match f.align() {
        Some(Alignment::Left) => 0,
        Some(Alignment::Center) => padding / 2,
        _ => padding,
    }
}

/// Writes a character `count` times.
#[inline]
fn write_repeated(f: &mut fmt::Formatter<'_>, sign: char, count: usize) -> fmt::Result {
    for _ in 0..count {
        f.write_char(sign)?;
    }
    Ok(())
}
