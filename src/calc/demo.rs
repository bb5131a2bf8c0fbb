// Made by `make package` of crates/fixed_calc/src/demo.rt, which is proved: changes go there.

//! The script of a demonstration, from a generator of numbers.

use crate::digits::decimal_into;
use crate::memory::Vec;
use crate::memory::{AllocError, Global};

/// The bytes of a script. Contracts see them as a list of bytes.
pub struct Script {
    bytes: Vec<u8>,
}

impl Script {
    /// Returns a script of these bytes. This does not allocate.
    ///
    /// # Examples
    ///
    /// ```
    /// use zugyelmas::calc::Script;
    /// use zugyelmas::memory::{Global, Vec};
    /// let bytes = Vec::from_slice(Global, b"i8 4\n").expect("memory");
    /// let script = Script::new(bytes);
    ///
    /// assert_eq!(script.as_bytes(), b"i8 4\n");
    /// ```
    ///
    /// # Proved
    ///
    /// ```text
    /// ensures { result ≡ bytes.items }
    /// ```
    #[must_use]
    pub fn new(bytes: Vec<u8>) -> Script {
        Script { bytes }
    }

    /// Returns the bytes.
    ///
    /// # Examples
    ///
    /// ```
    /// use zugyelmas::calc::Script;
    /// use zugyelmas::memory::{Global, Vec};
    /// let bytes = Vec::from_slice(Global, b"i8 4\n").expect("memory");
    /// let script = Script::new(bytes);
    ///
    /// assert_eq!(script.as_bytes(), b"i8 4\n");
    /// ```
    ///
    /// # Proved
    ///
    /// ```text
    /// ensures { result.now ≡ self.now }
    /// ```
    #[must_use]
    pub fn as_bytes(&self) -> &[u8] {
        &self.bytes
    }

    /// Turns the script into its bytes. This does not allocate.
    ///
    /// # Examples
    ///
    /// ```
    /// use zugyelmas::calc::Script;
    /// use zugyelmas::memory::{Global, Vec};
    /// let bytes = Vec::from_slice(Global, b"i8 4\n").expect("memory");
    /// let script = Script::new(bytes);
    ///
    /// assert_eq!(script.into_bytes().as_slice(), b"i8 4\n");
    /// ```
    ///
    /// # Proved
    ///
    /// ```text
    /// ensures { result.items ≡ self }
    /// ```
    #[must_use]
    pub fn into_bytes(self) -> Vec<u8> {
        self.bytes
    }
}

/// Returns the next state.
fn next(state: u64) -> u64 {
    state
        .wrapping_mul(6_364_136_223_846_793_005)
        .wrapping_add(1_442_695_040_888_963_407)
}

/// Adds the decimal of a number. Fails if memory runs out.
fn push_number(script: &mut Vec<u8>, number: u64) -> Result<(), AllocError> {
    let mut buffer = [0; 20];
    let start = decimal_into(number, &mut buffer);
    script.extend_from_slice(&buffer[start..])
}

/// Adds the name of a register of one digit. Fails if memory runs out.
fn push_register(script: &mut Vec<u8>, register: u64) -> Result<(), AllocError> {
    script.extend_from_slice(&[b'r', b'0' + register as u8])
}

/// Adds a line that sets a register of one digit, and its newline. Fails if memory runs out.
fn push_set(script: &mut Vec<u8>, dest: u64, number: u64) -> Result<(), AllocError> {
    push_register(script, dest)?;
    script.extend_from_slice(b" set ")?;
    push_number(script, number)?;
    script.extend_from_slice(b"\n")
}

/// Adds the start of a line: its destination, and the names of its policy and operation, each after a space. The
/// destination has one digit, as have all registers. Fails if memory runs out.
fn push_names(script: &mut Vec<u8>, dest: u64, names: &[u8]) -> Result<(), AllocError> {
    push_register(script, dest)?;
    script.extend_from_slice(names)
}

/// Adds a line that applies an operation to one register, and its newline. Fails if memory runs out.
fn push_unary(script: &mut Vec<u8>, dest: u64, names: &[u8], a: u64) -> Result<(), AllocError> {
    push_names(script, dest, names)?;
    script.extend_from_slice(&[b' ', b'r', b'0' + a as u8, b'\n'])
}

/// Does the same for two registers.
fn push_binary(
    script: &mut Vec<u8>,
    dest: u64,
    names: &[u8],
    a: u64,
    b: u64,
) -> Result<(), AllocError> {
    push_names(script, dest, names)?;
    let (a, b) = (b'0' + a as u8, b'0' + b as u8);
    script.extend_from_slice(&[b' ', b'r', a, b' ', b'r', b, b'\n'])
}

/// Does the same for three registers.
fn push_ternary(
    script: &mut Vec<u8>,
    dest: u64,
    names: &[u8],
    a: u64,
    b: u64,
    c: u64,
) -> Result<(), AllocError> {
    push_names(script, dest, names)?;
    let (a, b, c) = (b'0' + a as u8, b'0' + b as u8, b'0' + c as u8);
    script.extend_from_slice(&[b' ', b'r', a, b' ', b'r', b, b' ', b'r', c, b'\n'])
}

/// Adds the line of a draw, and its newline. Fails if memory runs out.
fn push_line(script: &mut Vec<u8>, draw: u64) -> Result<(), AllocError> {
    let dest = draw % 8;
    let a = draw / 8 % 8;
    let b = draw / 64 % 8;
    match draw / 512 % 8 {
        0 => push_set(script, dest, draw),
        1 => push_binary(script, dest, b" wrapping add", a, b),
        2 => push_binary(script, dest, b" overflowing sub", a, b),
        3 => push_binary(script, dest, b" saturating mul", a, b),
        4 => push_binary(script, dest, b" checked div", a, b),
        5 => push_ternary(script, dest, b" wrapping mul_add", a, b, dest),
        6 => push_ternary(script, dest, b" overflowing add_prod", dest, a, b),
        _ => push_unary(script, dest, b" checked sqrt", a),
    }
}

/// Returns the script of a demonstration: a header of eight registers of 64 bits with 32 fraction bits, and `lines`
/// lines that a generator of numbers draws. Fails if memory runs out. Precondition: `lines` is from 1 to 1,000,000.
///
/// # Examples
///
/// ```
/// use zugyelmas::calc::demo_script;
/// use zugyelmas::memory::Global;
///
/// let script = demo_script(Global, 3).expect("memory");
/// let lines = script.as_bytes().split(|byte| *byte == b'\n');
/// // a header, 3 lines, and nothing behind the last newline
/// assert_eq!(lines.count(), 5);
/// ```
///
/// ```should_panic
/// # use zugyelmas::calc::demo_script;
/// # use zugyelmas::memory::Global;
/// # std::panic::set_hook(Box::new(|_| {}));
/// let _ = demo_script(Global, 0); // no line
/// ```
///
/// # Panics
///
/// Panics unless there is a line, and there are at most 1,000,000 lines.
///
/// # Proved
///
/// ```text
/// requires some { 1 ≤ lines }
/// requires most { lines ≤ most_lines }
/// ensures { IfOk result (λ script. script ≡ demo_text lines) }
/// ```
///
/// Definitions: [`demo_text`], [`most_lines`].
///
/// [`demo_text`]: crate::definitions::calc_demo
/// [`most_lines`]: crate::definitions::calc_command_line
#[track_caller]
pub fn demo_script(alloc: Global, lines: u32) -> Result<Script, AllocError> {
    assert!(lines >= 1, "precondition: there is a line");
    assert!(
        lines <= 1_000_000,
        "precondition: there are at most 1,000,000 lines"
    );
    let mut bytes = Vec::new(alloc);
    bytes.extend_from_slice(b"i64 32 32 32 32 32 32 32 32\n")?;
    let mut state = 1;
    for _i in 0..lines {
        state = next(state);
        push_line(&mut bytes, state >> 33)?;
    }
    Ok(Script { bytes })
}
