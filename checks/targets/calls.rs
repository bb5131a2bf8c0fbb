//! Hashes of what the typed calls return on drawn operands, a line for each word and call. Two processors on which the
//! calls return the same print the same lines. A call whose precondition fails panics, and the hash keeps that it did.
//!
//! usage: calls ROUNDS

use std::collections::BTreeMap;
use std::fmt::{self, Debug, Write};
use std::panic::{AssertUnwindSafe, catch_unwind, set_hook};
use zugyelmas::Castable;
use zugyelmas::prelude::*;

/// The hash of a text: FNV-1a of 64 bits.
struct Hash(u64);

impl Write for Hash {
    fn write_str(&mut self, text: &str) -> fmt::Result {
        for byte in text.bytes() {
            self.0 = (self.0 ^ u64::from(byte)).wrapping_mul(0x100_0000_01b3);
        }
        Ok(())
    }
}

/// How often each call was made, and the hash of what it returned.
#[derive(Default)]
struct Seen(BTreeMap<&'static str, (u64, Hash)>);

impl Default for Hash {
    fn default() -> Hash {
        Hash(0xcbf2_9ce4_8422_2325)
    }
}

impl Seen {
    #[inline(never)]
    fn call(&mut self, name: &'static str, write: &dyn Fn(&mut Hash) -> fmt::Result) {
        let (count, hash) = self.0.entry(name).or_default();
        *count += 1;
        if catch_unwind(AssertUnwindSafe(|| write(hash))).is_err() {
            hash.write_str("panics;").expect("a hash takes each text");
        }
    }

    fn print(&self, word: &str) {
        for (name, (count, hash)) in &self.0 {
            println!("{word} {name} {count} {:016x}", hash.0);
        }
    }
}

/// Makes calls on the same operands, each under its name.
macro_rules! calls {
    ($seen:ident, $a:ident: $($name:ident($($operand:expr),*))*) => {
        $($seen.call(stringify!($name), &|hash| write!(hash, "{:?};", $a.$name($($operand),*)));)*
    };
}

/// Makes calls that need more than a name and operands, each under the name before it.
macro_rules! named {
    ($seen:ident: $($name:ident = $call:expr;)*) => {
        $($seen.call(stringify!($name), &|hash| write!(hash, "{:?};", $call));)*
    };
}

/// Numbers by SplitMix64.
struct Draws(u64);

impl Draws {
    fn next(&mut self) -> u64 {
        self.0 = self.0.wrapping_add(0x9E37_79B9_7F4A_7C15);
        let mixed = (self.0 ^ (self.0 >> 30)).wrapping_mul(0xBF58_476D_1CE4_E5B9);
        let mixed = (mixed ^ (mixed >> 27)).wrapping_mul(0x94D0_49BB_1331_11EB);
        mixed ^ (mixed >> 31)
    }

    /// A word of any size, or one near an end, a power of two or 0.
    fn word(&mut self) -> u64 {
        let (kind, any, place) = (self.next() % 6, self.next(), self.next() % 64);
        let near = (1_u64 << place).wrapping_add(any % 5).wrapping_sub(2);
        match kind {
            0 | 1 => any,
            2 => any >> place,
            3 => near,
            4 => near.wrapping_neg(),
            _ => (any % 9).wrapping_sub(4),
        }
    }

    /// A float of any pattern, or more often one of which some formats have a number nearby.
    fn float(&mut self) -> f64 {
        let (any, word, down) = (self.next(), self.word() as i64, self.next() % 70);
        if any % 4 == 0 { f64::from_bits(any) } else { word as f64 / (1_u128 << down) as f64 }
    }
}

/// A word of the drawn bits that fit it.
trait Drawn: Castable + Word + Debug {
    fn drawn(bits: u64) -> Self;
}

impl Drawn for i8 {
    fn drawn(bits: u64) -> i8 {
        bits as i8
    }
}

impl Drawn for i16 {
    fn drawn(bits: u64) -> i16 {
        bits as i16
    }
}

impl Drawn for i32 {
    fn drawn(bits: u64) -> i32 {
        bits as i32
    }
}

impl Drawn for i64 {
    fn drawn(bits: u64) -> i64 {
        bits as i64
    }
}

impl Drawn for u8 {
    fn drawn(bits: u64) -> u8 {
        bits as u8
    }
}

impl Drawn for u16 {
    fn drawn(bits: u64) -> u16 {
        bits as u16
    }
}

impl Drawn for u32 {
    fn drawn(bits: u64) -> u32 {
        bits as u32
    }
}

impl Drawn for u64 {
    fn drawn(bits: u64) -> u64 {
        bits
    }
}

/// The operands of one round: three numbers of a format, a number of another fraction, the amount of a shift, and a
/// float.
struct Operands<T: Word, const F: u32, const G: u32> {
    a: Fixed<T, F>,
    b: Fixed<T, F>,
    c: Fixed<T, F>,
    m: Fixed<T, G>,
    amount: u32,
    x: f64,
}

fn operands<T: Drawn, const F: u32, const G: u32>(draws: &mut Draws) -> Operands<T, F, G> {
    Operands {
        a: Fixed::from_bits(T::drawn(draws.word())),
        b: Fixed::from_bits(T::drawn(draws.word())),
        c: Fixed::from_bits(T::drawn(draws.word())),
        m: Fixed::from_bits(T::drawn(draws.word())),
        amount: (draws.next() % u64::from(T::BITS + 4)) as u32,
        x: draws.float(),
    }
}

fn checked<T: Drawn, const F: u32, const G: u32>(seen: &mut Seen, drawn: &Operands<T, F, G>) {
    let &Operands { a, b, c, m, amount, .. } = drawn;
    let bits = b.to_bits();
    calls!(seen, a:
        checked_neg() checked_add(b) checked_sub(b) checked_mul(b) checked_div(b) checked_recip() checked_rem(b)
        checked_rem_euclid(b) checked_div_euclid(b) checked_dist(b) checked_next_multiple_of(b) checked_mul_int(bits)
        checked_div_int(bits) checked_rem_int(bits) checked_rem_euclid_int(bits) checked_div_euclid_int(bits)
        checked_sqrt() checked_shl(amount) checked_shr(amount) checked_mul_add(m, c) checked_add_prod(m, b)
    );
}

fn overflowing<T: Drawn, const F: u32, const G: u32>(seen: &mut Seen, drawn: &Operands<T, F, G>) {
    let &Operands { a, b, c, m, amount, .. } = drawn;
    let bits = b.to_bits();
    calls!(seen, a:
        overflowing_neg() overflowing_add(b) overflowing_sub(b) overflowing_mul(b) overflowing_div(b)
        overflowing_recip() overflowing_div_euclid(b) overflowing_dist(b) overflowing_next_multiple_of(b)
        overflowing_mul_int(bits) overflowing_div_int(bits) overflowing_rem_euclid_int(bits)
        overflowing_div_euclid_int(bits) overflowing_sqrt() overflowing_shl(amount) overflowing_shr(amount)
        overflowing_mul_add(m, c) overflowing_add_prod(m, b)
    );
}

fn wrapping<T: Drawn, const F: u32, const G: u32>(seen: &mut Seen, drawn: &Operands<T, F, G>) {
    let &Operands { a, b, c, m, amount, .. } = drawn;
    let bits = b.to_bits();
    calls!(seen, a:
        wrapping_neg() wrapping_add(b) wrapping_sub(b) wrapping_mul(b) wrapping_div(b) wrapping_recip()
        wrapping_div_euclid(b) wrapping_dist(b) wrapping_next_multiple_of(b) wrapping_mul_int(bits)
        wrapping_div_int(bits) wrapping_rem_euclid_int(bits) wrapping_div_euclid_int(bits) wrapping_sqrt()
        wrapping_shl(amount) wrapping_shr(amount) wrapping_mul_add(m, c) wrapping_add_prod(m, b)
    );
}

fn saturating<T: Drawn, const F: u32, const G: u32>(seen: &mut Seen, drawn: &Operands<T, F, G>) {
    let &Operands { a, b, c, m, .. } = drawn;
    let bits = b.to_bits();
    calls!(seen, a:
        saturating_neg() saturating_add(b) saturating_sub(b) saturating_mul(b) saturating_div(b) saturating_recip()
        saturating_div_euclid(b) saturating_dist(b) saturating_next_multiple_of(b) saturating_mul_int(bits)
        saturating_div_int(bits) saturating_rem_euclid_int(bits) saturating_div_euclid_int(bits) saturating_sqrt()
        saturating_mul_add(m, c) saturating_add_prod(m, b)
    );
}

fn strict<T: Drawn, const F: u32, const G: u32>(seen: &mut Seen, drawn: &Operands<T, F, G>) {
    let &Operands { a, b, c, m, amount, .. } = drawn;
    let bits = b.to_bits();
    calls!(seen, a:
        strict_neg() strict_add(b) strict_sub(b) strict_mul(b) strict_div(b) strict_recip() strict_rem(b)
        strict_rem_euclid(b) strict_div_euclid(b) strict_dist(b) strict_next_multiple_of(b) strict_mul_int(bits)
        strict_div_int(bits) strict_rem_int(bits) strict_rem_euclid_int(bits) strict_div_euclid_int(bits)
        strict_sqrt() strict_shl(amount) strict_shr(amount) strict_mul_add(m, c) strict_add_prod(m, b)
    );
}

fn conversions<T: Drawn, const F: u32, const G: u32>(seen: &mut Seen, drawn: &Operands<T, F, G>) {
    let &Operands { a, m, x, .. } = drawn;
    let narrow = x as f32;
    named!(seen:
        checked_from_f64 = Fixed::<T, F>::checked_from_num(x);
        saturating_from_f64 = Fixed::<T, F>::saturating_from_num(x);
        wrapping_from_f64 = Fixed::<T, F>::wrapping_from_num(x);
        checked_from_f32 = Fixed::<T, F>::checked_from_num(narrow);
        saturating_from_f32 = Fixed::<T, F>::saturating_from_num(narrow);
        to_f64 = a.to_float::<f64>();
        to_f32 = a.to_float::<f32>();
        checked_to_i16 = a.checked_to_num::<FixedI16<5>>();
        overflowing_to_u32 = a.overflowing_to_num::<FixedU32<29>>();
        saturating_to_i64 = a.saturating_to_num::<i64>();
        wrapping_to_u8 = a.wrapping_to_num::<u8>();
        compare = a.compare(m);
        compare_int = a.compare(3);
        text = (a.to_string(), format!("{m:.3}"));
        read = a.to_string().parse::<Fixed<T, F>>();
    );
    calls!(seen, a:
        int() frac() checked_floor() checked_ceil() checked_round() checked_round_ties_even() wrapping_ceil()
        saturating_round() overflowing_floor()
    );
}

fn functions<T: Drawn, const F: u32, const G: u32>(seen: &mut Seen, drawn: &Operands<T, F, G>) {
    let &Operands { a, b, .. } = drawn;
    calls!(seen, a:
        checked_hypot(b) checked_recip_sqrt() checked_log2() checked_exp2() checked_ln() checked_log10() checked_exp()
        checked_pow(b) checked_sin_turns() checked_cos_turns() checked_atan2_turns(b) checked_sin() checked_cos()
        checked_atan2(b) overflowing_hypot(b) overflowing_recip_sqrt() overflowing_log2() overflowing_ln()
        overflowing_log10() overflowing_sin_cos_turns() overflowing_atan2_turns(b) overflowing_sin_cos()
        overflowing_atan2(b) saturating_exp2() saturating_exp() saturating_pow(b)
    );
}

fn format<T: Drawn, const F: u32, const G: u32>(seen: &mut Seen, rounds: u64) {
    let mut draws = Draws(u64::from(1000 * T::BITS + F));
    for _ in 0..rounds {
        let drawn = operands::<T, F, G>(&mut draws);
        checked(seen, &drawn);
        overflowing(seen, &drawn);
        wrapping(seen, &drawn);
        saturating(seen, &drawn);
        strict(seen, &drawn);
        conversions(seen, &drawn);
        functions(seen, &drawn);
    }
}

/// Four formats of each word: whole numbers, half of the bits as fraction bits, some more, and all.
fn words(rounds: u64) {
    let mut seen: [Seen; 8] = Default::default();
    let [i8s, i16s, i32s, i64s, u8s, u16s, u32s, u64s] = &mut seen;
    eight::<i8>(i8s, rounds);
    sixteen::<i16>(i16s, rounds);
    thirty_two::<i32>(i32s, rounds);
    sixty_four::<i64>(i64s, rounds);
    eight::<u8>(u8s, rounds);
    sixteen::<u16>(u16s, rounds);
    thirty_two::<u32>(u32s, rounds);
    sixty_four::<u64>(u64s, rounds);
    for (seen, word) in seen.iter().zip(["i8", "i16", "i32", "i64", "u8", "u16", "u32", "u64"]) {
        seen.print(word);
    }
}

fn eight<T: Drawn>(seen: &mut Seen, rounds: u64) {
    format::<T, 0, 4>(seen, rounds);
    format::<T, 4, 4>(seen, rounds);
    format::<T, 7, 1>(seen, rounds);
    format::<T, 8, 7>(seen, rounds);
}

fn sixteen<T: Drawn>(seen: &mut Seen, rounds: u64) {
    format::<T, 0, 8>(seen, rounds);
    format::<T, 8, 8>(seen, rounds);
    format::<T, 11, 1>(seen, rounds);
    format::<T, 16, 15>(seen, rounds);
}

fn thirty_two<T: Drawn>(seen: &mut Seen, rounds: u64) {
    format::<T, 0, 16>(seen, rounds);
    format::<T, 16, 16>(seen, rounds);
    format::<T, 19, 1>(seen, rounds);
    format::<T, 32, 31>(seen, rounds);
}

fn sixty_four<T: Drawn>(seen: &mut Seen, rounds: u64) {
    format::<T, 0, 32>(seen, rounds);
    format::<T, 32, 32>(seen, rounds);
    format::<T, 35, 1>(seen, rounds);
    format::<T, 64, 63>(seen, rounds);
}

fn main() {
    set_hook(Box::new(|_| ()));
    let rounds = std::env::args().nth(1).map(|text| text.parse());
    match rounds {
        Some(Ok(rounds)) => words(rounds),
        _ => eprintln!("usage: calls ROUNDS"),
    }
}
