// Made by `make package` of crates/tests_kernel/src/logarithms.rt, which is proved: changes go there.

//! Logarithms at powers and their neighbours, and the counts of steps.

use crate::logs::{Base, frac_log10_part, frac_part, int_log10_part, int_part};
use crate::word::{Count, Digits, Steps};
type Fail = std::boxed::Box<dyn std::error::Error>;

/// The four logarithms of a word, and the greatest count of the four.
#[derive(Clone, Copy)]
struct Found {
    int: i32,
    frac: i32,
    int_ten: i32,
    frac_ten: i32,
    count: u64,
}

/// The logarithm of a whole number, and its count.
fn int_log<D: Digits<Count>>(val: D, base: Base) -> (i32, u64) {
    let mut steps = Steps::new(Count::new());
    let int = int_part(val, base, &mut steps);
    (int, steps.ledger().count())
}

/// The logarithm of a fraction, and its count.
fn frac_log<D: Digits<Count>>(val: D, base: Base) -> (i32, u64) {
    let mut steps = Steps::new(Count::new());
    let frac = frac_part(val, base, &mut steps);
    (frac, steps.ledger().count())
}

/// The logarithm to the base ten of a whole number, and its count.
fn int_log_ten<D: Digits<Count>>(val: D) -> (i32, u64) {
    let mut steps = Steps::new(Count::new());
    let int = int_log10_part(val, &mut steps);
    (int, steps.ledger().count())
}

/// The logarithm to the base ten of a fraction, and its count.
fn frac_log_ten<D: Digits<Count>>(val: D) -> (i32, u64) {
    let mut steps = Steps::new(Count::new());
    let frac = frac_log10_part(val, &mut steps);
    (frac, steps.ledger().count())
}

fn logs<D: Digits<Count>>(val: D, base: Base) -> Found {
    let (int, int_count) = int_log(val, base);
    let (frac, frac_count) = frac_log(val, base);
    let (int_ten, int_ten_count) = int_log_ten(val);
    let (frac_ten, frac_ten_count) = frac_log_ten(val);
    let count = int_count.max(frac_count);
    Found {
        int,
        frac,
        int_ten,
        frac_ten,
        count: count.max(int_ten_count).max(frac_ten_count),
    }
}

/// The logarithms of `val` in the word of that width; nothing where the word does not hold it.
fn logs_in(width: u32, val: u64, base: Base) -> Option<Found> {
    if val == 0 {
        return None;
    }
    match width {
        8 if val <= 255 => Some(logs(val as u8, base)),
        16 if val <= 65_535 => Some(logs(val as u16, base)),
        32 if val <= 4_294_967_295 => Some(logs(val as u32, base)),
        64 => Some(logs(val, base)),
        _ => None,
    }
}

#[test]
fn binary_logarithms() -> Result<(), Fail> {
    let two = Base::new(2).ok_or("a base")?;
    for (width, greatest, last) in [
        (8_u32, 255_u64, 7),
        (16, 65_535, 15),
        (32, 4_294_967_295, 31),
        (64, u64::MAX, 63),
    ] {
        let found = logs_in(width, greatest, two).ok_or("a word")?;
        let least = logs_in(width, 1, two).ok_or("a word")?;
        let (int, frac) = (found.int, found.frac);
        assert!(
            int == last && frac == -1,
            "greatest of {width}: {int}, {frac}"
        );
        let (int, frac) = (least.int, least.frac);
        assert!(
            int == 0 && frac == -1 - last,
            "one of {width}: {int}, {frac}"
        );
    }
    Ok(())
}

/// Both logarithms to the base ten of a whole number.
fn check_int(width: u32, val: u64, want: i32) -> Result<(), Fail> {
    let ten = Base::new(10).ok_or("a base")?;
    let found = logs_in(width, val, ten).ok_or("a word")?;
    let (by_base, by_ten) = (found.int, found.int_ten);
    assert!(
        by_base == want && by_ten == want,
        "{val} of {width} bits: {by_base} and {by_ten}"
    );
    Ok(())
}

/// Both logarithms to the base ten of a fraction.
fn check_frac(width: u32, val: u64, want: i32) -> Result<(), Fail> {
    let ten = Base::new(10).ok_or("a base")?;
    let found = logs_in(width, val, ten).ok_or("a word")?;
    let (by_base, by_ten) = (found.frac, found.frac_ten);
    assert!(
        by_base == want && by_ten == want,
        "{val} over 2^{width}: {by_base} and {by_ten}"
    );
    Ok(())
}

#[test]
fn decimal_logarithms() -> Result<(), Fail> {
    for (width, greatest, last) in [
        (8_u32, 255_u64, 2_i32),
        (16, 65_535, 4),
        (32, 4_294_967_295, 9),
        (64, u64::MAX, 19),
    ] {
        check_int(width, greatest, last)?;
        let mut power: u64 = 1;
        let mut part = greatest;
        for i in 0..=last {
            check_int(width, power, i)?;
            check_int(width, power.saturating_add(1), i)?;
            check_frac(width, part, -1 - i)?;
            if i > 0 {
                check_int(width, power.saturating_sub(1), i - 1)?;
                check_frac(width, part.saturating_add(1), -i)?;
            }
            if part > 1 {
                check_frac(width, part - 1, -1 - i)?;
            }
            power = power.saturating_mul(10);
            part /= 10;
        }
    }
    Ok(())
}

/// Whether `base^k <= val / one < base^(k+1)`, by powers in a wider type.
fn is_logarithm(val: u64, one: u64, base: u32, k: i32) -> bool {
    let step = u128::from(base);
    let mut low = u128::from(one);
    let mut high = u128::from(val);
    for _ in 0..k.unsigned_abs().min(8) {
        if k < 0 {
            high = high.saturating_mul(step);
        } else {
            low = low.saturating_mul(step);
        }
    }
    low <= high && high < low.saturating_mul(step)
}

#[test]
fn every_byte() -> Result<(), Fail> {
    for number in [
        2_u32, 3, 4, 5, 6, 7, 8, 9, 10, 11, 12, 13, 14, 15, 16, 17, 255, 256, 1000,
    ] {
        let base = Base::new(number).ok_or("a base")?;
        for val in 1..=255_u64 {
            let found = logs_in(8, val, base).ok_or("a word")?;
            assert!(is_logarithm(val, 1, number, found.int), "{val} to {number}");
            assert!(
                is_logarithm(val, 256, number, found.frac),
                "{val} over 256 to {number}"
            );
        }
    }
    Ok(())
}

/// The logarithms of bytes, to the base thousand and to the base ten.
fn check_bytes(rows: &[(u64, i32)]) -> Result<(), Fail> {
    let thousand = Base::new(1000).ok_or("a base")?;
    for &(val, want) in rows {
        let found = logs_in(8, val, thousand).ok_or("a word")?;
        let found_ten = found.frac_ten;
        assert!(
            found.int == 0 && found.frac == -1 && found_ten == want,
            "{val}: {found_ten}"
        );
    }
    Ok(())
}

#[test]
fn worked_values() -> Result<(), Fail> {
    check_bytes(&[(26, -1), (25, -2), (3, -2), (2, -3), (1, -3)])?;
    let two = Base::new(2).ok_or("a base")?;
    let one = logs_in(64, 1, two).ok_or("a word")?;
    let no_base = Base::new(1).is_none() && Base::new(0).is_none();
    assert!(no_base && one.frac == -64 && one.frac_ten == -20);
    Ok(())
}

#[test]
fn counts() -> Result<(), Fail> {
    let two = Base::new(2).ok_or("a base")?;
    let ten = Base::new(10).ok_or("a base")?;
    let mut power: u64 = 1;
    let mut tens: u64 = 1;
    let mut most = 0;
    for i in 0..64 {
        for val in [
            power - power.min(1),
            power,
            power.saturating_add(1),
            tens - tens.min(1),
            tens,
            tens.saturating_add(1),
        ] {
            if val > 0 {
                most = most.max(logs(val, two).count).max(logs(val, ten).count);
            }
        }
        power = power.saturating_mul(2);
        tens = tens.saturating_mul(10);
    }
    assert!(most <= 88, "count {most}");
    Ok(())
}
