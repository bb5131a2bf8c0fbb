//! Tables, beside lines in wide integers.

use zugyelmas::prelude::*;
use zugyelmas::table::{Table, interpolate_of};
use zugyelmas::word::Word;

/// Each pair of values of 8 bits, at each part of each step.
fn every_line<T: Word + Into<i32>>() {
    for step in 0..T::BITS.min(5) {
        for bits in 0..1_u128 << 16 {
            let [start, end] = [bits >> 8, bits & 255].map(|bits| T::residue(false, bits));
            for part in 0..1_u64 << step {
                let exact = start.into() * ((1 << step) - part as i32) + end.into() * part as i32;
                let found = interpolate_of(start, end, part, step);
                assert_eq!(found.into(), exact >> step);
            }
        }
    }
}

#[test]
fn lines_of_8_bits() {
    every_line::<i8>();
    every_line::<u8>();
}

#[test]
fn lines_between_the_ends_of_the_word() {
    for part in [0, 1, 1 << 40, (1 << 62) + 12_345, (1 << 63) - 1] {
        let exact = |start: i128, end: i128| start + (((end - start) / 2 * part as i128) >> 62);
        let ends = [i128::from(i64::MIN), i128::from(i64::MAX)];
        let up = i128::from(interpolate_of(i64::MIN, i64::MAX, part, 63));
        assert!((exact(ends[0], ends[1]) - up).abs() <= 2, "{part}");
        let same = interpolate_of(i64::MIN, i64::MIN, part, 63);
        assert_eq!(same, i64::MIN);
    }
}

/// A thermistor's table over counts that may be below 0, clamped at both ends.
#[test]
fn tables() {
    let values = [-40.0, -12.5, 3.25, 27.0, 90.0, 60.0].map(FixedI32::<16>::from_num::<f64>);
    for (first, step) in [(-300_i16, 5_u32), (0, 0), (i16::MIN, 13), (32_700, 4)] {
        let table = Table {
            first: FixedI16::<0>::from_bits(first),
            step,
            values: &values,
        };
        for x in i16::MIN..=i16::MAX {
            let units = (i64::from(x) - i64::from(first)).max(0);
            let (index, part) = ((units >> step) as usize, units & ((1 << step) - 1));
            let expected = match values.get(index..index + 2) {
                Some(ends) => {
                    let [start, end] = [ends[0], ends[1]].map(|end| i64::from(end.to_bits()));
                    start + (((end - start) * part) >> step)
                }
                None => i64::from(values[5].to_bits()),
            };
            let x = FixedI16::<0>::from_bits(x);
            let value = table.at(x);
            assert_eq!(i64::from(value.to_bits()), expected);
            let is_inside = x >= table.first && units <= 5 << step;
            assert_eq!(table.contains(x), is_inside);
            assert_eq!(table.checked_at(x), is_inside.then_some(value));
        }
    }
}

#[test]
fn one_value() {
    let values = [FixedU8::<4>::from_bits(7)];
    let table = Table {
        first: FixedU32::<8>::from_num(3),
        step: 2,
        values: &values,
    };
    assert_eq!(table.at(FixedU32::MAX), values[0]);
    assert_eq!(table.checked_at(FixedU32::from_num(3)), Some(values[0]));
    assert_eq!(table.checked_at(FixedU32::from_num(2)), None);
    assert_eq!(table.checked_at(FixedU32::from_num(4)), None);
}
