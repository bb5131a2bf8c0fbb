// Made by `make package` of crates/tests_kernel/src/words.rt, which is proved: changes go there.

//! The eight words through their bounds, outcomes at the ends, and the calls of `Digits` under a count.

use crate::word::{Count, Digits, Ordered, RawWord, Side, Silent, Steps, Word, outcome_of};

/// Whether the value is below 0, and its magnitude.
fn seen<T: RawWord>(word: T) -> (bool, u64) {
    (word.is_below_zero(), word.magnitude())
}

/// A fact's name, what was found and what is wanted: whether it is below 0, and its magnitude.
type Value = (&'static str, (bool, u64), (bool, u64));

fn all_equal(bits: u32, values: &[Value]) {
    for (what, found, wanted) in values {
        assert!(*found == *wanted, "{what} of {bits} bits: {found:?}");
    }
}

/// The constants and the order of a word whose least number is `-least` and whose greatest is
/// `greatest`.
fn constants<T: RawWord + Ordered>(bits: u32, least: u64, greatest: u64) {
    let values = [
        (
            "width",
            (T::SIGNED, T::BITS as u64),
            (least > 0, bits as u64),
        ),
        ("zero", seen(T::ZERO), (false, 0)),
        ("one", seen(T::ONE), (false, 1)),
        ("least", seen(T::MIN), (least > 0, least)),
        ("greatest", seen(T::MAX), (false, greatest)),
    ];
    all_equal(bits, &values);
    let rises = T::MIN < T::MAX && T::ZERO < T::ONE && T::MIN <= T::ZERO;
    let same = T::MAX == T::MAX && T::MIN != T::MAX;
    assert!(rises && same, "{bits} bits");
}

/// What is left of a number.
fn left<T: RawWord>(below_zero: bool, magnitude: u128) -> (bool, u64) {
    seen(T::residue(below_zero, magnitude))
}

/// The residues past each end, and one turn around.
fn residues<T: RawWord>(bits: u32, least: u64, greatest: u64) {
    let signed = least > 0;
    let minus_one = if signed { (true, 1) } else { (false, greatest) };
    let turn = greatest as u128 + least as u128 + 1;
    let (most, lowest) = (greatest as u128, least as u128);
    let values = [
        (
            "past the greatest",
            left::<T>(false, most + 1),
            (signed, least),
        ),
        (
            "past the least",
            left::<T>(true, lowest + 1),
            (false, greatest),
        ),
        ("least", left::<T>(true, lowest), (signed, least)),
        ("turn", left::<T>(false, turn), (false, 0)),
        ("all ones", left::<T>(false, u128::MAX), minus_one),
        ("all ones below 0", left::<T>(true, u128::MAX), (false, 1)),
    ];
    all_equal(bits, &values);
}

/// Whether that number leaves that word and lies on that side.
fn lies<T: Word>(below_zero: bool, magnitude: u128, wrapped: T, side: Side) -> bool {
    let outcome = outcome_of::<T>(below_zero, magnitude);
    outcome.wrapped == wrapped && outcome.side == side
}

/// A number's name, and whether it lies where it is to lie.
type Place = (&'static str, bool);

fn all_lie(bits: u32, places: &[Place]) {
    for (what, holds) in places {
        assert!(*holds, "{what} of {bits} bits");
    }
}

/// The outcomes at each end.
fn ends<T: Word>(bits: u32, least: u64, greatest: u64) {
    let least = least as u128;
    let greatest = greatest as u128;
    let places = [
        ("greatest", lies(false, greatest, T::MAX, Side::Fits)),
        (
            "past the greatest",
            lies(false, greatest + 1, T::MIN, Side::Above),
        ),
        ("least", lies(true, least, T::MIN, Side::Fits)),
        ("past the least", lies(true, least + 1, T::MAX, Side::Below)),
        ("zero below 0", lies(true, 0, T::ZERO, Side::Fits)),
        (
            "all ones below 0",
            lies(true, u128::MAX, T::ONE, Side::Below),
        ),
    ];
    all_lie(bits, &places);
}

/// Whether the way through the unsigned word leads back.
fn returns<T: Word>(word: T) -> bool {
    T::from_unsigned(word.to_unsigned()) == word
}

/// The words of the same width, of each sign.
fn ways<T: Word>(bits: u32, least: u64, greatest: u64) {
    assert!(
        returns(T::MIN) && returns(T::ONE) && returns(T::MAX),
        "{bits} bits"
    );
    let signed = least > 0;
    let least_signed = if signed { (true, least) } else { (false, 0) };
    let greatest_signed = if signed { (false, greatest) } else { (true, 1) };
    let values = [
        (
            "least, unsigned",
            seen(T::MIN.to_unsigned()),
            (false, least),
        ),
        (
            "greatest, unsigned",
            seen(T::MAX.to_unsigned()),
            (false, greatest),
        ),
        ("least, signed", seen(T::MIN.to_signed()), least_signed),
        (
            "greatest, signed",
            seen(T::MAX.to_signed()),
            greatest_signed,
        ),
    ];
    all_equal(bits, &values);
}

fn word<T: Word>(bits: u32, least: u64, greatest: u64) {
    constants::<T>(bits, least, greatest);
    residues::<T>(bits, least, greatest);
    ends::<T>(bits, least, greatest);
    ways::<T>(bits, least, greatest);
}

#[test]
fn eight_words() {
    word::<u8>(8, 0, u8::MAX as u64);
    word::<u16>(16, 0, u16::MAX as u64);
    word::<u32>(32, 0, u32::MAX as u64);
    word::<u64>(64, 0, u64::MAX);
    word::<i8>(8, 1 << 7, i8::MAX as u64);
    word::<i16>(16, 1 << 15, i16::MAX as u64);
    word::<i32>(32, 1 << 31, i32::MAX as u64);
    word::<i64>(64, 1 << 63, i64::MAX as u64);
}

/// A call's name, the count after it, and what it is to be.
type Counted = (&'static str, u64, u64);

fn all_counted(counts: &[Counted]) {
    for (what, found, wanted) in counts {
        assert!(*found == *wanted, "count after {what}: {found}");
    }
}

/// Whether the greatest word by 1, by 2 and as a literal is what it is to be.
fn products<D: Digits<Count> + RawWord + Ordered>(
    one: D,
    two: D,
    greatest: u64,
    steps: &mut Steps<Count>,
) -> bool {
    let all = D::times(D::MAX, one, steps);
    let past = D::times(D::MAX, two, steps);
    let known = D::literal(greatest, steps);
    all == Some(D::MAX) && past == None && known == Some(D::MAX)
}

/// Each of the eight calls raises the count by one.
fn counted<D: Digits<Count> + RawWord + Ordered>(greatest: u64) {
    let mut steps = Steps::new(Count::new());
    let one = <D as RawWord>::ONE;
    let three = D::add(D::add(one, one, &mut steps), one, &mut steps);
    let sums = steps.ledger().count();
    let two = D::sub(three, one, &mut steps);
    let difference = steps.ledger().count();
    let eight = D::shl(two, 2, &mut steps);
    let up = steps.ledger().count();
    let again = D::shr(eight, 3, &mut steps);
    let down = steps.ledger().count();
    let ordered = D::at_most(two, three, &mut steps) && !D::at_most(three, two, &mut steps);
    let orders = steps.ledger().count();
    let zeros = Digits::leading_zeros(<D as RawWord>::ZERO, &mut steps);
    let zeros_counted = steps.ledger().count();
    let known = products(one, two, greatest, &mut steps);
    assert!(seen(two) == (false, 2) && seen(eight) == (false, 8) && again == one);
    assert!(ordered && zeros == D::BITS && known);
    let counts = [
        ("two sums", sums, 2),
        ("a difference", difference, 3),
        ("a shift up", up, 4),
        ("a shift down", down, 5),
        ("two comparisons", orders, 7),
        ("leading zeros", zeros_counted, 8),
        ("two products and a literal", steps.ledger().count(), 11),
    ];
    all_counted(&counts);
}

#[test]
fn counted_words() {
    counted::<u8>(u8::MAX as u64);
    counted::<u16>(u16::MAX as u64);
    counted::<u32>(u32::MAX as u64);
    counted::<u64>(u64::MAX);
}

#[test]
fn eight_calls() {
    let mut steps = Steps::new(Count::new());
    let four = Digits::add(3_u8, 1, &mut steps);
    let two = Digits::sub(four, 2, &mut steps);
    let eight = Digits::shl(two, 2, &mut steps);
    let one = Digits::shr(eight, 3, &mut steps);
    assert!(Digits::at_most(one, two, &mut steps));
    assert!(Digits::leading_zeros(one, &mut steps) == 7);
    assert!(Digits::times(eight, 32, &mut steps).is_none());
    assert!(<u8 as Digits<Count>>::literal(255, &mut steps) == Some(255));
    assert!(steps.ledger().count() == 8);
    let mut silent = Steps::new(Silent::new());
    assert!(<u8 as Digits<Silent>>::literal(256, &mut silent).is_none());
}
