//! Roots that count no steps, beside those of std: random numbers of every length, squares and their neighbours, and the
//! ends.

use zugyelmas::root::{root_of_double, root_of_word};

/// The next state of a generator of 64 bits.
fn next(state: &mut u64) -> u64 {
    *state ^= *state << 13;
    *state ^= *state >> 7;
    *state ^= *state << 17;
    *state
}

fn check(number: u128) {
    assert_eq!(
        u128::from(root_of_double(number)),
        number.isqrt(),
        "{number}"
    );
    if let Ok(number) = u64::try_from(number) {
        assert_eq!(root_of_word(number), number.isqrt(), "{number}");
    }
}

#[test]
fn roots_are_those_of_std() {
    let mut state = 1;
    for turn in 0..200_000 {
        let long = u128::from(next(&mut state)) << 64 | u128::from(next(&mut state));
        check(long >> (turn % 128));
        let root = u128::from(next(&mut state)) >> (turn % 64);
        let square = root * root;
        check(square);
        check(square.saturating_sub(1));
        check(square + 2 * root);
    }
}

#[test]
fn roots_at_the_ends_are_those_of_std() {
    for near in 0..100_000 {
        check(near);
        check(u128::from(u64::MAX) - near);
        check(u128::from(u64::MAX) + near);
        check(u128::MAX - near);
    }
}
