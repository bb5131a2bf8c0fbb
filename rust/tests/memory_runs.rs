//! How many requests for memory the parts of the runs over text make.

mod counting;

use counting::requests;
use zugyelmas::Word;
use zugyelmas::filter::{Bank, Reply, Shape, output_of, put_in_front};
use zugyelmas::memory::Global;
use zugyelmas::text::Output;

fn samples<T: Word>(ends: [T; 2]) -> [T; 4] {
    [T::ONE, ends[0], ends[1], T::ZERO]
}

/// A new bank asks for none, a channel for its taps and for its past, and the bank for its first channels; a sample
/// asks for none, whether the sum fits or not.
fn bank_asks<T: Word>(ends: [T; 2]) {
    let shape = Shape {
        out_frac: 4,
        coef_frac: 4,
        sample_frac: 4,
    };
    let (count, mut bank) = requests(|| Bank::<T>::new(Global, shape));
    assert_eq!(count, 0);
    let taps = samples(ends);
    assert_eq!(requests(|| bank.add_channel(&taps)), (3, Ok(())));
    assert_eq!(requests(|| bank.add_channel(&taps)), (2, Ok(())));
    let mut overflows = 0;
    for channel in [0, 1, 0] {
        for sample in samples(ends) {
            let (count, reply) = requests(|| bank.push(channel, sample));
            assert_eq!(count, 0);
            overflows += usize::from(matches!(reply, Reply::Overflow(_)));
        }
        let (count, taps) = requests(|| {
            (
                bank.taps(channel),
                bank.tap(channel, 1),
                bank.past(channel, 1),
            )
        });
        assert_eq!((count, taps.0), (0, 4));
    }
    assert!(0 < overflows && overflows < 12);
}

#[test]
fn a_sample_asks_for_none() {
    bank_asks([i8::MIN, i8::MAX]);
    bank_asks([i16::MIN, i16::MAX]);
    bank_asks([i32::MIN, i32::MAX]);
    bank_asks([i64::MIN, i64::MAX]);
    bank_asks([u8::MIN, u8::MAX]);
    bank_asks([u16::MIN, u16::MAX]);
    bank_asks([u32::MIN, u32::MAX]);
    bank_asks([u64::MIN, u64::MAX]);
}

#[test]
fn an_output_over_slices_asks_for_none() {
    let shape = Shape {
        out_frac: 8,
        coef_frac: 8,
        sample_frac: 8,
    };
    let mut past = [256_i16, 512, 0]; // 1, 2 and 0
    let taps = [128_i16, 64, 32];
    assert_eq!(requests(|| put_in_front(1024, &mut past)), (0, ()));
    let (count, reply) = requests(|| output_of(&shape, &taps, &past));
    assert_eq!((count, reply), (0, Reply::Value(640))); // 4/2 + 1/4 + 2/8 = 2.5
}

#[test]
fn an_empty_output_asks_for_none() {
    let (count, output) = requests(|| Output::new(Global));
    assert_eq!((count, output.as_bytes()), (0, b"".as_slice()));
}
