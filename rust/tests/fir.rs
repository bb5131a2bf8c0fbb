//! Filters over blocks and typed filters, beside sums in wide integers.

use zugyelmas::filter::{
    BlockOverflow, Fir, Reply, Shape, TapOverflow, filter_block, output_of, put_in_front,
};
use zugyelmas::prelude::*;
use zugyelmas::word::Word;

/// What a draw is like: a number of taps, a number of samples, and how far words are shifted down, so that sums fit.
const DRAWS: [(usize, usize, u32); 8] = [
    (1, 5, 0),
    (3, 0, 0),
    (3, 2, 0),
    (3, 3, 1),
    (3, 4, 1),
    (5, 40, 0),
    (8, 64, 1),
    (64, 200, 3),
];

/// Numbers that look as if they were drawn.
struct Draws(u64);

impl Draws {
    fn next(&mut self) -> u64 {
        self.0 = self
            .0
            .wrapping_mul(6_364_136_223_846_793_005)
            .wrapping_add(1);
        self.0 >> 17
    }

    /// So many words, of which none reaches the highest bits.
    fn words<T: Word>(&mut self, count: usize, less: u32) -> Vec<T> {
        let most = 1 << (T::BITS - 1 - less).min(40);
        let word = |_| {
            T::residue(
                T::SIGNED && self.next() % 2 == 0,
                u128::from(self.next() % most),
            )
        };
        (0..count).map(word).collect()
    }
}

/// A product in units of outputs, rounded down.
fn product(tap: i128, sample: i128, shape: Shape) -> i128 {
    let down = shape.coef_frac as i32 + shape.sample_frac as i32 - shape.out_frac as i32;
    match down {
        0.. => (tap * sample) >> down,
        _ => (tap * sample) << -down,
    }
}

/// The output of taps after samples, the newest last, or the first tap whose partial sum does not fit.
fn expected<T: Word + Into<i128>>(shape: Shape, taps: &[T], samples: &[T]) -> Result<i128, usize> {
    let mut sum = 0;
    for (tap, (weight, sample)) in taps.iter().zip(samples.iter().rev()).enumerate() {
        sum += product((*weight).into(), (*sample).into(), shape);
        if sum < T::MIN.into() || sum > T::MAX.into() {
            return Err(tap);
        }
    }
    Ok(sum)
}

/// One block, beside the definition and single steps. Returns whether a partial sum does not fit.
fn stops_alike<T: Word + Into<i128> + std::fmt::Debug>(
    shape: Shape,
    taps: &[T],
    before: &[T],
    input: &[T],
    old: &[T],
) -> bool {
    let (mut past, mut output) = (before.to_vec(), old.to_vec());
    let result = filter_block(&shape, taps, &mut past, input, &mut output);
    let mut steps = before.to_vec();
    let samples: Vec<T> = before.iter().rev().chain(input).copied().collect();
    let mut stop = Ok(());
    for at in 0..input.len() {
        if stop.is_err() {
            assert_eq!(output[at], old[at]);
            continue;
        }
        put_in_front(input[at], &mut steps);
        let step = output_of(&shape, taps, &steps).into_result();
        match expected(shape, taps, &samples[at + 1..][..taps.len()]) {
            Ok(sum) => assert_eq!((output[at].into(), step), (sum, Ok(output[at]))),
            Err(tap) => {
                assert_eq!((output[at], step), (old[at], Err(TapOverflow { tap })));
                stop = Err(BlockOverflow { sample: at, tap });
            }
        }
    }
    assert_eq!((result, past), (stop, steps));
    stop.is_err()
}

/// Blocks of one word and shape.
fn blocks<T: Word + Into<i128> + std::fmt::Debug>(shape: Shape, seed: u64) {
    let mut draws = Draws(seed);
    let mut stops = 0;
    for (count, length, less) in DRAWS.repeat(20) {
        let taps: Vec<T> = draws.words(count, less);
        let before: Vec<T> = draws.words(count, less);
        let input: Vec<T> = draws.words(length, less);
        let old: Vec<T> = draws.words(length, 0);
        stops += u32::from(stops_alike(shape, &taps, &before, &input, &old));
    }
    assert!((1..160).contains(&stops), "{stops}");
}

#[test]
fn blocks_are_steps() {
    let shape = |out_frac, coef_frac, sample_frac| Shape {
        out_frac,
        coef_frac,
        sample_frac,
    };
    blocks::<i8>(shape(3, 6, 4), 1);
    blocks::<u8>(shape(4, 7, 4), 2);
    blocks::<i16>(shape(14, 15, 14), 3);
    blocks::<u16>(shape(5, 16, 3), 4);
    blocks::<i32>(shape(20, 29, 22), 5);
    blocks::<u32>(shape(16, 30, 16), 6);
    blocks::<i64>(shape(24, 38, 3), 7);
    blocks::<i8>(shape(4, 1, 2), 8); // products move up
}

/// Blocks of samples that all have one magnitude: partial sums come near an end of the range, and pass it.
fn blocks_near_the_ends<T: Word + Into<i128> + std::fmt::Debug>() {
    let word = |below_zero, magnitude| T::residue(below_zero && T::SIGNED, magnitude);
    let most = u128::from(T::MAX.magnitude());
    let shape = |down| Shape {
        out_frac: 0,
        coef_frac: down,
        sample_frac: 0,
    };
    let mut stops = 0;
    for (down, magnitude) in (0..4).flat_map(|down| (0..12).map(move |more| (down, more))) {
        // Five taps of 3 make 15 for each unit of a sample.
        let peak = ((most << down) / 15).saturating_sub(6) + magnitude;
        for signs in 0..32_u32 {
            let taps: Vec<T> = (0..5).map(|tap| word(signs >> tap & 1 == 1, 3)).collect();
            let input: Vec<T> = (0..9).map(|at| word(at % 7 < 5, peak.min(most))).collect();
            stops += u32::from(stops_alike(
                shape(down),
                &taps,
                &[T::ZERO; 5],
                &input,
                &input,
            ));
        }
    }
    assert!((1..1536).contains(&stops), "{stops}");
}

#[test]
fn partial_sums_near_the_ends() {
    blocks_near_the_ends::<i8>();
    blocks_near_the_ends::<u8>();
    blocks_near_the_ends::<i16>();
    blocks_near_the_ends::<u16>();
    blocks_near_the_ends::<i32>();
    blocks_near_the_ends::<u32>();
    blocks_near_the_ends::<i64>();
}

/// Each of 129 products is -1/128, which is rounded down to -1. The first sample is 0, and the last tap reaches past it
/// after the sample 129.
#[test]
fn roundings_alone() {
    let shape = Shape {
        out_frac: 0,
        coef_frac: 7,
        sample_frac: 0,
    };
    let mut input = [1_i8; 131];
    input[0] = 0;
    let (mut past, mut output) = ([0; 129], [5; 131]);
    let result = filter_block(&shape, &[-1; 129], &mut past, &input, &mut output);
    let stop = BlockOverflow {
        sample: 129,
        tap: 128,
    };
    assert_eq!(result, Err(stop));
    assert_eq!((output[128], output[129], past), (-128, 5, [1; 129]));
    let result = filter_block(&shape, &[-1; 128], &mut past[1..], &input, &mut output);
    assert_eq!((result, output[130]), (Ok(()), -128));
}

/// A low-pass filter of 16 taps over i16 samples: what a bank's channel replies, in steps and in blocks of any length.
#[test]
fn typed_filter() {
    type Sample = FixedI16<15>;
    let mut draws = Draws(9);
    let taps: [FixedI16<15>; 16] =
        std::array::from_fn(|_| FixedI16::from_bits(draws.words::<i16>(1, 3)[0]));
    let input: Vec<Sample> = draws
        .words::<i16>(300, 0)
        .into_iter()
        .map(Sample::from_bits)
        .collect();
    let shape = Shape {
        out_frac: 15,
        coef_frac: 15,
        sample_frac: 15,
    };
    let bits = |numbers: &[Sample]| {
        numbers
            .iter()
            .map(|number| number.to_bits())
            .collect::<Vec<i16>>()
    };
    for block in [1, 2, 15, 16, 17, 64, 300] {
        let mut pasts = [[Sample::ZERO; 16]; 2];
        let [in_steps, in_blocks] = &mut pasts;
        let mut steps = Fir::<i16, 15, 15, 15>::new(&taps, in_steps);
        let mut blocks = Fir::<i16, 15, 15, 15>::new(&taps, in_blocks);
        let mut channel = [0; 16];
        for samples in input.chunks(block) {
            let mut output = vec![Sample::ZERO; samples.len()];
            let result = blocks.push_block(samples, &mut output);
            for (at, sample) in samples.iter().enumerate() {
                put_in_front(sample.to_bits(), &mut channel);
                let reply = output_of(&shape, &bits(&taps), &channel);
                let step = steps.push(*sample);
                match reply {
                    Reply::Value(value) => assert_eq!(step, Ok(Sample::from_bits(value))),
                    Reply::Overflow(tap) => assert_eq!(step, Err(TapOverflow { tap })),
                }
                match step {
                    Ok(value) => assert_eq!(output[at], value),
                    Err(stop) => {
                        assert_eq!(
                            result,
                            Err(BlockOverflow {
                                sample: at,
                                tap: stop.tap
                            })
                        );
                        break;
                    }
                }
            }
        }
        assert_eq!(pasts[0], pasts[1]);
    }
}

#[test]
fn errors_by_question_mark() {
    fn mean(samples: &[FixedI8<4>]) -> Result<FixedI8<4>, Box<dyn std::error::Error>> {
        let taps = [FixedI8::<4>::from_num(1); 2];
        let mut past = [FixedI8::ZERO; 2];
        let mut fir = Fir::<i8, 4, 4, 4>::new(&taps, &mut past);
        let mut last = FixedI8::ZERO;
        for sample in samples {
            last = fir.push(*sample)?;
        }
        fir.push_block(samples, &mut vec![FixedI8::ZERO; samples.len()])?;
        Ok(last)
    }
    let number = FixedI8::<4>::from_num::<f64>;
    assert_eq!(mean(&[number(1.0), number(2.5)]).ok(), Some(number(3.5)));
    let text = |samples: &[FixedI8<4>]| mean(samples).map_err(|error| error.to_string());
    assert_eq!(
        text(&[number(1.0), number(7.0)]),
        Err("overflow at tap 1".to_string())
    );
    assert_eq!(text(&[number(4.0), number(3.9375)]), Ok(number(7.9375)));
    // The block begins after 2 and 4.
    let stop = text(&[number(5.0), number(2.0), number(4.0)]);
    assert_eq!(stop, Err("overflow at sample 0, tap 1".to_string()));
}
