//! Sines and cosines of angles in turns and in radians, and angles of points, beside floats.

use std::f64::consts::TAU;
use zugyelmas::turns::{
    atan2_of, atan2_turns_of, cos_of, cos_turns_of, sin_cos_of, sin_cos_turns_of, sin_of,
    sin_turns_of,
};
use zugyelmas::word::{Outcome, Side, Word};

/// How near to a tie a float lies that may stand on the other side of it. Results lie within half a unit and `2^-41`
/// beside the exact sine, and floats of some units err by less than `2^-32` units.
const NEAR: f64 = 1.0 / 4_294_967_296.0;

/// The outcome is the number of units, rounded to the nearest; near a tie it may be either one.
fn assert_nearest<T: Word + Into<f64>>(found: Outcome<T>, units: f64, of: (f64, u32)) {
    let ends = [(units - NEAR).round(), (units + NEAR).round()];
    let is_end = |end: &f64| {
        let side = match (*end < T::MIN.into(), *end > T::MAX.into()) {
            (true, _) => Side::Below,
            (_, true) => Side::Above,
            _ => Side::Fits,
        };
        found.side == side && (side != Side::Fits || found.wrapped.into() == *end)
    };
    assert!(ends.iter().any(is_end), "{of:?}: {units}");
}

/// Asserts the sine and the cosine in turns. The part of a turn is exact as a float.
fn assert_turns<T: Word + Into<f64>>(a: T, frac: u32) {
    let one = f64::from(frac).exp2();
    let part = (a.into() / one).rem_euclid(1.0);
    let of = (a.into(), frac);
    assert_nearest(sin_turns_of(a, frac), (part * TAU).sin() * one, of);
    assert_nearest(cos_turns_of(a, frac), (part * TAU).cos() * one, of);
    assert!(sin_cos_turns_of(a, frac) == (sin_turns_of(a, frac), cos_turns_of(a, frac)));
}

/// Asserts the sine and the cosine in radians. The angle is exact as a float.
fn assert_radians<T: Word + Into<f64>>(a: T, frac: u32) {
    let one = f64::from(frac).exp2();
    let angle = a.into() / one;
    let of = (a.into(), frac);
    assert_nearest(sin_of(a, frac), angle.sin() * one, of);
    assert_nearest(cos_of(a, frac), angle.cos() * one, of);
    assert!(sin_cos_of(a, frac) == (sin_of(a, frac), cos_of(a, frac)));
}

/// Asserts something of every word of 8 and of 16 bits, at each fraction of the list.
fn every_word<T: Word>(fractions: impl IntoIterator<Item = u32>, assert_at: fn(T, u32)) {
    for frac in fractions {
        for bits in 0..1_u128 << T::BITS {
            assert_at(T::residue(false, bits), frac);
        }
    }
}

#[test]
fn words_of_8_bits() {
    every_word::<i8>(0..=8, assert_turns);
    every_word::<u8>(0..=8, assert_turns);
}

#[test]
fn words_of_16_bits() {
    every_word::<i16>([0, 3, 8, 12, 15, 16], assert_turns);
    every_word::<u16>([0, 3, 8, 12, 15, 16], assert_turns);
}

#[test]
fn words_of_8_bits_in_radians() {
    every_word::<i8>(0..=8, assert_radians);
    every_word::<u8>(0..=8, assert_radians);
}

#[test]
fn words_of_16_bits_in_radians() {
    every_word::<i16>([0, 3, 8, 12, 15, 16], assert_radians);
    every_word::<u16>([0, 3, 8, 12, 15, 16], assert_radians);
}

/// Asserts that the squares have the sum 1, up to two units and `4 * 2^-room`.
fn assert_unit_length<T: Word + Into<i128>>(point: (Outcome<T>, Outcome<T>), frac: u32, room: u32) {
    let square = |outcome: Outcome<T>| outcome.wrapped.into().pow(2);
    let off = square(point.0) + square(point.1) - (1 << (2 * frac));
    assert!(off.abs() <= (2 << frac) + (4 << (2 * frac - room)), "{off}");
}

#[test]
fn squares_sum_to_one() {
    let mut a = 98_765_i64;
    for _ in 0..100_000 {
        a = a.wrapping_mul(6_364_136_223_846_793_005).wrapping_add(1_442_695_040_888_963_407);
        assert_unit_length(sin_cos_turns_of(a, 60), 60, 61);
        assert_unit_length(sin_cos_of(a, 60), 60, 61);
        let narrow = (a >> 32) as i32;
        assert_unit_length(sin_cos_turns_of(narrow, 28), 28, 41);
        assert_unit_length(sin_cos_of(narrow, 28), 28, 41);
    }
}

/// Symmetries: whole turns change nothing, the sine of minus an angle is minus its sine, and a quarter turn leads from
/// the sine to the cosine.
#[test]
fn symmetries() {
    let mut a = 98_765_i64;
    for _ in 0..100_000 {
        a = a.wrapping_mul(6_364_136_223_846_793_005).wrapping_add(1_442_695_040_888_963_407) >> 3;
        let sine = sin_turns_of(a, 48);
        assert_eq!(sin_turns_of(a + (3 << 48), 48), sine);
        assert_eq!(sin_turns_of(-a, 48).wrapped, -sine.wrapped);
        assert_eq!(cos_turns_of(a - (1 << 46), 48), sine);
        assert_eq!(sin_cos_turns_of(a, 48), (sine, cos_turns_of(a, 48)));
    }
}

/// In radians, minus an angle has the same cosine and minus the sine, at every size of the angle.
#[test]
fn minus_an_angle_in_radians() {
    let mut a = 98_765_i64;
    for round in 0..100_000 {
        a = a.wrapping_mul(6_364_136_223_846_793_005).wrapping_add(1_442_695_040_888_963_407);
        let (angle, frac) = (a >> (round % 50 + 1), 48);
        let (sine, cosine) = sin_cos_of(angle, frac);
        assert_eq!(sin_of(-angle, frac).wrapped, -sine.wrapped);
        assert_eq!(cos_of(-angle, frac), cosine);
        assert_eq!((sin_of(angle, frac), cos_of(angle, frac)), (sine, cosine));
    }
}

/// Angles of 64 bits, far from 0 and near to quarter turns, whose sines and cosines were computed with whole numbers of
/// 90 digits.
#[test]
fn radians_of_64_bits() {
    for (a, frac, sine, cosine) in [
        (i64::MAX, 0, 1, 1),
        (i64::MIN, 0, -1, 0),
        (i64::MAX, 16, -4251, -65398),
        (i64::MIN, 16, 4252, -65398),
        (i64::MAX, 32, -4171745440, 1021412777),
        (i64::MIN, 32, 4171745439, 1021412778),
        (i64::MAX, 48, 261168339838519, 104972666824542),
        (i64::MIN, 48, -261168339838519, 104972666824541),
        (6134899525417045, 0, 0, -1),
        (2646693125139304345, 0, 0, -1),
        (6746518852, 32, 4294967296, 0),
        (13493037705, 32, 0, -4294967296),
        (442139064178218, 48, 281474976709532, 795323560),
        (6271511885147637026, 16, 65536, 0),
        (6207006948311693394, 16, -65536, 0),
        (6701745950956516164, 32, -4294967296, 0),
        (5665905294638824120, 32, 4294967296, 1),
        (5100285351085666583, 40, 1099511627776, 0),
        (5000190759064473161, 40, 0, -1099511627776),
        (7414671647565014648, 8, 141, 214),
        (-5662770715825274489, 8, -256, 3),
        (4119094789429295507, 24, -16766615, -596327),
        (-836288072249028508, 24, -14058157, -9156593),
        (9059135350461335243, 32, -3371398367, 2660905321),
        (-4178140156718112184, 32, -3523980161, -2455261269),
        (138357331825350822, 48, 279607206572160, 32372404099446),
        (328838854104497619, 48, -110174372703354, 259016930168062),
        (2231530440863984527, 56, -31162109723957173, 64970914847236694),
        (4279040147564141760, 56, 21751728915521044, -68696136337646481),
    ] {
        let of = |wrapped| Outcome { wrapped, side: Side::Fits };
        assert_eq!(sin_cos_of(a, frac), (of(sine), of(cosine)), "{a} {frac}");
    }
}

/// Asserts something of every point whose coordinates have 8 bits, at each fraction of the list.
fn every_point<T: Word>(fractions: impl Iterator<Item = u32>, assert_at: fn(T, T, u32)) {
    for frac in fractions {
        for bits in 1..1_u128 << 16 {
            assert_at(T::residue(false, bits >> 8), T::residue(false, bits), frac);
        }
    }
}

/// Asserts the angle of a point in turns.
fn assert_angle_in_turns<T: Word + Into<f64>>(y: T, x: T, frac: u32) {
    let angle = y.into().atan2(x.into()) / TAU;
    assert_nearest(atan2_turns_of(y, x, frac), angle * f64::from(frac).exp2(), (angle, frac));
}

/// Asserts the angle of a point in radians.
fn assert_angle<T: Word + Into<f64>>(y: T, x: T, frac: u32) {
    let angle = y.into().atan2(x.into());
    assert_nearest(atan2_of(y, x, frac), angle * f64::from(frac).exp2(), (angle, frac));
}

#[test]
fn points_of_8_bits() {
    every_point::<i8>(0..=8, assert_angle_in_turns);
    every_point::<u8>([2, 8].into_iter(), assert_angle_in_turns);
}

#[test]
fn points_of_8_bits_in_radians() {
    every_point::<i8>(0..=8, assert_angle);
    every_point::<u8>([2, 8].into_iter(), assert_angle);
}

/// Coordinates of any size: angles of words of 32 bits lie within half a unit and `2^-40` radians beside the exact ones,
/// and a float errs by less than `2^-20` units.
#[test]
fn points_of_32_bits() {
    let mut draw = 2_463_534_242_u64;
    let mut next = |shift: u32| {
        draw = draw.wrapping_mul(6_364_136_223_846_793_005).wrapping_add(1_442_695_040_888_963_407);
        (draw >> 32) as i32 >> (shift % 32)
    };
    for round in 0..100_000 {
        let frac = 8 + round % 25;
        let (y, x) = (next(round / 3), next(round / 7) | 1);
        let units = f64::from(y).atan2(f64::from(x)) / TAU * f64::from(frac).exp2();
        let found = atan2_turns_of(y, x, frac);
        let off = (f64::from(found.wrapped) - units).abs();
        assert!(found.side != Side::Fits || off < 0.500_001, "{y} {x} {frac}: {units}");
        assert!(found.side == Side::Fits || units.abs() > 2_147_483_647.4, "{y} {x} {frac}: {units}");
    }
}

/// Angles that mpmath computed with 50 digits.
#[test]
fn points_of_64_bits() {
    for (y, x, frac, units) in [
        (6003810849197860622_i64, 8742514861359412280, 16, 6277),
        (4680268584103075220_i64, 5375270654777870840, 16, 7472),
        (760955_i64, -3856957380441106266, 16, 32768),
        (-1872664_i64, 5215389816265151663, 16, 0),
        (-5134327459162675120_i64, -9004364052552606364, 32, -1793244574),
        (2587733_i64, 4986947095633979044, 32, 0),
        (817306_i64, 5268430586848198545, 32, 0),
        (-4677060729570_i64, -1811632028135, 32, -1326352526),
        (-570830292589111524_i64, -662265449536196199, 40, -425269023269),
        (5100812163058_i64, 2937509, 40, 274877806167),
        (6303524754573_i64, -5083668781658, 40, 393641941624),
        (5634738278344505318_i64, -532298426434046726, 40, 291360079983),
        (-634359960807260865_i64, -1204415102498, 48, -70368829232763),
        (2128307065518415709_i64, 7777442343660, 48, 70368580472478),
        (-4068162_i64, 2139424481821294013, 48, -85),
        (616341413657313917_i64, -37756869731458236, 48, 73109637738512),
        (-5696287697086308474_i64, -7207508, 56, -18014398509496495),
        (4235519517096_i64, 3509454906974, 56, 10079181853358116),
        (1496982686517750833_i64, -9081955626128355709, 56, 34155314203824008),
        (-3470103389033177116_i64, -8064292833642689437, 56, -31368584491254779),
        (-1014660207095_i64, -3203215477154, 60, -520171678121703266),
        (-117814299323046987_i64, -2876329975187543691, 60, -568949082811896129),
        (-608868730163868933_i64, 5009881325690701029, 60, -22191743870261527),
        (7119870552005601135_i64, -3382208592306612248, 60, 369605790185005897),
    ] {
        assert_eq!(atan2_turns_of(y, x, frac), Outcome { wrapped: units, side: Side::Fits });
    }
}

/// Angles on the axes and the diagonals are exact, at every size of the coordinates.
#[test]
fn axes_and_diagonals() {
    let ways = [(0, 1), (1, 1), (1, 0), (1, -1), (0, -1), (-1, -1), (-1, 0), (-1, 1)];
    let eighths = [0, 1, 2, 3, 4, -3, -2, -1];
    for size in [1_i64, 2, 3, 1000, 123_456_789, i64::MAX] {
        for frac in 3..64 {
            for ((y, x), eighth) in ways.into_iter().zip(eighths) {
                let exact = i128::from(eighth) << (frac - 3);
                let found = atan2_turns_of(y * size, x * size, frac);
                assert_eq!(i128::from(found.wrapped), exact, "{y} {x} {size} {frac}");
            }
        }
    }
}

/// Angles in radians that mpmath computed with 90 digits. They lie farther from ties than results may from angles.
#[test]
fn points_of_64_bits_in_radians() {
    for (y, x, frac, units) in [
        (7513933_i64, -8332644676416592816, 16, 205887),
        (1527169275425311224, -6946653, 16, 102944),
        (-4350953, 8253990209213004835, 16, 0),
        (1577960769301841103, -5145132153672312116, 16, 186385),
        (-1491621378785028714, 3357357195551156271, 32, -1795685730),
        (-2353849872213847867, -823589138746, 32, -6746520355),
        (5430342962621506167, 1248622, 32, 6746518852),
        (-7160502, 4743413005406631124, 32, 0),
        (-203594906249540638, 2959284703076, 40, -1727092844600),
        (3276512, 5476690359863214875, 40, 1),
        (-7652601288032, 5663360703206, 40, -1026602137785),
        (-2566826, -116343679928894088, 40, -3454217652333),
        (-3921188757219644735, -64439916039929168, 48, -446765138313345),
        (6432113, 842544, 48, 405478121063041),
        (-6439372598213965825, -9000847795971954198, 48, -709484000432334),
        (-4022668034752422715, 608530601652, 48, -442139816921546),
        (-7482758, -1863511661493099485, 56, -226375608064620748),
        (2477205244250231900, -1095240913263689462, 56, 143184517004918351),
        (1858090028661326229, 1231940201250507208, 56, 71000262035649627),
        (2104201493924832028, 1715960, 56, 113187804032396282),
        (-344892995724, -6260751228577, 56, -222410099035654778),
        (-4339469364529485723, -8389788747710, 57, -226375886692521376),
        (-133151500145526600, -512080441171773125, 57, -416090125109722325),
        (-7737705760559675643, -526358453343, 57, -226375617868364736),
        (1, i64::MAX, 0, 0),
        (0, -1, 0, 3),
        (-3, -1, 0, -2),
        (3, -1099511627776, 48, 884279719002787),
    ] {
        let found = atan2_of(y, x, frac);
        assert_eq!(found, Outcome { wrapped: units, side: Side::Fits }, "{y} {x} {frac}");
    }
}

/// Of so many fraction bits, results lie within `1/2 + 2^(frac - 60)` units beside the exact angles, of which these are
/// the nearest units.
#[test]
fn fine_points_of_64_bits() {
    for (y, x, frac, units) in [
        (0_i64, -1, 60, 3622009729038561421),
        (0, i64::MIN, 61, 7244019458077122842),
        (1, -9223372036854775807, 61, 7244019458077122842),
        (-1, -9223372036854775807, 61, -7244019458077122842),
        (1, i64::MAX, 60, 0),
        (-1, i64::MAX, 61, 0),
        (i64::MAX, 0, 61, 3622009729038561421),
        (i64::MIN, 0, 61, -3622009729038561421),
        (i64::MIN, i64::MIN, 60, -2716507296778921066),
        (i64::MAX, i64::MIN, 60, 2716507296778921066),
        (i64::MAX, i64::MAX, 61, 1811004864519280711),
        (i64::MIN, 1, 60, -1811004864519280710),
        (i64::MAX, -1, 60, 1811004864519280711),
        (1, 1, 61, 1811004864519280711),
        (i64::MAX, 9223372036854775806, 60, 905502432259640355),
    ] {
        let found = atan2_of(y, x, frac);
        let most = 1 + (1 << (frac - 60));
        assert!(found.wrapped.abs_diff(units) <= most, "{y} {x} {frac}: {found:?}");
        assert!(found.side == Side::Fits);
    }
}

/// The angle 0 is exact in radians, half a turn is pi, and a point below the axis has minus the angle of the one above.
#[test]
fn axes_and_opposites_in_radians() {
    for size in [1_i64, 2, 1000, 123_456_789, i64::MAX] {
        for frac in 0..=58 {
            let units = |angle: f64| (angle * f64::from(frac).exp2()).round() as i64;
            let angle = |y: i64, x: i64| atan2_of(y, x, frac).wrapped;
            assert_eq!(angle(0, size), 0);
            let off = angle(0, -size).abs_diff(units(TAU / 2.0));
            assert!(off <= 1 << frac.saturating_sub(50), "{size} {frac}: {off}");
            for x in [-size, -1, 0, 1, size] {
                assert_eq!(angle(-size, x), -angle(size, x), "{size} {x} {frac}");
            }
        }
    }
}
