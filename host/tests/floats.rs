//! The proved functions on floats against the hardware's: on random patterns,
//! and at every border. A NaN has to be the one pattern of the definition,
//! whatever the hardware's would be.

use std::fmt::Debug;
use std::hint::black_box;
use std::iter::repeat_with;

use hazhirun_host::{
    eq64, is_finite, le32, le64, lt64, narrow, narrow_changes, of_int, plus32, plus64, to_int,
};

/// What a comparison found.
#[derive(Debug, PartialEq)]
struct Compared<T> {
    inputs: usize,
    different: usize,
    first: Option<T>,
}

/// Calls both with each input.
fn compare<T: Copy + Debug, R: PartialEq>(
    inputs: impl IntoIterator<Item = T>,
    ours: impl Fn(T) -> R,
    theirs: impl Fn(T) -> R,
) -> Compared<T> {
    let mut found = Compared { inputs: 0, different: 0, first: None };
    for input in inputs {
        found.inputs += 1;
        if ours(black_box(input)) != theirs(black_box(input)) {
            found.different += 1;
            found.first.get_or_insert(input);
        }
    }
    found
}

/// A comparison of so many inputs without a difference.
fn agreed<T>(inputs: usize) -> Compared<T> {
    Compared { inputs, different: 0, first: None }
}

// ---- the hardware's

const NAN64: u64 = 0x7ff8_0000_0000_0000;
const NAN32: u32 = 0x7fc0_0000;

fn bits64(x: f64) -> u64 {
    if x.is_nan() { NAN64 } else { x.to_bits() }
}

fn bits32(x: f32) -> u32 {
    if x.is_nan() { NAN32 } else { x.to_bits() }
}

fn hardware_narrow(bits: u64) -> u32 {
    bits32(f64::from_bits(bits) as f32)
}

fn hardware_narrow_changes(bits: u64) -> bool {
    let x = f64::from_bits(bits);
    f64::from(x as f32) != x
}

fn hardware_to_int(bits: u64) -> i64 {
    f64::from_bits(bits) as i64
}

fn hardware_of_int(z: i64) -> u64 {
    (z as f64).to_bits()
}

fn hardware_is_finite(bits: u64) -> bool {
    f64::from_bits(bits).is_finite()
}

// ---- inputs

const RANDOM: usize = 10_000_000;
const SIGN: u64 = 1 << 63;
const DIGITS: u64 = (1 << 52) - 1;

/// The generator splitmix64.
struct Random(u64);

impl Random {
    fn next(&mut self) -> u64 {
        self.0 = self.0.wrapping_add(0x9e37_79b9_7f4a_7c15);
        let z = (self.0 ^ self.0 >> 30).wrapping_mul(0xbf58_476d_1ce4_e5b9);
        let z = (z ^ z >> 27).wrapping_mul(0x94d0_49bb_1331_11eb);
        z ^ z >> 31
    }
}

/// Random words.
fn words(seed: u64, count: usize) -> impl Iterator<Item = u64> {
    let mut random = Random(seed);
    repeat_with(move || random.next()).take(count)
}

/// Random f64 patterns of either sign with the exponent's field from `low`
/// to `high`.
fn in_range(seed: u64, count: usize, low: u64, high: u64) -> impl Iterator<Item = u64> {
    words(seed, count)
        .zip(words(!seed, count))
        .map(move |(w, e)| w & (SIGN | DIGITS) | (low + e % (high - low + 1)) << 52)
}

/// Digits at and beside every place: one 1, two 1s and all 1s from that place
/// on. Cut off at any place, these are ties, next to ties, and carries.
const AT_PLACES: usize = 2 + 52 * 9;

fn digits_at_places() -> Vec<u64> {
    let mut digits = vec![0, DIGITS];
    for place in 0..52 {
        for ones in [1 << place, 3 << place, DIGITS & !0 << place] {
            digits.extend([ones - 1, ones, ones + 1].map(|d| d & DIGITS));
        }
    }
    digits
}

/// These digits under every exponent and sign.
const BORDERS: usize = 2048 * 2 * AT_PLACES;

fn borders() -> impl Iterator<Item = u64> {
    let digits = digits_at_places();
    (0..4096).flat_map(move |top| digits.clone().into_iter().map(move |d| top << 52 | d))
}

/// A pattern, the one beside it on either side, and the three with the other
/// sign.
fn around(bits: u64) -> [u64; 6] {
    let [below, above] = [bits.wrapping_sub(1), bits.wrapping_add(1)];
    [below, bits, above, below ^ SIGN, bits ^ SIGN, above ^ SIGN]
}

// ---- narrowing

/// What is compared of a narrowing: the f32, and whether the number is changed.
fn ours_narrowed(bits: u64) -> (u32, bool) {
    (narrow(bits), narrow_changes(bits))
}

fn hardware_narrowed(bits: u64) -> (u32, bool) {
    (hardware_narrow(bits), hardware_narrow_changes(bits))
}

/// The digits of an f64 that an f32 has none of.
const BEYOND_F32: u64 = (1 << 29) - 1;

/// Any, those in the range of f32s, and there those with no more digits than an
/// f32, of which many stay.
#[test]
fn narrowing_of_random_patterns() {
    let all = words(1, RANDOM);
    assert_eq!(compare(all, ours_narrowed, hardware_narrowed), agreed(RANDOM));
    let of_f32 = in_range(2, RANDOM, 870, 1152);
    assert_eq!(compare(of_f32, ours_narrowed, hardware_narrowed), agreed(RANDOM));
    let short = in_range(19, RANDOM, 870, 1152).map(|b| b & !BEYOND_F32);
    assert_eq!(compare(short, ours_narrowed, hardware_narrowed), agreed(RANDOM));
}

#[test]
fn narrowing_at_borders() {
    assert_eq!(compare(borders(), ours_narrowed, hardware_narrowed), agreed(BORDERS));
}

/// Whole numbers of halves of the smallest f32, from 0 on and around the least
/// normal one, and of quarters of the largest one's last digit, below 2^128.
#[test]
fn narrowing_at_the_ends_of_f32() {
    const EACH: u64 = 1 << 14;
    let half = 2f64.powi(-150);
    let least = 2f64.powi(-126);
    let quarter = 2f64.powi(102);
    let zero = (0..EACH).map(|n| n as f64 * half);
    let normal = (0..EACH).map(|n| least + (n as f64 - (EACH / 2) as f64) * half);
    let over = (0..EACH).map(|n| 2f64.powi(128) - n as f64 * quarter);
    let ends = zero.chain(normal).chain(over).flat_map(|x| around(x.to_bits()));
    let count = 3 * EACH as usize * 6;
    assert_eq!(compare(ends, ours_narrowed, hardware_narrowed), agreed(count));
}

/// f32s, numbers halfway between two of them, and what lies beside these. A
/// number halfway goes to the even one.
#[test]
fn narrowing_between_neighbours() {
    const EACH: usize = 1_000_000;
    let finite = 0x7f7f_ffff;
    let found = words(3, EACH).map(|w| w as u32 % finite);
    let halfway = found.flat_map(|b| {
        let [low, high] = [b, b + 1].map(|b| f64::from(f32::from_bits(b)));
        [low, (low + high) / 2.0].into_iter().flat_map(|x| around(x.to_bits()))
    });
    assert_eq!(compare(halfway, ours_narrowed, hardware_narrowed), agreed(EACH * 12));
    let even = words(3, EACH).map(|w| w as u32 % finite);
    let rounded = |b: u32| {
        let [low, high] = [b, b + 1].map(|b| f64::from(f32::from_bits(b)));
        narrow(((low + high) / 2.0).to_bits())
    };
    assert_eq!(compare(even, rounded, |b| b + b % 2), agreed(EACH));
}

#[test]
fn a_nan_is_narrowed_to_one_pattern_and_changed() {
    let infinity = 0x7ff0_0000_0000_0000;
    let nans = words(4, RANDOM).map(|w| w | infinity).filter(|b| b & DIGITS != 0);
    assert_eq!(compare(nans, ours_narrowed, |_| (NAN32, true)), agreed(RANDOM));
}

/// An f32, made an f64, comes back as it was; what lies beside it is changed.
/// Zeros, the least, the largest and infinities are among them.
#[test]
fn an_f32_stays_and_what_lies_beside_it_is_changed() {
    const EACH: usize = 1_000_000;
    let ends = [0, 1, 0x7f_ffff, 0x80_0000, 0x7f7f_ffff, 0x7f80_0000];
    let random = words(20, EACH).map(|w| w as u32 % 0x7f80_0000);
    let f32s: Vec<u32> = random.chain(ends).flat_map(|b| [b, b | 1 << 31]).collect();
    let wide = |b: u32| f64::from(f32::from_bits(b)).to_bits();
    let count = f32s.len();
    let stays = |b| ours_narrowed(wide(b));
    assert_eq!(compare(f32s.iter().copied(), stays, |b| (b, false)), agreed(count));
    let beside = f32s.iter().flat_map(|&b| [wide(b).wrapping_sub(1), wide(b) + 1]);
    assert_eq!(compare(beside, |b| narrow_changes(b), |_| true), agreed(2 * count));
}

/// The control: digits cut off instead of rounded differ at about half of the
/// patterns of normal f32s.
#[test]
fn the_comparison_tells_a_wrong_narrowing() {
    const COUNT: usize = 1_000_000;
    let cut = |b: u64| {
        let exponent = (b >> 52 & 2047) as u32 - 896;
        ((b >> 63) as u32) << 31 | exponent << 23 | (b >> 29) as u32 & 0x7f_ffff
    };
    let found = compare(in_range(5, COUNT, 897, 1150), cut, hardware_narrow);
    assert_eq!(found.inputs, COUNT);
    assert!((490_000..510_000).contains(&found.different), "{found:?}");
}

/// The control: a test of the digits that an f32 has none of is right for
/// normal f32s, and wrong where a number has no others and becomes subnormal,
/// zero or infinite: of 4 exponents all, and of 23 more all but about one in 23;
/// and of those from 2^128 on all.
#[test]
fn the_comparison_tells_a_wrong_change() {
    const COUNT: usize = 1_000_000;
    let digits_lost = |b: u64| b & BEYOND_F32 != 0;
    let told = |patterns: &mut dyn Iterator<Item = u64>| {
        let found = compare(patterns, digits_lost, hardware_narrow_changes);
        assert_eq!(found.inputs, COUNT);
        found.different
    };
    assert_eq!(told(&mut in_range(21, COUNT, 897, 1150)), 0);
    let short = |seed, low, high| in_range(seed, COUNT, low, high).map(|b| b & !BEYOND_F32);
    assert_eq!(told(&mut short(22, 897, 1150)), 0);
    assert!((961_000..965_000).contains(&told(&mut short(23, 870, 896))));
    assert_eq!(told(&mut short(24, 1151, 2046)), COUNT);
}

// ---- Ints

#[test]
fn random_ints_to_floats() {
    let ints = words(6, RANDOM).map(|w| w as i64);
    assert_eq!(compare(ints, |z| of_int(z), hardware_of_int), agreed(RANDOM));
    let shorter = words(7, RANDOM).map(|w| w as i64 >> (w & 63));
    assert_eq!(compare(shorter, |z| of_int(z), hardware_of_int), agreed(RANDOM));
}

/// Powers of two and what lies within eight of them, of either sign.
#[test]
fn ints_to_floats_at_powers_of_two() {
    let powers = (0..64).map(|p| 1i64 << p);
    let beside = powers.flat_map(|p| (-8..=8).map(move |d| p.wrapping_add(d)));
    let both = beside.flat_map(|z| [z, z.wrapping_neg()]);
    assert_eq!(compare(both, |z| of_int(z), hardware_of_int), agreed(64 * 17 * 2));
}

/// Halfway between two f64s, and beside that: 53 digits, and behind them a 1
/// and zeros.
#[test]
fn ints_to_floats_halfway() {
    const EACH: usize = 100_000;
    let halfway = (0..10).flat_map(|zeros: u32| {
        words(u64::from(zeros), EACH).map(move |w| {
            let kept = (w & DIGITS | 1 << 52) as i64;
            (kept << 1 | 1) << zeros
        })
    });
    let beside = halfway.flat_map(|z| [z - 1, z, z + 1, 1 - z, -z, -1 - z]);
    assert_eq!(compare(beside, |z| of_int(z), hardware_of_int), agreed(10 * EACH * 6));
}

#[test]
fn random_floats_to_ints() {
    let all = words(8, RANDOM);
    assert_eq!(compare(all, |b| to_int(b), hardware_to_int), agreed(RANDOM));
    let of_ints = in_range(9, RANDOM, 1020, 1088);
    assert_eq!(compare(of_ints, |b| to_int(b), hardware_to_int), agreed(RANDOM));
}

#[test]
fn floats_to_ints_at_borders() {
    assert_eq!(compare(borders(), |b| to_int(b), hardware_to_int), agreed(BORDERS));
}

/// A thousand patterns on either side of 2^63 and -2^63.
#[test]
fn floats_to_ints_at_the_ends() {
    let end = 2f64.powi(63).to_bits();
    let near = (end - 1000..=end + 1000).flat_map(|b| [b, b | SIGN]);
    assert_eq!(compare(near, |b| to_int(b), hardware_to_int), agreed(2001 * 2));
}

/// Whole numbers, halves, and what lies beside them.
#[test]
fn floats_to_ints_at_whole_numbers() {
    const SMALL: usize = 100_000;
    const LARGE: usize = 1_000_000;
    let small = (0..SMALL).map(|n| n as f64 / 2.0);
    let large = words(10, LARGE).map(|w| (w >> (11 + w % 53)) as f64);
    let near = small.chain(large).flat_map(|x| around(x.to_bits()));
    let count = (SMALL + LARGE) * 6;
    assert_eq!(compare(near, |b| to_int(b), hardware_to_int), agreed(count));
}

#[test]
fn finite_floats() {
    let random = words(11, RANDOM);
    assert_eq!(compare(random, |b| is_finite(b), hardware_is_finite), agreed(RANDOM));
    assert_eq!(compare(borders(), |b| is_finite(b), hardware_is_finite), agreed(BORDERS));
}

// ---- sums and comparisons

type Pair<T> = (T, T);

/// What is compared of two f64s: their sum, <=, < and ==.
fn ours64((a, b): Pair<u64>) -> (u64, [bool; 3]) {
    (plus64(a, b), [le64(a, b), lt64(a, b), eq64(a, b)])
}

fn hardware64((a, b): Pair<u64>) -> (u64, [bool; 3]) {
    let [x, y] = [a, b].map(f64::from_bits);
    (bits64(x + y), [x <= y, x < y, x == y])
}

/// What is compared of two f32s: their sum and <=.
fn ours32((a, b): Pair<u32>) -> (u32, bool) {
    (plus32(a, b), le32(a, b))
}

fn hardware32((a, b): Pair<u32>) -> (u32, bool) {
    let [x, y] = [a, b].map(f32::from_bits);
    (bits32(x + y), x <= y)
}

/// Any two; two whose exponents lie near each other, so that the digits of
/// both count; and one beside the other, or equal to it.
#[test]
fn sums_and_comparisons_of_random_f64s() {
    let any = words(12, RANDOM).zip(words(13, RANDOM));
    assert_eq!(compare(any, ours64, hardware64), agreed(RANDOM));
    let near = words(14, RANDOM).zip(words(15, RANDOM)).map(|(a, b)| {
        let exponent = (a >> 52).wrapping_add(b >> 52 & 63).wrapping_sub(32) & 2047;
        (a, b & (SIGN | DIGITS) | exponent << 52)
    });
    assert_eq!(compare(near, ours64, hardware64), agreed(RANDOM));
    let beside = words(16, RANDOM / 10).flat_map(|a| around(a).map(|b| (a, b)));
    assert_eq!(compare(beside, ours64, hardware64), agreed(RANDOM / 10 * 6));
}

#[test]
fn sums_and_comparisons_of_random_f32s() {
    let any = words(17, RANDOM).map(|w| (w as u32, (w >> 32) as u32));
    assert_eq!(compare(any, ours32, hardware32), agreed(RANDOM));
    let near = words(18, RANDOM).map(|w| {
        let [a, b] = [w as u32, (w >> 32) as u32];
        let exponent = (a >> 23).wrapping_add(b >> 23 & 31).wrapping_sub(16) & 255;
        (a, b & 0x807f_ffff | exponent << 23)
    });
    assert_eq!(compare(near, ours32, hardware32), agreed(RANDOM));
}

/// Every two of the zeros, the smallest and largest of each kind, 1, the
/// infinities and NaNs of either sign.
#[test]
fn sums_and_comparisons_at_borders() {
    let normal = 1 << 52;
    let one = 0x3ff0_0000_0000_0000;
    let infinity = 0x7ff0_0000_0000_0000;
    let of64 = [0, 2, normal, one, infinity, NAN64].map(around).concat();
    let of64 = of64.iter().flat_map(|&a| of64.iter().map(move |&b| (a, b)));
    assert_eq!(compare(of64, ours64, hardware64), agreed(36 * 36));
    let of32 =
        [0, 1, 0x7f_ffff, 1 << 23, 0x3f80_0000, 0x7f7f_ffff, 0x7f80_0000, 0x7f80_0001, NAN32];
    let of32 = of32.map(|b: u32| [b, b | 1 << 31]).concat();
    let of32 = of32.iter().flat_map(|&a| of32.iter().map(move |&b| (a, b)));
    assert_eq!(compare(of32, ours32, hardware32), agreed(18 * 18));
}
