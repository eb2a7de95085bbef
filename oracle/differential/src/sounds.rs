//! What goes in: rows of samples, filters' coefficients, reverb times, rates and frames.

use crate::dice::Dice;

/// The classes of frames: the least, the greatest, and some on either side of the rings' lengths.
pub const FRAMES: [usize; 8] = [4, 8, 12, 100, 128, 556, 1_020, 1_024];

/// The kinds of rows, all finite.
#[derive(Copy, Clone)]
pub enum Sound {
    Noise,
    Impulse,
    Silence,
    MinusZeros,
    Subnormals,
    Huge,
    AnyFinite,
    Sparse,
}

const SOUNDS: [Sound; 11] = [
    Sound::Noise,
    Sound::Noise,
    Sound::Noise,
    Sound::Impulse,
    Sound::Silence,
    Sound::MinusZeros,
    Sound::Subnormals,
    Sound::Subnormals,
    Sound::Huge,
    Sound::AnyFinite,
    Sound::Sparse,
];

/// One kind of row.
pub fn sound(dice: &mut Dice) -> Sound {
    dice.pick(&SOUNDS)
}

/// A row of a kind.
pub fn row(dice: &mut Dice, sound: Sound, length: usize) -> Vec<f32> {
    let impulse = dice.below(length.max(1));
    (0..length).map(|k| sample(dice, sound, k == impulse)).collect()
}

/// One sample of a kind; an impulse has but one that isn't zero.
fn sample(dice: &mut Dice, sound: Sound, impulse: bool) -> f32 {
    match sound {
        Sound::Noise => dice.noise(),
        Sound::Impulse => f32::from(u8::from(impulse)),
        Sound::Silence => 0.0,
        Sound::MinusZeros => -0.0,
        Sound::Subnormals => f32::from_bits(dice.word() as u32 & 0x807f_ffff),
        Sound::Huge => dice.noise() * f32::MAX,
        Sound::AnyFinite => dice.finite_float(),
        Sound::Sparse => *[0.0, -0.0, dice.noise(), 1.0e-30].get(dice.below(4)).unwrap(),
    }
}

/// A row of any floats at all: now and then with NaNs and infinities.
pub fn any_row(dice: &mut Dice, length: usize) -> Vec<f32> {
    let kind = sound(dice);
    let mut floats = row(dice, kind, length);
    match dice.below(4) {
        0 => floats.iter_mut().for_each(|x| *x = dice.any_float()),
        1 if length > 0 => floats[dice.below(length)] = dice.bad_float(),
        _ => (),
    }
    floats
}

/// The 255 coefficients of a unit, all finite: gentle ones most often.
pub fn coefficients(dice: &mut Dice) -> Vec<f32> {
    let kind = dice.below(12);
    (0..51)
        .flat_map(|filter| filter_coefficients(dice, kind, filter))
        .collect()
}

/// a1, a2, b0, b1, b2 of one filter.
fn filter_coefficients(dice: &mut Dice, kind: usize, filter: usize) -> [f32; 5] {
    let halved = filter < 48 && filter.is_multiple_of(3);
    match kind {
        0 => [0.0, 0.0, if halved { 0.5 } else { 1.0 }, 0.0, 0.0],
        1 => [0.0, 0.0, 1.0, 0.0, 0.0],
        2..=5 => stable(dice),
        6 => std::array::from_fn(|_| dice.noise()),
        7 => std::array::from_fn(|_| 4.0 * dice.noise()),
        8 => std::array::from_fn(|_| dice.noise() * f32::MAX),
        9 => std::array::from_fn(|_| f32::from_bits(dice.word() as u32 & 0x807f_ffff)),
        10 => std::array::from_fn(|_| if dice.once_in(2) { -0.0 } else { 0.0 }),
        _ => std::array::from_fn(|_| {
            if dice.once_in(8) {
                dice.finite_float()
            } else {
                dice.noise()
            }
        }),
    }
}

/// A filter whose two poles lie well inside the unit circle.
fn stable(dice: &mut Dice) -> [f32; 5] {
    let radius = 0.9 * dice.noise().abs();
    let b = |dice: &mut Dice| 0.4 * dice.noise();
    [-2.0 * radius * dice.noise(), radius * radius, b(dice), b(dice), b(dice)]
}

/// Three times of 0 to 100.
pub fn times(dice: &mut Dice) -> [f32; 3] {
    match dice.below(4) {
        0 => [0.1; 3],
        1 => [0.0, -0.0, 0.0],
        _ => std::array::from_fn(|_| time(dice)),
    }
}

/// A time of 0 to 100.
pub fn time(dice: &mut Dice) -> f32 {
    match dice.below(6) {
        0 => *[0.0, -0.0, 100.0, f32::MIN_POSITIVE, 1.0e-45, 99.99999]
            .get(dice.below(6))
            .unwrap(),
        1 => dice.noise().abs(),
        _ => 100.0 * dice.noise().abs(),
    }
}

/// A time that is refused.
pub fn bad_time(dice: &mut Dice) -> f32 {
    match dice.below(4) {
        0 => dice.bad_float(),
        1 => *[-1.0e-45, 100.00001, -100.0, f32::MAX].get(dice.below(4)).unwrap(),
        2 => -1.0 - dice.noise().abs(),
        _ => 101.0 + dice.noise(),
    }
}

/// A rate that is accepted.
pub fn rate(dice: &mut Dice) -> u32 {
    let any = dice.between(8_000, 192_000) as u32;
    dice.pick(&[8_000, 44_100, 48_000, 192_000, any])
}

/// A rate that is refused.
pub fn bad_rate(dice: &mut Dice) -> u32 {
    dice.pick(&[0, 1, 7_999, 192_001, u32::MAX])
}

/// A frame that is refused.
pub fn bad_frame(dice: &mut Dice) -> usize {
    let odd = dice.between(1, 256) * 4 - dice.between(1, 3);
    dice.pick(&[0, 1, 6, 1_026, 1_028, usize::MAX, usize::MAX - 3, 1 << 60, odd])
}
