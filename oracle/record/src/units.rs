//! Units from fresh on: applies, tails and resets, and at the end all that the Rust keeps.

use crate::dice::Dice;
use crate::sounds::{self, Sound};
use crate::tape::{Kind, Tape};
use phonon::dsp::audio_buffer::{AudioEffectState, AudioSettings};
use phonon::dsp::delay::Delay;
use phonon::dsp::reverb_estimator::Reverb;
use phonon::effects::reverb::{ReverbEffect, ReverbEffectParams};

/// Quiet enough that no frame leaves the finite numbers: where one does, the Rust has no answer of ours.
const SOUNDS: [Sound; 8] = [
    Sound::Noise,
    Sound::Noise,
    Sound::Noise,
    Sound::Impulse,
    Sound::Silence,
    Sound::MinusZeros,
    Sound::Subnormals,
    Sound::Sparse,
];

/// One unit's life.
pub fn play(dice: &mut Dice, tape: &mut Tape, rate: u32, frame: usize, frames: usize) {
    phonon::hand_in([0; 16]);
    let mut effect = ReverbEffect::new(AudioSettings::new(rate, frame));
    tape.head(Kind::Unit, &[rate, frame as u32, count(&effect)]);
    let mut sound = Sound::Noise;
    let mut peak = 0.0f32;
    for k in 0..frames {
        if dice.once_in(8) {
            sound = dice.pick(&SOUNDS);
        }
        if k == frames / 3 {
            effect.make_reset();
            tape.head(Kind::Reset, &[count(&effect)]);
        }
        let output = if k > 0 && dice.once_in(3) {
            tail(&mut effect, tape)
        } else {
            let new = k == 0 || dice.once_in(8);
            apply(dice, &mut effect, tape, sound, new)
        };
        peak = output.iter().fold(peak, |most, x| most.max(x.abs()));
    }
    kept(&effect, tape);
    eprintln!("rate {rate}, F {frame}: {frames} frames, the loudest sample {peak}");
}

fn apply(dice: &mut Dice, effect: &mut ReverbEffect, tape: &mut Tape, sound: Sound, new: bool) -> Vec<f32> {
    let frame = effect.frame_size;
    let times = sounds::times(dice);
    let input = sounds::row(dice, sound, frame);
    let coefficients = coefficients(dice);
    if new {
        effect.give(&coefficients);
    }
    let mut output = vec![0.0; frame];
    let params = ReverbEffectParams(Reverb { reverb_times: times });
    let verdict = effect.apply(&params, &[&input], &mut [&mut output]);
    let [t0, t1, t2] = times.map(f32::to_bits);
    let kind = if new { Kind::ApplyNew } else { Kind::Apply };
    tape.head(kind, &[count(effect), remaining(verdict), t0, t1, t2]);
    if new {
        tape.floats(&coefficients);
    }
    tape.floats(&input);
    tape.floats(&output);
    output
}

fn tail(effect: &mut ReverbEffect, tape: &mut Tape) -> Vec<f32> {
    let mut output = vec![0.0; effect.frame_size];
    let verdict = effect.make_tail(&mut output);
    tape.head(Kind::Tail, &[count(effect), remaining(verdict)]);
    tape.floats(&output);
    output
}

/// All that the Rust keeps, in the order of a state and a store.
fn kept(effect: &ReverbEffect, tape: &mut Tape) {
    tape.head(Kind::Kept, &[]);
    let rings: Vec<&Delay> = effect.lines().iter().chain(effect.passes()).collect();
    tape.words(rings.iter().flat_map(|ring| cursors(ring)));
    tape.floats(effect.filters().as_flattened());
    for ring in rings {
        tape.floats(ring.ring());
    }
}

/// A ring's read and write cursor.
///
/// The Rust's read cursor may rest at the ring's length, where ours is 0 (R3.7).
pub fn cursors(ring: &Delay) -> [u32; 2] {
    let (read, write) = ring.cursors();
    let read = if read == ring.ring().len() { 0 } else { read };
    [read as u32, write as u32]
}

fn count(effect: &ReverbEffect) -> u32 {
    effect.count().cast_unsigned()
}

fn remaining(verdict: AudioEffectState) -> u32 {
    u32::from(matches!(verdict, AudioEffectState::TailRemaining))
}

/// The 255 coefficients of a unit: those of the program, or filters that ring and are stable.
fn coefficients(dice: &mut Dice) -> [f32; 255] {
    let plain = dice.once_in(4);
    let filters: [[f32; 5]; 51] = std::array::from_fn(|filter| {
        if plain {
            let halved = filter < 48 && filter.is_multiple_of(3);
            [0.0, -0.0, if halved { 0.5 } else { 1.0 }, 0.0, -0.0]
        } else {
            ringing(dice)
        }
    });
    filters.as_flattened().try_into().unwrap()
}

/// A filter whose two poles lie inside the unit circle, of a gain near one.
pub fn ringing(dice: &mut Dice) -> [f32; 5] {
    let radius = 0.9 * dice.noise().abs();
    let a1 = -2.0 * radius * dice.noise();
    let b = |dice: &mut Dice| 0.4 * dice.noise();
    [a1, radius * radius, 0.5 + b(dice), b(dice), b(dice)]
}
