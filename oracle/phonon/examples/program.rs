//! The program (R9), played with the published Rust: standard input to standard output. The outputs
//! in tests/cases were made by it.

use phonon::dsp::audio_buffer::AudioSettings;
use phonon::dsp::reverb_estimator::Reverb;
use phonon::effects::reverb::{ReverbEffect, ReverbEffectParams};
use std::io::{Read, Write, stdin, stdout};

/// R9.1: what the program is set to.
const FRAME: usize = 128;
const RATE: u32 = 48_000;
const TIMES: [f32; 3] = [0.1; 3];

fn main() -> std::io::Result<()> {
    let mut bytes = Vec::new();
    stdin().read_to_end(&mut bytes)?;
    let samples: Vec<f32> = bytes
        .chunks_exact(4)
        .map(|four| f32::from_le_bytes(four.try_into().unwrap()))
        .collect();

    phonon::hand_in([0; 16]);
    let mut unit = ReverbEffect::new(AudioSettings::new(RATE, FRAME));
    let mut played: Vec<f32> = Vec::new();
    for frame in samples.chunks(FRAME) {
        let mut input = [0.0; FRAME];
        input[..frame.len()].copy_from_slice(frame);
        played.extend(apply(&mut unit, &input));
    }
    for _ in 0..unit.count() {
        played.extend(tail(&mut unit));
    }

    let written: Vec<u8> = played.iter().flat_map(|x| x.to_le_bytes()).collect();
    stdout().write_all(&written)
}

/// R9.3: its coefficients.
fn coefficients() -> [f32; 255] {
    let mut given = [0.0; 255];
    for line in 0..16 {
        for band in 0..3 {
            given[5 * (3 * line + band) + 2] = if band == 0 { 0.5 } else { 1.0 };
        }
    }
    for tone in 48..51 {
        given[5 * tone + 2] = 1.0;
    }
    given
}

/// R2.18, R9.9: a frame with a bad sample is refused, and written as zeros.
fn apply(unit: &mut ReverbEffect, input: &[f32; FRAME]) -> [f32; FRAME] {
    if !input.iter().all(|x| x.is_finite()) {
        return [0.0; FRAME];
    }
    accepted(unit, |unit, output| {
        unit.give(&coefficients());
        let params = ReverbEffectParams(Reverb { reverb_times: TIMES });
        unit.apply(&params, &[input], &mut [output]);
    })
}

fn tail(unit: &mut ReverbEffect) -> [f32; FRAME] {
    accepted(unit, |unit, output| {
        unit.make_tail(output);
    })
}

/// R4.14, R4.15, R9.9: a frame that 9 refuses leaves the unit, and is written as zeros.
///
/// All that is kept was finite before, so that the whole lines are judged for the rows put.
fn accepted(unit: &mut ReverbEffect, frame: impl FnOnce(&mut ReverbEffect, &mut [f32])) -> [f32; FRAME] {
    let mut after = unit.clone();
    let mut output = [0.0; FRAME];
    frame(&mut after, &mut output);
    let rings = after.lines().iter().chain(after.passes());
    let kept = rings.flat_map(|ring| ring.ring()).copied();
    let filters = after.filters().into_iter().flatten();
    if !kept.chain(filters).chain(output).all(f32::is_finite) {
        return [0.0; FRAME];
    }
    *unit = after;
    output
}
