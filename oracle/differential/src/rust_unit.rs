//! The published Rust as a unit: its rings, filters and count in the order of a state and a store, and its whole
//! frames.

use crate::law::{PASSES, line_length, ring_ranges};
use crate::world::{Reply, World};
use hall::{Cursors, State};
use phonon::dsp::audio_buffer::{AudioEffectState, AudioSettings};
use phonon::dsp::delay::Delay;
use phonon::dsp::reverb_estimator::Reverb;
use phonon::effects::reverb::{ReverbEffect, ReverbEffectParams};

/// The Rust's own new unit. Its sixteen random numbers reach only the gains, which nothing here uses.
pub fn new(rate: u32, frame: usize) -> ReverbEffect {
    phonon::hand_in([0; 16]);
    ReverbEffect::new(AudioSettings::new(rate, frame))
}

/// The Rust set to a state and a store.
pub fn of(state: &State, store: &[f32]) -> ReverbEffect {
    let mut effect = new(state.rate, state.frame);
    let ranges = ring_ranges(state.frame);
    let ring = |k: usize, c: Cursors| Delay::with(&store[ranges[k].clone()], c.read, c.write);
    for (line, kept) in effect.lines_mut().iter_mut().enumerate() {
        *kept = ring(line, state.lines[line]);
    }
    for (pass, kept) in effect.passes_mut().into_iter().enumerate() {
        *kept = ring(16 + pass, state.passes[pass]);
    }
    effect.set_filters(&state.filters);
    effect.set_count(state.count);
    effect
}

/// Writes what the Rust keeps into a world's state and store.
pub fn keep(effect: &ReverbEffect, world: &mut World) {
    let State {
        frame,
        lines,
        passes,
        count,
        filters,
        ..
    } = &mut world.state;
    for (c, ring) in lines
        .iter_mut()
        .zip(effect.lines())
        .chain(passes.iter_mut().zip(effect.passes()))
    {
        *c = cursors(ring);
    }
    *count = effect.count();
    filters.copy_from_slice(&effect.filters());
    let rings = effect.lines().iter().chain(effect.passes());
    for (range, ring) in ring_ranges(*frame).into_iter().zip(rings) {
        world.store[range].copy_from_slice(ring.ring());
    }
}

/// A ring's cursors.
///
/// The Rust's read cursor may rest at the ring's length, where ours is 0 (R3.7).
pub fn cursors(ring: &Delay) -> Cursors {
    let (read, write) = ring.cursors();
    let length = ring.ring().len();
    Cursors {
        read: if read == length { 0 } else { read },
        write,
    }
}

/// The whole apply of a world's input; its reply and its output.
pub fn apply(effect: &mut ReverbEffect, world: &World, times: [f32; 3]) -> (Reply, Vec<f32>) {
    let mut output = vec![0.0; world.state.frame];
    effect.give(world.coefficients[..].try_into().unwrap());
    let params = ReverbEffectParams(Reverb { reverb_times: times });
    let verdict = effect.apply(&params, &[&world.input], &mut [&mut output]);
    (reply(verdict), output)
}

/// The whole tail; its reply and its output.
///
/// R4.13: a count of -2,147,483,648 stays, where the Rust's would overflow.
pub fn tail(effect: &mut ReverbEffect) -> (Reply, Vec<f32>) {
    let mut output = vec![0.0; effect.frame_size];
    effect.set_count(effect.count().max(i32::MIN + 1));
    let verdict = effect.make_tail(&mut output);
    (reply(verdict), output)
}

fn reply(verdict: AudioEffectState) -> Reply {
    Reply {
        remaining: matches!(verdict, AudioEffectState::TailRemaining),
        ..Reply::plain(0)
    }
}

/// R4.14: whether 9 finds nothing to judge.
///
/// `before` is the state in which the frame began: the rows were put from its write cursors on.
pub fn all_finite(effect: &ReverbEffect, before: &State, output: &[f32]) -> bool {
    let finite = |x: &f32| x.is_finite();
    effect.filters().iter().flatten().all(finite)
        && (0..16).all(|line| row_put(effect, before, line).all(f32::is_finite))
        && effect.passes().iter().all(|ring| ring.ring().iter().all(finite))
        && output.iter().all(finite)
}

/// The row that a frame put into a line.
fn row_put<'a>(effect: &'a ReverbEffect, before: &State, line: usize) -> impl Iterator<Item = f32> + use<'a> {
    let (start, frame) = (before.lines[line].write, before.frame);
    let length = line_length(line, frame);
    let ring = effect.lines()[line].ring();
    (start..start + frame).map(move |at| ring[at % length])
}

/// The four allpass rings as they lie in the work memory, with a state's cursors.
pub fn work_passes(state: &State, work: &[f32]) -> Vec<Delay> {
    let mut start = 34 * state.frame;
    PASSES
        .iter()
        .zip(state.passes)
        .map(|(length, c)| {
            start += length;
            Delay::with(&work[start - length..start], c.read, c.write)
        })
        .collect()
}
