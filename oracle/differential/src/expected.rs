//! What a request of the unit must give: the number by the rules, the sound by the published Rust. A whole
//! frame is the Rust's own; a job is made of the Rust's own parts, on the state, store and work that it is handed.

use crate::law;
use crate::rust_unit;
use crate::world::{Lent, Reply, Request, World};
use hall::{Cursors, State};
use phonon::dsp::delay::Delay;
use phonon::dsp::iir::{IIR, IIRFilterer};
use phonon::effects::reverb::ReverbEffect;
use std::ops::Range;
use ultraviolet::f32x4;

/// The reply to a request and the world after it. `effect` is the unit as the Rust keeps it; it moves with accepted
/// whole frames and resets.
pub fn expected(world: &World, request: Request, effect: &mut ReverbEffect) -> (Reply, World) {
    let due = law::judged(world, request);
    if due.number != 0 {
        return (due, world.clone());
    }
    match request {
        Request::Reset => reset(world, effect),
        Request::Apply(times) => whole(world, effect, |effect| rust_unit::apply(effect, world, times)),
        Request::Frames(times) => singly(world, effect, times),
        Request::Tail => whole(world, effect, rust_unit::tail),
        Request::OpenApply(times) => (Reply::plain(0), opened_apply(world, times)),
        Request::OpenTail => (Reply::plain(0), opened_tail(world)),
        Request::Close => closed(world),
        Request::Abandon => (Reply::plain(0), given_up(world)),
        Request::Read(_) | Request::Mix | Request::Line(_) | Request::Output => (Reply::plain(0), done(world, request)),
    }
}

fn reset(world: &World, effect: &mut ReverbEffect) -> (Reply, World) {
    let mut next = world.clone();
    effect.make_reset();
    rust_unit::keep(effect, &mut next);
    (Reply::plain(0), next)
}

/// A whole frame: accepted, or refused with 9 and nothing changed but the work.
fn whole(
    world: &World,
    effect: &mut ReverbEffect,
    play: impl FnOnce(&mut ReverbEffect) -> (Reply, Vec<f32>),
) -> (Reply, World) {
    let mut next = world.clone();
    next.work.fill(0.0);
    let mut played = effect.clone();
    let (reply, output) = play(&mut played);
    if !rust_unit::all_finite(&played, &world.state, &output) {
        return (Reply::plain(9), next);
    }
    rust_unit::keep(&played, &mut next);
    next.output.copy_from_slice(&output);
    *effect = played;
    (reply, next)
}

/// R10: several frames are the applies made singly, up to the first that is refused. With no frames nothing is done,
/// and the verdict is that of the count kept.
fn singly(world: &World, effect: &mut ReverbEffect, times: [f32; 3]) -> (Reply, World) {
    let mut next = world.clone();
    let mut last = Reply {
        remaining: world.state.count > 0,
        ..Reply::plain(0)
    };
    for (done, range) in (0..).zip(frame_ranges(world)) {
        let (reply, after) = expected(&of_one_frame(&next, &range), Request::Apply(times), effect);
        (next.state, next.store, next.work) = (after.state, after.store, after.work);
        next.output[range].copy_from_slice(&after.output);
        last = Reply { done, ..reply };
        if reply.number != 0 {
            return (last, next);
        }
    }
    last.done = law::frames(world) as i32;
    (last, next)
}

/// Where each frame of several lies, in the input and in the output.
fn frame_ranges(world: &World) -> impl Iterator<Item = Range<usize>> + use<> {
    let frame = world.state.frame;
    (0..law::frames(world)).map(move |k| k * frame..(k + 1) * frame)
}

/// The world with one frame of its input and output.
fn of_one_frame(world: &World, range: &Range<usize>) -> World {
    World {
        state: world.state,
        coefficients: world.coefficients.clone(),
        input: Lent::from(&world.input[range.clone()]),
        store: world.store.clone(),
        work: world.work.clone(),
        output: Lent::from(&world.output[range.clone()]),
    }
}

/// R5.6, R5.8: an open. All of the work memory is set.
fn opened(world: &World, tail: bool, next_count: i32) -> World {
    let mut next = world.clone();
    let frame = world.state.frame;
    next.state.busy = true;
    next.state.tail = tail;
    next.state.marks = [false; 34];
    next.state.next = next_count;
    next.state.before = world.state.filters;
    next.work.fill(0.0);
    let rings = law::store_length(frame) - 1_348;
    next.work[34 * frame..].copy_from_slice(&world.store[rings..]);
    next
}

fn opened_apply(world: &World, times: [f32; 3]) -> World {
    let mut next = opened(world, false, count_of(world, times));
    next.state.filters = std::array::from_fn(|filter| {
        let given = &world.coefficients[5 * filter..5 * filter + 5];
        IIRFilterer::new(IIR::new_from_coefficients(given.try_into().unwrap())).numbers()
    });
    next.work[..world.input.len()].copy_from_slice(&world.input);
    next
}

/// The count that an apply with these times sets: the Rust's own, from a silent unit.
fn count_of(world: &World, times: [f32; 3]) -> i32 {
    let State { rate, frame, .. } = world.state;
    let mut effect = rust_unit::new(rate, frame);
    let mut silent = world.clone();
    silent.input.fill(0.0);
    rust_unit::apply(&mut effect, &silent, times);
    effect.count()
}

fn opened_tail(world: &World) -> World {
    opened(world, true, world.state.count.saturating_sub(1))
}

/// The state from before the open.
fn shut(state: &mut State) {
    state.filters = state.before;
    let State { rate, frame, .. } = *state;
    *state = State {
        rate,
        frame,
        lines: state.lines,
        passes: state.passes,
        count: state.count,
        filters: state.filters,
        ..State::blank(rate, frame)
    };
}

/// R5.28: an abandon.
fn given_up(world: &World) -> World {
    let mut next = world.clone();
    shut(&mut next.state);
    next.work.fill(0.0);
    next
}

/// R5.21 to R5.27: a close.
fn closed(world: &World) -> (Reply, World) {
    let mut next = given_up(world);
    let (state, frame) = (&world.state, world.state.frame);
    let judged = state.filters.iter().flatten().chain(&world.work[17 * frame..]);
    if !judged.copied().all(f32::is_finite) {
        return (Reply::plain(9), next);
    }
    next.state.filters = state.filters;
    next.state.count = state.next;
    let ranges = law::ring_ranges(frame);
    for (line, range) in ranges[..16].iter().enumerate() {
        let mut ring = ring_of(&world.store[range.clone()], state.lines[line]);
        ring.get(frame, &mut vec![0.0; frame]);
        ring.put(frame, &world.work[mixed_row(frame, line)]);
        next.state.lines[line] = rust_unit::cursors(&ring);
        next.store[range.clone()].copy_from_slice(ring.ring());
    }
    for (pass, ring) in rust_unit::work_passes(state, &world.work).iter_mut().enumerate() {
        next.store[ranges[16 + pass].clone()].copy_from_slice(ring.ring());
        next.state.passes[pass] = moved_by_fours(ring, frame);
    }
    next.output.copy_from_slice(&world.work[33 * frame..34 * frame]);
    let remaining = state.next > 0;
    (
        Reply {
            remaining,
            ..Reply::plain(0)
        },
        next,
    )
}

/// Where a ring's cursors are after a frame of `get4` and `put4`.
fn moved_by_fours(ring: &mut Delay, frame: usize) -> Cursors {
    for _ in 0..frame / 4 {
        let four = ring.get4();
        ring.put4(&four);
    }
    rust_unit::cursors(ring)
}

fn ring_of(samples: &[f32], c: Cursors) -> Delay {
    Delay::with(samples, c.read, c.write)
}

fn read_row(frame: usize, line: usize) -> Range<usize> {
    (1 + line) * frame..(2 + line) * frame
}

fn mixed_row(frame: usize, line: usize) -> Range<usize> {
    (17 + line) * frame..(18 + line) * frame
}

/// R5.10 to R5.17: an accepted job, made of the state, store and work memory that it is handed. All else stays.
fn done(world: &World, request: Request) -> World {
    let mut next = world.clone();
    let mark = match request {
        Request::Read(line) => {
            read(&mut next, line);
            line
        }
        Request::Mix => {
            mix(&mut next);
            16
        }
        Request::Line(line) => {
            filter_line(&mut next, line);
            17 + line
        }
        _ => {
            output(&mut next);
            33
        }
    };
    next.state.marks[mark] = true;
    next
}

fn read(world: &mut World, line: usize) {
    let frame = world.state.frame;
    let range = law::ring_ranges(frame)[line].clone();
    let mut ring = ring_of(&world.store[range], world.state.lines[line]);
    ring.get(frame, &mut world.work[read_row(frame, line)]);
}

fn mix(world: &mut World) {
    let frame = world.state.frame;
    for four in (0..frame).step_by(4) {
        let x = std::array::from_fn(|line| f32x4::from(&world.work[read_row(frame, line)][four..four + 4]));
        for (line, y) in ReverbEffect::mix(&x).iter().enumerate() {
            world.work[mixed_row(frame, line)][four..four + 4].copy_from_slice(y.as_array_ref());
        }
    }
}

fn filter_line(world: &mut World, line: usize) {
    let frame = world.state.frame;
    let (input, rest) = world.work.split_at_mut(frame);
    let at = mixed_row(frame, line).start - frame;
    let row = &mut rest[at..at + frame];
    for numbers in &mut world.state.filters[3 * line..3 * line + 3] {
        let mut filter = IIRFilterer::new(IIR::with(*numbers));
        filter.apply_self(row);
        *numbers = filter.numbers();
    }
    if !world.state.tail {
        row.iter_mut().zip(input).for_each(|(x, sample)| *x += *sample);
    }
}

/// The Rust sums, passes and tones inside a whole frame only. So this is a tail of a Rust unit whose lines hold the
/// read rows at their read cursors, whose allpass rings are the work's, and whose tone filters are the state's.
fn output(world: &mut World) {
    let state = &mut world.state;
    let frame = state.frame;
    let mut effect = rust_unit::new(state.rate, frame);
    for (line, ring) in effect.lines_mut().iter_mut().enumerate() {
        ring.put(frame, &world.work[read_row(frame, line)]);
    }
    for (ring, kept) in effect
        .passes_mut()
        .into_iter()
        .zip(rust_unit::work_passes(state, &world.work))
    {
        *ring = kept;
    }
    effect.set_filters(&state.filters);
    let (_, output) = rust_unit::tail(&mut effect);
    state.filters[48..].copy_from_slice(&effect.filters()[48..]);
    world.work[33 * frame..34 * frame].copy_from_slice(&output);
    let rings: Vec<f32> = effect.passes().iter().flat_map(|ring| ring.ring()).copied().collect();
    world.work[34 * frame..].copy_from_slice(&rings);
}
