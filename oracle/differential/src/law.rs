//! The numbers of docs/RULES.md and the sizes: which number a call is answered with before any sound is made. The Rust
//! has no such numbers, so this rests on the rules alone.

use crate::world::{Reply, Request, World};
use hall::{Cursors, Filter, State};

/// R1.9, R1.10: the length of a line's ring.
pub fn line_length(line: usize, frame: usize) -> usize {
    [225, 341, 441, 556][line % 4] + frame
}

/// R1.12, R1.13: the lengths of the allpass rings.
pub const PASSES: [usize; 4] = [225, 341, 341, 441];

/// R1.19: the floats of a store.
pub fn store_length(frame: usize) -> usize {
    7_600 + 16 * frame
}

/// R1.21: the floats of a work memory.
pub fn work_length(frame: usize) -> usize {
    34 * frame + 1_348
}

/// R1.20: the places of the store's rings: sixteen lines, then four allpass rings.
pub fn ring_ranges(frame: usize) -> Vec<std::ops::Range<usize>> {
    let lengths = (0..16).map(|line| line_length(line, frame)).chain(PASSES);
    let mut start = 0;
    lengths
        .map(|length| {
            start += length;
            start - length..start
        })
        .collect()
}

pub fn rate_ok(rate: u32) -> bool {
    (8_000..=192_000).contains(&rate)
}

pub fn frame_ok(frame: usize) -> bool {
    frame.is_multiple_of(4) && (4..=1_024).contains(&frame)
}

pub fn time_ok(time: f32) -> bool {
    time.is_finite() && (0.0..=100.0).contains(&time)
}

/// R1.27 to R1.30: whether a state is in range.
pub fn in_range(s: &State) -> bool {
    let below = |c: &Cursors, length: usize| c.read < length && c.write < length;
    rate_ok(s.rate)
        && frame_ok(s.frame)
        && (0..16).all(|line| below(&s.lines[line], line_length(line, s.frame)))
        && (0..4).all(|pass| below(&s.passes[pass], PASSES[pass]))
        && (s.busy || blank(s))
}

fn blank(s: &State) -> bool {
    let zero = |filter: &Filter| filter.iter().all(|x| x.to_bits() == 0);
    !s.tail && s.next == 0 && !s.marks.contains(&true) && s.before.iter().all(zero)
}

/// R10: the most frames at once.
pub const MOST_FRAMES: usize = 1_024;

/// How many whole frames the input holds.
pub fn frames(world: &World) -> usize {
    world.input.len() / world.state.frame
}

/// The reply that is due before any work is done; number 0 if none of 1 to 8 is. Of several frames 8 isn't judged here,
/// but at each frame.
pub fn judged(world: &World, request: Request) -> Reply {
    let s = &world.state;
    let number = if !in_range(s) {
        1
    } else if !lengths_ok(world, request) {
        3
    } else if !numbers_ok(world, request) {
        4
    } else if !in_turn(s, request) {
        5
    } else {
        return judged_given(world, request);
    };
    Reply::plain(number)
}

/// Each slice that the call is lent has its exact length, by the state's F. Several frames are lent whole frames of
/// input, and as much output (R10).
fn lengths_ok(world: &World, request: Request) -> bool {
    let frame = world.state.frame;
    let (input, output) = match request {
        Request::Frames(_) => (frames(world) * frame, world.input.len()),
        _ => (frame, frame),
    };
    let exact = [255, input, store_length(frame), work_length(frame), output];
    let lent = lent(request);
    (0..5).all(|k| !lent[k] || world.slices()[k].len() == exact[k])
}

/// The line of a job is there, and the frames at once aren't too many.
fn numbers_ok(world: &World, request: Request) -> bool {
    match request {
        Request::Read(line) | Request::Line(line) => line < 16,
        Request::Frames(_) => frames(world) <= MOST_FRAMES,
        _ => true,
    }
}

/// Which of coefficients, input, store, work and output a call is lent.
pub fn lent(request: Request) -> [bool; 5] {
    match request {
        Request::Apply(_) | Request::Frames(_) => [true; 5],
        Request::OpenApply(_) => [true, true, true, true, false],
        Request::Tail | Request::Close => [false, false, true, true, true],
        Request::OpenTail | Request::Read(_) => [false, false, true, true, false],
        Request::Reset => [false, false, true, false, false],
        Request::Mix | Request::Line(_) | Request::Output | Request::Abandon => [false, false, false, true, false],
    }
}

/// R5.4, R5.5, R5.11 to R5.14, R5.20: whether it is a call's turn.
fn in_turn(s: &State, request: Request) -> bool {
    let done = |jobs: std::ops::Range<usize>| s.marks[jobs].iter().all(|mark| *mark);
    match request {
        Request::Read(line) => s.busy && !s.marks[line],
        Request::Mix => s.busy && !s.marks[16] && done(0..16),
        Request::Line(line) => s.busy && !s.marks[17 + line] && s.marks[16],
        Request::Output => s.busy && !s.marks[33] && done(0..16),
        Request::Close => s.busy && done(0..34),
        Request::Abandon => s.busy,
        Request::Reset | Request::OpenApply(_) | Request::OpenTail => !s.busy,
        Request::Apply(_) | Request::Frames(_) | Request::Tail => !s.busy,
    }
}

/// R2.16 to R2.18: 6, 7 and 8 for the times, coefficients and input of an apply.
fn judged_given(world: &World, request: Request) -> Reply {
    let (Request::Apply(times) | Request::Frames(times) | Request::OpenApply(times)) = request else {
        return Reply::plain(0);
    };
    if !times.iter().all(|time| time_ok(*time)) {
        return Reply::plain(6);
    }
    if !world.coefficients.iter().all(|x| x.is_finite()) {
        return Reply::plain(7);
    }
    let first_bad = world.input.iter().position(|x| !x.is_finite());
    match (request, first_bad) {
        (Request::Frames(_), _) | (_, None) => Reply::plain(0),
        (_, Some(index)) => Reply {
            index,
            ..Reply::plain(8)
        },
    }
}
