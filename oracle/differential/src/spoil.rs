//! Requests that have to be refused: a request and a copy of the world with one or more things wrong in them.

use crate::dice::Dice;
use crate::frames;
use crate::law;
use crate::sounds;
use crate::world::{Lent, Request, World};

/// A spoiled copy of a world and a request that is refused on it.
pub fn spoiled(dice: &mut Dice, world: &World) -> (World, Request) {
    loop {
        let mut copy = world.clone();
        let mut request = any_request(dice);
        if dice.once_in(3) {
            spoil_given(dice, &mut copy, &mut request);
        } else {
            lend_frames(dice, &mut copy, request);
            for _ in 0..dice.below(3) {
                spoil(dice, &mut copy, &mut request);
            }
        }
        if law::judged(&copy, request).number != 0 {
            return (copy, request);
        }
    }
}

/// Any request, in turn or not, with arguments that may well be accepted.
pub fn any_request(dice: &mut Dice) -> Request {
    let line = dice.below(16);
    match dice.below(12) {
        0 => Request::Reset,
        1 => Request::Apply(sounds::times(dice)),
        2 => Request::Tail,
        3 => Request::OpenApply(sounds::times(dice)),
        4 => Request::OpenTail,
        5 => Request::Read(line),
        6 => Request::Mix,
        7 => Request::Line(line),
        8 => Request::Output,
        9 => Request::Close,
        10 => Request::Frames(sounds::times(dice)),
        _ => Request::Abandon,
    }
}

/// Lends several frames at once what they take: none, a few, or where frames are small one too many. Now and then the
/// last isn't whole, in the input and in the output.
fn lend_frames(dice: &mut Dice, world: &mut World, request: Request) {
    let Request::Frames(_) = request else {
        return;
    };
    let few = frames::few(dice, world.state.frame);
    let many = if world.state.frame > 12 {
        few
    } else {
        law::MOST_FRAMES + 1
    };
    let count = dice.pick(&[0, few, few, few, many]);
    let sound = sounds::sound(dice);
    frames::lend(dice, world, sound, count);
    if dice.once_in(8) {
        let length = world.input.len() + dice.between(1, world.state.frame - 1);
        world.input = resized(&world.input, length);
        world.output = resized(&world.output, length);
    }
}

/// An apply, of one frame or several, of which nothing is wrong but the times, the coefficients or the input.
fn spoil_given(dice: &mut Dice, world: &mut World, request: &mut Request) {
    let times = sounds::times(dice);
    *request = dice.pick(&[Request::Apply(times), Request::OpenApply(times), Request::Frames(times)]);
    lend_frames(dice, world, *request);
    match dice.below(4) {
        0 => spoil_times(dice, request),
        1 => spoil_floats(dice, &mut world.coefficients),
        _ => spoil_floats(dice, &mut world.input),
    }
}

/// Makes one thing wrong.
fn spoil(dice: &mut Dice, world: &mut World, request: &mut Request) {
    match dice.below(6) {
        0 => spoil_state(dice, world),
        1 => spoil_length(dice, world),
        2 => spoil_line(dice, request),
        3 => spoil_times(dice, request),
        4 => spoil_floats(dice, &mut world.coefficients),
        _ => spoil_floats(dice, &mut world.input),
    }
}

/// Puts one field of the state out of range (or, of an open frame, to another value).
fn spoil_state(dice: &mut Dice, world: &mut World) {
    let s = &mut world.state;
    let (line, pass) = (dice.below(16), dice.below(4));
    let beyond = dice.pick(&[0, 1, usize::MAX / 2, usize::MAX - 2_048]);
    let line_end = law::line_length(line, s.frame.min(1_024)) + beyond;
    let pass_end = law::PASSES[pass] + beyond;
    match dice.below(10) {
        0 => s.rate = sounds::bad_rate(dice),
        1 => s.frame = sounds::bad_frame(dice),
        2 => s.lines[line].read = line_end,
        3 => s.lines[line].write = line_end,
        4 => s.passes[pass].read = pass_end,
        5 => s.passes[pass].write = pass_end,
        6 => s.tail = !s.tail,
        7 => s.next = s.next.wrapping_add(1),
        8 => s.marks[dice.below(34)] = true,
        _ => s.before[dice.below(51)][dice.below(9)] = dice.pick(&[-0.0, 1.0, f32::NAN, f32::INFINITY]),
    }
}

/// Gives one slice another length.
fn spoil_length(dice: &mut Dice, world: &mut World) {
    let [coefficients, input, store, work, output] = world.slices_mut();
    let slice = match dice.below(5) {
        0 => coefficients,
        1 => input,
        2 => store,
        3 => work,
        _ => output,
    };
    let length = match dice.below(4) {
        0 => slice.len().saturating_sub(1),
        1 => slice.len() + 1,
        2 => 0,
        _ => dice.below(2 * slice.len() + 1),
    };
    *slice = resized(slice, length);
}

/// A slice cut, or made longer by NaNs.
fn resized(slice: &[f32], length: usize) -> Lent {
    let floats = slice.iter().copied().chain(std::iter::repeat(f32::NAN));
    Lent::from(floats.take(length).collect::<Vec<f32>>())
}

/// Asks for a line that isn't there.
fn spoil_line(dice: &mut Dice, request: &mut Request) {
    let line = dice.pick(&[16, 17, 32, 255, 1 << 32, 1 << 63, usize::MAX]);
    match request {
        Request::Read(asked) | Request::Line(asked) => *asked = line,
        _ => (),
    }
}

/// Makes one time or more wrong.
fn spoil_times(dice: &mut Dice, request: &mut Request) {
    if let Request::Apply(times) | Request::Frames(times) | Request::OpenApply(times) = request {
        for _ in 0..dice.between(1, 2) {
            times[dice.below(3)] = sounds::bad_time(dice);
        }
    }
}

/// Puts some NaNs and infinities into a slice.
pub fn spoil_floats(dice: &mut Dice, floats: &mut Lent) {
    for _ in 0..dice.between(1, 3) {
        if !floats.is_empty() {
            let at = dice.below(floats.len());
            floats[at] = dice.bad_float();
        }
    }
}
