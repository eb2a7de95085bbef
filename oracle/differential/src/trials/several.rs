//! Several frames at once (R10): the cases that random runs seldom meet, each with the reply that is due.

use crate::dice::Dice;
use crate::law::{self, MOST_FRAMES};
use crate::report::{Check, Journal};
use crate::rust_unit;
use crate::sounds::{self, Sound};
use crate::step::step;
use crate::trials::runs::world_of;
use crate::world::{Lent, Reply, Request, World};
use hall::{Cursors, State};
use phonon::effects::reverb::ReverbEffect;

/// a1, a2, b0, b1, b2 of every filter: they never come to a 9.
const GENTLE: [f32; 5] = [0.2, -0.1, 0.6, 0.1, -0.1];

/// Places among the slices of a world.
const INPUT: usize = 1;
const OUTPUT: usize = 4;

/// All cases. Most are of small frames, which are soon played.
pub fn several_frames(dice: &mut Dice, journal: &mut Journal) -> Check {
    journal.begin();
    for frame in [4, 8, 100, 1_024] {
        all_done(dice, journal, frame)?;
        no_frames(dice, journal, frame)?;
        wrong_lengths(dice, journal, frame, 3)?;
    }
    for frame in [4, 8, 100] {
        for (frames, at) in [(1, 0), (3, 0), (3, 1), (3, 2)] {
            stopped(dice, journal, frame, frames, at)?;
        }
    }
    stopped(dice, journal, 1_024, 2, 1)?;
    for frame in [4, 128, 1_024] {
        loud_input(dice, journal, frame)?;
        loud_filters(dice, journal, frame)?;
    }
    most_frames(dice, journal)?;
    too_many(dice, journal)?;
    least_number_first(dice, journal)
}

/// A unit of the library and one of the Rust, the frames that they are lent, and the times.
#[derive(Clone)]
struct Case {
    world: World,
    effect: ReverbEffect,
    times: [f32; 3],
}

impl Case {
    /// A unit that has lived: noise in its rings, any cursors, filters with a history, a count. It is lent noise.
    fn new(dice: &mut Dice, frame: usize, frames: usize) -> Self {
        let mut state = State::blank(48_000, frame);
        for (line, c) in state.lines.iter_mut().enumerate() {
            *c = together(dice.below(law::line_length(line, frame)));
        }
        for (c, length) in state.passes.iter_mut().zip(law::PASSES) {
            *c = together(dice.below(length));
        }
        state.filters = std::array::from_fn(|_| std::array::from_fn(|_| dice.noise()));
        state.count = 9;
        let mut case = Case::silent(dice, state, frames);
        let World { input, store, .. } = &mut case.world;
        for slice in [input, store] {
            *slice = Lent::from(sounds::row(dice, Sound::Noise, slice.len()));
        }
        case.effect = rust_unit::of(&case.world.state, &case.world.store);
        case
    }

    /// A unit with silent rings, which is lent silence. Work and output hold what is easily told from what is written.
    fn silent(dice: &mut Dice, state: State, frames: usize) -> Self {
        let mut world = world_of(dice, state);
        world.coefficients = Lent::from(GENTLE.repeat(51));
        world.work.fill(0.5);
        world.input = Lent::from(vec![0.0; frames * state.frame]);
        world.output = nans(frames * state.frame);
        Case {
            effect: rust_unit::of(&world.state, &world.store),
            world,
            times: [0.5, 0.2, 0.1],
        }
    }

    /// Makes a sample of a frame bad, and perhaps one behind it; the place of the first within the frame.
    fn make_bad(&mut self, dice: &mut Dice, at: usize) -> usize {
        let frame = self.world.state.frame;
        let first = dice.below(frame);
        for place in [first, dice.between(first, frame - 1)] {
            self.world.input[at * frame + place] = dice.bad_float();
        }
        first
    }

    /// Puts into every line a sample so loud that the frame which reads it comes to a 9.
    fn make_loud(&mut self, dice: &mut Dice, at: usize) {
        let State { lines, frame, .. } = self.world.state;
        let sample = at * frame + dice.below(frame.min(225));
        for (c, range) in lines.iter().zip(law::ring_ranges(frame)) {
            let place = (c.read + sample) % range.len();
            self.world.store[range.start + place] = f32::MAX;
        }
        self.effect = rust_unit::of(&self.world.state, &self.world.store);
    }

    /// Lends so many other frames, of silence.
    fn lend_silence(&mut self, frames: usize) {
        let length = frames * self.world.state.frame;
        self.world.input = Lent::from(vec![0.0; length]);
        self.world.output = nans(length);
    }

    /// Asks for the frames; the reply must be this one.
    fn answers(&mut self, journal: &mut Journal, wanted: Reply) -> Check {
        let request = Request::Frames(self.times);
        let reply = step(journal, &mut self.world, request, &mut self.effect)?;
        journal.same("reply of the case", reply, wanted)
    }

    /// Asks for the frames and is refused before the first, with 1 to 7.
    fn refused(&mut self, journal: &mut Journal, number: u32) -> Check {
        self.answers(journal, Reply::plain(number))
    }

    /// Asks for the frames and is stopped after some of them. The verdict is false, though a tail is left; it follows.
    fn stopped(&mut self, journal: &mut Journal, number: u32, index: usize, done: usize) -> Check {
        let wanted = Reply {
            index,
            done: done as i32,
            ..Reply::plain(number)
        };
        self.answers(journal, wanted)?;
        journal.same("a tail is left", self.world.state.count > 0, true)?;
        self.tail(journal)
    }

    /// Asks for the frames, and all are done.
    fn done(&mut self, journal: &mut Journal, frames: usize, remaining: bool) -> Check {
        let wanted = Reply {
            done: frames as i32,
            remaining,
            ..Reply::plain(0)
        };
        self.answers(journal, wanted)
    }

    fn tail(&mut self, journal: &mut Journal) -> Check {
        self.world.output = nans(self.world.state.frame);
        step(journal, &mut self.world, Request::Tail, &mut self.effect).map(|_| ())
    }
}

/// The cursors of a ring that only the unit's calls moved.
fn together(at: usize) -> Cursors {
    Cursors { read: at, write: at }
}

/// NaNs of many payloads.
fn nans(count: usize) -> Lent {
    let nan = |k: usize| f32::from_bits(0x7fc0_0001 + k as u32);
    Lent::from((0..count).map(nan).collect::<Vec<f32>>())
}

/// All frames are done: with a tail left, and with none.
fn all_done(dice: &mut Dice, journal: &mut Journal, frame: usize) -> Check {
    for frames in [1, 2, 5] {
        let mut case = Case::new(dice, frame, frames);
        case.done(journal, frames, true)?;
        case.tail(journal)?;
        let mut case = Case::new(dice, frame, frames);
        case.times = [0.0, -0.0, 0.0];
        case.done(journal, frames, false)?;
        case.tail(journal)?;
    }
    Ok(())
}

/// No frames: nothing is done, and the verdict is that of the count kept. 1, 3, 5, 6 and 7 are judged all the same.
fn no_frames(dice: &mut Dice, journal: &mut Journal, frame: usize) -> Check {
    for count in [9, 1, 0, -1, i32::MIN] {
        let mut case = Case::new(dice, frame, 0);
        case.world.state.count = count;
        case.effect.set_count(count);
        for (spoil, number) in SPOILS {
            let mut copy = case.clone();
            spoil(dice, &mut copy);
            copy.refused(journal, number)?;
        }
        case.done(journal, 0, count > 0)?;
        case.tail(journal)?;
    }
    wrong_lengths(dice, journal, frame, 0)
}

/// Makes one thing of a case wrong.
type Spoil = fn(&mut Dice, &mut Case);

/// What is refused whatever the frames are, each with its number.
const SPOILS: [(Spoil, u32); 4] = [
    (|dice, case| case.world.state.rate = sounds::bad_rate(dice), 1),
    (|_, case| case.world.state.busy = true, 5),
    (|dice, case| case.times[dice.below(3)] = sounds::bad_time(dice), 6),
    (
        |dice, case| case.world.coefficients[dice.below(255)] = dice.bad_float(),
        7,
    ),
];

/// 3: a slice too short or too long, an input that is no whole number of frames though the output is as long, and an
/// output of whole frames but another number of them. It comes before 5.
fn wrong_lengths(dice: &mut Dice, journal: &mut Journal, frame: usize, frames: usize) -> Check {
    let mut case = Case::new(dice, frame, frames);
    case.world.state.busy = true;
    for slice in 0..5 {
        longer_by(journal, &case, &[slice], 1)?;
        longer_by(journal, &case, &[slice], -1)?;
    }
    let frame = frame as isize;
    for by in [1, frame - 1, frame + 1, -1] {
        longer_by(journal, &case, &[INPUT, OUTPUT], by)?;
    }
    for by in [frame, -frame, -frame * frames as isize] {
        longer_by(journal, &case, &[OUTPUT], by)?;
    }
    Ok(())
}

/// 3 where these slices are longer by so many floats. One that is empty can't be shorter.
fn longer_by(journal: &mut Journal, case: &Case, slices: &[usize], by: isize) -> Check {
    let mut copy = case.clone();
    for slice in slices {
        let floats = &mut *copy.world.slices_mut()[*slice];
        match floats.len().checked_add_signed(by) {
            Some(length) if by != 0 => *floats = nans(length),
            _ => return Ok(()),
        }
    }
    copy.refused(journal, 3)
}

/// An 8 or a 9 in one frame of several: the first frame that is refused decides, and what lies behind isn't looked at.
fn stopped(dice: &mut Dice, journal: &mut Journal, frame: usize, frames: usize, at: usize) -> Check {
    let mut case = Case::new(dice, frame, frames);
    let index = case.make_bad(dice, at);
    case.clone().stopped(journal, 8, index, at)?;
    let mut worse = case.clone();
    for later in at + 1..frames {
        worse.make_bad(dice, later);
        worse.make_loud(dice, later);
    }
    worse.stopped(journal, 8, index, at)?;
    case.make_loud(dice, at);
    case.stopped(journal, 8, index, at)?;

    let mut case = Case::new(dice, frame, frames);
    case.make_loud(dice, at);
    case.clone().stopped(journal, 9, 0, at)?;
    for later in at + 1..frames {
        case.make_bad(dice, later);
    }
    case.stopped(journal, 9, 0, at)
}

/// The frame in which the first sample of the input is heard: line 0 is 225 + F long.
fn heard_in(frame: usize) -> usize {
    (225 + frame) / frame
}

/// A finite input so loud that the frame in which it is heard comes to a 9: the last, one in the middle, the first.
fn loud_input(dice: &mut Dice, journal: &mut Journal, frame: usize) -> Check {
    let at = heard_in(frame);
    for frames in [at + 1, at + 3, at] {
        let mut case = Case::silent(dice, State::blank(48_000, frame), frames);
        case.world.input[0] = f32::MAX;
        heard(journal, &mut case, frames, at)?;
    }
    Ok(())
}

/// Finite coefficients so large that the frame in which a click is heard comes to a 9.
fn loud_filters(dice: &mut Dice, journal: &mut Journal, frame: usize) -> Check {
    let at = heard_in(frame);
    for frames in [at + 1, at + 3, at] {
        let mut case = Case::silent(dice, State::blank(48_000, frame), frames);
        case.world.coefficients.fill(3.0e38);
        case.world.input[0] = 1.0;
        heard(journal, &mut case, frames, at)?;
    }
    Ok(())
}

/// Plays up to the frame that comes to a 9; where it isn't among these frames, it is the first of the next ones.
fn heard(journal: &mut Journal, case: &mut Case, frames: usize, at: usize) -> Check {
    if at < frames {
        return case.stopped(journal, 9, 0, at);
    }
    case.done(journal, frames, true)?;
    case.lend_silence(2);
    case.stopped(journal, 9, 0, 0)
}

/// 1,024 frames are done; of as many with a bad sample in the last, all but that one.
fn most_frames(dice: &mut Dice, journal: &mut Journal) -> Check {
    let mut case = Case::new(dice, 4, MOST_FRAMES);
    case.clone().done(journal, MOST_FRAMES, true)?;
    let index = case.make_bad(dice, MOST_FRAMES - 1);
    case.stopped(journal, 8, index, MOST_FRAMES - 1)
}

/// 4: one frame too many, and many; before 5 to 8, but after 1 and 3.
fn too_many(dice: &mut Dice, journal: &mut Journal) -> Check {
    for (frame, frames) in [(4, 1_025), (4, 2_048), (4, 65_536), (1_024, 1_025)] {
        Case::new(dice, frame, frames).refused(journal, 4)?;
    }
    let case = Case::new(dice, 4, MOST_FRAMES + 1);
    for (spoil, number) in SPOILS {
        let mut copy = case.clone();
        spoil(dice, &mut copy);
        copy.refused(journal, number.min(4))?;
    }
    wrong_lengths(dice, journal, 4, MOST_FRAMES + 1)
}

/// Everything wrong at once: the least number is given, then the next as each is mended.
fn least_number_first(dice: &mut Dice, journal: &mut Journal) -> Check {
    let mut case = Case::new(dice, 4, MOST_FRAMES + 1);
    for (spoil, _) in SPOILS {
        spoil(dice, &mut case);
    }
    let index = case.make_bad(dice, 0);
    case.world.output = nans(7);
    case.refused(journal, 1)?;
    case.world.state.rate = 48_000;
    case.refused(journal, 3)?;
    case.world.output = nans(case.world.input.len());
    case.refused(journal, 4)?;
    case.world.input = Lent::from(&case.world.input[..8]);
    case.world.output = nans(8);
    case.refused(journal, 5)?;
    case.world.state.busy = false;
    case.make_loud(dice, 0);
    case.refused(journal, 6)?;
    case.times = [0.5; 3];
    case.refused(journal, 7)?;
    case.world.coefficients = Lent::from(GENTLE.repeat(51));
    let eight = Reply {
        index,
        ..Reply::plain(8)
    };
    case.answers(journal, eight)?;
    case.lend_silence(2);
    case.stopped(journal, 9, 0, 0)
}
