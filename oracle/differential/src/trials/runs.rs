//! A unit that plays: applies, tails and resets, whole, several at once and as jobs, with refused requests in between.

use crate::dice::Dice;
use crate::expected::expected;
use crate::frames;
use crate::law;
use crate::report::{Check, Difference, Journal, Rule};
use crate::rust_unit;
use crate::sounds::{self, Sound};
use crate::spoil::{spoil_floats, spoiled};
use crate::step::{same_state, same_world, step};
use crate::world::{Lent, Request, World};
use phonon::effects::reverb::ReverbEffect;

/// How many frames a trial plays: few, as the library may have to run under an emulator, but never one alone.
pub fn usual_length(frame: usize) -> u64 {
    (300 / frame as u64).clamp(2, 24)
}

/// A unit of the library and one of the Rust, and what they are fed with.
struct Run {
    world: World,
    effect: ReverbEffect,
    sound: Sound,
    times: [f32; 3],
    refused_in_a_row: u32,
}

/// Plays so many accepted frames; one in `jobs` is played as jobs. Those that are handed over together come on top.
pub fn run(dice: &mut Dice, journal: &mut Journal, frame: usize, frames: u64, jobs: usize) -> Check {
    let mut run = begin(dice, journal, frame)?;
    let mut accepted = 0;
    while accepted < frames {
        if dice.once_in(6) {
            run.change_scene(dice);
        }
        if dice.once_in(4) {
            run.ask_in_vain(dice, journal)?;
        }
        if dice.once_in(100) || run.refused_in_a_row > 2 {
            run.reset(dice, journal)?;
        }
        if dice.once_in(6) {
            run.frames_at_once(dice, journal)?;
        }
        accepted += u64::from(if dice.once_in(jobs) {
            run.frame_as_jobs(dice, journal)?
        } else {
            run.whole_frame(dice, journal)?
        });
    }
    Ok(())
}

/// A fresh unit, or more often one in mid-life: any finite samples in its rings, both cursors of each equal.
fn begin(dice: &mut Dice, journal: &mut Journal, frame: usize) -> Result<Run, Difference> {
    let mut world = fresh(dice, journal, frame)?;
    if !dice.once_in(4) {
        let sound = sounds::sound(dice);
        world.store = Lent::from(sounds::row(dice, sound, law::store_length(frame)));
        for (line, c) in world.state.lines.iter_mut().enumerate() {
            c.read = dice.below(law::line_length(line, frame));
            c.write = c.read;
        }
        for (pass, c) in world.state.passes.iter_mut().enumerate() {
            c.read = dice.below(law::PASSES[pass]);
            c.write = c.read;
        }
    }
    let mut run = Run {
        effect: rust_unit::of(&world.state, &world.store),
        world,
        sound: Sound::Noise,
        times: [0.1; 3],
        refused_in_a_row: 0,
    };
    run.change_scene(dice);
    Ok(run)
}

/// Asks for a fresh unit on memory that holds anything, after some requests for one that are refused.
fn fresh(dice: &mut Dice, journal: &mut Journal, frame: usize) -> Result<World, Difference> {
    let rate = sounds::rate(dice);
    for _ in 0..dice.below(3) {
        refused_fresh(dice, journal, rate, frame)?;
    }
    journal.call(format_args!("fresh, rate {rate}, F {frame}"));
    let mut store = Lent::from(sounds::any_row(dice, law::store_length(frame)));
    let answer = hall::fresh(rate, frame, &mut store);
    journal.same("number", answer.number, 0)?;
    journal.same("index", answer.index, 0)?;
    journal.same("remaining", answer.remaining, false)?;
    let mut expected = world_of(dice, hall::State::blank(rate, frame));
    let mut made = expected.clone();
    rust_unit::keep(&rust_unit::new(rate, frame), &mut expected);
    (made.state, made.store) = (answer.state, store);
    same_world(journal, &made, &expected, Rule::Bytes)?;
    journal.answers[0] += 1;
    Ok(made)
}

/// R2.20, R2.33: a fresh that is refused, and the state that it gives.
fn refused_fresh(dice: &mut Dice, journal: &mut Journal, rate: u32, frame: usize) -> Check {
    let rate = if dice.once_in(2) { sounds::bad_rate(dice) } else { rate };
    let frame = if dice.once_in(2) {
        sounds::bad_frame(dice)
    } else {
        frame
    };
    let number = if law::rate_ok(rate) && law::frame_ok(frame) {
        3
    } else {
        2
    };
    let right = law::store_length(frame.min(1_024));
    let length = dice.pick(&[0, right - 1, right + 1, 7_600]);
    let store = Lent::from(sounds::any_row(dice, length));
    let mut after = store.clone();
    journal.call(format_args!("fresh, rate {rate}, F {frame}, store of {length}"));
    let answer = hall::fresh(rate, frame, &mut after);
    journal.same("number", answer.number, number)?;
    journal.same("index", answer.index, 0)?;
    journal.same("remaining", answer.remaining, false)?;
    journal.floats("store", &after, &store, Rule::Bytes)?;
    journal.answers[number as usize] += 1;
    same_state(journal, &answer.state, &hall::State::blank(8_000, 4), Rule::Bytes)
}

/// A world of exact lengths with a silent store; work and output hold anything.
pub fn world_of(dice: &mut Dice, state: hall::State) -> World {
    let frame = state.frame;
    World {
        state,
        coefficients: Lent::from(sounds::coefficients(dice)),
        input: Lent::from(vec![0.0; frame]),
        store: Lent::from(vec![0.0; law::store_length(frame)]),
        work: Lent::from(sounds::any_row(dice, law::work_length(frame))),
        output: Lent::from(sounds::any_row(dice, frame)),
    }
}

impl Run {
    /// Other filters, another kind of sound, other times.
    fn change_scene(&mut self, dice: &mut Dice) {
        self.world.coefficients = Lent::from(sounds::coefficients(dice));
        self.sound = sounds::sound(dice);
        self.times = sounds::times(dice);
    }

    /// Makes one to three requests that are refused, each on a copy of the world.
    fn ask_in_vain(&mut self, dice: &mut Dice, journal: &mut Journal) -> Check {
        for _ in 0..dice.between(1, 3) {
            let (mut copy, request) = spoiled(dice, &self.world);
            step(journal, &mut copy, request, &mut self.effect)?;
        }
        Ok(())
    }

    fn reset(&mut self, dice: &mut Dice, journal: &mut Journal) -> Check {
        self.refused_in_a_row = 0;
        self.change_scene(dice);
        step(journal, &mut self.world, Request::Reset, &mut self.effect).map(|_| ())
    }

    /// Sets new input, and now and then anything into work and output, and picks apply or tail.
    fn next_is_tail(&mut self, dice: &mut Dice) -> bool {
        let frame = self.world.state.frame;
        self.world.input = Lent::from(sounds::row(dice, self.sound, frame));
        if dice.once_in(4) {
            self.world.work = Lent::from(sounds::any_row(dice, law::work_length(frame)));
            self.world.output = Lent::from(sounds::any_row(dice, frame));
        }
        dice.once_in(3)
    }

    /// One whole frame; whether it was accepted.
    fn whole_frame(&mut self, dice: &mut Dice, journal: &mut Journal) -> Result<bool, Difference> {
        let tail = self.next_is_tail(dice);
        let request = if tail {
            Request::Tail
        } else {
            Request::Apply(self.times)
        };
        let reply = step(journal, &mut self.world, request, &mut self.effect)?;
        let accepted = reply.number == 0;
        journal.tails += u64::from(accepted && tail);
        journal.applies += u64::from(accepted && !tail);
        self.note(accepted);
        Ok(accepted)
    }

    /// Several frames at once, now and then with bad samples in them. Then one frame is lent again.
    fn frames_at_once(&mut self, dice: &mut Dice, journal: &mut Journal) -> Check {
        let count = frames::few(dice, self.world.state.frame);
        frames::lend(dice, &mut self.world, self.sound, count);
        if dice.once_in(4) {
            spoil_floats(dice, &mut self.world.input);
        }
        let request = Request::Frames(self.times);
        let reply = step(journal, &mut self.world, request, &mut self.effect)?;
        self.note(reply.number == 0);
        frames::lend(dice, &mut self.world, self.sound, 1);
        Ok(())
    }

    fn note(&mut self, accepted: bool) {
        self.refused_in_a_row = if accepted { 0 } else { self.refused_in_a_row + 1 };
    }

    /// One frame as jobs in a random legal order; whether it was accepted. It must give what the whole frame gives.
    fn frame_as_jobs(&mut self, dice: &mut Dice, journal: &mut Journal) -> Result<bool, Difference> {
        let tail = self.next_is_tail(dice);
        let (whole, open) = if tail {
            (Request::Tail, Request::OpenTail)
        } else {
            (Request::Apply(self.times), Request::OpenApply(self.times))
        };
        let opening = self.world.clone();
        let mut played = self.effect.clone();
        let (reply, outcome) = expected(&opening, whole, &mut played);
        step(journal, &mut self.world, open, &mut self.effect)?;
        if !self.all_jobs(dice, journal)? {
            journal.abandoned += 1;
            same_state(journal, &self.world.state, &opening.state, Rule::Bytes)?;
            return Ok(false);
        }
        let said = step(journal, &mut self.world, Request::Close, &mut self.effect)?;
        journal.same("reply of the whole frame", said, reply)?;
        same_world(journal, &self.world, &outcome, Rule::Numbers)?;
        self.effect = played;
        self.note(said.number == 0);
        journal.job_frames += u64::from(said.number == 0);
        Ok(said.number == 0)
    }

    /// All 34 jobs, with requests in vain in between; false if the frame was abandoned.
    fn all_jobs(&mut self, dice: &mut Dice, journal: &mut Journal) -> Result<bool, Difference> {
        let abandoned_at = if dice.once_in(8) { dice.below(35) } else { 35 };
        for done in 0..34 {
            if done == abandoned_at {
                break;
            }
            if dice.once_in(8) {
                self.ask_in_vain(dice, journal)?;
            }
            let ready = ready_jobs(&self.world);
            let job = dice.pick(&ready);
            step(journal, &mut self.world, job, &mut self.effect)?;
            journal.jobs += 1;
        }
        if abandoned_at < 35 {
            step(journal, &mut self.world, Request::Abandon, &mut self.effect)?;
        }
        Ok(abandoned_at == 35)
    }
}

/// The jobs whose turn it is.
fn ready_jobs(world: &World) -> Vec<Request> {
    let reads = (0..16).map(Request::Read);
    let lines = (0..16).map(Request::Line);
    let all = reads.chain([Request::Mix, Request::Output]).chain(lines);
    all.filter(|job| law::judged(world, *job).number == 0).collect()
}
