//! States that no call gave: any cursors, filters, counts and marks, on memory that holds anything.

use crate::dice::Dice;
use crate::frames;
use crate::law;
use crate::report::{Check, Journal};
use crate::rust_unit;
use crate::sounds;
use crate::spoil::{any_request, spoil_floats, spoiled};
use crate::step::step;
use crate::trials::runs::world_of;
use crate::world::{Lent, Request, World};
use hall::{Cursors, Filter, State};

/// How many requests are made of forged states in a trial.
const REQUESTS: usize = 4;

/// No frame open: whole calls, opens and resets, and several frames at once.
pub fn closed(dice: &mut Dice, journal: &mut Journal, frame: usize) -> Check {
    for _ in 0..REQUESTS {
        let mut world = forged(dice, frame);
        let request = match dice.below(6) {
            0 | 1 => Request::Apply(sounds::times(dice)),
            2 | 3 => Request::Tail,
            4 => Request::OpenApply(sounds::times(dice)),
            _ => dice.pick(&[Request::OpenTail, Request::Reset]),
        };
        ask_forged(dice, journal, &mut world, request)?;
    }
    several(dice, journal, frame)
}

/// Several frames at once, half of the time with bad samples in them.
fn several(dice: &mut Dice, journal: &mut Journal, frame: usize) -> Check {
    for _ in 0..REQUESTS {
        let mut world = forged(dice, frame);
        let (sound, count) = (sounds::sound(dice), frames::few(dice, frame));
        frames::lend(dice, &mut world, sound, count);
        if dice.once_in(2) {
            spoil_floats(dice, &mut world.input);
        }
        let request = Request::Frames(sounds::times(dice));
        ask_forged(dice, journal, &mut world, request)?;
    }
    Ok(())
}

/// A frame open, some jobs marked: jobs, close and abandon.
pub fn open(dice: &mut Dice, journal: &mut Journal, frame: usize) -> Check {
    for _ in 0..REQUESTS {
        let mut world = forged(dice, frame);
        forge_open(dice, &mut world.state);
        let all_done = dice.once_in(3);
        if all_done {
            world.state.marks = [true; 34];
        }
        let line = dice.below(16);
        let request = match dice.below(5) {
            _ if all_done => Request::Close,
            0 => Request::Mix,
            1 => Request::Output,
            2 => Request::Read(line),
            3 => Request::Line(line),
            _ => any_request(dice),
        };
        make_ready(dice, &mut world.state, request);
        ask_forged(dice, journal, &mut world, request)?;
    }
    Ok(())
}

/// One request on a forged world, and one in vain.
fn ask_forged(dice: &mut Dice, journal: &mut Journal, world: &mut World, request: Request) -> Check {
    let mut effect = rust_unit::of(&world.state, &world.store);
    let (mut copy, vain) = spoiled(dice, world);
    step(journal, &mut copy, vain, &mut effect)?;
    step(journal, world, request, &mut effect).map(|_| ())
}

/// A world whose state is in range with no frame open, and nothing more.
fn forged(dice: &mut Dice, frame: usize) -> World {
    let rate = sounds::rate(dice);
    let mut world = world_of(dice, State::blank(rate, frame));
    let s = &mut world.state;
    s.lines = std::array::from_fn(|line| cursors(dice, law::line_length(line, frame)));
    s.passes = std::array::from_fn(|pass| cursors(dice, law::PASSES[pass]));
    s.count = any_count(dice);
    s.filters = filters(dice);
    let sound = sounds::sound(dice);
    world.input = Lent::from(sounds::row(dice, sound, frame));
    let length = law::store_length(frame);
    world.store = Lent::from(sounds::any_row(dice, length));
    world
}

/// Any cursors of a ring, most often unequal; its first and last place are likely.
fn cursors(dice: &mut Dice, length: usize) -> Cursors {
    let mut place = || {
        let any = dice.below(length);
        dice.pick(&[0, length - 1, any, any])
    };
    Cursors {
        read: place(),
        write: place(),
    }
}

fn any_count(dice: &mut Dice) -> i32 {
    let any = dice.word() as i32;
    dice.pick(&[0, 1, 2, -1, i32::MIN, i32::MIN + 1, i32::MAX, any])
}

/// Filters with any history; now and then one number of them isn't finite.
fn filters(dice: &mut Dice) -> [Filter; 51] {
    let given = sounds::coefficients(dice);
    let mut filters: [Filter; 51] = std::array::from_fn(|filter| {
        std::array::from_fn(|number| match number {
            0..5 => given[5 * filter + number],
            _ => dice.noise(),
        })
    });
    if dice.once_in(4) {
        filters[dice.below(51)][dice.below(9)] = dice.bad_float();
    }
    filters
}

/// Opens a frame that nobody opened.
fn forge_open(dice: &mut Dice, s: &mut State) {
    s.busy = true;
    s.tail = dice.once_in(2);
    s.marks = std::array::from_fn(|_| dice.once_in(2));
    s.next = any_count(dice);
    s.before = filters(dice);
}

/// Most often sets the marks so that a job is in turn.
fn make_ready(dice: &mut Dice, s: &mut State, request: Request) {
    if dice.once_in(4) {
        return;
    }
    match request {
        Request::Read(line) => s.marks[line] = false,
        Request::Mix => {
            s.marks[..16].fill(true);
            s.marks[16] = false;
        }
        Request::Line(line) => {
            s.marks[16] = true;
            s.marks[17 + line] = false;
        }
        Request::Output => {
            s.marks[..16].fill(true);
            s.marks[33] = false;
        }
        _ => (),
    }
}
