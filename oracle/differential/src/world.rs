//! A unit with the memory that is lent to it, and the requests that are made of it.

use hall::{FramesAnswer, State};
use std::ops::{Deref, DerefMut};

/// Floats that are lent, between margins that nobody may write to.
#[derive(Clone)]
pub struct Lent(Vec<f32>);

const MARGIN: usize = 8;
const MARGIN_BITS: u32 = 0xffc5_a5a5;

impl From<&[f32]> for Lent {
    fn from(floats: &[f32]) -> Self {
        let margin = [f32::from_bits(MARGIN_BITS); MARGIN];
        Lent([&margin, floats, &margin].concat())
    }
}

impl From<Vec<f32>> for Lent {
    fn from(floats: Vec<f32>) -> Self {
        Lent::from(floats.as_slice())
    }
}

impl Deref for Lent {
    type Target = [f32];
    fn deref(&self) -> &[f32] {
        &self.0[MARGIN..self.0.len() - MARGIN]
    }
}

impl DerefMut for Lent {
    fn deref_mut(&mut self) -> &mut [f32] {
        let end = self.0.len() - MARGIN;
        &mut self.0[MARGIN..end]
    }
}

impl Lent {
    /// Nobody wrote outside what was lent.
    pub fn margins_kept(&self) -> bool {
        let (front, rest) = self.0.split_at(MARGIN);
        let back = &rest[rest.len() - MARGIN..];
        front.iter().chain(back).all(|x| x.to_bits() == MARGIN_BITS)
    }
}

/// Everything that a call of the unit takes or may change.
#[derive(Clone)]
pub struct World {
    pub state: State,
    pub coefficients: Lent,
    pub input: Lent,
    pub store: Lent,
    pub work: Lent,
    pub output: Lent,
}

/// The slices by name, in the order in which calls take them.
pub const SLICES: [&str; 5] = ["coefficients", "input", "store", "work", "output"];

impl World {
    pub fn slices(&self) -> [&Lent; 5] {
        [&self.coefficients, &self.input, &self.store, &self.work, &self.output]
    }

    pub fn slices_mut(&mut self) -> [&mut Lent; 5] {
        [
            &mut self.coefficients,
            &mut self.input,
            &mut self.store,
            &mut self.work,
            &mut self.output,
        ]
    }
}

/// A call of the unit on a world; times and lines are its only own arguments.
#[derive(Copy, Clone, Debug, PartialEq)]
pub enum Request {
    Reset,
    Apply([f32; 3]),
    Frames([f32; 3]),
    Tail,
    OpenApply([f32; 3]),
    OpenTail,
    Read(usize),
    Mix,
    Line(usize),
    Output,
    Close,
    Abandon,
}

/// What a call answers beside the state. Only several frames at once say how many were done; else that is 0.
#[derive(Copy, Clone, Debug, PartialEq)]
pub struct Reply {
    pub number: u32,
    pub index: usize,
    pub done: i32,
    pub remaining: bool,
}

impl Reply {
    /// The reply of a call that was refused, or that has no verdict.
    pub fn plain(number: u32) -> Self {
        Reply {
            number,
            index: 0,
            done: 0,
            remaining: false,
        }
    }
}

/// Makes a request of the library.
pub fn ask(world: &mut World, request: Request) -> Reply {
    let FramesAnswer {
        number,
        index,
        done,
        remaining,
        state,
    } = call(world, request);
    world.state = state;
    Reply {
        number,
        index,
        done,
        remaining,
    }
}

/// The answer as several frames give it; that of any other call has none done.
fn call(world: &mut World, request: Request) -> FramesAnswer {
    let World {
        state,
        coefficients,
        input,
        store,
        work,
        output,
    } = world;
    let answer = match request {
        Request::Frames([t0, t1, t2]) => {
            return hall::apply_frames(*state, t0, t1, t2, coefficients, input, store, work, output);
        }
        Request::Reset => hall::reset(*state, store),
        Request::Apply([t0, t1, t2]) => hall::apply(*state, t0, t1, t2, coefficients, input, store, work, output),
        Request::Tail => hall::tail(*state, store, work, output),
        Request::OpenApply([t0, t1, t2]) => hall::open_apply(*state, t0, t1, t2, coefficients, input, store, work),
        Request::OpenTail => hall::open_tail(*state, store, work),
        Request::Read(line) => hall::job_read(*state, line, store, work),
        Request::Mix => hall::job_mix(*state, work),
        Request::Line(line) => hall::job_line(*state, line, work),
        Request::Output => hall::job_output(*state, work),
        Request::Close => hall::close(*state, store, work, output),
        Request::Abandon => hall::abandon(*state, work),
    };
    FramesAnswer {
        number: answer.number,
        index: answer.index,
        done: 0,
        remaining: answer.remaining,
        state: answer.state,
    }
}
