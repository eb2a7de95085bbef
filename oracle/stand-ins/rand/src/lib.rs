//! Stands for the crate rand: numbers that were handed in, in order (R6.10). In the Rust they go into gains, whose place
//! the given coefficients take.

use std::cell::RefCell;
use std::collections::VecDeque;

thread_local! {
    static HANDED_IN: RefCell<VecDeque<u16>> = const { RefCell::new(VecDeque::new()) };
}

/// Hands in the numbers that this thread's next draws give.
pub fn hand_in(numbers: [u16; 16]) {
    HANDED_IN.set(VecDeque::from(numbers));
}

/// A source of the numbers handed in.
pub struct HandedIn;

/// The source that the published text asks for.
pub fn rng() -> HandedIn {
    HandedIn
}

/// The draw that the published text makes.
pub trait Rng {
    fn random(&mut self) -> u16;
}

impl Rng for HandedIn {
    fn random(&mut self) -> u16 {
        HANDED_IN.with_borrow_mut(|numbers| numbers.pop_front().expect("no number was handed in"))
    }
}
