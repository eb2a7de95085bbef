//! Plays the published Rust and writes its answers to standard output as the records that crates/replay/README.md
//! describes: the same bytes at every run. What goes on is said on standard error.

#[path = "../../differential/src/dice.rs"]
#[allow(dead_code)]
mod dice;
#[path = "../../differential/src/sounds.rs"]
#[allow(dead_code)]
mod sounds;
mod tape;
mod units;

use dice::Dice;
use std::io::{self, Write};
use tape::Tape;

/// The units: rate, frame, and how many frames each plays.
const UNITS: [(u32, usize, usize); 9] = [
    (48_000, 4, 360),
    (8_000, 4, 300),
    (44_100, 12, 140),
    (192_000, 12, 120),
    (48_000, 128, 60),
    (44_100, 128, 40),
    (96_000, 128, 40),
    (8_000, 128, 30),
    (48_000, 1_024, 12),
];

fn main() -> io::Result<()> {
    let mut tape = Tape::default();
    for (trial, (rate, frame, frames)) in (0..).zip(UNITS) {
        units::play(&mut Dice::new(1, trial), &mut tape, rate, frame, frames);
    }
    eprintln!("{tape}");
    io::stdout().lock().write_all(tape.bytes())
}
