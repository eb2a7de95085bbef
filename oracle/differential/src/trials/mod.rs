//! The kinds of trials.

mod buffers;
mod forged;
mod mixes;
mod powers;
mod rings;
mod runs;
mod several;
mod take_cases;
mod takes;
mod values;

use crate::dice::Dice;
use crate::report::{Check, Journal};
use crate::sounds::FRAMES;

pub use powers::all_powers;
pub use several::several_frames;
pub use take_cases::named_takes;
pub use takes::damaged_take;

/// The trials take turns over these. Each unit kind meets each class of frames in turn.
const TURNS: usize = 10;

/// One trial.
pub fn trial(dice: &mut Dice, number: u64, journal: &mut Journal) -> Check {
    journal.begin();
    let class = FRAMES[(number as usize / TURNS) % FRAMES.len()];
    let frame = if dice.once_in(8) {
        4 * dice.between(1, 256)
    } else {
        class
    };
    match number as usize % TURNS {
        0 | 1 => runs::run(dice, journal, frame, runs::usual_length(frame), 16),
        2 | 3 => runs::run(dice, journal, frame, 1, 1),
        4 => forged::closed(dice, journal, frame),
        5 => forged::open(dice, journal, frame),
        6 => rings::ring(dice, journal),
        7 => mixes::filters_and_mixes(dice, journal),
        8 => buffers::buffer(dice, journal),
        _ => values::delay_values(dice, journal),
    }
}

/// A unit of each class of frames that lives through its share of so many accepted frames; small frames have the
/// greater.
pub fn long_run(dice: &mut Dice, journal: &mut Journal, frames: u64) -> Check {
    const HUNDREDTHS: [u64; 8] = [24, 20, 16, 14, 12, 6, 4, 4];
    for (class, share) in FRAMES.into_iter().zip(HUNDREDTHS).filter(|_| frames > 0) {
        journal.begin();
        runs::run(dice, journal, class, (frames * share).div_ceil(100), 32)?;
    }
    Ok(())
}
