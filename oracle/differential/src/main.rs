//! Plays libhall.a and the published Rust side by side and compares every bit. It ends at the first difference.

mod damage;
mod dice;
mod expected;
mod frames;
mod law;
mod report;
mod rust_unit;
mod sounds;
mod spoil;
mod step;
mod take;
mod take_reader;
mod trials;
mod world;

use dice::Dice;
use report::{Check, Difference, Journal};
use std::ops::Range;
use std::panic::{AssertUnwindSafe, catch_unwind};
use std::process::ExitCode;

const USAGE: &str = "differential [--trials N] [--seed S] [--only TRIAL] [--takes N] [--take K] [--frames N]

--trials N     how many trials (2000)
--seed S       the seed of all of them (1)
--only TRIAL   one trial alone, to look at a difference again
--takes N      how many damaged files (2000)
--take K       damaged file K alone
--frames N     after the trials, units of every class of frames that live through N accepted frames together";

/// What was asked for on the command line.
struct Plan {
    trials: u64,
    seed: u64,
    only: Option<u64>,
    takes: u64,
    take: Option<u64>,
    frames: u64,
}

fn main() -> ExitCode {
    let Some(plan) = plan() else {
        eprintln!("{USAGE}");
        return ExitCode::from(2);
    };
    let mut journal = Journal::default();
    match play(&plan, &mut journal) {
        Ok(trials) => {
            println!("{}", journal.summary());
            println!("differential: {trials} trials");
            ExitCode::SUCCESS
        }
        Err(Difference(place)) => {
            println!("difference: {place}");
            ExitCode::FAILURE
        }
    }
}

/// Reads the command line.
fn plan() -> Option<Plan> {
    let mut plan = Plan {
        trials: 2_000,
        seed: 1,
        only: None,
        takes: 2_000,
        take: None,
        frames: 0,
    };
    let mut words = std::env::args().skip(1);
    while let Some(word) = words.next() {
        let number = words.next()?.replace('_', "").parse().ok()?;
        match word.as_str() {
            "--trials" => plan.trials = number,
            "--seed" => plan.seed = number,
            "--only" => plan.only = Some(number),
            "--takes" => plan.takes = number,
            "--take" => plan.take = Some(number),
            "--frames" => plan.frames = number,
            _ => return None,
        }
    }
    Some(plan)
}

impl Plan {
    /// The trials and the damaged files. Where one is asked for alone, there are none of the other kind.
    fn trials_and_takes(&self) -> (Range<u64>, Range<u64>) {
        match (self.only, self.take) {
            (None, None) => (0..self.trials, 0..self.takes),
            (only, take) => (alone(only), alone(take)),
        }
    }
}

fn alone(number: Option<u64>) -> Range<u64> {
    number.map_or(0..0, |number| number..number + 1)
}

/// The throws of what isn't a trial: far from theirs.
const LONG_RUN: u64 = u64::MAX;
const SEVERAL: u64 = u64::MAX - 1;
const TAKES: u64 = 1 << 63;

/// All that was asked for; how many trials that was.
fn play(plan: &Plan, journal: &mut Journal) -> Result<u64, Difference> {
    let (trials, takes) = plan.trials_and_takes();
    let seed = plan.seed;
    guarded("all powers of primes", journal, trials::all_powers)?;
    guarded("named takes", journal, trials::named_takes)?;
    let mut dice = Dice::new(seed, SEVERAL);
    let place = format!("several frames, seed {seed}");
    guarded(&place, journal, |journal| trials::several_frames(&mut dice, journal))?;
    for trial in trials.clone() {
        let mut dice = Dice::new(seed, trial);
        let place = format!("trial {trial}, seed {seed}");
        guarded(&place, journal, |journal| trials::trial(&mut dice, trial, journal))?;
    }
    for take in takes {
        let mut dice = Dice::new(seed, TAKES + take);
        let place = format!("take {take}, seed {seed}");
        guarded(&place, journal, |journal| trials::damaged_take(&mut dice, journal))?;
    }
    let mut dice = Dice::new(seed, LONG_RUN);
    let place = format!("long run, seed {seed}");
    guarded(&place, journal, |journal| {
        trials::long_run(&mut dice, journal, plan.frames)
    })?;
    Ok(trials.count() as u64)
}

/// Says of a difference, and of a panic, where it was.
fn guarded(place: &str, journal: &mut Journal, run: impl FnOnce(&mut Journal) -> Check) -> Check {
    match catch_unwind(AssertUnwindSafe(|| run(journal))) {
        Ok(check) => check.map_err(|Difference(what)| Difference(format!("{place}, {what}"))),
        Err(_) => Err(Difference(format!(
            "{place}, {}: panicked, as said above",
            journal.place()
        ))),
    }
}
