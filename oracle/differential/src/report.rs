//! What was compared, and the first difference.

use std::fmt::Debug;
use std::fmt::Display;

/// A place at which the library and what is expected of it differ.
pub struct Difference(pub String);

pub type Check = Result<(), Difference>;

/// How two floats are compared.
#[derive(Copy, Clone, PartialEq)]
pub enum Rule {
    /// Bit for bit, but all NaNs are equal.
    Numbers,
    /// Bit for bit, NaNs too.
    Bytes,
}

/// What has been done, and which call is being compared.
#[derive(Default)]
pub struct Journal {
    pub applies: u64,
    pub tails: u64,
    pub job_frames: u64,
    pub at_once: u64,
    pub jobs: u64,
    pub abandoned: u64,
    pub parts: u64,
    pub answers: [u64; 10],
    pub at_once_answers: [u64; 10],
    pub takes: [u64; 7],
    calls: u64,
    call: String,
}

impl Journal {
    /// Begins a trial: its calls are counted from 1.
    pub fn begin(&mut self) {
        self.calls = 0;
        self.call = "before any call".to_string();
    }

    /// Names the call that is compared next.
    pub fn call(&mut self, name: impl Display) {
        self.calls += 1;
        self.call = format!("call {} ({name})", self.calls);
    }

    /// Where the trial is.
    pub fn place(&self) -> &str {
        &self.call
    }

    /// Compares two values that aren't floats.
    pub fn same<T: PartialEq + Debug>(&self, field: impl Display, hall: T, expected: T) -> Check {
        if hall == expected {
            return Ok(());
        }
        Err(Difference(format!(
            "{}, {field}: hall {hall:?}, expected {expected:?}",
            self.call
        )))
    }

    /// Compares two rows of floats.
    pub fn floats(&self, field: impl Display, hall: &[f32], expected: &[f32], rule: Rule) -> Check {
        self.same(format!("length of {field}"), hall.len(), expected.len())?;
        let alike = hall.iter().zip(expected).all(|(a, b)| a.to_bits() == b.to_bits());
        if alike {
            return Ok(());
        }
        match hall.iter().zip(expected).position(|(a, b)| !equal(*a, *b, rule)) {
            None => Ok(()),
            Some(k) => Err(Difference(format!(
                "{}, {field}, index {k}: hall {:#010x} ({:e}), expected {:#010x} ({:e})",
                self.call,
                hall[k].to_bits(),
                hall[k],
                expected[k].to_bits(),
                expected[k]
            ))),
        }
    }

    /// All that was compared, in four lines.
    pub fn summary(&self) -> String {
        let frames = self.applies + self.tails + self.job_frames + self.at_once;
        format!(
            "frames accepted: {frames} ({} applies, {} tails, {} as jobs, {} at once), {} frames abandoned, {} jobs, \
             {} calls of parts\nanswers by number: {}\nthose of several frames at once: {}\n\
             takes: {} damaged files, answered {}",
            self.applies,
            self.tails,
            self.job_frames,
            self.at_once,
            self.abandoned,
            self.jobs,
            self.parts,
            by_number(&self.answers),
            by_number(&self.at_once_answers),
            self.takes.iter().sum::<u64>(),
            by_number(&self.takes)
        )
    }
}

/// How often each number was answered.
fn by_number(answers: &[u64]) -> String {
    let counts: Vec<String> = (0..).zip(answers).map(|(k, count)| format!("{k}: {count}")).collect();
    counts.join(", ")
}

fn equal(a: f32, b: f32, rule: Rule) -> bool {
    a.to_bits() == b.to_bits() || (rule == Rule::Numbers && a.is_nan() && b.is_nan())
}
