//! The records, as little-endian words.

use std::fmt;

/// The kinds of records.
#[derive(Copy, Clone)]
pub enum Kind {
    Unit = 1,
    ApplyNew = 2,
    Apply = 3,
    Tail = 4,
    Reset = 5,
    Kept = 6,
}

/// What has been recorded so far.
#[derive(Default)]
pub struct Tape {
    bytes: Vec<u8>,
    records: u32,
}

impl Tape {
    /// Begins a record: its kind and up to seven numbers, the rest 0.
    pub fn head(&mut self, kind: Kind, numbers: &[u32]) {
        let mut head = [0; 8];
        head[0] = kind as u32;
        head[1..=numbers.len()].copy_from_slice(numbers);
        self.words(head);
        self.records += 1;
    }

    /// Whole numbers of a record.
    pub fn words(&mut self, words: impl IntoIterator<Item = u32>) {
        self.bytes.extend(words.into_iter().flat_map(u32::to_le_bytes));
    }

    /// Floats of a record. The replay compares bits, so none of them may be NaN.
    pub fn floats(&mut self, floats: &[f32]) {
        assert!(floats.iter().all(|x| x.is_finite()), "a number that isn't finite");
        self.words(floats.iter().map(|x| x.to_bits()));
    }

    pub fn bytes(&self) -> &[u8] {
        &self.bytes
    }
}

impl fmt::Display for Tape {
    fn fmt(&self, f: &mut fmt::Formatter) -> fmt::Result {
        write!(f, "{} records, {} bytes", self.records, self.bytes.len())
    }
}
