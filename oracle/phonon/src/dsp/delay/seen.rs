//! A ring's samples and cursors.

use super::Delay;

impl Delay {
    /// A ring of these samples with these cursors.
    pub fn with(ring: &[f32], read: usize, write: usize) -> Self {
        Delay {
            ring_buffer: ring.to_vec(),
            cursor: write,
            read_cursor: read,
        }
    }

    /// The samples, from the ring's first place on.
    pub fn ring(&self) -> &[f32] {
        &self.ring_buffer
    }

    /// The read and the write cursor as they are: the read cursor may rest at the ring's length.
    pub fn cursors(&self) -> (usize, usize) {
        (self.read_cursor, self.cursor)
    }
}

impl Clone for Delay {
    fn clone(&self) -> Self {
        Delay::with(&self.ring_buffer, self.read_cursor, self.cursor)
    }
}
