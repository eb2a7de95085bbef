//! Seeded numbers: the same seed and trial always give the same throws.

/// A source of numbers (splitmix64).
pub struct Dice(u64);

impl Dice {
    /// The dice of one trial.
    pub fn new(seed: u64, trial: u64) -> Self {
        let mut dice = Dice(seed ^ trial.wrapping_mul(0xd134_2543_de82_ef95));
        dice.word();
        dice
    }

    /// Any 64 bits.
    pub fn word(&mut self) -> u64 {
        self.0 = self.0.wrapping_add(0x9e37_79b9_7f4a_7c15);
        let z = (self.0 ^ (self.0 >> 30)).wrapping_mul(0xbf58_476d_1ce4_e5b9);
        let z = (z ^ (z >> 27)).wrapping_mul(0x94d0_49bb_1331_11eb);
        z ^ (z >> 31)
    }

    /// A number below n.
    pub fn below(&mut self, n: usize) -> usize {
        (self.word() % n as u64) as usize
    }

    /// A number from low to high, both included.
    pub fn between(&mut self, low: usize, high: usize) -> usize {
        low + self.below(high - low + 1)
    }

    /// True once in n throws.
    pub fn once_in(&mut self, n: usize) -> bool {
        self.below(n) == 0
    }

    /// One of the things given.
    pub fn pick<T: Copy>(&mut self, things: &[T]) -> T {
        things[self.below(things.len())]
    }

    /// A float from -1 to 1.
    pub fn noise(&mut self) -> f32 {
        (self.word() >> 40) as f32 / 8_388_608.0 - 1.0
    }

    /// A float of any 32 bits: NaNs and infinities too.
    pub fn any_float(&mut self) -> f32 {
        f32::from_bits(self.word() as u32)
    }

    /// A finite float of any bits.
    pub fn finite_float(&mut self) -> f32 {
        loop {
            let x = self.any_float();
            if x.is_finite() {
                return x;
            }
        }
    }

    /// A float that isn't finite, of any kind and payload.
    pub fn bad_float(&mut self) -> f32 {
        let payload = self.word() as u32 & 0x807f_ffff;
        let bits = 0x7f80_0000
            | if self.once_in(2) {
                payload
            } else {
                payload & 0x8000_0000
            };
        f32::from_bits(bits)
    }
}
