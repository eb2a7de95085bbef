//! Stands for the crate biquad: one filter in direct form 1 and its five coefficients.
//!
//! The crate isn't part of the published text, so the order of the steps is R3.21's and R3.22's. Designing filters is the
//! host's (R1.16).

/// The five coefficients of a filter.
#[derive(Copy, Clone, Debug)]
pub struct Coefficients<T> {
    pub a1: T,
    pub a2: T,
    pub b0: T,
    pub b1: T,
    pub b2: T,
}

/// A filter with its history of two inputs and two outputs.
#[derive(Copy, Clone, Debug)]
pub struct DirectForm1<T> {
    pub coeffs: Coefficients<T>,
    pub x1: T,
    pub x2: T,
    pub y1: T,
    pub y2: T,
}

impl DirectForm1<f32> {
    /// A filter with zero history.
    pub fn new(coeffs: Coefficients<f32>) -> Self {
        DirectForm1 {
            coeffs,
            x1: 0.0,
            x2: 0.0,
            y1: 0.0,
            y2: 0.0,
        }
    }

    /// Filters one sample.
    #[inline]
    pub fn run(&mut self, x: f32) -> f32 {
        let c = self.coeffs;
        let out = (((c.b0 * x + c.b1 * self.x1) + c.b2 * self.x2) - c.a1 * self.y1) - c.a2 * self.y2;
        self.x2 = self.x1;
        self.x1 = x;
        self.y2 = self.y1;
        self.y1 = out;
        out
    }
}
