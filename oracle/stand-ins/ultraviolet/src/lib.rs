//! Stands for the crate ultraviolet: its four floats side by side, each step on each of them rounded once (R3.1, R3.2).

use std::ops::{Add, Mul, Sub};

/// Four floats, on each of which a step is made alone.
#[allow(non_camel_case_types)]
#[derive(Copy, Clone, Debug)]
#[repr(C, align(16))]
pub struct f32x4([f32; 4]);

impl f32x4 {
    pub const ZERO: f32x4 = f32x4([0.0; 4]);

    #[inline]
    pub fn splat(x: f32) -> Self {
        f32x4([x; 4])
    }

    #[inline]
    pub fn as_array_ref(&self) -> &[f32; 4] {
        &self.0
    }

    /// One step on each pair of floats.
    #[inline]
    fn each(self, other: Self, step: impl Fn(f32, f32) -> f32) -> Self {
        f32x4(std::array::from_fn(|k| step(self.0[k], other.0[k])))
    }
}

impl From<[f32; 4]> for f32x4 {
    #[inline]
    fn from(four: [f32; 4]) -> Self {
        f32x4(four)
    }
}

impl From<&[f32]> for f32x4 {
    #[inline]
    fn from(four: &[f32]) -> Self {
        f32x4([four[0], four[1], four[2], four[3]])
    }
}

impl Add for f32x4 {
    type Output = f32x4;
    #[inline]
    fn add(self, other: f32x4) -> f32x4 {
        self.each(other, |a, b| a + b)
    }
}

impl Sub for f32x4 {
    type Output = f32x4;
    #[inline]
    fn sub(self, other: f32x4) -> f32x4 {
        self.each(other, |a, b| a - b)
    }
}

impl Mul for f32x4 {
    type Output = f32x4;
    #[inline]
    fn mul(self, other: f32x4) -> f32x4 {
        self.each(other, |a, b| a * b)
    }
}

impl Mul<f32> for f32x4 {
    type Output = f32x4;
    #[inline]
    fn mul(self, factor: f32) -> f32x4 {
        self * f32x4::splat(factor)
    }
}
