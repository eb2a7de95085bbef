//! A filter's nine numbers: a1, a2, b0, b1, b2, x1, x2, y1, y2.

use super::{IIR, IIRFilterer};

impl IIR {
    /// The filter with these nine numbers.
    pub fn with(numbers: [f32; 9]) -> Self {
        let [a1, a2, b0, b1, b2, x1, x2, y1, y2] = numbers;
        let mut iir = IIR::new_from_coefficients([a1, a2, b0, b1, b2]);
        (iir.0.x1, iir.0.x2, iir.0.y1, iir.0.y2) = (x1, x2, y1, y2);
        iir
    }
}

impl IIRFilterer {
    /// The nine numbers as they are.
    pub fn numbers(&self) -> [f32; 9] {
        let form = self.filter.0;
        let c = form.coeffs;
        [c.a1, c.a2, c.b0, c.b1, c.b2, form.x1, form.x2, form.y1, form.y2]
    }
}
