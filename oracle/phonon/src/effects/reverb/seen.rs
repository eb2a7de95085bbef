//! The reverb's filters, rings and count, and the entry that sets the 51 filters.

use super::{NUM_BANDS, NUM_DELAYS, ReverbEffect};
use crate::dsp::audio_buffer::AudioEffectState;
use crate::dsp::delay::Delay;
use crate::dsp::iir::{IIR, IIRFilterer};
use ultraviolet::f32x4;

impl ReverbEffect {
    /// Sets what the filters are made of by the next apply.
    pub fn give(&mut self, coefficients: &[f32; 255]) {
        self.given = *coefficients;
    }

    /// The three filters of a line that the host gave; after the last line, those of the tone.
    pub(super) fn given(&self, line: usize) -> [IIR; NUM_BANDS] {
        std::array::from_fn(|band| {
            let at = 5 * (NUM_BANDS * line + band);
            IIR::new_from_coefficients(self.given[at..at + 5].try_into().unwrap())
        })
    }

    /// Line i band b at 3i + b, then the tone's three.
    pub fn filters(&self) -> Vec<[f32; 9]> {
        let all = self.absorptive.iter().flatten().chain(&self.tone_corrections);
        all.map(IIRFilterer::numbers).collect()
    }

    pub fn set_filters(&mut self, filters: &[[f32; 9]]) {
        let all = self.absorptive.iter_mut().flatten().chain(&mut self.tone_corrections);
        for (kept, numbers) in all.zip(filters) {
            *kept = IIRFilterer::new(IIR::with(*numbers));
        }
    }

    pub fn lines(&self) -> &[Delay; NUM_DELAYS] {
        &self.delay_lines
    }

    pub fn lines_mut(&mut self) -> &mut [Delay; NUM_DELAYS] {
        &mut self.delay_lines
    }

    /// The allpass rings that are read: x and y of stage 0, x and y of stage 1.
    pub fn passes(&self) -> [&Delay; 4] {
        let (x, y) = (&self.allpass_x[0], &self.allpass_y[1]);
        [&x[0], &y[0], &x[1], &y[1]]
    }

    pub fn passes_mut(&mut self) -> [&mut Delay; 4] {
        let [x0, x1] = &mut self.allpass_x[0];
        let [y0, y1] = &mut self.allpass_y[1];
        [x0, y0, x1, y1]
    }

    pub fn count(&self) -> i32 {
        self.num_tail_frames_remaining
    }

    pub fn set_count(&mut self, count: i32) {
        self.num_tail_frames_remaining = count;
    }

    /// The published `reset`.
    pub fn make_reset(&mut self) {
        self.reset();
    }

    /// The published `tail`, on one channel.
    pub fn make_tail(&mut self, output: &mut [f32]) -> AudioEffectState {
        self.tail(&mut [output])
    }

    /// The published mix of sixteen rows, four samples of each.
    pub fn mix(x: &[f32x4; NUM_DELAYS]) -> [f32x4; NUM_DELAYS] {
        let mut y = [f32x4::ZERO; NUM_DELAYS];
        Self::multiply_hadamard_matrix(x, &mut y);
        y
    }

    /// The published power of a prime near x.
    pub fn power_of_prime(x: i32, p: i32) -> i32 {
        Self::next_power_of_prime(x, p)
    }

    /// The published sixteen delay values, from sixteen numbers.
    pub fn delays(time: f32, rate: u32, randoms: [u16; NUM_DELAYS]) -> [i32; NUM_DELAYS] {
        rand::hand_in(randoms);
        Self::calc_delays_for_reverb_time(time, rate)
    }
}

impl Clone for ReverbEffect {
    fn clone(&self) -> Self {
        ReverbEffect {
            sampling_rate: self.sampling_rate,
            frame_size: self.frame_size,
            delay_values: self.delay_values,
            delay_lines: self.delay_lines.clone(),
            allpass_x: self.allpass_x.clone(),
            allpass_y: self.allpass_y.clone(),
            absorptive: self.absorptive.clone(),
            tone_corrections: self.tone_corrections,
            x_old: self.x_old.clone(),
            x_new: self.x_new.clone(),
            previous_reverb: crate::dsp::reverb_estimator::Reverb {
                reverb_times: self.previous_reverb.reverb_times,
            },
            given: self.given,
            num_tail_frames_remaining: self.num_tail_frames_remaining,
        }
    }
}
