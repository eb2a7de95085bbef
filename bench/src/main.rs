//! Nanoseconds a frame of libhall.a beside the published Rust, in one run. The rounds of all measurements are
//! interleaved, so that a machine that slows down slows them all. Every round begins with the same sound in the lines;
//! setting it up isn't timed.

use hall::State;
use phonon::dsp::audio_buffer::AudioSettings;
use phonon::dsp::reverb_estimator::Reverb;
use phonon::effects::reverb::{ReverbEffect, ReverbEffectParams};
use std::hint::black_box;
use std::time::Instant;

const ROUNDS: usize = 41;
const RATE: u32 = 48_000;
const TIMES: [f32; 3] = [0.5; 3];

/// How many frames are handed over together.
const TOGETHER: usize = 64;

const MEBIBYTE: usize = 1 << 20;

fn main() {
    if !hall::LINKED {
        println!(
            "bench: SKIPPED (libhall.a isn't this machine's code, and under an emulator a time says nothing; make it by ./build)"
        );
        return;
    }
    for frame in [4, 128, 1_024] {
        beside_the_rust(frame);
    }
    at_once_beside_singly();
    samples_beside_the_rust();
    against_frames();
}

/// Apply, tail and the 34 jobs of one class of frames.
fn beside_the_rust(frame: usize) {
    let mut bench = Bench::new(frame);
    let kinds = [Kind::Apply, Kind::RustApply, Kind::Tail, Kind::RustTail, Kind::Jobs];
    let times = bench.measured(&kinds, ROUNDS);
    println!(
        "F {frame}, ns a frame, best and median of {ROUNDS} rounds of {} frames",
        bench.frames
    );
    println!("           hall: best   median   Rust: best   median   hall/Rust: best   median");
    let row = |name: &str, ours: usize, rust: usize| {
        let ([a, b], [c, d]) = (times[ours], times[rust]);
        println!(
            "{name:<10} {a:>10.0} {b:>8.0} {c:>12.0} {d:>8.0} {:>17.2} {:>8.2}",
            a / c,
            b / d
        );
    };
    row("apply", 0, 1);
    row("tail", 2, 3);
    row("34 jobs", 4, 1);
    println!("(the Rust has no jobs: theirs stand beside its apply)\n");
}

/// Frames handed over together beside an apply for each, and what the best of rounds may be at most. The two lie close
/// together, and small frames are soon played: so the rounds are more.
fn at_once_beside_singly() {
    println!("{TOGETHER} frames at once beside {TOGETHER} applies, ns a frame, best and median of rounds");
    println!(
        "    F  rounds   at once: best   median   singly: best   median   at once/singly: best   median   at most"
    );
    for (frame, bar) in [(4, 0.8), (128, 1.03), (1_024, 1.03)] {
        let rounds = (40_960 / frame).clamp(4 * ROUNDS, 64 * ROUNDS);
        let mut bench = Bench::new(frame);
        bench.try_both_ways();
        let [[a, b], [c, d]] = bench.measured(&[Kind::AtOnce, Kind::Singly], rounds)[..] else {
            unreachable!()
        };
        println!(
            "{frame:>5} {rounds:>7} {a:>15.0} {b:>8.0} {c:>14.0} {d:>8.0} {:>22.3} {:>8.3} {bar:>9.2}",
            a / c,
            b / d
        );
    }
    println!();
}

/// A mebibyte of a take's samples made floats, beside the loop that one writes in Rust.
fn samples_beside_the_rust() {
    let data: Vec<u8> = noise(MEBIBYTE / 4).into_iter().flat_map(f32::to_le_bytes).collect();
    println!("1 MiB of samples made floats, ns, best and median of rounds");
    println!("         rounds      hall: best   median   Rust: best   median   hall/Rust: best   median   at most");
    samples_row("16 bits", "3.00", &data, 1, sixteen_bits);
    samples_row("float", "none", &data, 3, binary32);
    println!();
    walk_row("a take of three chunks", &take_behind(1));
    walk_row("1 MiB of empty chunks", &take_behind((MEBIBYTE - 12 - 24 - 8) / 8));
    println!();
}

/// A take of mono 16 bits with no samples, behind so many empty chunks.
fn take_behind(chunks: usize) -> Vec<u8> {
    let mut file = b"RIFF\0\0\0\0WAVE".to_vec();
    file.extend(b"JUNK\0\0\0\0".repeat(chunks));
    file.extend(b"fmt \x10\0\0\0\x01\0\x01\0\x80\xbb\0\0\0\x77\x01\0\x02\0\x10\0");
    file.extend(b"data\0\0\0\0");
    file
}

/// How long it takes to read a take's headers.
fn walk_row(name: &str, file: &[u8]) {
    let mut times = Vec::new();
    for _ in 0..8 * ROUNDS {
        let start = Instant::now();
        let read = hall::wave_read(black_box(file));
        times.push(nanoseconds(start, 1));
        assert!(read.number == 0 && read.data == file.len(), "the take isn't read");
    }
    let [best, median] = best_and_median(&mut times);
    println!("{name} read: {best:.0} ns at best, median {median:.0}");
}

/// One kind of samples. Both ways must give the same floats, or their times say nothing.
fn samples_row(name: &str, bar: &str, data: &[u8], tag: u32, rust: fn(&[u8], &mut [f32])) {
    let rounds = 8 * ROUNDS;
    let count = data.len() / if tag == 1 { 2 } else { 4 };
    let (mut ours, mut theirs) = (vec![1.0; count], vec![2.0; count]);
    let (mut our_times, mut their_times) = (Vec::new(), Vec::new());
    for _ in 0..rounds {
        let start = Instant::now();
        hall::wave_samples(black_box(data), tag, black_box(&mut ours));
        our_times.push(nanoseconds(start, 1));
        let start = Instant::now();
        rust(black_box(data), black_box(&mut theirs));
        their_times.push(nanoseconds(start, 1));
    }
    assert!(same(&ours, &theirs), "the floats differ: run the differential first");
    let ([a, b], [c, d]) = (best_and_median(&mut our_times), best_and_median(&mut their_times));
    println!(
        "{name:<8} {rounds:>6} {a:>15.0} {b:>8.0} {c:>12.0} {d:>8.0} {:>17.2} {:>8.2} {bar:>9}",
        a / c,
        b / d
    );
}

/// The loop in Rust over samples of 16 bits.
fn sixteen_bits(data: &[u8], out: &mut [f32]) {
    for (x, b) in out.iter_mut().zip(data.chunks_exact(2)) {
        *x = f32::from(i16::from_le_bytes([b[0], b[1]])) / 32_768.0;
    }
}

/// The loop in Rust over floats.
fn binary32(data: &[u8], out: &mut [f32]) {
    for (x, b) in out.iter_mut().zip(data.chunks_exact(4)) {
        *x = f32::from_le_bytes([b[0], b[1], b[2], b[3]]);
    }
}

/// What an apply costs as the frame grows.
fn against_frames() {
    println!("An apply against F, median ns");
    println!("    F   hall: frame   sample   Rust: frame   sample   hall/Rust");
    for frame in [4, 8, 12, 100, 128, 556, 1_020, 1_024] {
        let [[_, ours], [_, rust]] = Bench::new(frame).measured(&[Kind::Apply, Kind::RustApply], ROUNDS)[..] else {
            unreachable!()
        };
        let f = frame as f64;
        println!(
            "{frame:>5} {ours:>13.0} {:>8.0} {rust:>13.0} {:>8.0} {:>11.2}",
            ours / f,
            rust / f,
            ours / rust
        );
    }
}

/// What is timed.
#[derive(Copy, Clone)]
enum Kind {
    Apply,
    Tail,
    Jobs,
    AtOnce,
    Singly,
    RustApply,
    RustTail,
}

/// A unit of the library and one of the Rust with the same sound in their lines.
struct Bench {
    frames: usize,
    coefficients: [f32; 255],
    input: Vec<f32>,
    state: State,
    store: Vec<f32>,
    work: Vec<f32>,
    output: Vec<f32>,
    inputs: Vec<f32>,
    outputs: Vec<f32>,
    effect: ReverbEffect,
}

impl Bench {
    /// Two units that have played noise until their lines are full of it.
    fn new(frame: usize) -> Self {
        phonon::hand_in([0; 16]);
        let mut store = vec![0.0; 7_600 + 16 * frame];
        let answer = hall::fresh(RATE, frame, &mut store);
        assert!(answer.number == 0, "fresh was refused with {}", answer.number);
        let mut bench = Bench {
            frames: (8_192 / frame).max(8),
            coefficients: lossless(),
            input: noise(frame),
            state: answer.state,
            store,
            work: vec![0.0; 34 * frame + 1_348],
            output: vec![0.0; frame],
            inputs: noise(TOGETHER * frame),
            outputs: vec![0.0; TOGETHER * frame],
            effect: ReverbEffect::new(AudioSettings::new(RATE, frame)),
        };
        bench.effect.give(&bench.coefficients);
        for _ in 0..2_000 / frame + 2 {
            let (state, store, _) = bench.ours(Kind::Apply, 1);
            let (effect, output, _) = bench.rusts(Kind::RustApply, 1);
            assert!(
                same(&bench.output, &output),
                "the outputs differ: run the differential first"
            );
            (bench.state, bench.store, bench.effect) = (state, store, effect);
        }
        bench
    }

    /// Best and median nanoseconds a frame of each kind.
    fn measured(&mut self, kinds: &[Kind], rounds: usize) -> Vec<[f64; 2]> {
        let mut times = vec![Vec::new(); kinds.len()];
        for _ in 0..rounds {
            for (kind, times) in kinds.iter().zip(&mut times) {
                times.push(self.round(*kind));
            }
        }
        times.iter_mut().map(|times| best_and_median(times)).collect()
    }

    /// Nanoseconds a frame of one round.
    fn round(&mut self, kind: Kind) -> f64 {
        match kind {
            Kind::RustApply | Kind::RustTail => self.rusts(kind, self.frames).2,
            Kind::AtOnce | Kind::Singly => self.together(kind).1,
            _ => self.ours(kind, self.frames).2,
        }
    }

    /// The frames that go together, on a copy of the library's unit: the store, and nanoseconds a frame.
    fn together(&mut self, kind: Kind) -> (Vec<f32>, f64) {
        let (state, mut store) = (self.state, self.store.clone());
        let start = Instant::now();
        match kind {
            Kind::AtOnce => self.at_once(state, &mut store),
            _ => self.singly(state, &mut store),
        }
        (store, nanoseconds(start, TOGETHER))
    }

    /// Both ways must leave the same sound, or their times say nothing.
    fn try_both_ways(&mut self) {
        let (store, _) = self.together(Kind::AtOnce);
        let outputs = self.outputs.clone();
        self.outputs.fill(0.0);
        let (store_singly, _) = self.together(Kind::Singly);
        assert!(
            same(&outputs, &self.outputs) && same(&store, &store_singly),
            "frames at once and singly differ: run the differential first"
        );
    }

    /// So many frames of the library on a copy of its unit: the state, the store, and nanoseconds a frame.
    fn ours(&mut self, kind: Kind, frames: usize) -> (State, Vec<f32>, f64) {
        let (mut state, mut store) = (self.state, self.store.clone());
        let start = Instant::now();
        for _ in 0..frames {
            state = self.frame(state, kind, &mut store);
        }
        (state, store, nanoseconds(start, frames))
    }

    /// So many frames of the Rust on a copy of its unit: the unit, its last output, and nanoseconds a frame.
    fn rusts(&self, kind: Kind, frames: usize) -> (ReverbEffect, Vec<f32>, f64) {
        let mut effect = self.effect.clone();
        let mut output = vec![0.0; self.input.len()];
        let start = Instant::now();
        for _ in 0..frames {
            rust_frame(&mut effect, kind, &self.input, &mut output);
        }
        (effect, output, nanoseconds(start, frames))
    }

    /// One frame of the library.
    fn frame(&mut self, s: State, kind: Kind, store: &mut [f32]) -> State {
        let [t0, t1, t2] = TIMES;
        let (c, input, work, output) = (&self.coefficients, &self.input, &mut self.work, &mut self.output);
        let answer = match kind {
            Kind::Apply => hall::apply(s, t0, t1, t2, c, black_box(input), store, work, output),
            Kind::Tail => hall::tail(s, store, work, output),
            _ => return self.frame_as_jobs(s, store),
        };
        assert!(answer.number == 0, "a frame was refused with {}", answer.number);
        answer.state
    }

    /// The frames that go together, handed over at once.
    fn at_once(&mut self, s: State, store: &mut [f32]) {
        let [t0, t1, t2] = TIMES;
        let (c, input, work, output) = (&self.coefficients, &self.inputs, &mut self.work, &mut self.outputs);
        let answer = hall::apply_frames(s, t0, t1, t2, c, black_box(input), store, work, output);
        assert!(answer.number == 0, "frames were refused with {}", answer.number);
    }

    /// The same frames, an apply each.
    fn singly(&mut self, mut s: State, store: &mut [f32]) {
        let [t0, t1, t2] = TIMES;
        let (c, work, frame) = (&self.coefficients, &mut self.work, self.input.len());
        let outputs = self.outputs.chunks_exact_mut(frame);
        for (input, output) in self.inputs.chunks_exact(frame).zip(outputs) {
            let answer = hall::apply(s, t0, t1, t2, c, black_box(input), store, work, output);
            assert!(answer.number == 0, "a frame was refused with {}", answer.number);
            s = answer.state;
        }
    }

    /// One apply of the library as jobs.
    fn frame_as_jobs(&mut self, s: State, store: &mut [f32]) -> State {
        let [t0, t1, t2] = TIMES;
        let (c, input, work, output) = (&self.coefficients, &self.input, &mut self.work, &mut self.output);
        let mut s = hall::open_apply(s, t0, t1, t2, c, black_box(input), store, work).state;
        for line in 0..16 {
            s = hall::job_read(s, line, store, work).state;
        }
        s = hall::job_mix(s, work).state;
        for line in 0..16 {
            s = hall::job_line(s, line, work).state;
        }
        s = hall::job_output(s, work).state;
        let answer = hall::close(s, store, work, output);
        assert!(answer.number == 0, "a close was refused with {}", answer.number);
        answer.state
    }
}

/// One frame of the Rust.
fn rust_frame(effect: &mut ReverbEffect, kind: Kind, input: &[f32], output: &mut [f32]) {
    match kind {
        Kind::RustTail => {
            effect.make_tail(output);
        }
        _ => {
            let params = ReverbEffectParams(Reverb { reverb_times: TIMES });
            effect.apply(&params, &[black_box(input)], &mut [output]);
        }
    }
}

/// Filters of gain 1 at every frequency, so that a tail dies away into no subnormal numbers.
fn lossless() -> [f32; 255] {
    std::array::from_fn(|k| {
        let c = 0.1 + 0.01 * (k / 5) as f32;
        [c, 0.0, c, 1.0, 0.0][k % 5]
    })
}

/// The same noise in every run.
fn noise(length: usize) -> Vec<f32> {
    let mut seed = 1_u32;
    let mut next = || {
        seed = seed.wrapping_mul(1_664_525).wrapping_add(1_013_904_223);
        (seed >> 8) as f32 / 83_886_080.0 - 0.1
    };
    (0..length).map(|_| next()).collect()
}

fn same(a: &[f32], b: &[f32]) -> bool {
    a.iter().zip(b).all(|(a, b)| a.to_bits() == b.to_bits())
}

fn nanoseconds(start: Instant, frames: usize) -> f64 {
    start.elapsed().as_nanos() as f64 / frames as f64
}

fn best_and_median(times: &mut [f64]) -> [f64; 2] {
    times.sort_by(f64::total_cmp);
    [times[0], times[times.len() / 2]]
}
