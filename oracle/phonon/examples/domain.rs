//! Runs the published Rust at the places where it leaves the domain, each on its smallest input, and
//! prints what it does. Run it with and without `--release`: overflow panics only in the latter.

use phonon::dsp::audio_buffer::{AudioBuffer, AudioBufferMut, AudioEffectState, AudioSettings};
use phonon::dsp::delay::Delay;
use phonon::dsp::reverb_estimator::Reverb;
use phonon::effects::reverb::{ReverbEffect, ReverbEffectParams};
use std::panic::{UnwindSafe, catch_unwind, set_hook};

fn main() {
    set_hook(Box::new(|_| ()));
    rings();
    frames();
    times();
    counts();
    samples();
    buffers();
    delays();
    powers();
}

/// Prints what a run gives, or that it panics and with which words.
fn see(place: &str, run: impl FnOnce() -> String + UnwindSafe) {
    let seen = catch_unwind(run).unwrap_or_else(|words| {
        let words = words.downcast_ref::<String>().cloned().unwrap_or_else(|| {
            words
                .downcast_ref::<&str>()
                .map(|words| words.to_string())
                .unwrap_or_default()
        });
        format!("panics: {words}")
    });
    println!("{place}: {seen}");
}

/// A ring of 1, 2, 3, .. with both cursors at 0.
fn ring(length: usize) -> Delay {
    let samples: Vec<f32> = (1..=length).map(|k| k as f32).collect();
    Delay::with(&samples, 0, 0)
}

/// What a get of n hands out, and the cursors after it.
fn got(ring: &mut Delay, n: usize) -> String {
    let mut out = vec![0.0; n];
    ring.get(n, &mut out);
    format!("{out:?}, read cursor {}", ring.cursors().0)
}

/// What a put of n, of 10, 11, .., leaves.
fn put(ring: &mut Delay, n: usize) -> String {
    let samples: Vec<f32> = (0..n).map(|k| 10.0 + k as f32).collect();
    ring.put(n, &samples);
    format!("ring {:?}, write cursor {}", ring.ring(), ring.cursors().1)
}

fn rings() {
    see("ring of 4, get of 4", || got(&mut ring(4), 4));
    see("ring of 4, get of 4, get4", || {
        let mut ring = ring(4);
        got(&mut ring, 4);
        format!("{:?}", ring.get4())
    });
    see("ring of 1, get of 0", || got(&mut ring(1), 0));
    see("ring of 2, get of 1, get of 0", || {
        let mut ring = ring(2);
        got(&mut ring, 1);
        got(&mut ring, 0)
    });
    see("ring of 1, put of 0", || put(&mut ring(1), 0));
    see("ring of 2, put of 1, put of 0", || {
        let mut ring = ring(2);
        put(&mut ring, 1);
        put(&mut ring, 0)
    });
    see("ring of 1, get of 2", || got(&mut ring(1), 2));
    see("ring of 1, get of 3", || got(&mut ring(1), 3));
    see("ring of 1, put of 2", || put(&mut ring(1), 2));
    see("ring of 1, put of 2, put4", || {
        let mut ring = ring(1);
        put(&mut ring, 2);
        ring.put4(&[0.0; 4].into());
        format!("write cursor {}", ring.cursors().1)
    });
    see("ring of 1, put of 3", || put(&mut ring(1), 3));
    see("ring of 0, get of 1", || got(&mut ring(0), 1));
    see("ring of 65537, get of 1", || got(&mut ring(65_537), 1));
}

/// A unit whose filters let every sample pass.
fn unit(rate: u32, frame: usize) -> ReverbEffect {
    phonon::hand_in([0; 16]);
    let mut unit = ReverbEffect::new(AudioSettings::new(rate, frame));
    unit.give(&std::array::from_fn(|k| if k % 5 == 2 { 1.0 } else { 0.0 }));
    unit
}

/// One apply; the count and the verdict after it.
fn apply(unit: &mut ReverbEffect, times: [f32; 3], input: &[f32], output: &mut [f32]) -> String {
    let params = ReverbEffectParams(Reverb { reverb_times: times });
    let verdict = unit.apply(&params, &[input], &mut [output]);
    format!("count {}, {}", unit.count(), name(verdict))
}

fn name(verdict: AudioEffectState) -> &'static str {
    match verdict {
        AudioEffectState::TailRemaining => "TailRemaining",
        AudioEffectState::TailComplete => "TailComplete",
    }
}

fn frames() {
    for frame in [0, 1, 2, 3, 6, 1_028] {
        see(&format!("frame of {frame}, one apply"), || {
            apply(
                &mut unit(8_000, frame),
                [0.1; 3],
                &vec![0.0; frame],
                &mut vec![0.0; frame],
            )
        });
    }
    for rate in [0, 7_999, 192_001] {
        see(&format!("rate {rate}, one apply"), || {
            apply(&mut unit(rate, 4), [0.1; 3], &[0.0; 4], &mut [0.0; 4])
        });
    }
    for length in [0, 1, 3, 5] {
        see(&format!("input of {length} for a frame of 4"), || {
            apply(&mut unit(8_000, 4), [0.1; 3], &vec![0.0; length], &mut [0.0; 4])
        });
    }
    see("output of 3 for a frame of 4", || {
        apply(&mut unit(8_000, 4), [0.1; 3], &[0.0; 4], &mut [0.0; 3])
    });
    see("output of 5 for a frame of 4, then its tone filter's newest x", || {
        let mut unit = unit(8_000, 4);
        unit.passes_mut()[0].put(4, &[1.0; 4]);
        let mut output = [9.0; 5];
        apply(&mut unit, [0.1; 3], &[0.0; 4], &mut output);
        format!("output {output:?}, x1 {}", unit.filters()[48][5])
    });
    see("no channel", || {
        let params = ReverbEffectParams::default();
        name(unit(8_000, 4).apply(&params, &[], &mut [])).to_string()
    });
}

fn times() {
    let cases = [
        [f32::NAN; 3],
        [f32::NAN, 0.1, 0.1],
        [f32::INFINITY, 0.1, 0.1],
        [-1.0; 3],
        [100.00001, 0.1, 0.1],
        [1.0e9, 0.1, 0.1],
    ];
    for case in cases {
        see(&format!("times {case:?}, rate 8000, frame of 4"), || {
            apply(&mut unit(8_000, 4), case, &[0.0; 4], &mut [0.0; 4])
        });
    }
}

fn counts() {
    see("count -2147483648, one tail", || {
        let mut unit = unit(8_000, 4);
        unit.set_count(i32::MIN);
        let verdict = unit.make_tail(&mut [0.0; 4]);
        format!("count {}, {}", unit.count(), name(verdict))
    });
}

/// Plays 400 silent frames after one frame and says how many samples of the last were NaN.
fn after(mut unit: ReverbEffect, input: [f32; 4]) -> String {
    let mut output = [0.0; 4];
    apply(&mut unit, [0.1; 3], &input, &mut output);
    for _ in 0..400 {
        apply(&mut unit, [0.1; 3], &[0.0; 4], &mut output);
    }
    let bad = output.iter().filter(|x| x.is_nan()).count();
    let kept = unit
        .lines()
        .iter()
        .flat_map(|line| line.ring())
        .filter(|x| x.is_nan())
        .count();
    format!("400 frames later {bad} of 4 output samples and {kept} of 6316 samples in the lines are NaN")
}

fn samples() {
    see("input NaN, 0, 0, 0", || {
        after(unit(8_000, 4), [f32::NAN, 0.0, 0.0, 0.0])
    });
    see("input infinite, 0, 0, 0", || {
        after(unit(8_000, 4), [f32::INFINITY, 0.0, 0.0, 0.0])
    });
    see("the largest float four times", || after(unit(8_000, 4), [f32::MAX; 4]));
    see("a2 of the first filter NaN, input 0, 0, 0, 0", || {
        let mut unit = unit(8_000, 4);
        let mut coefficients: [f32; 255] = std::array::from_fn(|k| if k % 5 == 2 { 1.0 } else { 0.0 });
        coefficients[1] = f32::NAN;
        unit.give(&coefficients);
        after(unit, [0.0; 4])
    });
}

fn buffers() {
    let two: [&[f32]; 2] = [&[1.0], &[2.0]];
    see("write_interleaved, two channels of 1, target of 1", || {
        let mut target = [0.0; 1];
        two.write_interleaved(&mut [&mut target]);
        format!("{target:?}")
    });
    see("write_interleaved, two channels of 1, target of 3", || {
        let mut target = [9.0; 3];
        two.write_interleaved(&mut [&mut target]);
        format!("{target:?}")
    });
    see("read_interleaved, one channel of 1, source of 0", || {
        let mut channel = [9.0; 1];
        <[&mut [f32]]>::read_interleaved(&mut [&mut channel], &[&[]]);
        format!("{channel:?}")
    });
    see("mix, one channel of 1 into one of 2", || {
        let one: [&[f32]; 1] = [&[1.0]];
        let mut other = [1.0, 1.0];
        one.mix(&mut [&mut other]);
        format!("{other:?}")
    });
    see("mix, one channel of 2 into one of 1", || {
        let one: [&[f32]; 1] = [&[1.0, 1.0]];
        let mut other = [1.0];
        one.mix(&mut [&mut other]);
        format!("{other:?}")
    });
    see("downmix, no channel, output of 1", || {
        let none: [&[f32]; 0] = [];
        let mut output = [9.0; 1];
        none.downmix(&mut [&mut output]);
        format!("{output:?}")
    });
    see("downmix, two channels of 1, output of 0", || {
        two.downmix(&mut [&mut []]);
        "nothing written".to_string()
    });
    see("downmix, two channels of 1, output of 2", || {
        let mut output = [9.0; 2];
        two.downmix(&mut [&mut output]);
        format!("{output:?}")
    });
    see("write_interleaved, no channel", || {
        let none: [&[f32]; 0] = [];
        none.write_interleaved(&mut [&mut []]);
        "nothing written".to_string()
    });
    see("scale, seventeen channels of 1", || {
        let mut channels = [[1.0]; 17];
        let mut buffer: Vec<&mut [f32]> = channels.iter_mut().map(|c| c.as_mut_slice()).collect();
        buffer.scale(2.0);
        format!("{:?} in the last", channels[16][0])
    });
}

fn delays() {
    for (time, rate, random) in [
        (f32::NAN, 8_000, 0),
        (f32::INFINITY, 8_000, 0),
        (f32::INFINITY, 8_000, 1),
        (-1.0, 8_000, 0),
        (1.0e9, 8_000, 0),
    ] {
        see(
            &format!("delay values, time {time}, rate {rate}, random {random}"),
            || {
                let values = ReverbEffect::delays(time, rate, [random; 16]);
                format!("{} for 2, {} for 53", values[0], values[15])
            },
        );
    }
    for x in [-1, 0, i32::MAX] {
        see(&format!("power of 2 near {x}"), || {
            ReverbEffect::power_of_prime(x, 2).to_string()
        });
    }
}

/// R8.15: compares the power of a prime with the exact rule, for every x up to 200,000 and all sixteen primes.
fn powers() {
    const PRIMES: [i32; 16] = [2, 3, 5, 7, 11, 13, 17, 19, 23, 29, 31, 37, 41, 43, 47, 53];
    let mut differences = 0;
    for p in PRIMES {
        for x in 0..=200_000 {
            let (rule, rust) = (nearest_power(x, p), ReverbEffect::power_of_prime(x, p));
            if rule != rust {
                println!("power of {p} near {x}: {rust}, and {rule} by the exact rule");
                differences += 1;
            }
        }
    }
    println!(
        "powers: {differences} of {} pairs differ from the exact rule",
        16 * 200_001
    );
}

/// R6.13: the first power whose square, times p, is above that of x.
fn nearest_power(x: i32, p: i32) -> i32 {
    let (square, p) = (i64::from(x).pow(2), i64::from(p));
    let mut power = 1;
    while power * power * p <= square {
        power *= p;
    }
    power as i32
}
