//! libhall.a as seen from Rust. The structs and functions are those of include/hall.h, which says what each is for.
//!
//! Where the library is this machine's code (`LINKED`) it is called; else it is played by another process, and the same
//! functions ask that one.

#[cfg(not(linked))]
mod remote;

/// Whether the library is this machine's own code. Only then do times mean anything.
pub const LINKED: bool = cfg!(linked);

/// A ring's two cursors, in samples.
#[repr(C)]
#[derive(Copy, Clone, Debug, Default, PartialEq)]
pub struct Cursors {
    pub read: usize,
    pub write: usize,
}

/// A filter's nine numbers: a1, a2, b0, b1, b2, x1, x2, y1, y2.
pub type Filter = [f32; 9];

/// A filter as an argument or an answer: C passes no array by value.
#[repr(C)]
#[derive(Copy, Clone)]
pub struct ByValue(pub Filter);

/// A unit between two calls.
#[repr(C)]
#[derive(Copy, Clone)]
pub struct State {
    pub rate: u32,
    pub frame: usize,
    pub lines: [Cursors; 16],
    pub passes: [Cursors; 4],
    pub count: i32,
    pub filters: [Filter; 51],
    pub busy: bool,
    pub tail: bool,
    pub marks: [bool; 34],
    pub next: i32,
    pub before: [Filter; 51],
}

impl State {
    /// A unit with silent lines and no filters.
    pub fn blank(rate: u32, frame: usize) -> Self {
        State {
            rate,
            frame,
            lines: [Cursors::default(); 16],
            passes: [Cursors::default(); 4],
            count: 0,
            filters: [[0.0; 9]; 51],
            busy: false,
            tail: false,
            marks: [false; 34],
            next: 0,
            before: [[0.0; 9]; 51],
        }
    }
}

/// What a call of the unit answers.
#[repr(C)]
#[derive(Copy, Clone)]
pub struct Answer {
    pub number: u32,
    pub index: usize,
    pub remaining: bool,
    pub state: State,
}

/// What several frames at once answer.
#[repr(C)]
#[derive(Copy, Clone)]
pub struct FramesAnswer {
    pub number: u32,
    pub index: usize,
    pub done: i32,
    pub remaining: bool,
    pub state: State,
}

#[repr(C)]
#[derive(Copy, Clone, Debug, PartialEq)]
pub struct RingAnswer {
    pub number: u32,
    pub cursors: Cursors,
}

#[repr(C)]
#[derive(Copy, Clone, Debug)]
pub struct FourAnswer {
    pub number: u32,
    pub cursors: Cursors,
    pub x: [f32; 4],
}

#[repr(C)]
#[derive(Copy, Clone, Debug, PartialEq)]
pub struct Value {
    pub number: u32,
    pub value: u32,
}

/// What stands in a studio take.
#[repr(C)]
#[derive(Copy, Clone, Debug, Default, PartialEq)]
pub struct Wave {
    pub number: u32,
    pub place: usize,
    pub rate: u32,
    pub channels: u32,
    pub tag: u32,
    pub data: usize,
    pub data_len: usize,
}

/// Declares each function of the header and a safe function on slices that calls it. Of an argument `shared` stands
/// for a slice that is read, `bytes` for one of bytes, `lent` for one that may be written, and anything else for its own
/// type.
macro_rules! face {
    ($( $symbol:ident as $name:ident ( $($args:tt)* ) -> $answer:ty; )*) => {
        $( face!(@one $symbol $name $answer [] [] [] [] $($args)*); )*
    };
    // One argument at a time is moved into four lists: C's parameters, Rust's, what is passed to C, and how it is
    // passed to another process.
    (@one $f:ident $name:ident $answer:ty [$($c:tt)*] [$($r:tt)*] [$($p:tt)*] [$($q:tt)*] $x:ident: shared, $($rest:tt)*) => {
        face!(@one $f $name $answer [$($c)* _: *const f32, _: usize,] [$($r)* $x: &[f32],]
            [$($p)* $x.as_ptr(), $x.len(),] [$($q)* shared $x,] $($rest)*);
    };
    (@one $f:ident $name:ident $answer:ty [$($c:tt)*] [$($r:tt)*] [$($p:tt)*] [$($q:tt)*] $x:ident: bytes, $($rest:tt)*) => {
        face!(@one $f $name $answer [$($c)* _: *const u8, _: usize,] [$($r)* $x: &[u8],]
            [$($p)* $x.as_ptr(), $x.len(),] [$($q)* bytes $x,] $($rest)*);
    };
    (@one $f:ident $name:ident $answer:ty [$($c:tt)*] [$($r:tt)*] [$($p:tt)*] [$($q:tt)*] $x:ident: lent, $($rest:tt)*) => {
        face!(@one $f $name $answer [$($c)* _: *mut f32, _: usize,] [$($r)* $x: &mut [f32],]
            [$($p)* $x.as_mut_ptr(), $x.len(),] [$($q)* lent $x,] $($rest)*);
    };
    (@one $f:ident $name:ident $answer:ty [$($c:tt)*] [$($r:tt)*] [$($p:tt)*] [$($q:tt)*] $x:ident: $t:ty, $($rest:tt)*) => {
        face!(@one $f $name $answer [$($c)* _: $t,] [$($r)* $x: $t,] [$($p)* $x,] [$($q)* value $x,] $($rest)*);
    };
    (@one $f:ident $name:ident $answer:ty [$($c:tt)*] [$($r:tt)*] [$($p:tt)*] [$($how:ident $x:ident,)*]) => {
        #[allow(clippy::too_many_arguments)]
        pub fn $name($($r)*) -> $answer {
            #[cfg(linked)]
            {
                unsafe extern "C" {
                    fn $f($($c)*) -> $answer;
                }
                // The slices are whole, aligned and apart, since Rust lent them; any number is allowed.
                unsafe { $f($($p)*) }
            }
            #[cfg(not(linked))]
            {
                let mut call = remote::Call::to(stringify!($f));
                $( call.$how($x); )*
                call.made()
            }
        }
    };
}

face! {
    hall_fresh as fresh(rate: u32, frame: usize, store: lent,) -> Answer;
    hall_reset as reset(s: State, store: lent,) -> Answer;
    hall_apply as apply(s: State, t0: f32, t1: f32, t2: f32, coefficients: shared, input: shared, store: lent, work: lent,
        output: lent,) -> Answer;
    hall_apply_frames as apply_frames(s: State, t0: f32, t1: f32, t2: f32, coefficients: shared, input: shared, store: lent,
        work: lent, output: lent,) -> FramesAnswer;
    hall_tail as tail(s: State, store: lent, work: lent, output: lent,) -> Answer;
    hall_open_apply as open_apply(s: State, t0: f32, t1: f32, t2: f32, coefficients: shared, input: shared, store: shared,
        work: lent,) -> Answer;
    hall_open_tail as open_tail(s: State, store: shared, work: lent,) -> Answer;
    hall_job_read as job_read(s: State, line: usize, store: shared, work: lent,) -> Answer;
    hall_job_mix as job_mix(s: State, work: lent,) -> Answer;
    hall_job_line as job_line(s: State, line: usize, work: lent,) -> Answer;
    hall_job_output as job_output(s: State, work: lent,) -> Answer;
    hall_close as close(s: State, store: lent, work: lent, output: lent,) -> Answer;
    hall_abandon as abandon(s: State, work: lent,) -> Answer;
    hall_ring_get as ring_get(ring: shared, c: Cursors, taken: lent,) -> RingAnswer;
    hall_ring_put as ring_put(ring: lent, c: Cursors, xs: shared,) -> RingAnswer;
    hall_ring_get4 as ring_get4(ring: shared, c: Cursors,) -> FourAnswer;
    hall_ring_put4 as ring_put4(ring: lent, c: Cursors, x0: f32, x1: f32, x2: f32, x3: f32,) -> RingAnswer;
    hall_ring_reset as ring_reset(ring: lent, c: Cursors,) -> RingAnswer;
    hall_filter_run as filter_run(f: ByValue, xs: lent,) -> ByValue;
    hall_mix16 as mix16(x: shared, y: lent,) -> u32;
    hall_delay_min as delay_min(time: f32, rate: u32,) -> Value;
    hall_prime_power as prime_power(x: u32, index: usize,) -> Value;
    hall_delay_value as delay_value(time: f32, rate: u32, random: u16, index: usize,) -> Value;
    hall_interleave as interleave(channels: usize, samples: usize, buffer: shared, target: lent,) -> u32;
    hall_deinterleave as deinterleave(channels: usize, samples: usize, source: shared, buffer: lent,) -> u32;
    hall_make_silent as make_silent(channels: usize, samples: usize, buffer: lent,) -> u32;
    hall_scale as scale(channels: usize, samples: usize, volume: f32, buffer: lent,) -> u32;
    hall_buffer_mix as buffer_mix(channels: usize, samples: usize, buffer: shared, other: lent,) -> u32;
    hall_downmix as downmix(channels: usize, samples: usize, buffer: shared, output: lent,) -> u32;
    hall_channel_number as channel_number(channels: usize, samples: usize, channel: usize, length: usize,) -> u32;
    hall_wave_read as wave_read(file: bytes,) -> Wave;
    hall_wave_samples as wave_samples(data: bytes, tag: u32, out: lent,) -> ();
}

/// The powers of a prime near 0, 1, 2, .. in order; 0 for a refusal. Another process is asked for all of them at once.
pub fn prime_powers(index: usize, powers: &mut [u32]) {
    #[cfg(linked)]
    for (x, power) in powers.iter_mut().enumerate() {
        *power = prime_power(x as u32, index).value;
    }
    #[cfg(not(linked))]
    {
        let mut bits = vec![0.0; powers.len()];
        let mut call = remote::Call::to("powers");
        call.value(index);
        call.lent(&mut bits);
        call.made::<u32>();
        powers
            .iter_mut()
            .zip(bits)
            .for_each(|(power, bits)| *power = bits.to_bits());
    }
}
