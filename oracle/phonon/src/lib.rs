//! The published reverb path of phonon_rs (commit 87c392a3e6), as the build script copied it, and below
//! each module a module `seen` that hands out what is private in it. Nothing in `seen` makes a float
//! step.

#![allow(dead_code, unused_variables, unused_imports, clippy::needless_range_loop)]

pub mod dsp {
    pub mod audio_buffer {
        include!(concat!(env!("OUT_DIR"), "/dsp/audio_buffer.rs"));
    }
    pub mod bands {
        include!(concat!(env!("OUT_DIR"), "/dsp/bands.rs"));
    }
    pub mod delay {
        include!(concat!(env!("OUT_DIR"), "/dsp/delay.rs"));
        mod seen;
    }
    pub mod iir {
        include!(concat!(env!("OUT_DIR"), "/dsp/iir.rs"));
        mod seen;
    }
    pub mod reverb_estimator {
        include!(concat!(env!("OUT_DIR"), "/dsp/reverb_estimator.rs"));
    }
}

pub mod effects {
    pub mod reverb {
        include!(concat!(env!("OUT_DIR"), "/effects/reverb.rs"));
        mod seen;
    }
}

pub use rand::hand_in;
