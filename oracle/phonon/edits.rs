// Every edit that is made to the published Rust, and the rule that asks for it.
// Private items aren't edited to be visible: what has to be seen is read by the modules `seen`, which
// stand below the published ones and so see what is private in them.

/// Replaces the text from `from` up to, not with, `upto`. Each of the two must stand in the file
/// exactly once.
pub struct Edit {
    pub file: &'static str,
    pub why: &'static str,
    pub from: &'static str,
    pub upto: &'static str,
    pub new: &'static str,
}

const COEFFICIENTS: &str = "R1.16, R8.12: the Rust is compared with its filters set to the host's 255 coefficients";

const NO_DESIGN: &str = "R1.16: the host designs the filters";

pub const EDITS: &[Edit] = &[
    Edit {
        file: "effects/reverb.rs",
        why: COEFFICIENTS,
        from: "num_tail_frames_remaining: i32,",
        upto: "num_tail_frames_remaining: i32,",
        new: "given: [f32; 255],\n    ",
    },
    Edit {
        file: "effects/reverb.rs",
        why: COEFFICIENTS,
        from: "num_tail_frames_remaining: 0,",
        upto: "num_tail_frames_remaining: 0,",
        new: "given: [0.0; 255],\n            ",
    },
    Edit {
        file: "effects/reverb.rs",
        why: COEFFICIENTS,
        from: "let absorptive_gains = ",
        upto: "for j in 0..NUM_BANDS {\n                self.absorptive[i][j] = ",
        new: "let iir = self.given(i);\n\n            ",
    },
    Edit {
        file: "effects/reverb.rs",
        why: COEFFICIENTS,
        from: "let mut tone_correction_gains = ",
        upto: "for i in 0..NUM_BANDS {\n            self.tone_corrections[i] = ",
        new: "let iir = self.given(NUM_DELAYS);\n\n        ",
    },
    Edit {
        file: "dsp/iir.rs",
        why: NO_DESIGN,
        from: "/// Creates a low-shelf filter",
        upto: "pub fn new_empty()",
        new: "",
    },
];
