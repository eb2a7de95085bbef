//! Copies the published Rust into the build's output folder and makes the edits listed in edits.rs.
//! The text is looked for in $PHONON_SRC, else beside the repository.

use std::path::{Path, PathBuf};
use std::{env, fs};

mod edits;
use edits::{EDITS, Edit};

/// The published files that the reverb path needs.
const FILES: [&str; 6] = [
    "dsp/audio_buffer.rs",
    "dsp/bands.rs",
    "dsp/delay.rs",
    "dsp/iir.rs",
    "dsp/reverb_estimator.rs",
    "effects/reverb.rs",
];

fn main() {
    println!("cargo::rerun-if-env-changed=PHONON_SRC");
    println!("cargo::rerun-if-changed=edits.rs");
    let text = published().join("crates/phonon/src");
    let out = PathBuf::from(env::var_os("OUT_DIR").unwrap());
    for file in FILES {
        copy_edited(&text, &out, file);
    }
}

/// Where the published text is.
fn published() -> PathBuf {
    match env::var_os("PHONON_SRC") {
        Some(given) => PathBuf::from(given),
        None => Path::new(env!("CARGO_MANIFEST_DIR")).join("../../../shared/docs/src"),
    }
}

/// Copies one file with its edits made.
fn copy_edited(text: &Path, out: &Path, file: &str) {
    let source = text.join(file);
    println!("cargo::rerun-if-changed={}", source.display());
    let mut words = fs::read_to_string(&source)
        .unwrap_or_else(|e| panic!("the published Rust, {}: {e}. Set PHONON_SRC.", source.display()));
    for edit in EDITS.iter().filter(|edit| edit.file == file) {
        words = edited(&words, edit);
    }
    let target = out.join(file);
    fs::create_dir_all(target.parent().unwrap()).unwrap();
    fs::write(target, words).unwrap();
}

/// The text with one edit made.
fn edited(words: &str, edit: &Edit) -> String {
    let from = only_place(words, edit.from, edit);
    let upto = only_place(words, edit.upto, edit);
    assert!(
        from <= upto,
        "{}: {:?} stands after {:?}",
        edit.file,
        edit.from,
        edit.upto
    );
    [&words[..from], edit.new, &words[upto..]].concat()
}

/// The only place at which a mark stands.
fn only_place(words: &str, mark: &str, edit: &Edit) -> usize {
    let places: Vec<usize> = words.match_indices(mark).map(|(place, _)| place).collect();
    assert!(
        places.len() == 1,
        "{}: {mark:?} stands {} times, not once, so this edit can't be made: {}",
        edit.file,
        places.len(),
        edit.why
    );
    places[0]
}
