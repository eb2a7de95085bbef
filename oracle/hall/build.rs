//! Finds the static library: $HALL_LIB, else target/x86-64/libhall.a of the repository. Where it is this machine's
//! code it is linked. Else it is made into a player, a program of its own that is run under an emulator.

use std::path::{Path, PathBuf};
use std::process::Command;
use std::{env, fs};

fn main() {
    println!("cargo::rerun-if-env-changed=HALL_LIB");
    println!("cargo::rerun-if-changed=player.c");
    println!("cargo::rerun-if-changed=../../include/hall.h");
    println!("cargo::rustc-check-cfg=cfg(linked)");
    let library = library();
    println!("cargo::rerun-if-changed={}", library.display());
    if machine(&library) == env::var("CARGO_CFG_TARGET_ARCH").unwrap() {
        link(&library);
    } else {
        make_player(&library);
    }
}

fn library() -> PathBuf {
    let named = match env::var_os("HALL_LIB") {
        Some(given) => PathBuf::from(given),
        None => Path::new(env!("CARGO_MANIFEST_DIR")).join("../../target/x86-64/libhall.a"),
    };
    let hint = "Make it by `./build x86-64`, or set HALL_LIB.";
    named
        .canonicalize()
        .unwrap_or_else(|e| panic!("{}: {e}. {hint}", named.display()))
}

/// The processor that the first object of an archive is for.
fn machine(library: &Path) -> &'static str {
    let bytes = fs::read(library).unwrap();
    let object = bytes.windows(4).position(|four| four == b"\x7fELF");
    match object.map(|at| bytes[at + 18]) {
        Some(0x3e) => "x86_64",
        Some(0xb7) => "aarch64",
        _ => panic!("{} holds no object for x86-64 or Arm", library.display()),
    }
}

fn link(library: &Path) {
    println!("cargo::rustc-cfg=linked");
    println!(
        "cargo::rustc-link-search=native={}",
        library.parent().unwrap().display()
    );
    let name = library.file_name().unwrap().to_str().unwrap();
    println!("cargo::rustc-link-lib=static:+verbatim={name}");
}

fn make_player(library: &Path) {
    let player = PathBuf::from(env::var_os("OUT_DIR").unwrap()).join("player");
    let compiled = Command::new("../../tests/compile")
        .arg("player.c")
        .arg(&player)
        .env("HALL_LIB", library)
        .status()
        .expect("tests/compile can't be run");
    assert!(compiled.success(), "player.c was not compiled");
    println!("cargo::rustc-env=HALL_PLAYER={}", player.display());
}
