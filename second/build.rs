//! Links the proved library, and only where the feature `proved` asks for it;
//! compiles and links the peers in C where the feature `bench` does.

use std::env;
use std::path::{Path, PathBuf};
use std::process::Command;

/// Where the library lies unless SKEPRAFTER_LIB says otherwise, seen from
/// this package.
const USUAL_FOLDER: &str = "../crates/skeprafter_c/out";
/// Where the peers lie, seen from this package, and their files.
const PEERS_FOLDER: &str = "../peers";
const PEERS: [&str; 3] = ["join", "search", "embed"];

fn main() {
    println!("cargo:rerun-if-changed=build.rs");
    println!("cargo:rerun-if-env-changed=SKEPRAFTER_LIB");
    let package = PathBuf::from(env::var_os("CARGO_MANIFEST_DIR").unwrap_or_default());
    if env::var_os("CARGO_FEATURE_PROVED").is_some() {
        link_library(&package);
    }
    if env::var_os("CARGO_FEATURE_BENCH").is_some() {
        link_peers(&package.join(PEERS_FOLDER));
    }
}

fn link_library(package: &Path) {
    // Joining an absolute folder leaves that folder as it is.
    let folder = match env::var_os("SKEPRAFTER_LIB") {
        Some(given) => package.join(given),
        None => package.join(USUAL_FOLDER),
    };
    let archive = folder.join("libskeprafter_c.a");
    println!("cargo:rerun-if-changed={}", archive.display());
    println!("cargo:rustc-link-search=native={}", folder.display());
    println!("cargo:rustc-link-lib=static=skeprafter_c");
}

/// Always at -O3, also in a debug build: they are there for their speed.
fn link_peers(folder: &Path) {
    println!("cargo:rerun-if-changed={}", folder.display());
    let out = PathBuf::from(env::var_os("OUT_DIR").unwrap_or_default());
    let archive = out.join("libpeers.a");
    let mut pack = Command::new("ar");
    pack.arg("rcs").arg(&archive);
    for peer in PEERS {
        let object = out.join(peer).with_extension("o");
        let mut compile = Command::new("cc");
        compile.args([
            "-std=c11", "-O3", "-Wall", "-Wextra", "-Werror", "-fPIC", "-c",
        ]);
        compile.arg(folder.join(peer).with_extension("c"));
        run(compile.arg("-o").arg(&object));
        pack.arg(object);
    }
    run(&mut pack);
    println!("cargo:rustc-link-search=native={}", out.display());
    println!("cargo:rustc-link-lib=static=peers");
}

fn run(command: &mut Command) {
    let done = command
        .status()
        .unwrap_or_else(|e| panic!("{command:?}: {e}"));
    assert!(done.success(), "{command:?} failed");
}
