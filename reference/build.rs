//! Assembles the reference from the named Rust and links the core's archives where a stage asks for them.
#[path = "assembly.rs"]
#[allow(dead_code)] // the reasons are read by the check of CUTS.md
mod assembly;

use std::path::{Path, PathBuf};
use std::{env, fs};

/// Features that call functions of the crate `exports`, and those that make the desk's call.
const PARTS: [&str; 6] = ["NUMBERS", "FRACTIONS", "BOOK", "PRESSURE", "EXCESS", "RICE"];
const WHOLE: [&str; 2] = ["SHEET", "DESK"];

fn main() {
    println!("cargo:rerun-if-changed=assembly.rs");
    println!("cargo:rerun-if-changed=build.rs");
    let here = PathBuf::from(env::var("CARGO_MANIFEST_DIR").expect("cargo sets it"));
    let out = PathBuf::from(env::var("OUT_DIR").expect("cargo sets it"));
    assemble_all(&folder(&here, "ZEKTONK_RUST", "../../shared/docs/src"), &out);
    take_peer(&folder(&here, "ZEKTONK_PEER", "../../shared/peer").join("peer.rs"), &out);
    let asked = |feature: &&str| env::var(format!("CARGO_FEATURE_{feature}")).is_ok();
    let libraries = folder(&here, "ZEKTONK_LIB", "../target/staticlib");
    if PARTS.iter().any(|part| asked(part)) {
        link(&libraries, "exports");
    }
    if WHOLE.iter().any(|part| asked(part)) {
        link(&libraries, "zektonk");
    }
}

/// A relative folder is seen from where the user stands; cargo runs this in the package's folder, and leaves `PWD`.
fn folder(here: &Path, variable: &str, default: &str) -> PathBuf {
    println!("cargo:rerun-if-env-changed={variable}");
    println!("cargo:rerun-if-env-changed=PWD");
    match env::var_os(variable) {
        None => here.join(default),
        Some(given) => env::var_os("PWD").map_or_else(|| here.to_path_buf(), PathBuf::from).join(given),
    }
}

fn assemble_all(rust: &Path, out: &Path) {
    for source in assembly::SOURCES {
        let path = rust.join(source.path);
        println!("cargo:rerun-if-changed={}", path.display());
        let text = fs::read_to_string(&path)
            .unwrap_or_else(|why| panic!("the named Rust is not at {} ({why}); set ZEKTONK_RUST", path.display()));
        let text = assembly::assemble(source, text).unwrap_or_else(|why| panic!("assembly failed: {why}"));
        fs::write(out.join(source.out), text).expect("the build folder can be written");
    }
}

/// The benchmark's peer, as it is and with Wilson's sums in place of NRTL's (src/bin/bench/wilson.rs), where it is at hand.
fn take_peer(path: &Path, out: &Path) {
    println!("cargo:rustc-check-cfg=cfg(peer)");
    println!("cargo:rerun-if-changed={}", path.display());
    let Ok(text) = fs::read_to_string(path) else { return };
    println!("cargo:rustc-cfg=peer");
    let text: String = text.lines().filter(|line| !line.starts_with("//!")).map(|line| format!("{line}\n")).collect();
    let cuts = [
        ("self.fill::<N>(t)", "self.fill_lambdas::<N>(t)"),
        ("self.kernel::<N>(x, l)", "self.wilson::<N>(x, l)"),
        ("w(h, 1) != 1", "w(h, 1) != 2"),
    ];
    let wilson = cuts.iter().fold(text.clone(), |text, (from, to)| {
        assert_eq!(text.matches(from).count(), 1, "{from} in the peer");
        text.replace(from, to)
    });
    for (name, text) in [("peer.rs", text), ("peer_wilson.rs", wilson)] {
        fs::write(out.join(name), text).expect("the build folder can be written");
    }
}

fn link(folder: &Path, name: &str) {
    let library = folder.join(format!("lib{name}.a"));
    println!("cargo:rerun-if-changed={}", library.display());
    if !library.exists() {
        panic!("the core's library is not at {}; set ZEKTONK_LIB", library.display());
    }
    println!("cargo:rustc-link-search=native={}", folder.display());
    println!("cargo:rustc-link-lib=static={name}");
    println!("cargo:rustc-link-lib=m");
}
