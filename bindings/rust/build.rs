//! Links libzektonk.a from the folder in `ZEKTONK_LIB`, by default the repository's target/staticlib. Where the archive
//! is missing that is a warning: documents and checks don't need it, and what links says that it is not found.
use std::env;
use std::path::PathBuf;

fn main() {
    println!("cargo:rerun-if-changed=build.rs");
    println!("cargo:rerun-if-env-changed=ZEKTONK_LIB");
    let folder = folder();
    let library = folder.join("libzektonk.a");
    println!("cargo:rerun-if-changed={}", library.display());
    if !library.exists() {
        let missing = library.display();
        println!("cargo:warning=the core's archive is not at {missing}; `scripts/archive` writes it, ZEKTONK_LIB");
        println!("cargo:warning=names its folder");
    }
    println!("cargo:rustc-link-search=native={}", folder.display());
    println!("cargo:rustc-link-lib=static=zektonk");
}

/// A relative folder is seen from where the user stands: cargo runs this in the package's folder, and leaves `PWD`.
fn folder() -> PathBuf {
    let here = PathBuf::from(env::var_os("CARGO_MANIFEST_DIR").expect("cargo sets it"));
    match env::var_os("ZEKTONK_LIB").map(PathBuf::from) {
        None => here.join("../../target/staticlib"),
        Some(given) if given.is_absolute() => given,
        Some(given) => {
            println!("cargo:rerun-if-env-changed=PWD");
            let stands = env::var_os("PWD").expect("a relative ZEKTONK_LIB needs PWD, which a shell sets");
            PathBuf::from(stands).join(given)
        }
    }
}
