//! Links target/staticlib/libmishkolar.a and libmishkolar_isup.a of the repository, which `tools/build` writes.
use std::path::Path;

/// The box for the old exchange stands above the first library, so it is named before it.
const LIBRARIES: [&str; 2] = ["mishkolar_isup", "mishkolar"];

fn main() {
    let folder = Path::new(&std::env::var("CARGO_MANIFEST_DIR").expect("set by cargo")).join("../../target/staticlib");
    for name in LIBRARIES {
        let library = folder.join(format!("lib{name}.a"));
        println!("cargo:rerun-if-changed={}", library.display());
        if !library.exists() {
            eprintln!("{} is not there: run `tools/build {name}` in the repository first", library.display());
            std::process::exit(1);
        }
        println!("cargo:rustc-link-lib=static={name}");
    }
    println!("cargo:rustc-link-search=native={}", folder.display());
}
