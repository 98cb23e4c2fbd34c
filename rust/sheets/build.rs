//! Links the static library of the port, where the feature `linked` asks for it.

use std::path::Path;

fn main() {
    println!("cargo:rerun-if-changed=build.rs");
    if std::env::var_os("CARGO_FEATURE_LINKED").is_none() {
        return;
    }
    let here = std::env::var("CARGO_MANIFEST_DIR").expect("cargo says where the package stands");
    let folder = Path::new(&here).join("../../crates/exports/out");
    let library = folder.join("libexports.a");
    println!("cargo:rerun-if-changed={}", library.display());
    if !library.is_file() {
        eprintln!("crates/exports/out/libexports.a of the repository is missing:");
        eprintln!("make it with `rt lib` in crates/exports, or build without the feature linked");
        std::process::exit(1);
    }
    println!("cargo:rustc-link-search=native={}", folder.display());
    println!("cargo:rustc-link-lib=static=exports");
}
