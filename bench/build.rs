//! Links the proved reader: the static library that `rt lib` writes in the crate `exported`, and the kit's C code.

use std::path::PathBuf;
use std::process::Command;

/// The kit's folder, in which the guide stands that `rt doc` names.
fn kit() -> PathBuf {
    let told = Command::new("rt").arg("doc").output().expect("rt is at hand");
    let guide = PathBuf::from(String::from_utf8_lossy(&told.stdout).trim());
    guide.parent().expect("the guide stands in the kit").to_path_buf()
}

fn main() {
    let bench = PathBuf::from(std::env::var("CARGO_MANIFEST_DIR").expect("cargo sets it"));
    let library = bench.join("../crates/exported/out");
    println!("cargo:rerun-if-changed={}", library.join("libexported.a").display());
    println!("cargo:rustc-link-search=native={}", library.display());
    println!("cargo:rustc-link-lib=static=exported");
    println!("cargo:rustc-link-search=native={}", kit().join("c").display());
    println!("cargo:rustc-link-lib=static=libc_c");
}
