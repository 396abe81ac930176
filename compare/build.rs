//! Names the proved library to the linker: RAKHVIDE_LIB, or the one that `rt lib` writes in crates/rakhvide_c.
//! Programs alone are linked with it; the second implementation is not.

use std::path::PathBuf;

fn main() {
    let here = PathBuf::from(std::env::var("CARGO_MANIFEST_DIR").expect("cargo sets it"));
    let library = match std::env::var_os("RAKHVIDE_LIB") {
        Some(path) => PathBuf::from(path),
        None => here.join("../crates/rakhvide_c/out/librakhvide_c.a"),
    };
    println!("cargo:rerun-if-env-changed=RAKHVIDE_LIB");
    println!("cargo:rerun-if-changed={}", library.display());
    println!("cargo:rustc-link-arg-bins={}", library.display());
}
