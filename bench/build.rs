//! Names to the linker what `bench/run` has built for the program bench: the proved library, the loops in C, and QuantLib's prices.

use std::path::PathBuf;

fn with(feature: &str) -> bool {
    std::env::var_os(format!("CARGO_FEATURE_{feature}")).is_some()
}

fn main() {
    let here = PathBuf::from(std::env::var("CARGO_MANIFEST_DIR").expect("cargo sets it"));
    let mut files = vec!["../crates/rakhvide_c/out/librakhvide_c.a", "target/prices.o"];
    let mut libraries = vec![];
    if with("CLANG") {
        files.push("target/prices_clang.o");
    }
    if with("QUANTLIB") {
        files.push("target/quantlib.o");
        libraries = vec!["-lQuantLib", "-lstdc++"];
    }
    for file in files {
        let path = here.join(file);
        println!("cargo:rerun-if-changed={}", path.display());
        println!("cargo:rustc-link-arg-bin=bench={}", path.display());
    }
    for library in libraries {
        println!("cargo:rustc-link-arg-bin=bench={library}");
    }
}
