//! Links the proved library, crates/phd_c/out/libphd_c.a, which `rt lib` builds in crates/phd_c.
use std::path::Path;

fn main() {
    let here = std::env::var("CARGO_MANIFEST_DIR").expect("cargo sets CARGO_MANIFEST_DIR");
    let folder = Path::new(&here).join("../crates/phd_c/out");
    let archive = folder.join("libphd_c.a");
    println!("cargo:rerun-if-changed={}", archive.display());
    if !archive.exists() {
        println!(
            "cargo:warning={} is missing: run 'rt lib' in crates/phd_c first",
            archive.display()
        );
    }
    println!("cargo:rustc-link-search=native={}", folder.display());
    println!("cargo:rustc-link-lib=static=phd_c");
}
