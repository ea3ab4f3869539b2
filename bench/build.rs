//! Links the static library of the crate `bridge`, which `rt lib` in its folder has made, and the kit's C code.

use std::path::Path;

fn main() {
    let here = std::env::var("CARGO_MANIFEST_DIR").expect("cargo sets it");
    let library = Path::new(&here).join("../crates/bridge/out");
    let kit = std::env::var("RATTLE_HOME").unwrap_or("/opt/rattle".into());
    println!("cargo:rustc-link-search=native={}", library.display());
    println!("cargo:rustc-link-search=native={kit}/c");
    println!("cargo:rustc-link-lib=static=bridge");
    println!("cargo:rustc-link-lib=static=libc_c");
    println!("cargo:rerun-if-changed={}", library.join("libbridge.a").display());
    println!("cargo:rerun-if-env-changed=RATTLE_HOME");
}
