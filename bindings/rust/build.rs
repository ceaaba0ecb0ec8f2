// Tells cargo where the store's static library lies.

use std::path::Path;

fn main() {
    println!("cargo:rerun-if-changed=build.rs");
    let here = std::env::var("CARGO_MANIFEST_DIR").expect("cargo names the manifest's folder");
    let folder = Path::new(&here).join("..").join("..").join("crates").join("rvf_c").join("out");
    let archive = folder.join("librvf_c.a");
    // A new archive must lead to a new link, so its time is watched.
    println!("cargo:rerun-if-changed={}", archive.display());
    if !archive.exists() {
        println!("cargo:warning={} is absent: build the static library first (rt lib in crates/rvf_c)", archive.display());
    }
    println!("cargo:rustc-link-search=native={}", folder.display());
    println!("cargo:rustc-link-lib=static=rvf_c");
}
