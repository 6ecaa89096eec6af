//! Links the library under test, if RING_ARCHIVE names one.

mod link;

fn main() {
    println!("cargo:rerun-if-changed=build.rs");
    println!("cargo:rerun-if-changed=link.rs");
    println!("cargo:rustc-check-cfg=cfg(no_archive)");
    if !link::link_archive() {
        println!("cargo:rustc-cfg=no_archive");
    }
}
