//! Links the library that is measured.

#[path = "../tests/differential/link.rs"]
mod link;

fn main() {
    println!("cargo:rerun-if-changed=build.rs");
    println!("cargo:rerun-if-changed=../tests/differential/link.rs");
    assert!(
        link::link_archive(),
        "RING_ARCHIVE must name the static library, as path/to/libcapi.a"
    );
}
