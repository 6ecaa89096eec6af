//! For build scripts: links the library whose archive, lib<name>.a, RING_ARCHIVE names.

use std::path::PathBuf;

/// Links the archive, or says false where RING_ARCHIVE names none.
pub fn link_archive() -> bool {
    println!("cargo:rerun-if-env-changed=RING_ARCHIVE");
    let Some(given) = std::env::var_os("RING_ARCHIVE").filter(|v| !v.is_empty()) else {
        return false;
    };
    let archive = PathBuf::from(&given)
        .canonicalize()
        .unwrap_or_else(|e| panic!("RING_ARCHIVE {given:?}: {e}"));
    let folder = archive.parent().expect("RING_ARCHIVE has no folder");
    let file = archive.file_name().and_then(|f| f.to_str()).unwrap_or("");
    let name = file
        .strip_prefix("lib")
        .and_then(|f| f.strip_suffix(".a"))
        .unwrap_or_else(|| panic!("RING_ARCHIVE must be a file lib<name>.a, not {file:?}"));
    println!("cargo:rerun-if-changed={}", archive.display());
    println!("cargo:rustc-link-search=native={}", folder.display());
    if std::env::var("CARGO_CFG_TARGET_OS").is_ok_and(|os| os == "linux") {
        // After the standard library, and with doubles allowed: an archive
        // without the standard library may bring a panic handler of its own.
        println!("cargo:rustc-link-arg-bins=-Wl,--allow-multiple-definition");
        println!("cargo:rustc-link-arg-bins=-l:{file}");
    } else {
        println!("cargo:rustc-link-lib=static={name}");
    }
    true
}
