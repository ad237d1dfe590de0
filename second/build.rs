//! Links the library under test, `libvraduceni.a`, from the folder that VRADUCENI_LIB_DIR names.

use std::env;
use std::path::Path;

fn main() {
    println!("cargo:rerun-if-changed=build.rs");
    println!("cargo:rerun-if-env-changed=VRADUCENI_LIB_DIR");
    let folder = env::var("VRADUCENI_LIB_DIR")
        .expect("set VRADUCENI_LIB_DIR to the folder that holds libvraduceni.a");
    let archive = Path::new(&folder).join("libvraduceni.a");
    assert!(
        archive.is_file(),
        "there is no libvraduceni.a in the folder that VRADUCENI_LIB_DIR names"
    );
    // A library built anew has to be linked anew, or the test would be of the old one.
    println!("cargo:rerun-if-changed={}", archive.display());
    println!("cargo:rustc-link-search=native={folder}");
    println!("cargo:rustc-link-lib=static=vraduceni");
}
