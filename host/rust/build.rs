//! Links libjidlekuvo.a: from the folder that JIDLEKUVO_LIB_DIR names by an absolute path, otherwise from the repository's
//! target/staticlib.

use std::env;
use std::path::PathBuf;

fn main() {
    println!("cargo:rerun-if-changed=build.rs");
    println!("cargo:rerun-if-env-changed=JIDLEKUVO_LIB_DIR");
    let folder = match env::var_os("JIDLEKUVO_LIB_DIR") {
        Some(folder) => PathBuf::from(folder),
        None => PathBuf::from(env::var_os("CARGO_MANIFEST_DIR").expect("cargo sets it"))
            .join("../../target/staticlib"),
    };
    assert!(folder.is_absolute(), "JIDLEKUVO_LIB_DIR is no absolute path: {}", folder.display());
    let library = folder.join("libjidlekuvo.a");
    if !library.exists() {
        panic!("{} is not there: build it first (commands/setup build host)", library.display());
    }
    println!("cargo:rerun-if-changed={}", library.display());
    println!("cargo:rustc-link-search=native={}", folder.display());
    println!("cargo:rustc-link-lib=static=jidlekuvo");
}
