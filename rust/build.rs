//! Links the static libraries of the Rattle side where a feature says that they are there.

use std::env;
use std::path::{Path, PathBuf};
use std::process::Command;

const LINKED: [&str; 8] =
    ["READ", "WRITE_BACK", "ACTIVITIES", "JUDGE", "DRIVE", "LINK", "MADE_UP", "TIMETABLE"];

fn has(feature: &str) -> bool {
    env::var_os(format!("CARGO_FEATURE_RATTLE_{feature}")).is_some()
}

fn folder(variable: &str) -> PathBuf {
    PathBuf::from(env::var_os(variable).expect("cargo sets it"))
}

/// The library of a crate, which must be there.
fn library(target: &Path, name: &str) -> PathBuf {
    let library = target.join(format!("staticlib/lib{name}.a"));
    if !library.exists() {
        let what = if name == "exports" { "library" } else { "host" };
        panic!("{} is not there: build it first (commands/setup build {what})", library.display());
    }
    println!("cargo:rerun-if-changed={}", library.display());
    library
}

fn link(from: &Path, name: &str) {
    println!("cargo:rustc-link-search=native={}", from.display());
    println!("cargo:rustc-link-lib=static={name}");
}

/// A copy of what a host links, with another name for the verdict: both libraries have a jidlekuvo_judge.
fn link_host(target: &Path) {
    let (library, out) = (library(target, "jidlekuvo"), folder("OUT_DIR"));
    let mut renaming = Command::new("objcopy");
    renaming.args(["--redefine-sym", "jidlekuvo_judge=jidlekuvo_host_judge"]);
    let status = renaming.arg(&library).arg(out.join("libjidlekuvo_host.a")).status();
    assert!(status.is_ok_and(|status| status.success()), "objcopy fails or is not there (package binutils)");
    link(&out, "jidlekuvo_host");
}

fn main() {
    println!("cargo:rerun-if-changed=build.rs");
    println!("cargo:rerun-if-env-changed=JIDLEKUVO_TARGET");
    let named = env::var_os("JIDLEKUVO_TARGET").map(PathBuf::from);
    let target = named.unwrap_or_else(|| folder("CARGO_MANIFEST_DIR").join("../target"));
    if LINKED.iter().any(|name| has(name)) {
        library(&target, "exports");
        link(&target.join("staticlib"), "exports");
    }
    if has("HOST") {
        link_host(&target);
    }
}
