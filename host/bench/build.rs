//! Links the leaves, which `host/build` writes, and the oracle where it was built; a build before that says so.
use std::env;
use std::path::Path;
use std::process::exit;

/// Set to anything, it leaves out an oracle that is there.
const WITHOUT_ORACLE: &str = "ULYPTESH_WITHOUT_ORACLE";

/// The C library's functions whose calls the comparison counts.
const ASKED_FOR_MEMORY: [&str; 4] = ["malloc", "calloc", "realloc", "posix_memalign"];

fn main() {
    let package = env::var_os("CARGO_MANIFEST_DIR").expect("cargo names the package's folder");
    let built = Path::new(&package).join("../../target");
    link_library(&built.join("staticlib"), "probe");
    link_library(&built.join("staticlib"), "probe_segments");
    link_oracle(&built.join("oracle"));
    ASKED_FOR_MEMORY.iter().for_each(|name| count_calls(name));
}

fn link_library(folder: &Path, name: &str) {
    let archive = folder.join(format!("lib{name}.a"));
    println!("cargo::rerun-if-changed={}", archive.display());
    if !archive.exists() {
        println!("cargo::error=the library {name} is not there yet: run host/build first");
        exit(1);
    }
    println!("cargo::rustc-link-search=native={}", folder.display());
    println!("cargo::rustc-link-lib=static={name}");
}

// `cfg(oracle)` holds exactly where `extern crate key_lime` finds the oracle.
fn link_oracle(folder: &Path) {
    let oracle = folder.join("libkey_lime.rlib");
    println!("cargo::rustc-check-cfg=cfg(oracle)");
    println!("cargo::rerun-if-changed={}", folder.display());
    println!("cargo::rerun-if-env-changed={WITHOUT_ORACLE}");
    if oracle.exists() && env::var_os(WITHOUT_ORACLE).is_none() {
        println!("cargo::rustc-cfg=oracle");
        println!("cargo::rustc-link-search={}", folder.display());
    }
}

// In the comparison `__wrap_NAME` takes the calls, and `__real_NAME` is the function itself.
fn count_calls(name: &str) {
    println!("cargo::rustc-link-arg-bin=compare=-Wl,--wrap={name}");
}
