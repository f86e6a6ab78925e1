//! Finds the Rust source (SENDAI_RS, UTIL_RS) and the static library of crate `exports`.
use std::env;
use std::path::{Path, PathBuf};

/// The file's path, once it is there.
fn found(path: PathBuf, help: &str) -> PathBuf {
    println!("cargo:rerun-if-changed={}", path.display());
    path.canonicalize().unwrap_or_else(|_| panic!("{} is missing: {help}", path.display()))
}

fn main() {
    let root = Path::new(&env::var("CARGO_MANIFEST_DIR").unwrap()).join("..");
    println!("cargo:rerun-if-env-changed=SENDAI_SRC_DIR");
    let given = env::var("SENDAI_SRC_DIR").map(PathBuf::from);
    let source = given.unwrap_or(root.join("../shared/docs/src")).join("cspuz_rs_puzzles/src");
    let help = "SENDAI_SRC_DIR names the place of the Rust source; without it nothing is compared";
    println!("cargo:rustc-env=SENDAI_RS={}", found(source.join("puzzles/sendai.rs"), help).display());
    println!("cargo:rustc-env=UTIL_RS={}", found(source.join("util.rs"), help).display());

    let archive = found(root.join("target/staticlib/libexports.a"), "run `bindings/prove archive`");
    println!("cargo:rustc-link-search=native={}", archive.parent().unwrap().display());
    println!("cargo:rustc-link-lib=static=exports");
}
