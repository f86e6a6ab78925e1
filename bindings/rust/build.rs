//! Links the archive of crate `exports`, from target/staticlib of the repository or from the folder that SENDAI_ARCHIVE_DIR names.
use std::env;
use std::path::{Path, PathBuf};

fn main() {
    println!("cargo::rerun-if-env-changed=SENDAI_ARCHIVE_DIR");
    let root = Path::new(env!("CARGO_MANIFEST_DIR")).join("../..");
    let root = root.canonicalize().unwrap_or(root);
    let folder = env::var("SENDAI_ARCHIVE_DIR").map_or(root.join("target/staticlib"), PathBuf::from);
    let archive = folder.join("libexports.a");
    println!("cargo::rerun-if-changed={}", archive.display());
    if !archive.is_file() {
        println!("cargo::error={} is missing: run `bindings/prove archive` in {}", archive.display(), root.display());
        println!("cargo::error=(or name the folder that has libexports.a in SENDAI_ARCHIVE_DIR)");
    }
    println!("cargo::rustc-link-search=native={}", folder.display());
    println!("cargo::rustc-link-lib=static=exports");
}
