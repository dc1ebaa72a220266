//! Links the archive that `./archive` makes, or the one that NASTURAKH_ARCHIVE names.
use std::env;
use std::path::PathBuf;

fn main() {
    let manifest = PathBuf::from(env::var("CARGO_MANIFEST_DIR").expect("set by cargo"));
    let archive = match env::var("NASTURAKH_ARCHIVE") {
        Ok(path) => PathBuf::from(path),
        Err(_) => manifest.join("../../target/staticlib/libcapi.a"),
    };
    println!("cargo:rerun-if-env-changed=NASTURAKH_ARCHIVE");
    println!("cargo:rerun-if-changed={}", archive.display());
    println!("cargo:rustc-link-arg={}", archive.display());
}
