//! Links the archive, and Berkeley DB and LMDB where their headers are installed.
use std::env;
use std::path::PathBuf;
use std::process::{Command, Stdio};

/// Whether the C compiler finds a header.
fn has_header(cc: &str, header: &str) -> bool {
    let test = format!("printf '#include <{header}>\\n' | {cc} -E -x c - -o /dev/null");
    let done = Command::new("sh")
        .args(["-c", &test])
        .stdout(Stdio::null())
        .stderr(Stdio::null())
        .status();
    done.is_ok_and(|s| s.success())
}

/// Compiles a shim, and says by a cfg that it is there.
fn shim(cc: &str, name: &str, library: &str) {
    let out = PathBuf::from(env::var("OUT_DIR").expect("set by cargo")).join(format!("{name}.o"));
    let done = Command::new(cc)
        .args(["-std=gnu11", "-O2", "-Wall", "-c", "-o"])
        .arg(&out)
        .arg(format!("src/{name}.c"))
        .status();
    assert!(
        done.is_ok_and(|s| s.success()),
        "src/{name}.c does not compile"
    );
    println!("cargo:rustc-link-arg={}", out.display());
    println!("cargo:rustc-link-arg=-l{library}");
    println!("cargo:rustc-cfg={name}");
}

fn main() {
    let cc = env::var("CC").unwrap_or_else(|_| "cc".into());
    let manifest = PathBuf::from(env::var("CARGO_MANIFEST_DIR").expect("set by cargo"));
    let archive = match env::var("NASTURAKH_ARCHIVE") {
        Ok(path) => PathBuf::from(path),
        Err(_) => manifest.join("../target/staticlib/libcapi.a"),
    };
    println!("cargo:rerun-if-env-changed=NASTURAKH_ARCHIVE");
    println!("cargo:rerun-if-changed={}", archive.display());
    println!("cargo:rerun-if-changed=src");
    println!("cargo:rustc-link-arg={}", archive.display());
    for (name, header, library) in [("berkeley", "db.h", "db"), ("lmdb", "lmdb.h", "lmdb")] {
        if has_header(&cc, header) {
            shim(&cc, name, library);
        }
    }
}
