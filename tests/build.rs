//! Links the archive of the proved functions into `compare`, and that of the reading set into `reading`, and nothing else. They are for x86-64;
//! on another machine `compare` asks a program that has them.
fn main() {
    if std::env::var("CARGO_CFG_TARGET_ARCH").as_deref() != Ok("x86_64") {
        return;
    }
    let archive =
        std::env::var("NASTURAKH_ARCHIVE").unwrap_or_else(|_| concat!(env!("CARGO_MANIFEST_DIR"), "/../target/staticlib/libcapi.a").to_string());
    println!("cargo:rustc-link-arg-bin=compare={archive}");
    println!("cargo:rerun-if-env-changed=NASTURAKH_ARCHIVE");
    println!("cargo:rerun-if-changed={archive}");
    if let Ok(reading) = std::env::var("NASTURAKH_READING") {
        println!("cargo:rustc-link-arg-bin=reading={reading}");
        println!("cargo:rerun-if-changed={reading}");
    }
    println!("cargo:rerun-if-env-changed=NASTURAKH_READING");
}
