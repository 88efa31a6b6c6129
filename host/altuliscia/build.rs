//! Links libaltuliscia.a: that of the folder ALTULISCIA_LIB, or else the one that ships for this processor, in lib/ at the repository's root.
use std::path::Path;

fn main() {
    println!("cargo:rerun-if-env-changed=ALTULISCIA_LIB");
    let arch = std::env::var("CARGO_CFG_TARGET_ARCH").unwrap();
    let root = std::env::var("CARGO_MANIFEST_DIR").unwrap();
    let folder =
        std::env::var("ALTULISCIA_LIB").unwrap_or_else(|_| format!("{}/../../lib/{}", root, arch));
    let archive = format!("{}/libaltuliscia.a", folder);
    println!("cargo:rerun-if-changed={}", archive);
    if !Path::new(&archive).exists() {
        println!(
            "cargo:warning={} isn't there: archives ship for x86_64 and aarch64; ALTULISCIA_LIB names another folder",
            archive
        );
    }
    println!("cargo:rustc-link-search=native={}", folder);
    println!("cargo:rustc-link-lib=static=altuliscia");
}
