//! Links the archives that tools/native wrote into target/staticlib. ALTULISCIA_LIB names another folder with libaltuliscia.a;
//! where that one has libtrial.a too, it is linked as well.
use std::path::Path;

fn main() {
    let root = std::env::var("CARGO_MANIFEST_DIR").unwrap();
    let own = format!("{root}/../../target/staticlib");
    let lib = std::env::var("ALTULISCIA_LIB").unwrap_or_else(|_| own.clone());
    let both = Path::new(&lib).join("libtrial.a").exists();
    let trial = if both { lib.clone() } else { own };
    for (folder, name) in [(lib, "altuliscia"), (trial, "trial")] {
        println!("cargo:rustc-link-search=native={folder}");
        println!("cargo:rustc-link-lib=static={name}");
        println!("cargo:rerun-if-changed={folder}/lib{name}.a");
    }
    println!("cargo:rerun-if-env-changed=ALTULISCIA_LIB");
}
