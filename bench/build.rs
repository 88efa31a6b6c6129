//! Links libaltuliscia.a (ALTULISCIA_LIB names another folder that has it), and LIBSVM where `bench/run` found one: BENCH_LIBSVM
//! is the folder with libpeer.a, BENCH_LIBSVM_LINK the other libraries that it needs.
fn main() {
    let root = std::env::var("CARGO_MANIFEST_DIR").unwrap();
    let own = format!("{root}/../target/staticlib");
    let folder = std::env::var("ALTULISCIA_LIB").unwrap_or(own);
    println!("cargo:rustc-link-search=native={folder}");
    println!("cargo:rustc-link-lib=static=altuliscia");
    println!("cargo:rerun-if-changed={folder}/libaltuliscia.a");
    for name in ["ALTULISCIA_LIB", "BENCH_LIBSVM", "BENCH_LIBSVM_LINK"] {
        println!("cargo:rerun-if-env-changed={name}");
    }
    println!("cargo:rustc-check-cfg=cfg(libsvm)");
    if let Ok(folder) = std::env::var("BENCH_LIBSVM") {
        println!("cargo:rustc-cfg=libsvm");
        println!("cargo:rustc-link-search=native={folder}");
        println!("cargo:rustc-link-lib=static=peer");
        println!("cargo:rerun-if-changed={folder}/libpeer.a");
        let others = std::env::var("BENCH_LIBSVM_LINK").unwrap_or_default();
        for other in others.split_whitespace() {
            println!("cargo:rustc-link-lib=dylib={other}");
        }
    }
}
