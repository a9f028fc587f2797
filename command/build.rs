//! Links libthularek, which `tools/library` makes: from THULAREK_LIBRARY, or from where that tool puts it.
use std::env;

fn main() {
    let machine = env::var("CARGO_CFG_TARGET_ARCH").unwrap_or_default();
    let made = format!("{}/../target/library/{machine}", env::var("CARGO_MANIFEST_DIR").unwrap_or_default());
    let folder = env::var("THULAREK_LIBRARY").unwrap_or(made);
    println!("cargo:rerun-if-env-changed=THULAREK_LIBRARY");
    println!("cargo:rerun-if-changed={folder}/libthularek.a");
    println!("cargo:rustc-link-search=native={folder}");
    println!("cargo:rustc-link-lib=static=thularek");
}
