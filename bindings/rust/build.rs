// Links libreader_c.a: the one in the folder that AUHOWIPI_LIBRARY names, else target/staticlib's, which `tools/library target/staticlib` makes at the repository's root for x86-64.
use std::path::PathBuf;

fn main() {
    println!("cargo:rerun-if-env-changed=AUHOWIPI_LIBRARY");
    let here = PathBuf::from(std::env::var("CARGO_MANIFEST_DIR").unwrap());
    let named = std::env::var("AUHOWIPI_LIBRARY").ok().map(PathBuf::from);
    let folder = named.clone().unwrap_or_else(|| here.join("../../target/staticlib"));
    if !folder.join("libreader_c.a").exists() {
        panic!("there is no {}/libreader_c.a: run `tools/library target/staticlib` at the repository's root first", folder.display());
    }
    if named.is_none() && std::env::var("CARGO_CFG_TARGET_ARCH").unwrap() != "x86_64" {
        panic!("the library is for x86-64 Linux: build for that target, and run it under an emulator");
    }
    println!("cargo:rustc-link-search=native={}", folder.display());
    println!("cargo:rustc-link-lib=static=reader_c");
    println!("cargo:rerun-if-changed={}", folder.join("libreader_c.a").display());
}
