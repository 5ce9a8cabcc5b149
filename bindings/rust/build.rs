//! Links the archive `libisnemgul.a`, from the folder in ISNEMGUL_LIB_DIR or from where the repository builds it.

use std::env;
use std::path::PathBuf;

fn main() {
    println!("cargo:rerun-if-changed=build.rs");
    println!("cargo:rerun-if-env-changed=ISNEMGUL_LIB_DIR");
    let folder = env::var_os("ISNEMGUL_LIB_DIR").map_or_else(built_here, PathBuf::from);
    let archive = folder.join("libisnemgul.a");
    assert!(
        archive.is_file(),
        "{} is not there: run `tools/archive`, or name its folder in ISNEMGUL_LIB_DIR",
        archive.display()
    );
    println!("cargo:rerun-if-changed={}", archive.display());
    println!("cargo:rustc-link-search=native={}", folder.display());
    println!("cargo:rustc-link-lib=static=isnemgul");
}

fn built_here() -> PathBuf {
    let manifest = env::var_os("CARGO_MANIFEST_DIR").expect("cargo sets CARGO_MANIFEST_DIR");
    PathBuf::from(manifest).join("../../target/staticlib")
}
