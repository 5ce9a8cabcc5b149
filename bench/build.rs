//! Links the archive `libisnemgul.a`, from the folder in ISNEMGUL_LIB_DIR or from where the
//! repository builds it, and the plain search in C at -O3; and where ISNEMGUL_BEFORE names an
//! earlier archive, some entries of that, with `before_` before their names.

use std::env;
use std::path::{Path, PathBuf};
use std::process::Command;

fn main() {
    println!("cargo:rerun-if-changed=build.rs");
    println!("cargo:rerun-if-changed=plain.c");
    println!("cargo:rerun-if-env-changed=ISNEMGUL_LIB_DIR");
    let folder = env::var_os("ISNEMGUL_LIB_DIR")
        .map_or_else(|| variable("CARGO_MANIFEST_DIR").join("../target/staticlib"), PathBuf::from);
    println!("cargo:rerun-if-changed={}", folder.join("libisnemgul.a").display());
    link(&folder, "isnemgul");
    let out = variable("OUT_DIR");
    run(Command::new("cc")
        .args(["-std=c99", "-O3", "-c", "plain.c", "-o"])
        .arg(out.join("plain.o")));
    run(Command::new("ar").arg("rcs").args([out.join("libplain.a"), out.join("plain.o")]));
    link(&out, "plain");
    println!("cargo:rustc-check-cfg=cfg(before)");
    println!("cargo:rerun-if-env-changed=ISNEMGUL_BEFORE");
    if let Some(before) = env::var_os("ISNEMGUL_BEFORE").filter(|path| !path.is_empty()) {
        println!("cargo:rerun-if-changed={}", Path::new(&before).display());
        println!("cargo:rustc-cfg=before");
        let mut rename = Command::new("objcopy");
        for entry in ["isn_hex_iso_edges", "isn_hex_iso_mask"] {
            rename.args(["--redefine-sym", &format!("{entry}=before_{entry}")]);
            rename.args(["--keep-global-symbol", &format!("before_{entry}")]);
        }
        run(rename.arg(before).arg(out.join("libbefore.a")));
        link(&out, "before");
    }
}

fn variable(name: &str) -> PathBuf {
    env::var_os(name).unwrap_or_else(|| panic!("cargo sets {name}")).into()
}

fn link(folder: &Path, library: &str) {
    println!("cargo:rustc-link-search=native={}", folder.display());
    println!("cargo:rustc-link-lib=static={library}");
}

fn run(command: &mut Command) {
    let status = command.status().unwrap_or_else(|e| panic!("{command:?}: {e}"));
    assert!(status.success(), "{command:?}: {status}");
}
