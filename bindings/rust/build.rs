//! Finds libzangjulf.a: in the folder that ZANGJULF_LIB_DIR names, where pkg-config finds an installed one, or in the repository's
//! build folder, where packaging/library.sh leaves it.
use std::env;
use std::path::PathBuf;
use std::process::Command;

const ARCHIVE: &str = "libzangjulf.a";

/// The folder of an installed library (packaging/install.sh), if pkg-config finds one.
fn installed() -> Option<PathBuf> {
    let found = Command::new("pkg-config").args(["--variable=libdir", "zangjulf"]).output().ok()?;
    let folder = String::from_utf8(found.stdout).ok()?;
    (found.status.success() && !folder.trim().is_empty()).then(|| PathBuf::from(folder.trim()))
}

fn main() {
    for name in ["PKG_CONFIG_PATH", "ZANGJULF_LIB_DIR"] {
        println!("cargo:rerun-if-env-changed={name}");
    }
    let built = PathBuf::from(env!("CARGO_MANIFEST_DIR")).join("../../build");
    let named = env::var_os("ZANGJULF_LIB_DIR").map(PathBuf::from);
    let folders = [named, installed(), Some(built)];
    let Some(folder) = folders.into_iter().flatten().find(|folder| folder.join(ARCHIVE).exists()) else {
        panic!("{ARCHIVE} isn't found: name its folder in ZANGJULF_LIB_DIR, install it below PKG_CONFIG_PATH, or run packaging/library.sh");
    };
    println!("cargo:rerun-if-changed={}", folder.join(ARCHIVE).display());
    println!("cargo:rustc-link-search=native={}", folder.display());
    println!("cargo:rustc-link-lib=static=zangjulf");
}
