//! Finds libtribes.a: in the folder that TRIBES_LIB_DIR names, else in the package that this crate lies in (`../../lib`), else where
//! pkg-config says.
use std::path::{Path, PathBuf};
use std::process::Command;

fn by_pkg_config() -> Option<PathBuf> {
    let said = Command::new("pkg-config").args(["--variable=libdir", "tribes"]).output().ok()?;
    let folder = String::from_utf8(said.stdout).ok()?;
    (said.status.success() && !folder.trim().is_empty()).then(|| PathBuf::from(folder.trim()))
}

fn main() {
    println!("cargo:rerun-if-env-changed=TRIBES_LIB_DIR");
    println!("cargo:rerun-if-env-changed=PKG_CONFIG_PATH");
    let named = std::env::var_os("TRIBES_LIB_DIR").map(PathBuf::from);
    let beside = Path::new(env!("CARGO_MANIFEST_DIR")).join("../../lib");
    let folder = named.or_else(|| beside.join("libtribes.a").exists().then_some(beside)).or_else(by_pkg_config);
    let Some(folder) = folder else {
        panic!("libtribes.a was not found: set TRIBES_LIB_DIR to its folder, or let pkg-config find tribes.pc (PKG_CONFIG_PATH)");
    };
    println!("cargo:rerun-if-changed={}", folder.join("libtribes.a").display());
    println!("cargo:rustc-link-search=native={}", folder.display());
    println!("cargo:rustc-link-lib=static=tribes");
}
