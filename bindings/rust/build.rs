//! Finds libfbcheck.a: in the folder that FBCHECK_LIB_DIR names, or else in `lib` of this package, or in `out` of the
//! clone that this crate lies in, or else by pkg-config.

use std::env::var;
use std::path::Path;
use std::process::{exit, Command};

fn main() {
    for name in ["FBCHECK_LIB_DIR", "PKG_CONFIG_PATH"] {
        println!("cargo:rerun-if-env-changed={name}");
    }
    let named = var("FBCHECK_LIB_DIR").ok();
    let found = named.or_else(|| beside("lib"));
    let found = found.or_else(|| beside("../../out")).or_else(by_pkg_config);
    let Some(folder) = found else {
        eprintln!("libfbcheck.a isn't found: run make library in the clone, or name its folder in FBCHECK_LIB_DIR");
        exit(1);
    };
    println!("cargo:rerun-if-changed={folder}/libfbcheck.a");
    println!("cargo:rustc-link-search=native={folder}");
    println!("cargo:rustc-link-lib=static=fbcheck");
}

/// This folder, from that of the crate, where the library is in it.
fn beside(place: &str) -> Option<String> {
    let folder = Path::new(&var("CARGO_MANIFEST_DIR").ok()?).join(place);
    let found = folder.join("libfbcheck.a").exists();
    found.then(|| folder.display().to_string())
}

/// The folder of the library that pkg-config tells.
fn by_pkg_config() -> Option<String> {
    let told = Command::new("pkg-config")
        .args(["--variable=libdir", "fbcheck"])
        .output()
        .ok()?;
    let folder = String::from_utf8(told.stdout).ok()?.trim().to_owned();
    (told.status.success() && !folder.is_empty()).then_some(folder)
}
