//! Finds the library: in the folder that COMMONWARE_MATH_LIB_DIR names, in the package's own, or by the file of pkg-config.

use std::env;
use std::fs;
use std::path::{Path, PathBuf};

fn main() {
    for name in ["COMMONWARE_MATH_LIB_DIR", "PKG_CONFIG_PATH"] {
        println!("cargo:rerun-if-env-changed={name}");
    }
    // A package that has the library in it is a folder of its own, which lies anywhere.
    let own = PathBuf::from(env::var_os("CARGO_MANIFEST_DIR").unwrap()).join("lib");
    let folder = match env::var_os("COMMONWARE_MATH_LIB_DIR") {
        Some(folder) => PathBuf::from(folder),
        None if own.is_dir() => own,
        None => by_pkg_config().expect(
            "no commonware_math.pc: install the library, and let PKG_CONFIG_PATH or COMMONWARE_MATH_LIB_DIR name where it is, \
             or take the package that has the library in it",
        ),
    };
    let archive = folder.join("libcommonware_math.a");
    println!("cargo:rustc-link-search=native={}", folder.display());
    println!("cargo:rerun-if-changed={}", archive.display());
    // The archive, where it is there, so that the program needs nothing when it runs.
    let kind = if archive.exists() { "static" } else { "dylib" };
    println!("cargo:rustc-link-lib={kind}=commonware_math");
}

/// The `libdir` of the first commonware_math.pc.
fn by_pkg_config() -> Option<PathBuf> {
    let named = env::var_os("PKG_CONFIG_PATH").unwrap_or_default();
    let usual = ["/usr/local/lib/pkgconfig", "/usr/lib/pkgconfig", "/usr/lib/x86_64-linux-gnu/pkgconfig"];
    let home = env::var_os("HOME").map(|home| PathBuf::from(home).join(".local/lib/pkgconfig"));
    env::split_paths(&named)
        .chain(usual.iter().map(PathBuf::from))
        .chain(home)
        .find_map(|folder| library_folder(&folder, &fs::read_to_string(folder.join("commonware_math.pc")).ok()?))
}

/// The value of `libdir`, where `${prefix}` stands for that of `prefix`, and `${pcfiledir}` for the folder of the file.
fn library_folder(folder: &Path, file: &str) -> Option<PathBuf> {
    let value = |name: &str| file.lines().find_map(|line| line.strip_prefix(name)?.strip_prefix('='));
    let libdir = value("libdir")?.replace("${prefix}", value("prefix")?);
    Some(PathBuf::from(libdir.replace("${pcfiledir}", folder.to_str()?)))
}
