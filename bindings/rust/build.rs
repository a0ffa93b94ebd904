//! Finds `libimplib.a`, the library for C: in the folder that `IMPLIB_LIB_DIR` names, else by pkg-config.

use std::env;
use std::path::{Path, PathBuf};
use std::process::Command;

fn main() {
    for name in ["IMPLIB_LIB_DIR", "PKG_CONFIG", "PKG_CONFIG_PATH", "PKG_CONFIG_LIBDIR"] {
        println!("cargo:rerun-if-env-changed={name}");
    }
    println!("cargo:rerun-if-changed=build.rs");
    let target = ["CARGO_CFG_TARGET_ARCH", "CARGO_CFG_TARGET_OS"].map(|name| env::var(name).unwrap_or_default());
    if target != ["x86_64", "linux"] {
        stop(&format!("the library is for x86-64 Linux, not for {}", target.join(" ")));
    }
    let folder = match env::var_os("IMPLIB_LIB_DIR") {
        Some(folder) => PathBuf::from(folder),
        None => by_pkg_config(),
    };
    let library = folder.join("libimplib.a");
    if !library.is_file() {
        stop(&format!("no file {}", library.display()));
    }
    link(&folder, &library);
}

/// The folder that `implib.pc` names.
fn by_pkg_config() -> PathBuf {
    let program = env::var_os("PKG_CONFIG").unwrap_or_else(|| "pkg-config".into());
    let found = Command::new(program).args(["--variable=libdir", "implib"]).output();
    match found {
        Ok(output) if output.status.success() => PathBuf::from(String::from_utf8_lossy(&output.stdout).trim_end()),
        _ => stop("set IMPLIB_LIB_DIR to the folder of libimplib.a, or PKG_CONFIG_PATH to that of implib.pc"),
    }
}

fn link(folder: &Path, library: &Path) {
    println!("cargo:rerun-if-changed={}", library.display());
    println!("cargo:rustc-link-search=native={}", folder.display());
    println!("cargo:rustc-link-lib=static=implib");
}

fn stop(why: &str) -> ! {
    eprintln!("implib: {why}");
    std::process::exit(1)
}
