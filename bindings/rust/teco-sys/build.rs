//! Links the library: the libteco_c.a of a folder that TECO_LIBRARY names, or else what pkg-config finds.
//!
//! Without a library it prints a warning, and leaves the rest to the linker: so the docs can be built, and the crate checked.

use std::env;
use std::path::PathBuf;
use std::process::Command;

fn main() {
    for name in ["TECO_LIBRARY", "PKG_CONFIG", "PKG_CONFIG_PATH", "DOCS_RS"] {
        println!("cargo:rerun-if-env-changed={name}");
    }
    // docs.rs has no library, and rustdoc links nothing.
    if env::var_os("DOCS_RS").is_some() {
        return;
    }
    match (named(), installed()) {
        (Some(folder), _) => {
            println!("cargo:rerun-if-changed={}", folder.join("libteco_c.a").display());
            println!("cargo:rustc-link-search=native={}", folder.display());
            println!("cargo:rustc-link-lib=static=teco_c");
        }
        (None, Some(libs)) => libs.split_whitespace().for_each(link),
        (None, None) => {
            println!("cargo:warning=no teco is found: install it for pkg-config, or name the folder of libteco_c.a in TECO_LIBRARY");
        }
    }
}

/// The first folder of TECO_LIBRARY with the library. Others may be there, since `teco -f` looks for sources in them.
fn named() -> Option<PathBuf> {
    let folders = env::var_os("TECO_LIBRARY")?;
    let mut folders = env::split_paths(&folders).filter(|folder| folder.join("libteco_c.a").is_file());
    folders.next()?.canonicalize().ok()
}

/// What pkg-config says that a linker needs.
fn installed() -> Option<String> {
    let tool = env::var_os("PKG_CONFIG").unwrap_or_else(|| "pkg-config".into());
    let output = Command::new(tool).args(["--libs", "teco"]).output().ok()?;
    output.status.success().then(|| String::from_utf8_lossy(&output.stdout).into_owned())
}

/// Passes a word of pkg-config on.
fn link(word: &str) {
    if let Some(folder) = word.strip_prefix("-L") {
        println!("cargo:rustc-link-search=native={folder}");
    } else if let Some(name) = word.strip_prefix("-l") {
        println!("cargo:rustc-link-lib={name}");
    }
}
