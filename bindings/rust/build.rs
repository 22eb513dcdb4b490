//! Finds `libvollikash.a`, and has Cargo link it.

use std::env;
use std::path::{Path, PathBuf};
use std::process::{self, Command};

const LIBRARY: &str = "libvollikash.a";

fn main() {
    println!("cargo:rerun-if-env-changed=VOLLIKASH_DIR");
    println!("cargo:rerun-if-env-changed=PKG_CONFIG_PATH");
    let folder = find().unwrap_or_else(|why| {
        eprintln!("vollikash: {why}");
        process::exit(1);
    });
    println!("cargo:rerun-if-changed={}", folder.join(LIBRARY).display());
    println!("cargo:rustc-link-search=native={}", folder.display());
    println!("cargo:rustc-link-lib=static=vollikash");
}

/// Returns the folder of the static library.
///
/// # Errors
///
/// The sentence for people if there is none.
fn find() -> Result<PathBuf, String> {
    if let Some(folder) = env::var_os("VOLLIKASH_DIR") {
        let folder = Path::new(&folder);
        return with_library(folder).ok_or_else(|| {
            let here = env::current_dir().unwrap_or_default();
            let from = if folder.is_relative() {
                format!(" (from {here:?})")
            } else {
                String::new()
            };
            format!("VOLLIKASH_DIR is {folder:?}{from}, which has no {LIBRARY}")
        });
    }
    let folder = by_pkg_config().ok_or(
        "set VOLLIKASH_DIR to the folder of libvollikash.a, \
         or PKG_CONFIG_PATH to that of vollikash.pc: pkg-config does not find vollikash",
    )?;
    with_library(&folder).ok_or_else(|| {
        format!("pkg-config's folder of vollikash is {folder:?}, which has no {LIBRARY}")
    })
}

/// Returns the absolute path of a folder that has the library.
fn with_library(folder: &Path) -> Option<PathBuf> {
    let folder = folder.canonicalize().ok()?;
    folder.join(LIBRARY).is_file().then(|| folder)
}

/// Returns the folder of the library that pkg-config prints.
fn by_pkg_config() -> Option<PathBuf> {
    let output = Command::new("pkg-config")
        .args(["--variable=libdir", "vollikash"])
        .output()
        .ok()?;
    let printed = String::from_utf8(output.stdout).ok()?;
    let folder = unescaped(printed.trim_end_matches('\n'));
    (output.status.success() && !folder.is_empty()).then(|| PathBuf::from(folder))
}

/// Returns a text without the backslashes by which pkg-config protects the characters of a path.
fn unescaped(text: &str) -> String {
    let mut characters = text.chars();
    let next = || match characters.next()? {
        '\\' => characters.next(),
        other => Some(other),
    };
    std::iter::from_fn(next).collect()
}
