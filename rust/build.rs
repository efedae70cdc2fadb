//! Finds the static library that `tools/prove cabinet` proves and builds, and links it.

use std::path::{Path, PathBuf};
use std::{env, fs};

/// Names the folder that holds the library.
const VARIABLE: &str = "HESTROVIK_LIB";

/// That folder where the variable isn't set, seen from this crate: where `tools/prove` puts the library.
const USUAL: &str = "../target/staticlib";

/// The library's file.
const FILE: &str = "libcabinet.a";

/// What the library is compiled for.
const TARGET: &str = "x86_64";

fn main() {
    println!("cargo:rerun-if-env-changed={VARIABLE}");
    println!("cargo:rerun-if-changed=build.rs");
    let target = env::var("CARGO_CFG_TARGET_ARCH").unwrap_or_default();
    if target != TARGET {
        println!("cargo::error=the library is built for {TARGET} alone and this build is for {target}: build for {TARGET}");
        return;
    }
    match folder() {
        Ok(folder) => {
            println!("cargo:rerun-if-changed={}", folder.join(FILE).display());
            println!("cargo:rustc-link-search=native={}", folder.display());
            println!("cargo:rustc-link-lib=static=cabinet");
        }
        Err(line) => println!("cargo::error={line}"),
    }
}

/// The folder that holds the library, or in one line what is missing and what to run.
fn folder() -> Result<PathBuf, String> {
    let package = PathBuf::from(env::var_os("CARGO_MANIFEST_DIR").unwrap_or_default());
    let named = env::var_os(VARIABLE).filter(|named| !named.is_empty());
    let (folder, remedy) = match named.map(PathBuf::from) {
        // Cargo builds in a folder of its own choice, so a relative one would mean different places.
        Some(named) if named.is_relative() => {
            let named = named.display();
            return Err(format!(
                "{VARIABLE} is {named}, a relative folder: give its whole path, from / on"
            ));
        }
        Some(named) => (
            named,
            format!("set {VARIABLE} to the folder that holds it"),
        ),
        None => (
            package.join(USUAL),
            format!("run `tools/prove cabinet` in the repository's root, or set {VARIABLE} to the folder that holds it"),
        ),
    };
    let file = folder.join(FILE);
    match fs::metadata(&file) {
        Ok(at) if at.is_file() => Ok(folder),
        Ok(_) => Err(format!("{} isn't a file: {remedy}", shown(&file))),
        Err(e) => Err(format!(
            "the proved library {FILE} can't be read at {} ({e}): {remedy}",
            shown(&file)
        )),
    }
}

/// The path with its `..` worked out.
fn shown(at: &Path) -> String {
    let mut whole = PathBuf::new();
    for part in at.components() {
        if part.as_os_str() == ".." {
            whole.pop();
        } else {
            whole.push(part);
        }
    }
    whole.display().to_string()
}
