//! Lays the crate out in OUT_DIR: each source file as it stands, behind it our probe if it has one,
//! and our stubs for the files that aren't given. No text of the sources enters the repository.

use std::path::{Path, PathBuf};
use std::{env, fs};

/// Names the folder that holds the sources; `src/node.rs` stands below it.
const VARIABLE: &str = "PREFIX_TRIE_SRC";

/// That folder where the variable isn't set: `shared/` beside the repository.
const BESIDE: &str = "../../../shared/docs/src";

/// The source files that a map of u32 needs, and the probe that goes behind each.
const SOURCES: [(&str, Option<&str>); 6] = [
    ("aggregate.rs", None),
    ("allocator.rs", Some("probes/allocator.rs")),
    ("map/mod.rs", None),
    ("node.rs", Some("probes/node.rs")),
    ("prefix.rs", None),
    ("table.rs", Some("probes/table.rs")),
];

/// Files of our own: the module list, and the least that the sources ask of the two missing files.
const OURS: [(&str, &str); 3] = [
    ("modules.rs", "stubs/modules.rs"),
    ("map/entry.rs", "stubs/entry.rs"),
    ("map/iter.rs", "stubs/iter.rs"),
];

/// Conditions that the sources name and that are never on here.
const OFF: [&str; 2] = [
    "cfg(coverage_nightly)",
    r#"cfg(feature, values("cidr", "ipnet", "ipnetwork", "rkyv"))"#,
];

fn main() {
    println!("cargo:rerun-if-env-changed={VARIABLE}");
    for condition in OFF {
        println!("cargo:rustc-check-cfg={condition}");
    }
    let package = PathBuf::from(env::var_os("CARGO_MANIFEST_DIR").expect("cargo sets it"));
    let out = PathBuf::from(env::var_os("OUT_DIR").expect("cargo sets it"));
    let named = env::var_os(VARIABLE).filter(|named| !named.is_empty());
    let folder = package.join(named.unwrap_or(BESIDE.into()));
    if let Err(line) = lay_out(&package, &folder, &out) {
        println!("cargo::error={line}");
    }
}

/// Writes every file, or says in one line what stood in the way.
fn lay_out(package: &Path, folder: &Path, out: &Path) -> Result<(), String> {
    fs::create_dir_all(out.join("map"))
        .map_err(|e| format!("cannot write {}: {e}", out.display()))?;
    for (name, probe) in SOURCES {
        let at = folder.join("src").join(name);
        let text = fs::read(&at).map_err(|e| {
            format!(
                "src/{name} of the crate's sources can't be read at {} ({e}): set {VARIABLE} to the folder that holds src/{name}",
                plain(&at).display()
            )
        })?;
        println!("cargo:rerun-if-changed={}", at.display());
        let tail = match probe {
            Some(probe) => [b"\n", ours(package, probe)?.as_slice()].concat(),
            None => Vec::new(),
        };
        write(&out.join(name), &[&text, &tail])?;
        unchanged(&out.join(name), &text, &tail)?;
    }
    for (name, file) in OURS {
        write(&out.join(name), &[&ours(package, file)?])?;
    }
    Ok(())
}

/// One of our own files.
fn ours(package: &Path, file: &str) -> Result<Vec<u8>, String> {
    println!("cargo:rerun-if-changed={file}");
    let at = package.join(file);
    fs::read(&at).map_err(|e| format!("cannot read {}: {e}", at.display()))
}

fn write(at: &Path, parts: &[&[u8]]) -> Result<(), String> {
    fs::write(at, parts.concat()).map_err(|e| format!("cannot write {}: {e}", at.display()))
}

/// Reads the copy back: it must be the source, byte for byte, and then the probe alone.
fn unchanged(copy: &Path, text: &[u8], tail: &[u8]) -> Result<(), String> {
    let back = fs::read(copy).map_err(|e| format!("cannot read {}: {e}", copy.display()))?;
    if back.strip_prefix(text) == Some(tail) {
        return Ok(());
    }
    Err(format!(
        "{} isn't the source that it was copied from; build again",
        copy.display()
    ))
}

/// The path without `..`, where it can be worked out.
fn plain(at: &Path) -> PathBuf {
    let mut whole = PathBuf::new();
    for part in at.components() {
        if part.as_os_str() == ".." {
            whole.pop();
        } else {
            whole.push(part);
        }
    }
    whole
}
