//! Links the static library of the proved judge: the archive that RACEJUDGE_LIB names, else the one
//! that `tools/archive` proves and writes. It must be of the version of include/racejudge.h.

#[path = "build/version.rs"]
mod version;

use std::env;
use std::fs;
use std::path::{Path, PathBuf};
use std::process::Command;

const INSTEAD: &str =
    "or set RACEJUDGE_LIB to the path of an archive with the functions of include/racejudge.h";

/// What to do about an archive of another version: one that was given, and one that was proved.
const GIVEN_ANOTHER: &str =
    "unset RACEJUDGE_LIB, and `tools/archive` proves and writes an archive that fits";
const PROVED_ANOTHER: &str = "let crates/capi_c have the version of the header, or the header its";

fn main() {
    println!("cargo::rerun-if-changed=build.rs");
    println!("cargo::rerun-if-changed=build");
    println!("cargo::rerun-if-env-changed=RACEJUDGE_LIB");
    let named = env::var_os("RACEJUDGE_LIB").filter(|path| !path.is_empty());
    let remedy = if named.is_some() { GIVEN_ANOTHER } else { PROVED_ANOTHER };
    let archive = named.map_or_else(proved, |path| given(path.into()));
    if let Err(message) = archive.and_then(|archive| link(&archive, remedy)) {
        for line in message.lines() {
            println!("cargo::error={line}");
        }
    }
}

fn given(path: PathBuf) -> Result<PathBuf, String> {
    println!("cargo::rerun-if-changed={}", path.display());
    if path.is_file() {
        return Ok(path);
    }
    Err(format!("RACEJUDGE_LIB={}: there is no such file; use an absolute path", path.display()))
}

/// Has the archive proved and written.
fn proved() -> Result<PathBuf, String> {
    let root = root();
    for source in sources(&root) {
        println!("cargo::rerun-if-changed={}", source.display());
    }
    let told = Command::new(root.join("tools/archive")).output();
    let told = told
        .map_err(|error| format!("`tools/archive` cannot be run: {error}\nmend that, {INSTEAD}"))?;
    if told.status.success() {
        return Ok(root.join("target/staticlib/libcapi.a"));
    }
    let words = [told.stdout, told.stderr].concat();
    let (words, status) = (String::from_utf8_lossy(&words), told.status);
    let words = words.trim_end();
    Err(format!("{words}\n`tools/archive` failed ({status}): mend what it names, {INSTEAD}"))
}

/// What the archive is made from. What `rt` leaves in the folders of the crates is no part of it.
fn sources(root: &Path) -> Vec<PathBuf> {
    let crates = fs::read_dir(root.join("crates")).into_iter().flatten().flatten();
    let parts = crates.flat_map(|one| ["src", "specs", "proofs"].map(|part| one.path().join(part)));
    let whole = ["crates.txt", "tools/archive"].map(|file| root.join(file));
    parts.filter(|part| part.is_dir()).chain(whole).collect()
}

/// Links a copy of the archive, under a name of its own, if it has the version of the header.
fn link(archive: &Path, remedy: &str) -> Result<(), String> {
    let (from, out) = (archive.display(), directory("OUT_DIR"));
    let bytes = fs::read(archive).map_err(|error| format!("{from} cannot be read: {error}"))?;
    if let Some(refused) = version::refused(&bytes, needed()?) {
        return Err(format!("{from} {refused}\n{remedy}"));
    }
    fs::write(out.join("libracejudge_linked.a"), bytes)
        .map_err(|error| format!("{from} cannot be copied: {error}"))?;
    println!("cargo::rustc-link-search=native={}", out.display());
    println!("cargo::rustc-link-lib=static=racejudge_linked");
    let name = archive.file_name().unwrap_or_default().to_string_lossy();
    println!("cargo::rustc-env=RACEJUDGE_ARCHIVE={name}");
    Ok(())
}

/// The version of the header.
fn needed() -> Result<u32, String> {
    let path = root().join("include/racejudge.h");
    let from = path.display();
    println!("cargo::rerun-if-changed={from}");
    let header =
        fs::read_to_string(&path).map_err(|error| format!("{from} cannot be read: {error}"))?;
    version::needed(&header).ok_or_else(|| format!("{from} defines no RACEJUDGE_VERSION"))
}

fn root() -> PathBuf {
    directory("CARGO_MANIFEST_DIR").join("../..")
}

/// A directory that cargo names to every build script.
fn directory(variable: &str) -> PathBuf {
    env::var_os(variable).expect("cargo sets it").into()
}
