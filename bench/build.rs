//! Builds the peers in C that the programs link: the two judges, under the names `twoorders_*` and
//! `unionfind_*`, the call for pairs, the plan reader, the conversion, the pass for cards and the
//! floor; and the library's calls with two parameters exchanged, under the names `planted_*`. Where
//! RACEJUDGE_BEFORE names an archive of an older judge, that is linked too, under the names `before_*`.
//! Without the feature `linked` nothing is built.
//!
//! Each function's section is set to start at a multiple of 64 bytes, as `start` does for the judge
//! that is measured: then what else a program holds does not move the hot loops, and times repeat
//! from build to build.

use std::env;
use std::path::{Path, PathBuf};
use std::process::Command;

const PEERS: [&str; 7] = ["twoorders", "unionfind", "pairs", "planread", "resume", "pass", "floor"];
const PLANTED: &str = "planted";
const SHARED: [&str; 5] =
    ["src/ranks.h", "src/peer.h", "src/answer.h", "src/hints.h", "src/kinds.h"];
const INCLUDE: &str = "../include";
const HEADER: &str = "../include/racejudge.h";
const CALLS: [&str; 7] =
    ["judge", "judge_cards", "pairs", "ordering", "translate", "plan", "convert"];
const ALIGNED: [&str; 2] = ["--set-section-alignment", ".text*=64"];

fn main() {
    println!("cargo:rerun-if-changed=build.rs");
    println!("cargo:rustc-check-cfg=cfg(before)");
    if env::var_os("CARGO_FEATURE_LINKED").is_none() {
        return;
    }
    for file in SHARED.into_iter().chain([HEADER]) {
        println!("cargo:rerun-if-changed={file}");
    }
    println!("cargo:rerun-if-env-changed=CC");
    let out = PathBuf::from(env::var_os("OUT_DIR").expect("cargo sets OUT_DIR"));
    println!("cargo:rustc-link-search=native={}", out.display());
    for name in PEERS.into_iter().chain([PLANTED]) {
        compile(&out, name);
    }
    println!("cargo:rerun-if-env-changed=RACEJUDGE_BEFORE");
    if let Some(archive) = env::var_os("RACEJUDGE_BEFORE").filter(|path| !path.is_empty()) {
        rename(&out, &PathBuf::from(archive));
    }
}

/// Compiles src/NAME.c to OUT/libNAME.a, a judge's calls under that name, and links it. Same back
/// end (LLVM) and same target (plain x86-64) as the static library where clang is there; the
/// system's C compiler otherwise.
fn compile(out: &Path, name: &str) {
    let source = format!("src/{name}.c");
    println!("cargo:rerun-if-changed={source}");
    let object = out.join(format!("{name}.o"));
    run(Command::new(compiler())
        .args(["-O3", "-std=c11", "-Wall", "-Wextra", "-Werror", "-fPIC", "-ffunction-sections"])
        .arg(format!("-DNAME={name}"))
        .args(["-I", INCLUDE, "-c", &source, "-o"])
        .arg(&object));
    run(Command::new("objcopy").args(ALIGNED).arg(&object));
    run(Command::new("ar").arg("crs").arg(out.join(format!("lib{name}.a"))).arg(&object));
    println!("cargo:rustc-link-lib=static={name}");
}

/// Links a copy of an archive in which the calls have names of their own, those that it has: an older
/// one may lack some.
fn rename(out: &Path, archive: &Path) {
    println!("cargo:rerun-if-changed={}", archive.display());
    let renamed = CALLS.map(|call| format!("--redefine-sym=racejudge_{call}=before_{call}"));
    let copy = out.join("libbefore.a");
    run(Command::new("objcopy").args(ALIGNED).args(renamed).arg(archive).arg(copy));
    println!("cargo:rustc-link-lib=static=before");
    println!("cargo:rustc-cfg=before");
}

fn compiler() -> String {
    let present = |name: &&str| Command::new(name).arg("--version").output().is_ok();
    let found = || ["clang", "cc"].into_iter().find(present).expect("a C compiler");
    env::var("CC").unwrap_or_else(|_| found().to_string())
}

fn run(command: &mut Command) {
    match command.status() {
        Ok(status) => assert!(status.success(), "{command:?}: {status}"),
        Err(error) => panic!("{command:?}: {error}"),
    }
}
