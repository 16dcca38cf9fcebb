//! What the build of the library does where no archive is named: `tools/archive` has `rt` prove and
//! write one. The gate names one, so here the build script is run by itself, with a stand-in for `rt`.

use std::env;
use std::fs;
use std::os::unix::fs::{symlink, PermissionsExt};
use std::path::{Path, PathBuf};
use std::process::Command;

const HEADER: &str = include_str!("../../../include/racejudge.h");
const SCRIPT: &str = include_str!("../../../tools/archive");
const LINKED: &str = "cargo::rustc-link-lib=static=racejudge_linked";

/// What the script needs beside `rt`.
const TOOLS: [&str; 4] = ["dirname", "mkdir", "cp", "mv"];

/// An archive whose index has one function.
fn archive(function: &str) -> Vec<u8> {
    let index = [&[0, 0, 0, 1, 0, 0, 0, 0], function.as_bytes(), &[0]].concat();
    [format!("!<arch>\n{:<48}{:<10}`\n", "/", index.len()).as_bytes(), &index].concat()
}

fn program(path: PathBuf, script: &str) {
    fs::write(&path, script).expect("a script");
    fs::set_permissions(path, fs::Permissions::from_mode(0o755)).expect("a program");
}

fn place_of(tool: &str) -> PathBuf {
    let path = env::var_os("PATH").expect("a path");
    let places = env::split_paths(&path).map(|folder| folder.join(tool)).find(|it| it.is_file());
    places.expect("a tool of every system")
}

/// A repository with nothing but what the build script looks at.
struct Repository(PathBuf);

impl Repository {
    /// One with an archive that was written before, and this shell script in the place of `rt`, which
    /// finds the archive that it wrote then.
    fn new(name: &str, rt: Option<&str>) -> Self {
        let root = Path::new(env!("CARGO_TARGET_TMPDIR")).join(name);
        _ = fs::remove_dir_all(&root);
        for folder in [
            "include",
            "target/staticlib",
            "rust/racejudge",
            "tools",
            "crates/capi_c/out",
            "bin",
            "out",
        ] {
            fs::create_dir_all(root.join(folder)).expect("a folder");
        }
        fs::write(root.join("include/racejudge.h"), HEADER).expect("a header");
        for file in ["target/staticlib/libcapi.a", "crates/capi_c/out/libcapi_c.a"] {
            fs::write(root.join(file), archive("racejudge_version_6")).expect("an archive");
        }
        program(root.join("tools/archive"), SCRIPT);
        for tool in TOOLS {
            symlink(place_of(tool), root.join("bin").join(tool)).expect("a link");
        }
        if let Some(script) = rt {
            program(root.join("bin/rt"), &format!("#!/bin/sh\n{script}\n"));
        }
        Repository(root)
    }

    /// What the build script tells cargo, where no archive is named.
    fn told(&self) -> String {
        let program = self.0.join("build");
        let rustc = env::var_os("RUSTC").unwrap_or("rustc".into());
        let source = concat!(env!("CARGO_MANIFEST_DIR"), "/build.rs");
        let words = ["--edition", "2021", source, "-o"];
        let built = Command::new(rustc).args(words).arg(&program).status().expect("rustc");
        assert!(built.success());
        let ran = Command::new(program)
            .env_remove("RACEJUDGE_LIB")
            .env("PATH", self.0.join("bin"))
            .env("CARGO_MANIFEST_DIR", self.0.join("rust/racejudge"))
            .env("OUT_DIR", self.0.join("out"))
            .output();
        let ran = ran.expect("the build script runs");
        assert!(ran.status.success());
        String::from_utf8(ran.stdout).expect("a text")
    }
}

#[test]
fn what_is_proved_is_linked() {
    let rt = "[ \"${PWD##*/} $*\" = 'capi_c lib' ] && echo >> out/libcapi_c.a";
    let repository = Repository::new("proved", Some(rt));
    let told = repository.told();
    assert!(told.contains(LINKED) && !told.contains("cargo::error"), "{told}");
    let linked = fs::read(repository.0.join("out/libracejudge_linked.a")).expect("a copy");
    assert_eq!(linked, [&archive("racejudge_version_6")[..], b"\n"].concat());
}

/// Though an archive is there that was proved before.
#[test]
fn what_is_not_proved_is_not_linked() {
    for (name, rt, why) in [
        (
            "refused",
            Some("echo 'src/lib.rt: not proved'; exit 1"),
            "cargo::error=src/lib.rt: not proved\n",
        ),
        ("missing", None, "cargo::error=tools/archive: rt is not on the path"),
    ] {
        let told = Repository::new(name, rt).told();
        assert!(told.contains(why) && !told.contains(LINKED), "{told}");
    }
}

#[test]
fn what_is_proved_of_another_version_is_not_linked() {
    let repository = Repository::new("another", Some("exit 0"));
    let file = repository.0.join("crates/capi_c/out/libcapi_c.a");
    fs::write(file, archive("racejudge_version_5")).expect("an archive");
    let told = repository.told();
    assert!(told.contains("cargo::error") && !told.contains(LINKED), "{told}");
}
