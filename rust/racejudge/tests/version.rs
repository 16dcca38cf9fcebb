//! Which archives the build of the library takes, by the version of the header.

#[path = "../build/version.rs"]
mod version;

use racejudge::raw;

const HEADER: &str = include_str!("../../../include/racejudge.h");

/// What stands behind the index, and does not count.
const REST: &[u8] = b"racejudge_version_6\0";

/// An archive that defines these functions, as far as its index goes.
fn archive(names: &[&str]) -> Vec<u8> {
    let mut index = u32::try_from(names.len()).expect("a few").to_be_bytes().to_vec();
    index.extend(names.iter().flat_map(|_| 1_000_u32.to_be_bytes()));
    names.iter().for_each(|name| index.extend(format!("{name}\0").bytes()));
    let head = format!("{:<48}{:<10}`\n", "/", index.len());
    [b"!<arch>\n", head.as_bytes(), &index, REST].concat()
}

fn refused(names: &[&str], needed: u32) -> Option<String> {
    version::refused(&archive(names), needed)
}

#[test]
fn the_library_has_the_version_of_the_header() {
    assert_eq!(version::needed(HEADER), Some(raw::VERSION));
    assert_eq!(raw::version(), u64::from(raw::VERSION));
}

#[test]
fn a_header_says_its_version_in_a_line() {
    assert_eq!(version::needed("\n#define RACEJUDGE_VERSION 12\n"), Some(12));
    assert_eq!(version::needed("* VERSION 6.\n#define RACEJUDGE_VERSIONS 6\n"), None);
}

#[test]
fn the_same_version_is_taken() {
    assert_eq!(refused(&["racejudge_judge", "racejudge_version_6"], 6), None);
    assert_eq!(refused(&["racejudge_version_60"], 60), None);
    assert_eq!(refused(&["racejudge_version_6", "racejudge_version_6_notes"], 6), None);
}

#[test]
fn another_version_is_told() {
    for found in [5, 7, 60, 66] {
        let told = refused(&["racejudge_judge", &format!("racejudge_version_{found}")], 6);
        let clause = format!("is of version {found}, but include/racejudge.h is of 6");
        assert_eq!(told, Some(clause));
    }
}

#[test]
fn an_older_archive_or_another_is_told() {
    for names in
        [&["racejudge_pairs"][..], &["not_racejudge_version_6"], &["racejudge_version_six"], &[]]
    {
        let told = refused(names, 6).expect("it names no version");
        assert!(told.starts_with("has no racejudge_version_6: it is older than"), "{told}");
    }
}

#[test]
fn what_is_no_archive_is_told() {
    let whole = archive(&["racejudge_version_6"]);
    let cut = (0..whole.len() - REST.len()).map(|end| whole[..end].to_vec());
    let texts = ["", "\x7fELF", "racejudge_version_6\0"].map(|text| text.as_bytes().to_vec());
    for bytes in cut.chain(texts) {
        let told = version::refused(&bytes, 6);
        assert_eq!(told.as_deref(), Some("is no archive with an index of its functions"));
    }
}
