//! The version of the C interface: the one that the header asks for, and the one that an archive has.
//! An archive of version 6 defines the function `racejudge_version_6`.

const DEFINE: &str = "#define RACEJUDGE_VERSION ";
const FUNCTION: &str = "racejudge_version_";

/// What an archive and a member of it start with.
const MAGIC: &[u8] = b"!<arch>\n";
const MEMBER_BYTES: usize = 60;

/// The version that a header defines.
pub fn needed(header: &str) -> Option<u32> {
    header.lines().find_map(|line| line.strip_prefix(DEFINE)?.trim_end().parse().ok())
}

/// Why an archive is not of the version that is needed, as a clause to be put behind its name.
pub fn refused(archive: &[u8], needed: u32) -> Option<String> {
    let Some(names) = names(archive) else {
        return Some("is no archive with an index of its functions".to_string());
    };
    let function = format!("{FUNCTION}{needed}");
    if names.contains(&function.as_bytes()) {
        return None;
    }
    Some(match names.into_iter().find_map(version) {
        Some(found) => format!("is of version {found}, but include/racejudge.h is of {needed}"),
        None => {
            format!("has no {function}: it is older than include/racejudge.h, or not the judge's")
        }
    })
}

/// The version that a function's name tells.
fn version(name: &[u8]) -> Option<u32> {
    let digits = name.strip_prefix(FUNCTION.as_bytes())?;
    std::str::from_utf8(digits).ok()?.parse().ok()
}

/// The functions that an archive defines: the names in its index, which is its first member. That has
/// their number n, n places of members, and the names, each ended by a byte 0.
fn names(archive: &[u8]) -> Option<Vec<&[u8]>> {
    let (head, rest) = archive.strip_prefix(MAGIC)?.split_at_checked(MEMBER_BYTES)?;
    if !head.starts_with(b"/ ") {
        return None;
    }
    let size: usize = std::str::from_utf8(&head[48..58]).ok()?.trim_end().parse().ok()?;
    let (number, rest) = rest.get(..size)?.split_first_chunk()?;
    let number = usize::try_from(u32::from_be_bytes(*number)).ok()?;
    let names = rest.get(number.checked_mul(4)?..)?;
    Some(names.split(|&byte| byte == 0).take(number).collect())
}
