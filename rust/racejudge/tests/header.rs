//! The numbers of the C header, which the bindings have to say once more.

use racejudge::{
    max_pairs, raw, Card, Kind, Refusal, CLOSE, LOCATIONS, MAX_DEPTH, MAX_EVENTS, MAX_LINKS,
    MAX_TEXT_EVENTS, TEXT_BYTES,
};
use std::mem::offset_of;

const HEADER: &str = include_str!("../../../include/racejudge.h");
const CODE: &str = include_str!("../../../crates/capi_c/src/lib.rt");

fn says(words: String) {
    assert!(HEADER.contains(&words), "{words}");
}

/// The number stands in four places of the header: in words, and as three neighbours.
#[test]
fn the_version() {
    let version = raw::VERSION;
    says(format!(" * VERSION {version}. "));
    says(format!("#define RACEJUDGE_VERSION {version}\n"));
    says(format!("#define racejudge_version() racejudge_version_{version}()\n"));
    says(format!("uint64_t racejudge_version_{version}(void);\n"));
    assert_eq!(HEADER.matches("racejudge_version_").count(), 2);
}

#[test]
fn limits() {
    says(format!("#define RACEJUDGE_MAX_LINKS {MAX_LINKS}\n"));
    says(format!("#define RACEJUDGE_MAX_EVENTS {MAX_EVENTS}\n"));
    says(format!("#define RACEJUDGE_TEXT_EVENTS {MAX_TEXT_EVENTS}\n"));
    says(format!("#define RACEJUDGE_MAX_DEPTH {MAX_DEPTH}\n"));
    says(format!("#define RACEJUDGE_WORKSPACE {}\n", raw::WORKSPACE));
    says(format!("#define RACEJUDGE_CARDS {LOCATIONS}\n"));
    says(format!("#define RACEJUDGE_NOWHERE {}\n", raw::NOWHERE));
    let (thousands, rest) = (TEXT_BYTES / 1_000, TEXT_BYTES % 1_000);
    says(format!("The first {thousands},{rest:03} bytes of a text decide."));
    says(format!("#define RACEJUDGE_CLOSE {CLOSE}\n"));
}

/// The bound of the header's macro, and the most that it comes to.
#[test]
fn the_most_pairs() {
    let less = CLOSE * MAX_EVENTS - max_pairs(MAX_EVENTS);
    says(format!(": RACEJUDGE_CLOSE * (size_t)(n) - {less})\n"));
    says("has no more close pairs than this: 8,355,712 at the most.".to_string());
    assert_eq!(max_pairs(MAX_EVENTS), 8_355_712);
    for n in 0..=CLOSE {
        assert_eq!(max_pairs(n), n * n.saturating_sub(1) / 2);
    }
    for n in [CLOSE + 1, CLOSE + 2, 1_000, MAX_EVENTS - 1, MAX_EVENTS] {
        assert_eq!(max_pairs(n), CLOSE * n - less);
    }
}

/// A record's fields, in their order and with nothing between them.
#[test]
fn a_card() {
    let fields = [
        ("reads", offset_of!(Card, reads)),
        ("writes", offset_of!(Card, writes)),
        ("sums", offset_of!(Card, sums)),
        ("first", offset_of!(Card, first)),
        ("last", offset_of!(Card, last)),
    ];
    let places = (0..size_of::<Card>()).step_by(size_of::<u16>());
    assert!(places.eq(fields.map(|(_, place)| place)));
    let names = fields.map(|(name, _)| name).join(", ");
    says(format!("typedef struct racejudge_card {{\n    uint16_t {names};\n}} racejudge_card;"));
}

/// Each call stores as many values as it is given cells.
#[test]
fn values() {
    let stored = [
        ("judge", raw::judge(&[], &[], &[], &mut [], &mut [], &mut []).values.len()),
        (
            "judge_cards",
            raw::judge_cards(&[], &[], &[], &mut [], &mut [], &mut [], &mut []).values.len(),
        ),
        ("pairs", raw::pairs(&[], &[], &[], &mut [], &mut [], &mut []).values.len()),
        ("ordering", raw::ordering(&[], &[], &[], &mut [], 0, 0).values.len()),
        ("convert", raw::convert(&[], &[], &mut [], &mut []).values.len()),
        ("translate", raw::translate(&[], &mut [], &mut [], &mut []).values.len()),
        ("plan", raw::plan(&[], &mut [], &mut [], &mut []).values.len()),
    ];
    for (call, cells) in stored {
        let prototype = HEADER.split(&format!("uint64_t racejudge_{call}(")).nth(1);
        let parameters = prototype.and_then(|it| it.split(')').next()).unwrap_or_default();
        assert!(parameters.ends_with(&format!("uint64_t values[{cells}]")), "{call}: {parameters}");
    }
}

#[test]
fn codes() {
    let code = |name: &str, code: u64| format!("RACEJUDGE_{name} = {code}");
    says(format!("{{ {}, {} }};", code("CLEAN", raw::CLEAN), code("RACE", raw::RACE)));
    says(format!("{{ {}, {} }};", code("NO", raw::NO), code("YES", raw::YES)));
    let (translated, short) = (code("TRANSLATED", raw::TRANSLATED), code("SHORT", raw::SHORT));
    says(format!("{{ {translated}, {short} }};"));
    says(format!("{{ {} }};", code("CONVERTED", raw::CONVERTED)));
    says(format!("{{ {} }};", code("LISTED", raw::LISTED)));
    says(format!("{{ {} }};", code("REFUSED", raw::REFUSED)));
}

#[test]
fn kinds() {
    let names = Kind::ALL.map(|kind| format!("RACEJUDGE_{}", kind.to_string().to_uppercase()));
    says(format!("enum {{ {} }};", names.join(", ")));
    says(format!("*   kinds     {} .. {}\n", names[0], names[names.len() - 1]));
}

/// The clauses of the table, as far as the header has the same words.
#[test]
fn refusals() {
    for row in [5, 6, 7, 8, 9, 10, 11, 12] {
        says(format!("\n *   {row:>2}  {}\n", Refusal { row, position: 0 }.meaning()));
    }
    let short = Refusal { row: 20, position: 0 }.meaning();
    says(format!("\n *   20  {short} (the call for pairs only)\n"));
}

/// Words that the header and the library have in common, where the header does not have the same.
#[test]
fn other_refusals() {
    let common = [
        (1, "differ in length"),
        (2, "more than 32,768 events"),
        (3, "the workspace is too short"),
        (4, "an order buffer has fewer cells than the trace has events"),
        (13, "is not below the number of events"),
        (14, "is not of the "),
        (15, "the text makes more than 2,048 events"),
        (16, "there are fewer than 1,024 cards"),
        (17, "cannot continue a plan"),
        (18, "is an S or P that opens level 65"),
        (19, "a slice has fewer cells than the plan has events, or the plan needs more than 1,024"),
    ];
    for (row, words) in common {
        let meaning = Refusal { row, position: 0 }.meaning();
        assert!(meaning.contains(words), "{row}: {meaning}");
        let start = format!(" *   {row:>2}  ");
        let line = HEADER.lines().find_map(|line| line.strip_prefix(&start)).unwrap_or_default();
        assert!(line.contains(words), "{row}: {line}");
    }
}

/// A parameter of the code as C has it: a slice is a pointer and a length.
fn in_c(parameter: &str) -> String {
    let (name, of) = parameter.split_once(": ").expect("a name and a type");
    let name = if name == "ws" { "workspace" } else { name };
    let slice = |cells: &str| format!("{cells} *{name}, size_t {name}_len");
    match of {
        "usize" => format!("size_t {name}"),
        "&[u8]" => slice("const uint8_t"),
        "&[u16]" => slice("const uint16_t"),
        "&mut [u8]" => slice("uint8_t"),
        "&mut [u16]" => slice("uint16_t"),
        "&mut [Card]" => slice("racejudge_card"),
        _ => of.replace("&mut [u64; ", &format!("uint64_t {name}[")),
    }
}

/// The parameters of every call have the names and the types of the code's, in the same order. No C
/// compiler minds their names, but who calls goes by them.
#[test]
fn prototypes() {
    let header = HEADER.split_whitespace().collect::<Vec<_>>().join(" ");
    let calls = CODE.split("pub extern \"C\" fn ").skip(1);
    let calls: Vec<_> =
        calls.filter_map(|rest| rest.split_once(") -> u64")?.0.split_once('(')).collect();
    assert_eq!(calls.len(), 8);
    assert_eq!(header.matches("uint64_t racejudge_").count(), calls.len());
    for (name, list) in calls {
        let list = list.split(",\n").map(str::trim).filter(|one| !one.is_empty());
        let list = list.map(in_c).reduce(|list, one| list + ", " + &one);
        let wanted = format!("uint64_t {name}({});", list.as_deref().unwrap_or("void"));
        assert!(header.contains(&wanted), "{wanted}");
    }
}
