//! Plans told by hand: texts with their answers, those at the limits among them, each in slices of
//! seven lengths. A text is told by a recipe: pieces with a blank between them, `64*S(` for a piece
//! that comes so many times, `10^P(` for a tree of this operator that is so deep. An underscore stands
//! for a blank, a tilde for a line feed.

use crate::compare::known;
use crate::reading::{Reading, Text};
use racejudge_bench::trace::Translation::{self, Events, Refused};

const TOLD: [(&[u8], Translation); 86] = [
    (b"S(w3,P(r3,r3))", Events(6)),
    (b"r0", Events(1)),
    (b"w1023", Events(1)),
    (b"s10", Events(1)),
    (b"S(r1,w2)", Events(2)),
    (b"P(r1,w2)", Events(5)),
    // Locations.
    (b"r", Refused(17, 1)),
    (b"r3~", Refused(17, 2)),
    (b"r01", Refused(17, 2)),
    (b"r00", Refused(17, 2)),
    (b"r1024", Refused(17, 4)),
    (b"r9999", Refused(17, 4)),
    (b"w1030", Refused(17, 4)),
    (b"s10231", Refused(17, 5)),
    (b"r-1", Refused(17, 1)),
    (b"r+1", Refused(17, 1)),
    (b"r_1", Refused(17, 1)),
    (b"_r1", Refused(17, 0)),
    (b"r1_", Refused(17, 2)),
    (b"r1\0", Refused(17, 2)),
    // Letters and marks.
    (b"", Refused(17, 0)),
    (b"R1", Refused(17, 0)),
    (b"7", Refused(17, 0)),
    (b"r1r1", Refused(17, 2)),
    (b"r1,r1", Refused(17, 2)),
    (b"r1)", Refused(17, 2)),
    (b"(r1,r1)", Refused(17, 0)),
    (b"\xff", Refused(17, 0)),
    (b"S", Refused(17, 1)),
    (b"Sr1", Refused(17, 1)),
    (b"s(r1,r1)", Refused(17, 1)),
    (b"S[r1,r1]", Refused(17, 1)),
    (b"S(", Refused(17, 2)),
    (b"S()", Refused(17, 2)),
    (b"S(,r1)", Refused(17, 2)),
    (b"P(r", Refused(17, 3)),
    (b"P(r1", Refused(17, 4)),
    (b"P(r1)", Refused(17, 4)),
    (b"P(r1;r1)", Refused(17, 4)),
    (b"P(r1_,r1)", Refused(17, 4)),
    (b"P(r1,", Refused(17, 5)),
    (b"P(r1,)", Refused(17, 5)),
    (b"P(r1,_r1)", Refused(17, 5)),
    (b"P(r1,r1", Refused(17, 7)),
    (b"P(r1,r1,", Refused(17, 7)),
    (b"P(r1,r1]", Refused(17, 7)),
    (b"P(r1,r1))", Refused(17, 8)),
    (b"P(r1,r1),", Refused(17, 8)),
    (b"S(w3)P(r3,r3)", Refused(17, 4)),
    (b"S(w3,P(r3,r3)", Refused(17, 13)),
    (b"S(w3,P(r3,r3))~", Refused(17, 14)),
    // 64 levels, and 65.
    (b"64*S( w2 64*,r1)", Events(65)),
    (b"64*P( w2 64*,r1)", Events(257)),
    (b"64*S(r1, w2 64*)", Events(65)),
    (b"64*P(r1, w2 64*)", Events(257)),
    (b"32*S( 32*P( w2 64*,r1)", Events(161)),
    (b"65*S( w2 65*,r1)", Refused(18, 128)),
    (b"65*P( w2 65*,r1)", Refused(18, 128)),
    (b"65*S(r1, w2 65*)", Refused(18, 320)),
    (b"65*P(r1, w2 65*)", Refused(18, 320)),
    (b"32*S( 33*P( w2 65*,r1)", Refused(18, 128)),
    // The letter of level 65, and of level 64, with nothing behind it, or no bracket.
    (b"64*S( S", Refused(18, 128)),
    (b"64*P( P", Refused(18, 128)),
    (b"64*S(r1, P", Refused(18, 320)),
    (b"64*P(r1, S", Refused(18, 320)),
    (b"64*S( Px", Refused(18, 128)),
    (b"64*P(r1, S,", Refused(18, 320)),
    (b"63*S( S", Refused(17, 127)),
    (b"63*S( Px", Refused(17, 127)),
    (b"63*P(r1, S", Refused(17, 316)),
    // 64 levels with no plan in them, with a bracket less or more.
    (b"64*S(", Refused(17, 128)),
    (b"64*P( )", Refused(17, 128)),
    (b"64*S(r1, ,", Refused(17, 320)),
    (b"64*S( w2 63*,r1)", Refused(17, 382)),
    (b"64*P( w2 64*,r1) )", Refused(17, 386)),
    // 1,023 and 1,024 P's, and 1,024 before a wrong byte.
    (b"10^P(", Events(4_093)),
    (b"P( 10^P( ,r1)", Refused(19, 0)),
    (b"P( 10^P( ,r1]", Refused(17, 6_145)),
    // 32,768 and 32,769 events, without P's and with 1,023.
    (b"15^S(", Events(32_768)),
    (b"S( 15^S( ,r1)", Refused(19, 0)),
    (b"S( 14^S( ,S( 13^S( ,S( 12^S( ,S(S(r1,S(r1,r1)), 10^P( 4*)", Events(32_768)),
    (b"S( 14^S( ,S( 13^S( ,S( 12^S( ,S(S(S(r1,r1),S(r1,r1)), 10^P( 4*)", Refused(19, 0)),
    // 40,960 events, with a wrong byte at the end, or none, and level 65 behind 32,768.
    (b"S( 15^S( , 13^S( )", Refused(19, 0)),
    (b"S( 15^S( , 13^S( x", Refused(17, 245_755)),
    (b"S( 15^S( , 13^S(", Refused(17, 245_755)),
    (b"S( 15^S( , 63*P( S", Refused(18, 196_733)),
];

/// More cells than needed in each slice, just enough, one too few in each place, none, one too few in all.
const ROOMS: [[isize; 3]; 7] =
    [[1, 3, 2], [0, 0, 0], [-1, 0, 1], [1, -1, 0], [0, 1, -1], [isize::MIN; 3], [-1, -1, -1]];

pub fn all(plans: &mut Reading) {
    for (recipe, said) in TOLD {
        let text = text(recipe);
        let need = plans.need(&text);
        for room in ROOMS {
            let short = matches!(said, Events(_)) && room.into_iter().any(|cells| cells < 0);
            let said = if short { Refused(19, 0) } else { said };
            let lent = room.map(|cells| need.saturating_add_signed(cells));
            known(plans.read_with(text.clone(), lent), said, format_args!("slices of {lent:?}"));
        }
    }
}

/// The text of a recipe.
pub fn text(recipe: &[u8]) -> Text {
    let mut text = recipe.split(|&byte| byte == b' ').flat_map(piece).collect::<Vec<u8>>();
    for byte in &mut text {
        *byte = match *byte {
            b'_' => b' ',
            b'~' => b'\n',
            other => other,
        };
    }
    text.into()
}

fn piece(piece: &[u8]) -> Vec<u8> {
    let Some(at) = piece.iter().position(|byte| b"*^".contains(byte)) else {
        return piece.to_vec();
    };
    let number = String::from_utf8_lossy(&piece[..at]).parse().expect("a number");
    match piece[at] {
        b'*' => piece[at + 1..].repeat(number),
        _ => tree(&piece[at + 1..], number, &mut 0),
    }
}

/// A tree of one operator, all of whose leaves are so deep. Neighbours differ; so many leaves come before.
fn tree(opening: &[u8], depth: usize, leaves: &mut usize) -> Vec<u8> {
    if depth == 0 {
        let i = *leaves;
        *leaves += 1;
        return vec![b"rws"[i % 3], b"0123456789"[i % 10]];
    }
    let one = tree(opening, depth - 1, leaves);
    [opening, &one, b",", &tree(opening, depth - 1, leaves), b")"].concat()
}
