//! Common names: values about their bound, and segments that name one and that a rule has something against, or nearly.

use crate::random::Random;
use crate::records::{segment, value};

/// The upper bound of a common name.
pub const BOUND: usize = 64;

const KNOWN: &[&[u8]] = &[
    b"Harbour Master",
    b"Night Desk (2)",
    b"Ann.Lee",
    b"J",
    b"a/b",
    b"x=y",
    b"/S=a",
    b"/CN=a/",
];

/// A value that keeps the rules.
pub fn common_name(random: &mut Random) -> Vec<u8> {
    match random.below(5) {
        0 => value(random, BOUND),
        1 => vec![*random.pick(b"cN/=("); *random.pick(&[1, BOUND - 1, BOUND])],
        _ => random.pick(KNOWN).to_vec(),
    }
}

/// Segments without the last `/`; what other names and DDs the record has stands among them.
pub fn odd_segments(random: &mut Random) -> Vec<u8> {
    const ODD: &[&[u8]] = &[
        b"/CN=a/CN=b",
        b"/CN=a/OU=u/cn=A",
        b"/CN=",
        b"/CN=/CN=",
        b"/S=Lee/CN=",
        b"/CN=a/PN=Ann.Lee",
        b"/PN=Lee/CN=a",
        b"/PN=M.T.Rose/CN=a$/b",
        b"/CN=a/PN=ab.",
        b"/S=a/PN=b/CN=c",
        b"/CN=a/G=Ann",
        b"/CN=a/I=M/GQ=3",
        b"/CN=a/G=Ann/S=Lee",
        b"/CN=a/RFC-822=b(a)c",
        b"/DD.CN=a",
        b"/DD.$/CN=a",
        b"/CN= a",
        b"/CN=a  b",
        b"/CN=a_b",
        b"/CN=a$",
        b"/CN=$a$ $b",
        b"/CN=a=b",
        b"/CN.x=a",
        b"/CNN=a",
        b"/C=XY/CN=a",
    ];
    if random.one_in(3) {
        let length = *random.pick(&[1, BOUND - 1, BOUND, BOUND + 1, BOUND + 1, 2 * BOUND]);
        let named = vec![*random.pick(b"cN/"); length];
        return segment(random, b"CN", &named);
    }
    let odd = *random.pick(ODD);
    random.cased(odd)
}
