//! Which section is bad: a field of each alone, cut, beside another bad one and before 4, 5 and 6. The first in the bytes' order decides.

use super::*;

pub fn all(edges: &mut Edges) {
    let whole = full().bytes();
    for (i, bad) in BAD.iter().enumerate() {
        alone(edges, &whole, bad);
        before(edges, &whole, bad, &BAD[i + 1..]);
        early(edges, &whole, bad);
    }
    for reason in &LATE {
        edges.bytes(format!("{} alone", reason.name), &spoilt(&whole, &[reason]), reason.number);
    }
}

/// The only bad field, and the image cut in it and behind it.
fn alone(edges: &mut Edges, whole: &[u8], bad: &Bad) {
    let image = spoilt(whole, &[bad]);
    edges.bytes(bad.name, &image, bad.number);
    let behind = bad.place + bad.bytes.len();
    edges.bytes(format!("{}, cut behind it", bad.name), &image[..behind], bad.number);
    for end in bad.place..behind {
        let name = format!("{}, {} of its bytes", bad.name, end - bad.place);
        edges.bytes(name, &image[..end], 1);
    }
}

/// A second bad field behind it.
fn before(edges: &mut Edges, whole: &[u8], bad: &Bad, others: &[Bad]) {
    for other in others {
        let name = format!("{} before {}", bad.name, other.name);
        edges.bytes(name, &spoilt(whole, &[bad, other]), bad.number);
    }
}

/// A byte left over, a window past its memory or a PT twice beside it, which are told after it.
fn early(edges: &mut Edges, whole: &[u8], bad: &Bad) {
    let longer = [&spoilt(whole, &[bad])[..], &[0]].concat();
    edges.bytes(format!("{} and 4", bad.name), &longer, bad.number);
    for reason in &LATE {
        let name = format!("{} and {}", bad.name, reason.name);
        edges.bytes(name, &spoilt(whole, &[bad, reason]), bad.number);
    }
}

/// A field that gets these bytes, and how the image is then refused.
struct Bad {
    name: &'static str,
    number: u8,
    place: usize,
    bytes: &'static [u8],
}

const fn bad(name: &'static str, number: u8, place: usize, bytes: &'static [u8]) -> Bad {
    Bad { name, number, place, bytes }
}

/// Fields of the full image in the order of their places: rows at 1 and 29, processes at 59, 69 and 79, constants at 91,
/// registers at 111, data words at 292.
const BAD: [Bad; 33] = [
    bad("2 of tasks", 2, 0, &[8]),
    bad("first task number", 3, 1, &[0]),
    bad("first CB", 3, 2, &[0x10, 0]),
    bad("first DB", 3, 12, &[1, 0, 0, 0]),
    bad("first trap kind", 3, 20, &[0x13]),
    bad("first trapped PSW", 3, 21, &[0, 0, 0, 0, 0, 0, 0, 1]),
    bad("last task number", 3, 29, &[1]),
    bad("last CB", 3, 30, &[0xFF, 0xFF]),
    bad("last DL", 3, 44, &[0xFF, 0, 0, 0]),
    bad("last trap kind", 3, 48, &[0xFE]),
    bad("last trapped PSW", 3, 49, &[0, 0, 0, 0, 0, 0x10, 0, 0]),
    bad("2 of processes", 2, 57, &[65]),
    bad("flag", 12, 58, &[2]),
    bad("first PT", 12, 59, &[64]),
    bad("first task byte", 12, 60, &[2]),
    bad("first PSW", 12, 61, &[1, 0, 0, 0, 0, 0, 0, 0]),
    bad("second task byte", 12, 70, &[0]),
    bad("second PSW", 12, 71, &[0, 0, 0, 0, 0, 0x80, 0, 0]),
    bad("last PT", 12, 79, &[0xFF]),
    bad("last task byte", 12, 80, &[7]),
    bad("last PSW", 12, 81, &[0, 0, 0, 0, 0, 0x10, 0, 0]),
    bad("2 of constants", 2, 89, &[0x10, 1]),
    bad("first quality", 14, 91, &[7]),
    bad("last quality", 14, 100, &[0xFF]),
    bad("2 of registers", 2, 109, &[8, 1]),
    bad("first tag", 13, 111, &[7]),
    bad("second tag", 13, 120, &[15]),
    bad("last tag", 13, 147, &[0xFF]),
    bad("2 of program words", 2, 156, &[0, 0x10, 0, 1]),
    bad("2 of data words", 2, 288, &[0, 0x10, 0, 1]),
    bad("first state", 13, 292, &[2]),
    bad("second state", 13, 301, &[14]),
    bad("last state", 13, 571, &[0x80]),
];

/// What is told after all sections: the register window of row 1 past its memory, and a PT twice.
const LATE: [Bad; 2] = [bad("5", 5, 6, &[0, 9]), bad("6", 6, 69, &[5])];

/// The image with these fields bad.
fn spoilt(whole: &[u8], fields: &[&Bad]) -> Vec<u8> {
    let mut image = whole.to_vec();
    for field in fields {
        image[field.place..][..field.bytes.len()].copy_from_slice(field.bytes);
    }
    image
}
