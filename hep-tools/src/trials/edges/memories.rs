//! Every quality of a constant, tag of a register and state of a data word: alone, last of forty, and last on the bench; one of 130, cut.

use super::*;

/// Constants, registers or data words of an image.
type Memory = fn(&mut Draft) -> &mut Vec<(u8, u64)>;

pub fn all(edges: &mut Edges) {
    for value in 0..=255 {
        let number = if value < 7 { 0 } else { 14 };
        each(edges, "quality", value, number, |draft| &mut draft.constants);
        let number = if value < 15 && value != 7 { 0 } else { 13 };
        each(edges, "tag", value, number, |draft| &mut draft.registers);
        let number = if value < 2 { 0 } else { 13 };
        each(edges, "state", value, number, |draft| &mut draft.data);
    }
    many(edges);
}

/// A quality, tag or state of the last cell: alone, behind 39 others, and on the bench.
fn each(edges: &mut Edges, name: &str, value: u8, number: u8, memory: Memory) {
    for before in [0, 39] {
        let mut draft = Draft::default();
        *memory(&mut draft) = [cells(before, 0), cells(1, value)].concat();
        edges.image(format!("{name} {value} behind {before}"), &draft, number);
    }
    let draft = bench(|draft| memory(draft).last_mut().expect("the bench has cells").0 = value);
    edges.image(format!("{name} {value} on the bench"), &draft, number);
}

fn many(edges: &mut Edges) {
    for place in [0, 1, 62, 63, 64, 65, 127, 128, 129] {
        let bad = |tag| [cells(place, 0), cells(1, tag), cells(129 - place, 1)].concat();
        let constants = Draft { constants: bad(7), ..Draft::default() };
        one_of_130(edges, &format!("quality 7 at {place}"), &constants, 5 + 9 * place, 14);
        let registers = Draft { registers: bad(7), ..Draft::default() };
        one_of_130(edges, &format!("tag 7 at {place}"), &registers, 7 + 9 * place, 13);
        let data = Draft { data: bad(2), ..Draft::default() };
        one_of_130(edges, &format!("state 2 at {place}"), &data, 15 + 9 * place, 13);
    }
}

/// A bad quality, tag or state at this byte of the image, and the image cut before and behind it.
fn one_of_130(edges: &mut Edges, name: &str, draft: &Draft, byte: usize, number: u8) {
    let image = draft.bytes();
    edges.bytes(format!("{name} of 130"), &image, number);
    edges.bytes(format!("{name} of 130, cut before it"), &image[..byte], 1);
    edges.bytes(format!("{name} of 130, cut behind it"), &image[..=byte], number);
}
