//! The whole image: the smallest for each refusal, counts at their limits, where it ends, two reasons at once.

use super::*;

pub fn all(edges: &mut Edges) {
    for (number, image) in smallest() {
        edges.bytes(format!("the smallest of {number}"), &image, number);
    }
    edges.image("nothing in any section", &Draft::default(), 0);
    ends(edges);
    counts(edges);
    limits(edges);
    order(edges);
    cut_behind_a_field(edges);
}

fn ends(edges: &mut Edges) {
    for (name, whole) in [("bench", bench(|_| ()).bytes()), ("full image", full().bytes())] {
        let input = batch_input(&[1, 7], &whole);
        for end in 0..input.len() {
            edges.input(format!("the {name}'s first {end} bytes"), input[..end].to_vec(), 1);
        }
        edges.bytes(format!("the {name}"), &whole, 0);
        for more in [&[0][..], &[0; 2], &[0; 9], &[0xFF], &[0; 15], &whole] {
            let longer = [&whole, more].concat();
            edges.bytes(format!("the {name} and {} bytes", more.len()), &longer, 4);
        }
    }
}

/// An image's first bytes: the counts before this one are zero.
fn counts(edges: &mut Edges) {
    let sections: [(usize, &[u8], &[u8]); 6] = [
        (0, &[7], &[8]),
        (1, &[64], &[65]),
        (3, &[0x10, 0x00], &[0x10, 0x01]),
        (5, &[0x08, 0x00], &[0x08, 0x01]),
        (7, &[0, 0x10, 0, 0], &[0, 0x10, 0, 1]),
        (11, &[0, 0x10, 0, 0], &[0, 0x10, 0, 1]),
    ];
    let whole = Draft::default().bytes();
    for (start, most, over) in sections {
        let mut count = |name: &str, count: &[u8], number| {
            let image = [&whole[..start], count].concat();
            edges.bytes(format!("{name} at {start}"), &image, number);
        };
        count("the most", most, 1);
        count("one more", over, 2);
        count("the highest", &vec![0xFF; over.len()], 2);
        // A count is tested once all its bytes are there.
        count("a count cut", &[0xFF; 4][..over.len() - 1], 1);
        let rest = &whole[start + over.len()..];
        count("one more, and the rest", &[over, rest].concat(), 2);
        if over.len() == 4 {
            count("the most, and the rest", &[most, rest].concat(), 1);
        }
    }
}

/// As many values as there may be, and one more.
fn limits(edges: &mut Edges) {
    edges.both("seven rows", 0, |draft| draft.tasks = rows_of(1..=7));
    for (count, number) in [(4_096, 0), (4_097, 2)] {
        let draft = Draft { constants: cells(count, 0), ..Draft::default() };
        edges.image(format!("{count} constants"), &draft, number);
        let change = |draft: &mut Draft| draft.constants = vec![(3, 5); count];
        edges.image(format!("{count} constants on the bench"), &bench(change), number);
    }
    for (count, number) in [(2_048, 0), (2_049, 2)] {
        let draft = Draft { registers: cells(count, 0), ..Draft::default() };
        edges.image(format!("{count} registers"), &draft, number);
        let change = |draft: &mut Draft| draft.registers = vec![(3, 5); count];
        edges.image(format!("{count} registers on the bench"), &bench(change), number);
    }
}

/// Two reasons at once: the bytes' order decides between 1, 2, 3, 12, 14 and 13; then come 4, 5 and 6.
fn order(edges: &mut Edges) {
    let clash = |draft: &mut Draft| draft.processes = crowd(64);
    let past = |draft: &mut Draft| (clash(draft), draft.tasks[0].rl = 9).1;
    let twice = |draft: &mut Draft| {
        draft.processes = [crowd(1), crowd(1)].concat();
        draft.tasks[0].rb = 0;
    };
    for (name, image) in [("a crowd", bench(past).bytes()), ("a PT twice", bare(twice).bytes())] {
        edges.bytes(format!("5 and 6, {name}"), &image, 5);
        edges.bytes(format!("4, 5 and 6, {name}"), &[&image[..], &[0]].concat(), 4);
    }
    let crowded = |flag| move |draft: &mut Draft| (draft.processes, draft.flag) = (crowd(65), flag);
    edges.image("2 before 12", &bench(crowded(2)), 2);
    edges.image("3 before 2", &bench(|draft| (crowded(0)(draft), draft.tasks[0].kind = 1).1), 3);
    // The count of processes stands behind the only row.
    for (name, kind, flag, number) in [("2 before 12", 0xFF, 2, 2), ("3 before 2", 1, 0, 3)] {
        let mut image = bare(|draft| (draft.tasks[0].kind, draft.flag) = (kind, flag)).bytes();
        image[29] = 65;
        edges.bytes(format!("{name}, no process"), &image, number);
    }
}

/// A field out of its range is refused once all its bytes are there.
fn cut_behind_a_field(edges: &mut Edges) {
    let last = bench(|draft| draft.data[31].0 = 2).bytes();
    let only = Draft { data: cells(1, 2), ..Draft::default() }.bytes();
    for (name, image) in [("of 32", last), ("alone", only)] {
        edges.bytes(format!("13 and 4, {name}"), &[&image[..], &[0]].concat(), 13);
        edges.bytes(format!("a bad state's word cut, {name}"), &image[..image.len() - 8], 13);
        edges.bytes(format!("a bad state cut, {name}"), &image[..image.len() - 9], 1);
    }
    let good = Draft { data: cells(1, 1), ..Draft::default() }.bytes();
    edges.bytes("a good state's word cut", &good[..good.len() - 1], 1);
    let row = bare(|draft| draft.tasks[0].cb = 0x1000).bytes();
    edges.bytes("a field cut", &row[..3], 1);
    edges.bytes("a field whole", &row[..4], 3);
    let constant = |quality| Draft { constants: cells(1, quality), ..Draft::default() }.bytes();
    edges.bytes("a bad quality's word missing", &constant(7)[..6], 14);
    edges.bytes("a bad quality's word cut", &constant(7)[..13], 14);
    edges.bytes("a bad quality cut", &constant(7)[..5], 1);
    edges.bytes("a good quality's word missing", &constant(6)[..6], 1);
    edges.bytes("a good quality's word cut", &constant(6)[..13], 1);
    let tags = Draft { registers: cells(2, 7), ..Draft::default() }.bytes();
    let few = [&tags[..5], &[0, 9], &tags[7..26]].concat();
    edges.bytes("a tag before the end of too few registers", &few, 13);
}
