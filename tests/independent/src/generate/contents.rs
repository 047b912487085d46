//! Contents for the writer: valid ones, faults in records and in bytes, lists of
//! any bytes.

use super::damaged::{disturb_bytes, disturb_records};
use super::{graph, loose_graph, Random};
use crate::oracle::Content;

/// Lengths of lists about the ends of records and about the maxima.
const OPERATIONS_LENGTHS: [usize; 8] = [0, 1, 3, 6, 72, 73, 75, 76];
const LIMITS_LENGTHS: [usize; 5] = [0, 1, 2, 8, 9];
const CONTROLS_LENGTHS: [usize; 5] = [0, 1, 2, 4, 5];
const ARCS_LENGTHS: [usize; 8] = [0, 4, 5, 10, 1380, 1381, 1385, 1386];

/// What the writer is given: a content that it takes, or one with faults.
pub fn content(random: &mut Random) -> Content {
    let mut content = match random.below(10) {
        0..=2 => graph(random).content(),
        3..=5 => damaged_content(random),
        6..=8 => loose_graph(random).content(),
        _ => any_content(random),
    };
    if random.chance(3) {
        content.edition = random.byte();
    }
    content
}

/// A content that was valid before one or two faults came in. What is left may
/// be valid by luck.
fn damaged_content(random: &mut Random) -> Content {
    let mut draft = graph(random);
    let in_records = random.below(3);
    for _ in 0..in_records {
        disturb_records(random, &mut draft);
    }
    let mut content = draft.content();
    for _ in 0..random.between(usize::from(in_records == 0), 1) {
        disturb_list_bytes(random, &mut content);
    }
    content
}

fn disturb_list_bytes(random: &mut Random, content: &mut Content) {
    let list = match random.below(4) {
        0 => &mut content.operations,
        1 => &mut content.limits,
        2 => &mut content.controls,
        _ => &mut content.arcs,
    };
    if list.is_empty() {
        list.push(random.byte());
    } else {
        disturb_bytes(random, list);
    }
}

fn any_content(random: &mut Random) -> Content {
    let mut list = |lengths: &[usize]| {
        let length = random.pick(lengths);
        any_list(random, length)
    };
    Content {
        edition: 1,
        operations: list(&OPERATIONS_LENGTHS),
        limits: list(&LIMITS_LENGTHS),
        controls: list(&CONTROLS_LENGTHS),
        arcs: list(&ARCS_LENGTHS),
    }
}

/// Any bytes, or any small numbers.
pub fn any_list(random: &mut Random, length: usize) -> Vec<u8> {
    let end = random.pick(&[1, 2, 24, 256]);
    (0..length).map(|_| random.below(end) as u8).collect()
}
