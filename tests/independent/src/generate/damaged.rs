//! Graph files with faults, alone or several together.

use super::{graph, Random};
use crate::draft::{Arc, Draft, Masks, Operation};
use crate::oracle::{MOST_CLASSES, MOST_CONTROLS, MOST_OPERATIONS};

/// A graph whose records hold small numbers, each of them likely but not
/// certain to be right, so that faults of several numbers come together.
pub fn loose_graph(random: &mut Random) -> Draft {
    let operations = rarely(random, MOST_OPERATIONS + 1, 6);
    let classes = rarely(random, MOST_CLASSES + 1, 3);
    let controls = rarely(random, MOST_CONTROLS + 1, 2);
    let arcs = random.below(6);
    let mut draft = Draft {
        limits: (0..classes).map(|_| random.below(3) as u8).collect(),
        operations: (0..operations)
            .map(|_| Operation {
                class: likely_below(random, classes),
                path: loose_masks(random, controls),
            })
            .collect(),
        controls: (0..controls)
            .map(|_| likely_below(random, operations))
            .collect(),
        arcs: (0..arcs)
            .map(|_| loose_arc(random, operations, controls))
            .collect(),
    };
    if random.chance(80) {
        draft.arcs.sort_by_key(|arc| (arc.target, arc.source));
    }
    draft
}

/// Now and then the given number, mostly one up to `most`.
fn rarely(random: &mut Random, number: usize, most: usize) -> usize {
    if random.chance(1) {
        number
    } else {
        random.between(0, most)
    }
}

fn likely_below(random: &mut Random, end: usize) -> u8 {
    let beyond = usize::from(random.chance(4));
    random.below((end + beyond).max(1)) as u8
}

fn loose_masks(random: &mut Random, controls: usize) -> Masks {
    let mut masks = Masks::default();
    for _ in 0..random.pick(&[0, 0, 0, 0, 1, 1, 2]) {
        masks = masks.with(likely_below(random, controls), random.chance(50));
    }
    if random.chance(2) {
        masks.when_true |= 1 << random.below(8);
    }
    masks
}

fn loose_arc(random: &mut Random, operations: usize, controls: usize) -> Arc {
    let ends = [0; 2].map(|_| likely_below(random, operations));
    let [source, target] = if random.chance(90) {
        [ends[0].min(ends[1]), ends[0].max(ends[1])]
    } else {
        ends
    };
    Arc {
        source,
        target,
        kind: random.pick(&[0, 0, 0, 0, 0, 0, 1, 2]),
        literals: loose_masks(random, controls),
    }
}

/// A file that was valid before one or two faults came in. What is left may
/// be valid by luck.
pub fn damaged_file(random: &mut Random) -> Vec<u8> {
    let mut draft = graph(random);
    let in_records = random.below(3);
    for _ in 0..in_records {
        disturb_records(random, &mut draft);
    }
    let mut file = draft.bytes();
    for _ in 0..random.between(usize::from(in_records == 0), 1) {
        disturb_bytes(random, &mut file);
    }
    file
}

/// A fault that leaves counts and offsets right.
pub fn disturb_records(random: &mut Random, draft: &mut Draft) {
    match random.below(6) {
        0 => disturb_list(random, &mut draft.limits),
        1 => disturb_list(random, &mut draft.operations),
        2 => disturb_list(random, &mut draft.controls),
        3 => disturb_list(random, &mut draft.arcs),
        4 => exchange_literals(
            random,
            draft.operations.iter_mut().map(|each| &mut each.path),
        ),
        _ => exchange_literals(random, draft.arcs.iter_mut().map(|each| &mut each.literals)),
    }
}

/// The literals of one record are put in place of those of another.
fn exchange_literals<'a>(random: &mut Random, records: impl Iterator<Item = &'a mut Masks>) {
    let mut records: Vec<&mut Masks> = records.collect();
    if records.is_empty() {
        return;
    }
    let [from, to] = [0; 2].map(|_| random.below(records.len()));
    *records[to] = *records[from];
}

/// Two records swapped, one dropped, or one doubled.
pub fn disturb_list<T: Clone>(random: &mut Random, records: &mut Vec<T>) {
    if records.is_empty() {
        return;
    }
    let [at, other] = [0; 2].map(|_| random.below(records.len()));
    match random.below(3) {
        0 => records.swap(at, other),
        1 => drop(records.remove(at)),
        _ => records.insert(at, records[at].clone()),
    }
}

/// A fault anywhere in a file.
pub fn disturb_bytes(random: &mut Random, file: &mut Vec<u8>) {
    let at = random.below(file.len());
    match random.below(6) {
        0 => file[at] = random.byte(),
        1 => file[at] ^= 1 << random.below(8),
        2 => file[at] = random.below(MOST_OPERATIONS + 1) as u8,
        3 => file[at] = file[at].wrapping_add(random.pick(&[1, 255])),
        4 => file.truncate(at),
        _ => file.extend((0..random.between(1, 9)).map(|_| random.byte())),
    }
}

/// Every file that differs in one byte, is cut off or is one byte longer.
pub fn neighbours(file: &[u8]) -> Vec<Vec<u8>> {
    let mut neighbours: Vec<Vec<u8>> = (0..file.len()).map(|end| file[..end].to_vec()).collect();
    neighbours.push([file, &[0]].concat());
    for at in 0..file.len() {
        for byte in 0..=255 {
            let mut neighbour = file.to_vec();
            neighbour[at] = byte;
            neighbours.push(neighbour);
        }
    }
    neighbours
}
