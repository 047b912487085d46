//! The proved library's writer against the oracle's, on contents from seeds, on
//! lists of every critical length and on every content one byte away from a few
//! small ones; and the writer against the reader.
//!
//! Compared each time: the answer with number, place and length, and the whole
//! of the output with a margin around it. A failure prints the seed and the
//! content. `COMPARE_FIRST_SEED` and `COMPARE_SEEDS` choose other seeds than the
//! usual ones.

use independent::draft::{case_a, file_of, largest, nested, Draft};
use independent::generate::{self, any_list, neighbours, seeds, Random};
use independent::lent::Lent;
use independent::oracle::{Content, Reading, Writing};
use independent::{ffi, oracle};
use std::collections::BTreeMap;
use std::ops::Range;

/// Room for the largest file.
const MOST_ROOM: usize = 1480;

/// Every number that the writer can answer with.
const NUMBERS: [u32; 11] = [0, 2, 3, 5, 6, 7, 8, 9, 10, 11, 14];

fn compare(seed: u64, content: &Content, room: usize, random: &mut Random) -> Writing {
    let mut output = Lent::noisy(room, || random.byte());
    let mut proved_output = output.clone();
    let proved = ffi::write(content, proved_output.lend());
    let expected = oracle::write(content, output.lend());
    let case = || format!("seed {seed}, room {room}, {content:02X?}");
    assert_eq!(proved, expected, "{}", case());
    assert!(proved_output == output, "output, {}", case());
    proved
}

/// Sizes of the output: none, one byte less than enough, exactly enough, more.
fn rooms(content: &Content, random: &mut Random) -> [usize; 4] {
    let enough = file_of(content).len();
    [0, enough - 1, enough, enough + random.between(1, 40)]
}

fn compare_in_all_rooms(seed: u64, content: &Content, random: &mut Random) -> [Writing; 4] {
    rooms(content, random).map(|room| compare(seed, content, room, random))
}

/// The file that the library writes for a content that it takes.
fn written(content: &Content) -> Vec<u8> {
    let mut output = vec![0; MOST_ROOM];
    let writing = ffi::write(content, &mut output);
    assert_eq!(writing.number, 0, "{content:02X?}");
    output.truncate(writing.length as usize);
    output
}

/// The lists of a file that the reader takes, cut out where its offsets say.
fn lists_of(file: &[u8]) -> Content {
    let offset = |at: usize| usize::from(u16::from_le_bytes([file[at], file[at + 1]]));
    let part = |bounds: Range<usize>| file[bounds].to_vec();
    let [limits, operations, controls, arcs] = [8, 10, 12, 14].map(offset);
    Content {
        edition: file[2],
        operations: part(operations..controls),
        limits: part(limits..operations),
        controls: part(controls..arcs),
        arcs: part(arcs..file.len()),
    }
}

#[test]
fn contents_from_seeds_agree() {
    for seed in seeds(50_000) {
        let random = &mut Random::new(seed);
        let content = generate::content(random);
        compare_in_all_rooms(seed, &content, random);
    }
}

/// The seeds are always the same here: a chosen few cannot meet every number.
#[test]
fn every_answer_is_met() {
    let mut met: BTreeMap<u32, u32> = BTreeMap::new();
    for seed in 0..4_000 {
        let random = &mut Random::new(seed);
        let content = generate::content(random);
        for writing in compare_in_all_rooms(seed, &content, random) {
            *met.entry(writing.number).or_default() += 1;
        }
    }
    for number in NUMBERS {
        let times = met.remove(&number).unwrap_or(0);
        assert!(times >= 20, "{number} was answered {times} times");
    }
    assert!(met.is_empty(), "answered too: {met:?}");
}

/// Reading back gives the content and its counts.
#[test]
fn what_is_written_reads_back() {
    for seed in seeds(20_000) {
        let draft = generate::graph(&mut Random::new(seed));
        let content = draft.content();
        let file = written(&content);
        let counts = Reading {
            operations: draft.operations.len() as u32,
            classes: draft.limits.len() as u32,
            controls: draft.controls.len() as u32,
            arcs: draft.arcs.len() as u32,
            ..Reading::default()
        };
        assert_eq!(ffi::read(&file), counts, "seed {seed}");
        assert_eq!(lists_of(&file), content, "seed {seed}");
    }
}

/// Writing what was read gives the same bytes.
#[test]
fn what_was_read_is_written_back() {
    for seed in seeds(20_000) {
        let file = generate::file(&mut Random::new(seed));
        if ffi::read(&file).number == 0 {
            assert_eq!(written(&lists_of(&file)), file, "seed {seed}");
        }
    }
}

/// Where the writer has no piece of a record and no count to refuse, it says
/// what both readers say of the file of that content.
#[test]
fn the_writer_refuses_what_the_readers_refuse() {
    for seed in seeds(50_000) {
        let content = generate::content(&mut Random::new(seed));
        let writing = ffi::write(&content, &mut [0; MOST_ROOM]);
        if [3, 5].contains(&writing.number) {
            continue;
        }
        let file = file_of(&content);
        for reading in [oracle::read(&file), ffi::read(&file)] {
            let refusal = (reading.number, reading.place);
            assert_eq!((writing.number, writing.place), refusal, "seed {seed}");
        }
    }
}

/// A list as long as asked: its front, or with zeros behind it.
fn resized(list: &[u8], length: usize) -> Vec<u8> {
    let mut list = list.to_vec();
    list.resize(length, 0);
    list
}

/// Each combination once with the records of the largest file and once with
/// any bytes.
fn compare_lengths(
    [operations, limits, controls, arcs]: [usize; 4],
    random: &mut Random,
) -> [[Writing; 4]; 2] {
    let full = largest().content();
    let of_records = Content {
        edition: 1,
        operations: resized(&full.operations, operations),
        limits: resized(&full.limits, limits),
        controls: resized(&full.controls, controls),
        arcs: resized(&full.arcs, arcs),
    };
    let of_any_bytes = Content {
        edition: 1,
        operations: any_list(random, operations),
        limits: any_list(random, limits),
        controls: any_list(random, controls),
        arcs: any_list(random, arcs),
    };
    [of_records, of_any_bytes].map(|content| compare_in_all_rooms(0, &content, random))
}

#[test]
fn lists_about_the_maxima_agree() {
    let random = &mut Random::new(0);
    for operations in [0, 1, 2, 3, 72, 73, 74, 75, 76, 77] {
        for limits in [0, 8, 9] {
            for controls in [0, 4, 5] {
                for arcs in [0, 1, 5, 1275, 1280, 1285, 1380, 1381, 1382, 1383, 1384, 1385, 1386] {
                    compare_lengths([operations, limits, controls, arcs], random);
                }
            }
        }
    }
}

/// Lists whose count, cut off to the bytes it has in a file, would be small.
#[test]
fn lists_too_long_for_their_counts_are_refused() {
    let random = &mut Random::new(0);
    let [small, large] = [1 << 8, 1 << 16];
    for more in [0, 1, 2] {
        for lengths in [
            [3 * (small + more), 8, 4, 1380],
            [72, small + more, 4, 1380],
            [72, 8, small + more, 1380],
            [72, 8, 4, 5 * (large + more)],
            [3 * large + more, large + more, large + more, 0],
        ] {
            for writing in compare_lengths(lengths, random).concat() {
                assert_eq!((writing.number, writing.place), (3, 0), "{lengths:?}");
            }
        }
    }
}

#[test]
fn every_edition_but_the_first_is_refused() {
    let random = &mut Random::new(0);
    for edition in 0..=255 {
        for draft in [Draft::default(), case_a(), nested(), largest()] {
            let content = Content {
                edition,
                ..draft.content()
            };
            let [_, _, enough, _] = compare_in_all_rooms(0, &content, random);
            let number = if edition == 1 { 0 } else { 2 };
            assert_eq!((enough.number, enough.place), (number, 0), "{edition}");
        }
    }
}

/// Puts a byte in a list, which grows by zeros where it is too short.
fn put(list: &mut Vec<u8>, at: usize, byte: u8) {
    list.resize(list.len().max(at + 1), 0);
    list[at] = byte;
}

/// A fault put in a content, and the refusal that it brings.
type Fault = (fn(&mut Content), (u32, u32));

/// Faults of `nested`, which has 6 operations, 2 limits, 2 controls, 4 arcs.
const FAULTS: [Fault; 26] = [
    (|content| content.edition = 0, (2, 0)),
    (|content| content.edition = 2, (2, 0)),
    // One record too many in each list, with a piece behind it or not.
    (|content| put(&mut content.operations, 74, 0), (3, 0)),
    (|content| put(&mut content.operations, 75, 0), (3, 0)),
    (|content| put(&mut content.limits, 8, 0), (3, 0)),
    (|content| put(&mut content.controls, 4, 0), (3, 0)),
    (|content| put(&mut content.arcs, 1384, 0), (3, 0)),
    (|content| put(&mut content.arcs, 1388, 0), (3, 0)),
    (|content| put(&mut content.operations, 18, 0), (5, 0)),
    (|content| put(&mut content.operations, 19, 0), (5, 0)),
    (|content| put(&mut content.arcs, 20, 0), (5, 0)),
    (|content| put(&mut content.arcs, 23, 0), (5, 0)),
    (|content| put(&mut content.operations, 0, 2), (6, 0)),
    (|content| put(&mut content.operations, 15, 255), (6, 5)),
    // A bit not below the controls, and both masks with one bit.
    (|content| put(&mut content.operations, 14, 0x80), (7, 4)),
    (|content| put(&mut content.operations, 10, 1), (7, 3)),
    (|content| put(&mut content.controls, 0, 255), (8, 0)),
    (|content| put(&mut content.controls, 1, 0), (8, 1)),
    // Control 1 on its own operation's path, and without control 0.
    (|content| put(&mut content.operations, 4, 3), (9, 1)),
    (|content| put(&mut content.operations, 7, 0), (9, 2)),
    // Source not below target, kind, order, a follow arc with a literal.
    (|content| put(&mut content.arcs, 0, 2), (10, 0)),
    (|content| put(&mut content.arcs, 17, 2), (10, 3)),
    (|content| put(&mut content.arcs, 10, 2), (10, 2)),
    (|content| put(&mut content.arcs, 19, 1), (10, 3)),
    // A literal of the source's path is lost on the way.
    (|content| put(&mut content.arcs, 9, 0), (11, 1)),
    (|content| put(&mut content.arcs, 14, 0), (11, 2)),
];

/// Each two faults together, with room and without: the lower number goes first
/// over all lists, then the lower place, and 14 comes last.
#[test]
fn the_first_of_competing_faults_is_given() {
    let random = &mut Random::new(0);
    for (at, (fault, refusal)) in FAULTS.iter().enumerate() {
        for (other_at, (other_fault, other_refusal)) in FAULTS.iter().enumerate() {
            let mut content = nested().content();
            fault(&mut content);
            other_fault(&mut content);
            let expected = *refusal.min(other_refusal);
            for writing in compare_in_all_rooms(0, &content, random) {
                let given = (writing.number, writing.place);
                assert_eq!(given, expected, "faults {at} and {other_at}");
            }
        }
    }
    let without_fault = compare_in_all_rooms(0, &nested().content(), random);
    let numbers = without_fault.map(|writing| writing.number);
    assert_eq!(numbers, [14, 14, 0, 0]);
}

/// Every content that differs in one byte of a list, or has a list that is cut
/// off or is one byte longer.
fn contents_nearby(content: &Content) -> Vec<Content> {
    let with = |list: fn(&mut Content) -> &mut Vec<u8>| {
        let lists = neighbours(list(&mut content.clone())).into_iter();
        lists.map(move |changed| {
            let mut nearby = content.clone();
            *list(&mut nearby) = changed;
            nearby
        })
    };
    with(|content| &mut content.operations)
        .chain(with(|content| &mut content.limits))
        .chain(with(|content| &mut content.controls))
        .chain(with(|content| &mut content.arcs))
        .collect()
}

#[test]
fn neighbours_of_small_contents_agree() {
    let random = &mut Random::new(0);
    for draft in [Draft::default(), case_a(), nested()] {
        for content in contents_nearby(&draft.content()) {
            compare_in_all_rooms(0, &content, random);
        }
    }
}
