//! The writer of Req 01: the one graph file of a content, or refusal 2, 3, 5, 6
//! to 11 or 14.
//!
//! Each list is cut into records first. The file grows part by part, and each
//! offset is put in when its part begins. Refusals 6 to 11 are what the reader
//! says of the file.

use super::reader::read_graph;
use super::{Refusal, MOST_ARCS, MOST_CLASSES, MOST_CONTROLS, MOST_OPERATIONS};

const EDITION: u8 = 1;

/// Where the header has the four offsets.
const OFFSETS_AT: usize = 8;

/// The edition, and lists of records one behind the other, every field a byte.
#[derive(Clone, Debug, PartialEq, Eq)]
pub struct Content {
    pub edition: u8,
    pub operations: Vec<u8>,
    pub limits: Vec<u8>,
    pub controls: Vec<u8>,
    pub arcs: Vec<u8>,
}

/// A list as records of `SIZE` bytes, and whether it ends inside of one.
struct Records<const SIZE: usize> {
    whole: Vec<[u8; SIZE]>,
    ends_inside: bool,
}

impl<const SIZE: usize> Records<SIZE> {
    fn of(list: &[u8]) -> Self {
        let chunks = list.chunks_exact(SIZE);
        Records {
            ends_inside: !chunks.remainder().is_empty(),
            whole: chunks
                .map(|chunk| chunk.try_into().expect("a chunk of the size"))
                .collect(),
        }
    }
}

/// A content whose lists are cut into records.
struct Cut {
    operations: Records<3>,
    limits: Records<1>,
    controls: Records<1>,
    arcs: Records<5>,
}

impl Cut {
    fn of(content: &Content) -> Self {
        Cut {
            operations: Records::of(&content.operations),
            limits: Records::of(&content.limits),
            controls: Records::of(&content.controls),
            arcs: Records::of(&content.arcs),
        }
    }

    fn has_too_many(&self) -> bool {
        self.operations.whole.len() > MOST_OPERATIONS
            || self.limits.whole.len() > MOST_CLASSES
            || self.controls.whole.len() > MOST_CONTROLS
            || self.arcs.whole.len() > MOST_ARCS
    }

    /// Limits and controls are records of one byte, so these never do.
    fn ends_inside_a_record(&self) -> bool {
        self.operations.ends_inside || self.arcs.ends_inside
    }

    /// The file, where no count is above its maximum.
    fn file(&self) -> Vec<u8> {
        let mut file = vec![0x48, 0x53, EDITION];
        file.push(self.operations.whole.len() as u8);
        file.push(self.limits.whole.len() as u8);
        file.push(self.controls.whole.len() as u8);
        file.extend((self.arcs.whole.len() as u16).to_le_bytes());
        file.extend([0; 8]);
        let parts = [
            self.limits.whole.concat(),
            self.operations.whole.concat(),
            self.controls.whole.concat(),
            self.arcs.whole.concat(),
        ];
        for (number, part) in parts.iter().enumerate() {
            let offset = (file.len() as u16).to_le_bytes();
            file[OFFSETS_AT + 2 * number..][..2].copy_from_slice(&offset);
            file.extend(part);
        }
        file
    }
}

/// The file of a content, or its first refusal, for an output of `room` bytes.
pub fn write_graph(content: &Content, room: usize) -> Result<Vec<u8>, Refusal> {
    if content.edition != EDITION {
        return Err(Refusal::unplaced(2));
    }
    let cut = Cut::of(content);
    if cut.has_too_many() {
        return Err(Refusal::unplaced(3));
    }
    if cut.ends_inside_a_record() {
        return Err(Refusal::unplaced(5));
    }
    let file = cut.file();
    read_graph(&file)?;
    if file.len() > room {
        return Err(Refusal::unplaced(14));
    }
    Ok(file)
}
