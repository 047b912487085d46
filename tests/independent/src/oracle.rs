//! Document 01 a second time: reader, scheduler, checker and the query for the
//! rows of one cycle; and the writer of document 02's Req 01.
//!
//! The method is another one than that of the proved code. Literals are lists
//! of (control, side), outcomes are optional truth values; the reachable states
//! are found breadth first, with the steps of a state built as combinations
//! per class; the remaining numbers are a fixpoint over all states at once; the
//! checker reads the rules on sets of operations.

mod checker;
mod graph;
mod reader;
mod scheduler;
mod steps;
mod table;
mod writer;

pub use checker::is_legal;
pub use graph::{Arc, Graph, Literal, Operation, State};
pub use reader::read_graph;
pub use scheduler::{explore, plan, Outcome, Schedule, Space};
pub use steps::{legal_steps, Steps};
pub use table::{Row, Table, MOST_ROWS};
pub use writer::{write_graph, Content};

use std::ops::Range;

pub const MOST_OPERATIONS: usize = 24;
pub const MOST_CLASSES: usize = 8;
pub const MOST_CONTROLS: usize = 4;
pub const MOST_ARCS: usize = 276;

/// A refusal number of document 01 with its place.
#[derive(Clone, Copy, Debug, PartialEq, Eq)]
pub struct Refusal {
    pub number: u32,
    pub place: u32,
}

impl Refusal {
    /// A refusal whose place is not named.
    fn unplaced(number: u32) -> Self {
        Refusal { number, place: 0 }
    }
}

/// What the scheduler and the checker answer; number 0 is success.
#[derive(Clone, Copy, Debug, Default, PartialEq, Eq)]
pub struct Answer {
    pub number: u32,
    pub place: u32,
    pub cycles: u32,
    pub rows: u32,
    pub states: u32,
}

impl From<Refusal> for Answer {
    fn from(refusal: Refusal) -> Self {
        Answer {
            number: refusal.number,
            place: refusal.place,
            ..Answer::default()
        }
    }
}

/// What the reader answers; number 0 is success.
#[derive(Clone, Copy, Debug, Default, PartialEq, Eq)]
pub struct Reading {
    pub number: u32,
    pub place: u32,
    pub operations: u32,
    pub classes: u32,
    pub controls: u32,
    pub arcs: u32,
}

/// Reads a graph file and answers with its counts, or with refusal 1 to 11.
pub fn read(graph: &[u8]) -> Reading {
    match read_graph(graph) {
        Ok(graph) => Reading {
            operations: graph.operations.len() as u32,
            classes: graph.limits.len() as u32,
            controls: graph.controls.len() as u32,
            arcs: graph.arcs.len() as u32,
            ..Reading::default()
        },
        Err(Refusal { number, place }) => Reading {
            number,
            place,
            ..Reading::default()
        },
    }
}

/// What the writer answers; number 0 is success, with the length of the file.
#[derive(Clone, Copy, Debug, Default, PartialEq, Eq)]
pub struct Writing {
    pub number: u32,
    pub place: u32,
    pub length: u32,
}

/// Writes the graph file of a content to the front of the output, which only
/// success changes.
pub fn write(content: &Content, output: &mut [u8]) -> Writing {
    match write_graph(content, output.len()) {
        Ok(file) => {
            output[..file.len()].copy_from_slice(&file);
            Writing {
                length: file.len() as u32,
                ..Writing::default()
            }
        }
        Err(Refusal { number, place }) => Writing {
            number,
            place,
            ..Writing::default()
        },
    }
}

/// Schedules a graph file; both lent buffers end as document 01 says.
pub fn schedule(graph: &[u8], slots: &mut [u64], table: &mut [u8]) -> Answer {
    Outcome::of(graph, slots.len()).lend(slots, table)
}

/// Checks a table against a graph.
pub fn check(graph: &[u8], table: &[u8]) -> Answer {
    match checked_table(graph, table) {
        Ok(table) => Answer {
            cycles: u32::from(table.cycles),
            rows: table.rows.len() as u32,
            ..Answer::default()
        },
        Err(refusal) => refusal.into(),
    }
}

/// The part of a table in which the rows of one cycle stand.
pub fn rows_of(graph: &[u8], table: &[u8], cycle: u32) -> Range<usize> {
    let Ok(accepted) = checked_table(graph, table) else {
        return 0..0;
    };
    if cycle == 0 || cycle > u32::from(accepted.cycles) {
        return table.len()..table.len();
    }
    let rows_before = |end: u32| {
        let before = accepted
            .rows
            .iter()
            .filter(|row| u32::from(row.cycle) < end);
        before.count()
    };
    table::offset_of_row(rows_before(cycle))..table::offset_of_row(rows_before(cycle + 1))
}

fn checked_table(graph: &[u8], table: &[u8]) -> Result<Table, Refusal> {
    let graph = read_graph(graph)?;
    let table = Table::read(table)?;
    checker::check_rows(&graph, &table)?;
    Ok(table)
}
