//! The reader: refusals 1 to 11, each a pass over the whole file.

use super::graph::{Arc, Graph, Literal, Operation};
use super::{Refusal, MOST_ARCS, MOST_CLASSES, MOST_CONTROLS, MOST_OPERATIONS};

const HEADER: usize = 16;
const OPERATION: usize = 3;
const ARC: usize = 5;

/// Reads a graph file, or gives its first refusal.
pub fn read_graph(file: &[u8]) -> Result<Graph, Refusal> {
    let graph = split_file(file)?;
    first_fault(6, &graph.operations, |_, operation| {
        operation.class >= graph.limits.len()
    })?;
    first_fault(7, &graph.operations, |_, operation| {
        !well_formed(&operation.path, &graph)
    })?;
    first_fault(8, &graph.controls, |place, producer| {
        *producer >= graph.operations.len() || graph.controls[..place].contains(producer)
    })?;
    first_fault(9, &graph.operations, |place, operation| {
        !is_nested(place, operation, &graph)
    })?;
    first_fault(10, &graph.arcs, |place, arc| {
        !is_in_form(place, arc, &graph)
    })?;
    first_fault(11, &graph.arcs, |_, arc| !carries_source_path(arc, &graph))?;
    Ok(graph)
}

/// One pass: refuses at the first record that has the fault.
fn first_fault<T>(
    number: u32,
    records: &[T],
    is_fault: impl Fn(usize, &T) -> bool,
) -> Result<(), Refusal> {
    let mut places = 0..records.len();
    match places.find(|&place| is_fault(place, &records[place])) {
        Some(place) => Err(Refusal {
            number,
            place: place as u32,
        }),
        None => Ok(()),
    }
}

/// Refusals 1 to 5, then the records as they stand.
fn split_file(file: &[u8]) -> Result<Graph, Refusal> {
    if file.len() < HEADER {
        return Err(Refusal::unplaced(1));
    }
    if file[..3] != [0x48, 0x53, 1] {
        return Err(Refusal::unplaced(2));
    }
    let [operations, classes, controls] = [3, 4, 5].map(|at| usize::from(file[at]));
    let arcs = two_bytes(file, 6);
    if operations > MOST_OPERATIONS
        || classes > MOST_CLASSES
        || controls > MOST_CONTROLS
        || arcs > MOST_ARCS
    {
        return Err(Refusal::unplaced(3));
    }
    let operations_at = HEADER + classes;
    let controls_at = operations_at + OPERATION * operations;
    let arcs_at = controls_at + controls;
    let offsets = [8, 10, 12, 14].map(|at| two_bytes(file, at));
    if offsets != [HEADER, operations_at, controls_at, arcs_at] {
        return Err(Refusal::unplaced(4));
    }
    if file.len() != arcs_at + ARC * arcs {
        return Err(Refusal::unplaced(5));
    }
    let numbers = |part: &[u8]| part.iter().map(|&byte| usize::from(byte)).collect();
    Ok(Graph {
        limits: numbers(&file[HEADER..operations_at]),
        operations: records(&file[operations_at..controls_at], OPERATION, operation),
        controls: numbers(&file[controls_at..arcs_at]),
        arcs: records(&file[arcs_at..], ARC, arc),
    })
}

fn two_bytes(file: &[u8], at: usize) -> usize {
    usize::from(u16::from_le_bytes([file[at], file[at + 1]]))
}

fn records<T>(part: &[u8], size: usize, record: fn(&[u8]) -> T) -> Vec<T> {
    part.chunks_exact(size).map(record).collect()
}

fn operation(record: &[u8]) -> Operation {
    Operation {
        class: record[0].into(),
        path: literals(record[1], record[2]),
    }
}

fn arc(record: &[u8]) -> Arc {
    Arc {
        source: record[0].into(),
        target: record[1].into(),
        kind: record[2],
        literals: literals(record[3], record[4]),
    }
}

/// All eight bits of both masks become literals, so that a control the graph
/// does not have is seen by the pass for it.
fn literals(true_mask: u8, false_mask: u8) -> Vec<Literal> {
    let side = |mask: u8, side: bool| {
        (0..8)
            .filter(move |control| mask >> control & 1 == 1)
            .map(move |control| Literal { control, side })
    };
    side(true_mask, true)
        .chain(side(false_mask, false))
        .collect()
}

/// Every control is one of the graph's and none stands on both sides.
fn well_formed(literals: &[Literal], graph: &Graph) -> bool {
    literals.iter().all(|&Literal { control, side }| {
        let other_side = Literal {
            control,
            side: !side,
        };
        control < graph.controls.len() && !literals.contains(&other_side)
    })
}

/// The path holds the whole path of each control's operation, and the
/// operation produces none of the controls it stands on.
fn is_nested(place: usize, operation: &Operation, graph: &Graph) -> bool {
    operation.path.iter().all(|literal| {
        let producer = graph.controls[literal.control];
        let outer = &graph.operations[producer].path;
        producer != place && outer.iter().all(|literal| operation.path.contains(literal))
    })
}

fn is_in_form(place: usize, arc: &Arc, graph: &Graph) -> bool {
    let rises = |before: &Arc| (arc.target, arc.source) > (before.target, before.source);
    arc.source < arc.target
        && arc.target < graph.operations.len()
        && arc.kind <= 1
        && well_formed(&arc.literals, graph)
        && (!arc.is_follow() || arc.literals.is_empty())
        && (place == 0 || rises(&graph.arcs[place - 1]))
}

fn carries_source_path(arc: &Arc, graph: &Graph) -> bool {
    let target_path = &graph.operations[arc.target].path;
    let mut source_path = graph.operations[arc.source].path.iter();
    source_path.all(|literal| target_path.contains(literal) || arc.literals.contains(literal))
}
