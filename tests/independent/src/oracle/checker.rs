//! The checker: the rules of a legal step read on sets of operations, and
//! refusals 16 to 20.

use super::graph::{Graph, State};
use super::table::Table;
use super::Refusal;
use std::collections::{BTreeMap, BTreeSet};

type Members = BTreeSet<usize>;

/// The unfinished states that may have a row, by cycle, values and done.
type Expected = BTreeMap<(u8, u8, u32), State>;

/// Refuses a table with number 16 to 20, or accepts it.
pub fn check_rows(graph: &Graph, table: &Table) -> Result<(), Refusal> {
    let rows = &table.rows;
    let falls = |row: &usize| rows[*row].place_in_run() <= rows[*row - 1].place_in_run();
    refuse_row(16, (1..rows.len()).find(falls))?;

    let mut expected = Expected::new();
    expect(graph, 1, State::default(), &mut expected);
    for (number, row) in rows.iter().enumerate() {
        let Some(&state) = expected.get(&row.place_in_run()) else {
            return refuse_row(17, Some(number));
        };
        if !is_legal(graph, &state, row.step) {
            return refuse_row(18, Some(number));
        }
        for next in graph.next_states(&state, row.step) {
            expect(graph, row.cycle + 1, next, &mut expected);
        }
    }
    refuse_missing_row(graph, table, &expected)?;

    let last_cycle = rows.last().map_or(0, |row| row.cycle);
    if table.cycles != last_cycle {
        return Err(Refusal::unplaced(20));
    }
    Ok(())
}

/// Rows are placed from 1.
fn refuse_row(number: u32, row: Option<usize>) -> Result<(), Refusal> {
    row.map_or(Ok(()), |row| {
        Err(Refusal {
            number,
            place: row as u32 + 1,
        })
    })
}

fn expect(graph: &Graph, cycle: u8, state: State, expected: &mut Expected) {
    if !graph.is_complete(&state) {
        expected.insert((cycle, state.values(), state.done), state);
    }
}

/// Refusal 19; every row stands for a state that is expected.
fn refuse_missing_row(graph: &Graph, table: &Table, expected: &Expected) -> Result<(), Refusal> {
    let present: BTreeSet<_> = table.rows.iter().map(|row| row.place_in_run()).collect();
    if table.rows.is_empty() && !expected.is_empty() {
        return Err(Refusal::unplaced(19));
    }
    let lacks_next = |row: &usize| {
        let row = &table.rows[*row];
        let state = &expected[&row.place_in_run()];
        graph.next_states(state, row.step).any(|next| {
            let place_in_run = (row.cycle + 1, next.values(), next.done);
            !graph.is_complete(&next) && !present.contains(&place_in_run)
        })
    };
    refuse_row(19, (0..table.rows.len()).find(lacks_next))
}

/// The rules of document 01 for one step, one after another. History and fork
/// hold by the making of the next states.
pub fn is_legal(graph: &Graph, state: &State, step: u32) -> bool {
    let members: Members = (0..u32::BITS as usize)
        .filter(|operation| step >> operation & 1 == 1)
        .collect();
    is_open(graph, state, &members)
        && has_its_sources(graph, state, &members)
        && is_within_limits(graph, &members)
        && !members
            .iter()
            .any(|&member| graph.is_excluded(member, state))
        && obeys_follow_arcs(graph, state, &members)
}

/// Not empty, and only operations of the graph that are not done.
fn is_open(graph: &Graph, state: &State, members: &Members) -> bool {
    !members.is_empty()
        && (members.iter())
            .all(|&member| member < graph.operations.len() && !state.has_done(member))
}

fn has_its_sources(graph: &Graph, state: &State, members: &Members) -> bool {
    (graph.arcs.iter())
        .filter(|arc| members.contains(&arc.target) && !graph.is_void(arc, state))
        .all(|arc| state.has_done(arc.source))
}

fn is_within_limits(graph: &Graph, members: &Members) -> bool {
    (graph.limits.iter().enumerate()).all(|(class, &limit)| {
        let in_class = |member: &&usize| graph.operations[**member].class == class;
        members.iter().filter(in_class).count() <= limit
    })
}

fn obeys_follow_arcs(graph: &Graph, state: &State, members: &Members) -> bool {
    (graph.arcs.iter())
        .filter(|arc| arc.is_follow() && state.has_done(arc.source) && !state.has_done(arc.target))
        .all(|arc| members.contains(&arc.target))
}
