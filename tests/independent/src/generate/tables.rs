//! Tables: other legal strategies, strategies that break one rule, and
//! damaged tables.

use super::damaged::{disturb_bytes, disturb_list};
use super::Random;
use crate::oracle::{self, Graph, Row, State, Table, MOST_OPERATIONS, MOST_ROWS};

/// A table by random legal steps, followed over all outcomes. Where they lead
/// to a state with no legal step, its row is missing.
pub fn strategy_table(random: &mut Random, graph: &Graph) -> Table {
    let mut rows = Vec::new();
    let mut met = vec![State::default()];
    let mut cycle = 1;
    while !met.is_empty() {
        let mut met_next = Vec::new();
        for state in met.iter().filter(|state| !graph.is_complete(state)) {
            if let Some(step) = some_legal_step(random, graph, state) {
                met_next.extend(graph.next_states(state, step));
                rows.push(Row {
                    cycle,
                    values: state.values(),
                    done: state.done,
                    step,
                });
            }
        }
        met = met_next;
        cycle += 1;
    }
    rows.sort();
    Table {
        cycles: rows.last().map_or(0, |row| row.cycle),
        rows,
    }
}

fn some_legal_step(random: &mut Random, graph: &Graph, state: &State) -> Option<u32> {
    // Wide graphs have millions of steps; some hundred are choice enough.
    let offered: Vec<u32> = oracle::legal_steps(graph, state).take(300).collect();
    (!offered.is_empty()).then(|| random.pick(&offered))
}

/// The graph with one rule less, or an easier one. A table for it breaks that
/// rule of the graph and keeps all others.
pub fn relaxed(random: &mut Random, graph: &Graph) -> Graph {
    let mut relaxed = graph.clone();
    match random.below(4) {
        0 => relaxed.arcs.iter_mut().for_each(|arc| arc.kind = 0),
        1 => relaxed.limits.iter_mut().for_each(|limit| *limit += 1),
        2 if !graph.arcs.is_empty() => {
            relaxed.arcs.remove(random.below(graph.arcs.len()));
        }
        3 if !graph.operations.is_empty() => {
            let operation = random.below(graph.operations.len());
            relaxed.operations[operation].path.clear();
        }
        _ => {}
    }
    relaxed
}

/// A table file with one or two faults, most of them kept in the order of rows
/// so that the later tests of the checker are reached.
pub fn damaged_table(random: &mut Random, table: &Table) -> Vec<u8> {
    let mut damaged = table.clone();
    for _ in 0..random.between(1, 2) {
        disturb_table(random, &mut damaged);
    }
    if random.chance(60) {
        damaged.rows.sort();
    }
    let mut file = damaged.bytes();
    if random.chance(20) {
        disturb_bytes(random, &mut file);
    }
    file
}

fn disturb_table(random: &mut Random, table: &mut Table) {
    match random.below(10) {
        0 => table.cycles = table.cycles.wrapping_add(random.pick(&[1, 2, 254, 255])),
        1 | 2 => disturb_list(random, &mut table.rows),
        3 => cut_off_rows(random, table),
        4 => table.rows.push(invented_row(random)),
        _ if table.rows.is_empty() => table.cycles = random.byte(),
        5 if random.chance(20) => {
            let row = random.pick(&table.rows);
            table
                .rows
                .resize(random.between(MOST_ROWS, MOST_ROWS + 2), row);
        }
        _ => {
            let at = random.below(table.rows.len());
            let other = random.pick(&table.rows);
            disturb_row(random, &mut table.rows[at], other);
        }
    }
}

/// The end of the run is left out, and the cycles follow.
fn cut_off_rows(random: &mut Random, table: &mut Table) {
    table.rows.truncate(random.below(table.rows.len() + 1));
    table.cycles = table.rows.last().map_or(0, |row| row.cycle);
}

fn invented_row(random: &mut Random) -> Row {
    Row {
        cycle: random.below(6) as u8,
        values: random.below(4) as u8,
        done: random.below(64) as u32,
        step: random.below(64) as u32,
    }
}

fn disturb_row(random: &mut Random, row: &mut Row, other: Row) {
    let stray_bit = 1 << random.below(MOST_OPERATIONS);
    match random.below(9) {
        0 => row.cycle = row.cycle.wrapping_add(random.pick(&[1, 255])),
        1 => row.cycle = random.byte(),
        2 => row.values ^= 1 << random.below(8),
        3 => row.done ^= stray_bit,
        4 | 5 => row.step ^= stray_bit,
        6 => row.step = random.pick(&[0, other.step, row.step | other.step]),
        7 => row.step &= random.number() as u32,
        _ => row.done = other.done,
    }
}
