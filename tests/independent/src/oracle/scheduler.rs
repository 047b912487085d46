//! The scheduler: reachable states breadth first, remaining numbers as a
//! fixpoint, rows by a walk of the states the schedule meets.

use super::graph::{Graph, State};
use super::reader::read_graph;
use super::steps::legal_steps;
use super::table::{Row, Table};
use super::{Answer, Refusal};
use std::collections::HashMap;
use std::ops::Range;

/// A legal step of a reachable state, with the place of its next states in
/// `Space::next`.
struct Move {
    step: u32,
    next: Range<usize>,
}

/// The reachable states, numbered as they are found; the start is number 0.
pub struct Space {
    states: Vec<State>,
    /// For each state, the place of its steps in `moves`.
    moves_of: Vec<Range<usize>>,
    moves: Vec<Move>,
    next: Vec<usize>,
}

impl Space {
    pub fn states(&self) -> usize {
        self.states.len()
    }

    /// Pairs of a legal step and one of its outcomes.
    pub fn transitions(&self) -> usize {
        self.next.len()
    }

    fn moves(&self, state: usize) -> &[Move] {
        &self.moves[self.moves_of[state].clone()]
    }

    fn next(&self, taken: &Move) -> &[usize] {
        &self.next[taken.next.clone()]
    }
}

/// Finds all reachable states, or nothing if there are more than `most`.
pub fn explore(graph: &Graph, most: usize) -> Option<Space> {
    let mut space = Space {
        states: Vec::new(),
        moves_of: Vec::new(),
        moves: Vec::new(),
        next: Vec::new(),
    };
    let mut numbers = HashMap::new();
    number_of(State::default(), &mut space.states, &mut numbers, most)?;
    // The list of states is its own queue.
    while let Some(state) = space.states.get(space.moves_of.len()).copied() {
        let first_move = space.moves.len();
        if !graph.is_complete(&state) {
            for step in legal_steps(graph, &state) {
                let first_next = space.next.len();
                for next in graph.next_states(&state, step) {
                    let number = number_of(next, &mut space.states, &mut numbers, most)?;
                    space.next.push(number);
                }
                space.moves.push(Move {
                    step,
                    next: first_next..space.next.len(),
                });
            }
        }
        space.moves_of.push(first_move..space.moves.len());
    }
    Some(space)
}

/// The number of a state, a new one if it was not met before; nothing if that
/// would be one too many.
fn number_of(
    state: State,
    states: &mut Vec<State>,
    numbers: &mut HashMap<State, usize>,
    most: usize,
) -> Option<usize> {
    if let Some(&number) = numbers.get(&state) {
        return Some(number);
    }
    if states.len() == most {
        return None;
    }
    numbers.insert(state, states.len());
    states.push(state);
    Some(states.len() - 1)
}

/// The remaining number of every state: all missing at first but those of the
/// complete states, then the definition applied until nothing changes. A step
/// adds to the done set, so no state comes back to itself and the fixpoint is
/// the only one.
fn remaining_numbers(graph: &Graph, space: &Space) -> Vec<Option<u32>> {
    let mut remaining: Vec<Option<u32>> = (space.states.iter())
        .map(|state| graph.is_complete(state).then_some(0))
        .collect();
    // Late states stand near the end of a run: backwards settles sooner.
    let unfinished: Vec<usize> = (0..space.states())
        .rev()
        .filter(|&state| remaining[state].is_none())
        .collect();
    let mut changed = true;
    while changed {
        changed = false;
        for &state in &unfinished {
            let least = (space.moves(state).iter())
                .filter_map(|taken| cycles_with(taken, space, &remaining))
                .min();
            changed |= least != remaining[state];
            remaining[state] = least;
        }
    }
    remaining
}

/// 1 plus the largest remaining number among the next states, if all have one.
fn cycles_with(taken: &Move, space: &Space, remaining: &[Option<u32>]) -> Option<u32> {
    (space.next(taken).iter()).try_fold(1, |most, &next| Some(most.max(1 + remaining[next]?)))
}

/// The scheduler's result for a graph that has one.
#[derive(Clone, Debug)]
pub struct Schedule {
    pub table: Table,
    pub states: usize,
}

/// The schedule, or nothing if the start has no remaining number.
pub fn plan(graph: &Graph, space: &Space) -> Option<Schedule> {
    let remaining = remaining_numbers(graph, space);
    let cycles = remaining[0]? as u8;
    Some(Schedule {
        table: Table {
            cycles,
            rows: rows(cycles, space, &remaining),
        },
        states: space.states(),
    })
}

/// The rows of the states the schedule meets, cycle by cycle.
fn rows(cycles: u8, space: &Space, remaining: &[Option<u32>]) -> Vec<Row> {
    let mut rows = Vec::new();
    let mut met = vec![0];
    for cycle in 1..=cycles {
        let mut met_next = Vec::new();
        for state in met.into_iter().filter(|&state| remaining[state] != Some(0)) {
            let chosen = smallest_best_move(state, space, remaining);
            rows.push(Row {
                cycle,
                values: space.states[state].values(),
                done: space.states[state].done,
                step: chosen.step,
            });
            met_next.extend_from_slice(space.next(chosen));
        }
        met = met_next;
    }
    rows.sort();
    rows
}

fn smallest_best_move<'a>(state: usize, space: &'a Space, remaining: &[Option<u32>]) -> &'a Move {
    (space.moves(state).iter())
        .filter(|taken| cycles_with(taken, space, remaining) == remaining[state])
        .min_by_key(|taken| taken.step)
        .expect("a step attains the remaining number")
}

/// All that decides the scheduler's answer but the sizes of the buffers lent,
/// so that one search serves many lendings.
pub enum Outcome {
    Refused(Refusal),
    /// More reachable states than this number.
    MoreStatesThan(usize),
    /// The start has no remaining number; the number of reachable states.
    Stuck(usize),
    Planned(Schedule),
}

impl Outcome {
    /// Looks at no more than `most` reachable states.
    pub fn of(graph: &[u8], most: usize) -> Outcome {
        let graph = match read_graph(graph) {
            Ok(graph) => graph,
            Err(refusal) => return Outcome::Refused(refusal),
        };
        let Some(space) = explore(&graph, most) else {
            return Outcome::MoreStatesThan(most);
        };
        match plan(&graph, &space) {
            Some(schedule) => Outcome::Planned(schedule),
            None => Outcome::Stuck(space.states()),
        }
    }

    /// The scheduler's answer with these buffers, and their final contents.
    /// No more slots can be lent than states were looked at.
    pub fn lend(&self, slots: &mut [u64], table: &mut [u8]) -> Answer {
        let states = match self {
            Outcome::Refused(refusal) => return (*refusal).into(),
            Outcome::MoreStatesThan(most) => {
                assert!(slots.len() <= *most, "the search stopped before");
                most + 1
            }
            Outcome::Stuck(states) => *states,
            Outcome::Planned(schedule) => schedule.states,
        };
        slots.fill(0);
        if states > slots.len() {
            return Refusal::unplaced(12).into();
        }
        let Outcome::Planned(schedule) = self else {
            return Refusal::unplaced(13).into();
        };
        let file = schedule.table.bytes();
        let Some(room) = table.get_mut(..file.len()) else {
            return Refusal::unplaced(14).into();
        };
        room.copy_from_slice(&file);
        Answer {
            cycles: u32::from(schedule.table.cycles),
            rows: schedule.table.rows.len() as u32,
            states: states as u32,
            ..Answer::default()
        }
    }
}
