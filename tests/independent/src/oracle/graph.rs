//! The graph and its states, with the words document 01 defines on them: lost,
//! excluded, void, complete, next state.

use super::MOST_CONTROLS;
use std::hash::{Hash, Hasher};

/// A control with a side.
#[derive(Clone, Copy, Debug, PartialEq, Eq)]
pub struct Literal {
    pub control: usize,
    pub side: bool,
}

#[derive(Clone, Debug)]
pub struct Operation {
    pub class: usize,
    pub path: Vec<Literal>,
}

#[derive(Clone, Debug)]
pub struct Arc {
    pub source: usize,
    pub target: usize,
    pub kind: u8,
    pub literals: Vec<Literal>,
}

impl Arc {
    pub fn is_follow(&self) -> bool {
        self.kind == 1
    }
}

/// A graph; `controls` holds the operation that produces each control.
#[derive(Clone, Debug)]
pub struct Graph {
    pub limits: Vec<usize>,
    pub operations: Vec<Operation>,
    pub controls: Vec<usize>,
    pub arcs: Vec<Arc>,
}

/// The operations done, as a mask, and the outcome of each resolved control.
#[derive(Clone, Copy, Debug, Default, PartialEq, Eq)]
pub struct State {
    pub done: u32,
    pub outcomes: [Option<bool>; MOST_CONTROLS],
}

impl State {
    pub fn has_done(&self, operation: usize) -> bool {
        self.done >> operation & 1 == 1
    }

    /// The value mask of a row; open controls count as 0.
    pub fn values(&self) -> u8 {
        let is_true = |control: &usize| self.outcomes[*control] == Some(true);
        (0..MOST_CONTROLS)
            .filter(is_true)
            .map(|control| 1 << control)
            .sum()
    }

    fn loses(&self, literal: &Literal) -> bool {
        self.outcomes[literal.control] == Some(!literal.side)
    }

    fn loses_any(&self, literals: &[Literal]) -> bool {
        literals.iter().any(|literal| self.loses(literal))
    }
}

/// One number instead of many fields: the search hashes each state it meets.
impl Hash for State {
    fn hash<H: Hasher>(&self, hasher: &mut H) {
        hasher.write_u64(u64::from(self.done) << 8 | u64::from(self.values()));
    }
}

impl Graph {
    pub fn is_excluded(&self, operation: usize, state: &State) -> bool {
        state.loses_any(&self.operations[operation].path)
    }

    pub fn is_void(&self, arc: &Arc, state: &State) -> bool {
        state.loses_any(&arc.literals)
    }

    pub fn is_complete(&self, state: &State) -> bool {
        (0..self.operations.len())
            .all(|operation| state.has_done(operation) || self.is_excluded(operation, state))
    }

    /// The states after a legal step: one for each way the controls among its
    /// members may turn out.
    pub fn next_states(&self, state: &State, step: u32) -> impl Iterator<Item = State> {
        let resolved: Vec<usize> = (0..self.controls.len())
            .filter(|&control| step >> self.controls[control] & 1 == 1)
            .collect();
        let after = State {
            done: state.done | step,
            ..*state
        };
        (0..1u32 << resolved.len()).map(move |choice| {
            let mut next = after;
            for (position, &control) in resolved.iter().enumerate() {
                next.outcomes[control] = Some(choice >> position & 1 == 1);
            }
            next
        })
    }
}
