//! The legal steps of a state, built class by class: every class offers its
//! combinations of ready operations within its limit, and a step is one
//! combination of each class.

use super::graph::{Graph, State};

/// The combinations of one class: the demanded operations and a pick of the
/// free ones, by size and then in dictionary order.
struct Combinations {
    demanded: u32,
    free: Vec<usize>,
    most_free: usize,
    /// Rising positions in `free`.
    picked: Vec<usize>,
}

impl Combinations {
    fn mask(&self) -> u32 {
        let pick = |mask, &position: &usize| mask | 1 << self.free[position];
        self.picked.iter().fold(self.demanded, pick)
    }

    /// Moves to the next combination; from the last one back to the first,
    /// with the answer false.
    fn advance(&mut self) -> bool {
        let size = self.picked.len();
        let highest = |at: usize| self.free.len() - size + at;
        if let Some(at) = (0..size).rev().find(|&at| self.picked[at] < highest(at)) {
            let moved = self.picked[at] + 1;
            for (offset, position) in self.picked[at..].iter_mut().enumerate() {
                *position = moved + offset;
            }
            return true;
        }
        let grows = size < self.most_free;
        self.picked.clear();
        self.picked.extend(0..if grows { size + 1 } else { 0 });
        grows
    }
}

/// All legal steps of one state, in no order of their masks.
pub struct Steps {
    classes: Vec<Combinations>,
    finished: bool,
}

impl Iterator for Steps {
    type Item = u32;

    fn next(&mut self) -> Option<u32> {
        while !self.finished {
            let masks = self.classes.iter().map(Combinations::mask);
            let step = masks.fold(0, |step, mask| step | mask);
            // The first class that can advance does; those before it start anew.
            self.finished = !self.classes.iter_mut().any(Combinations::advance);
            if step != 0 {
                return Some(step);
            }
        }
        None
    }
}

/// The legal steps of a state that is not complete. There are none where a
/// demanded operation is not ready, or a class has too many demanded ones.
pub fn legal_steps(graph: &Graph, state: &State) -> Steps {
    let ready = ready_operations(graph, state);
    let demanded = demanded_operations(graph, state);
    let mut possible = (0..ready.len()).all(|operation| ready[operation] || !demanded[operation]);
    let mut classes = Vec::with_capacity(graph.limits.len());
    for (class, &limit) in graph.limits.iter().enumerate() {
        let members = (0..ready.len())
            .filter(|&operation| ready[operation] && graph.operations[operation].class == class);
        let (forced, free): (Vec<usize>, Vec<usize>) =
            members.partition(|&operation| demanded[operation]);
        possible &= forced.len() <= limit;
        classes.push(Combinations {
            demanded: forced.iter().map(|operation| 1 << operation).sum(),
            most_free: limit.saturating_sub(forced.len()).min(free.len()),
            free,
            picked: Vec::new(),
        });
    }
    Steps {
        classes,
        finished: !possible,
    }
}

/// Not done, not excluded, and the source of every arc that is not void done.
fn ready_operations(graph: &Graph, state: &State) -> Vec<bool> {
    let mut ready: Vec<bool> = (0..graph.operations.len())
        .map(|operation| !state.has_done(operation) && !graph.is_excluded(operation, state))
        .collect();
    for arc in &graph.arcs {
        if !state.has_done(arc.source) && !graph.is_void(arc, state) {
            ready[arc.target] = false;
        }
    }
    ready
}

/// What the follow arcs demand, excluded or not.
fn demanded_operations(graph: &Graph, state: &State) -> Vec<bool> {
    let mut demanded = vec![false; graph.operations.len()];
    for arc in graph.arcs.iter().filter(|arc| arc.is_follow()) {
        demanded[arc.target] |= state.has_done(arc.source) && !state.has_done(arc.target);
    }
    demanded
}
