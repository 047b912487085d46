//! Graphs, tables and contents from seeds: valid ones, and damaged ones of
//! every kind.

mod contents;
mod damaged;
mod random;
mod tables;
mod valid;

pub use contents::{any_list, content};
pub use damaged::{damaged_file, loose_graph, neighbours};
pub use random::Random;
pub use tables::{damaged_table, relaxed, strategy_table};
pub use valid::graph;

use std::ops::Range;

/// As many seeds as a test usually takes, or those that `COMPARE_FIRST_SEED`
/// and `COMPARE_SEEDS` choose.
pub fn seeds(usual: u64) -> Range<u64> {
    let chosen = |name: &str| {
        let text = std::env::var(name).ok()?;
        Some(text.parse::<u64>().expect("a number of seeds"))
    };
    let first = chosen("COMPARE_FIRST_SEED").unwrap_or(0);
    first..first + chosen("COMPARE_SEEDS").unwrap_or(usual)
}

/// A graph file: taken by the reader, or damaged, or loose.
pub fn file(random: &mut Random) -> Vec<u8> {
    match random.below(10) {
        0..=5 => graph(random).bytes(),
        6 | 7 => damaged_file(random),
        _ => loose_graph(random).bytes(),
    }
}
