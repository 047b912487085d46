//! The proved scheduler beside the oracle on the same graphs, in one run.

use independent::draft::{arc, largest, operation, Arc, Draft, Operation};
use independent::oracle::{explore, read_graph, Answer, MOST_ROWS};
use independent::{ffi, oracle};
use std::time::{Duration, Instant};

/// Both schedulers are called in turn, at least so often and so long, so that
/// a busy moment of the machine meets both.
const LEAST_ROUNDS: usize = 3;
const LEAST_TIME: Duration = Duration::from_millis(500);

/// What the listing program lends.
const SLOTS: usize = 4096;

type Schedule = fn(&[u8], &mut [u64], &mut [u8]) -> Answer;

fn main() {
    println!("Both schedulers get the same slots and table buffer, cleared before each call.");
    println!("They are called in turn; the time is the least of several calls.");
    println!("The ratio is proved to oracle.");
    println!(
        "{:<41} {:>6} {:>7} {:>11} {:>10} {:>10} {:>7}",
        "graph", "answer", "states", "transitions", "proved", "oracle", "ratio"
    );
    for (name, draft, slots) in graphs() {
        measure(&name, &draft, slots);
    }
}

/// What is measured, with the slots lent. 24 independent operations have more
/// states than slots: they show how soon that is noticed.
fn graphs() -> Vec<(String, Draft, usize)> {
    let mut graphs = Vec::new();
    let mut add = |name: &str, draft, slots| graphs.push((name.to_string(), draft, slots));
    for (limit, units) in [(255, "ample units"), (1, "one unit")] {
        for count in [7, 8, 10, 12, 13, 14, 24] {
            let name = format!("{count} independent operations, {units}");
            let slots = if count == 24 { SLOTS } else { 1 << count };
            add(&name, chains(count, 1, limit), slots);
        }
        for (count, length) in [(2, 12), (3, 8), (4, 6)] {
            let name = format!("{count} chains of {length}, {units}");
            add(&name, chains(count, length, limit), SLOTS);
        }
    }
    add("a chain of 24", chains(1, 24, 1), SLOTS);
    add("the largest file", largest(), SLOTS);
    add("2 branches with sides of 2", branches(2, 2), SLOTS);
    add("3 branches with sides of 1", branches(3, 1), SLOTS);
    add("3 branches with sides of 2", branches(3, 2), 8 * SLOTS);
    add("4 branches in a row", branches_in_a_row(), 2 * SLOTS);
    graphs
}

/// Prints one line: the answer, the size of the search, both times.
fn measure(name: &str, draft: &Draft, slots: usize) {
    let file = draft.bytes();
    let (number, [proved, oracle]) = least_times(&file, slots);
    let graph = read_graph(&file).expect("a valid graph");
    let (states, transitions) = match explore(&graph, slots) {
        Some(space) => (space.states().to_string(), space.transitions().to_string()),
        None => (format!(">{slots}"), "-".to_string()),
    };
    let ratio = proved.as_secs_f64() / oracle.as_secs_f64();
    let [proved, oracle] = [proved, oracle].map(|time| format!("{time:.1?}"));
    println!(
        "{name:<41} {number:>6} {states:>7} {transitions:>11} {proved:>10} {oracle:>10} {ratio:>7.2}"
    );
}

/// The number both answer, and the least time of each: proved, then oracle.
fn least_times(graph: &[u8], slots: usize) -> (u32, [Duration; 2]) {
    let mut slots = vec![0; slots];
    let mut table = vec![0; 8 + 8 * MOST_ROWS];
    let mut timed = |schedule: Schedule| {
        slots.fill(0);
        table.fill(0);
        let begin = Instant::now();
        let answer = schedule(graph, &mut slots, &mut table);
        (answer, begin.elapsed())
    };
    let mut least = [Duration::MAX; 2];
    let mut answered = Answer::default();
    let mut rounds = 0;
    let begin = Instant::now();
    while rounds < LEAST_ROUNDS || begin.elapsed() < LEAST_TIME {
        let [(proved, proved_time), (oracle, oracle_time)] =
            [ffi::schedule, oracle::schedule].map(&mut timed);
        assert_eq!(proved, oracle);
        answered = proved;
        least = [least[0].min(proved_time), least[1].min(oracle_time)];
        rounds += 1;
    }
    (answered.number, least)
}

/// Chains beside each other, all of one class.
fn chains(count: usize, length: usize, limit: u8) -> Draft {
    let follows_another = |operation: &usize| !operation.is_multiple_of(length);
    let operations = count * length;
    Draft {
        limits: vec![limit],
        operations: vec![operation(0); operations],
        controls: vec![],
        arcs: (0..operations)
            .filter(follows_another)
            .map(|target| arc(target as u8 - 1, target as u8))
            .collect(),
    }
}

/// Independent branches: a compare, then so many operations on each side, in
/// a chain, on units of one class.
fn branches(count: u8, side_length: u8) -> Draft {
    let mut draft = Draft {
        limits: vec![count, 2],
        ..Draft::default()
    };
    for control in 0..count {
        draft.controls.push(draft.operations.len() as u8);
        draft.operations.push(operation(0));
        for side in [true, false] {
            let first = draft.operations.len() as u8;
            let on_side = |_| operation(1).on(control, side);
            draft.operations.extend((0..side_length).map(on_side));
            let after_first = first + 1..first + side_length;
            draft
                .arcs
                .extend(after_first.map(|target| arc(target - 1, target)));
        }
    }
    draft
}

/// Four branches, each compare after the join of the branch before.
fn branches_in_a_row() -> Draft {
    let mut operations: Vec<Operation> = Vec::new();
    let mut arcs: Vec<Arc> = Vec::new();
    for control in 0..4 {
        let compare = 3 * control;
        if control > 0 {
            arcs.push(arc(compare - 2, compare).through(control - 1, true));
            arcs.push(arc(compare - 1, compare).through(control - 1, false));
        }
        operations.push(operation(0));
        operations.push(operation(1).on(control, true));
        operations.push(operation(1).on(control, false));
    }
    Draft {
        limits: vec![1, 1],
        operations,
        controls: vec![0, 3, 6, 9],
        arcs,
    }
}
