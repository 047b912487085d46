//! The proved library against the oracle, on graphs and tables from seeds and
//! on every file one byte away from a few small ones.
//!
//! Compared each time: the answer with number, place and counts, and the whole
//! of both lent buffers with a margin around them. A failure prints the seed,
//! the graph and the table. `COMPARE_FIRST_SEED` and `COMPARE_SEEDS` choose
//! other seeds than the usual ones.

use independent::draft::{arc, case_a, follow, largest, operation, Draft};
use independent::generate::{self, neighbours, seeds, Random};
use independent::lent::Lent;
use independent::oracle::{read_graph, Outcome, Table, MOST_ROWS};
use independent::{ffi, oracle};
use std::fmt;

/// Graphs with more reachable states than this only meet refusal 12.
const MOST_STATES: usize = 4096;

/// Room for the largest table.
const MOST_ROOM: usize = 8 + 8 * MOST_ROWS;

/// What a failure needs to be seen again.
struct Case<'a> {
    seed: u64,
    graph: &'a [u8],
    table: &'a [u8],
}

impl fmt::Display for Case<'_> {
    fn fmt(&self, out: &mut fmt::Formatter) -> fmt::Result {
        write!(out, "seed {}\ngraph", self.seed)?;
        self.graph
            .iter()
            .try_for_each(|byte| write!(out, " {byte:02X}"))?;
        write!(out, "\ntable")?;
        self.table
            .iter()
            .try_for_each(|byte| write!(out, " {byte:02X}"))
    }
}

/// Noise of one kind: any number, or small ones that could pass for states.
fn slots_noise(random: &mut Random) -> impl FnMut() -> u64 + '_ {
    let shift = [0, 40, 56][random.below(3)];
    move || random.number() >> shift
}

fn compare_schedule(case: &Case, outcome: &Outcome, lending: (usize, usize), random: &mut Random) {
    let (slots, room) = lending;
    let mut slots = Lent::noisy(slots, slots_noise(random));
    let mut table = Lent::noisy(room, || random.byte());
    let (mut proved_slots, mut proved_table) = (slots.clone(), table.clone());
    let proved = ffi::schedule(case.graph, proved_slots.lend(), proved_table.lend());
    let expected = outcome.lend(slots.lend(), table.lend());
    assert_eq!(proved, expected, "lent {lending:?}, {case}");
    assert!(proved_slots == slots, "slots, lent {lending:?}, {case}");
    assert!(proved_table == table, "table, lent {lending:?}, {case}");
}

/// Numbers of slots and sizes of the table buffer: exactly enough, one less,
/// none, more.
fn lendings(outcome: &Outcome, random: &mut Random) -> Vec<(usize, usize)> {
    let more = random.between(1, 40);
    match outcome {
        Outcome::Refused(_) => vec![(0, 0), (more, 8 + more)],
        Outcome::MoreStatesThan(most) => vec![(*most, MOST_ROOM), (random.below(*most), 8)],
        Outcome::Stuck(states) => vec![
            (*states, 0),
            (states - 1, MOST_ROOM),
            (0, 0),
            (states + more, MOST_ROOM),
        ],
        Outcome::Planned(schedule) => {
            let (states, length) = (schedule.states, schedule.table.bytes().len());
            vec![
                (states, length),
                (states - 1, length),
                (0, length),
                (states + more, length + more),
                (states, length - 1),
                (states + more, 0),
            ]
        }
    }
}

fn compare_reading_and_schedule(seed: u64, graph: &[u8], random: &mut Random) {
    let case = Case {
        seed,
        graph,
        table: &[],
    };
    assert_eq!(ffi::read(graph), oracle::read(graph), "{case}");
    let outcome = Outcome::of(graph, MOST_STATES);
    for lending in lendings(&outcome, random) {
        compare_schedule(&case, &outcome, lending, random);
    }
}

fn compare_check(seed: u64, graph: &[u8], table: &[u8]) {
    let case = Case { seed, graph, table };
    let expected = oracle::check(graph, table);
    assert_eq!(ffi::check(graph, table), expected, "{case}");
    let last = expected.cycles;
    for cycle in [0, 1, last / 2, last, last + 1, 255, 256, 257, u32::MAX] {
        let part = oracle::rows_of(graph, table, cycle);
        let proved = ffi::rows_of(graph, table, cycle);
        assert_eq!(proved, part, "rows of cycle {cycle}, {case}");
    }
}

#[test]
fn readings_of_damaged_files_agree() {
    for seed in seeds(200_000) {
        let random = &mut Random::new(seed);
        let graph = if random.chance(50) {
            generate::damaged_file(random)
        } else {
            generate::loose_graph(random).bytes()
        };
        let case = Case {
            seed,
            graph: &graph,
            table: &[],
        };
        assert_eq!(ffi::read(&graph), oracle::read(&graph), "{case}");
    }
}

#[test]
fn schedules_agree() {
    for seed in seeds(20_000) {
        let random = &mut Random::new(seed);
        let graph = generate::file(random);
        compare_reading_and_schedule(seed, &graph, random);
    }
}

#[test]
fn checks_of_tables_agree() {
    for seed in seeds(20_000) {
        let random = &mut Random::new(seed);
        let file = generate::file(random);
        let Ok(graph) = read_graph(&file) else {
            compare_check(seed, &file, &[]);
            continue;
        };
        let relaxed = generate::relaxed(random, &graph);
        let mut tables: Vec<Table> = [&graph, &relaxed]
            .map(|graph| generate::strategy_table(random, graph))
            .into();
        if let Outcome::Planned(schedule) = Outcome::of(&file, MOST_STATES) {
            tables.push(schedule.table);
        }
        for table in tables {
            compare_check(seed, &file, &table.bytes());
            for _ in 0..4 {
                let damaged = generate::damaged_table(random, &table);
                compare_check(seed, &file, &damaged);
            }
        }
    }
}

/// Nested branches, a join and a follow arc.
fn nested_branches() -> Draft {
    Draft {
        limits: vec![2, 1],
        operations: vec![
            operation(0),
            operation(1).on(0, true),
            operation(1).on(0, true).on(1, false),
            operation(0).on(0, false),
            operation(0),
        ],
        controls: vec![0, 1],
        arcs: vec![
            arc(1, 2),
            follow(0, 3),
            arc(2, 4).through(0, true).through(1, false),
            arc(3, 4).through(0, false),
        ],
    }
}

#[test]
fn neighbours_of_small_graphs_agree() {
    let random = &mut Random::new(0);
    for draft in [Draft::default(), case_a(), nested_branches()] {
        for graph in neighbours(&draft.bytes()) {
            compare_reading_and_schedule(0, &graph, random);
        }
    }
}

#[test]
fn neighbours_of_small_tables_agree() {
    let random = &mut Random::new(0);
    for draft in [Draft::default(), case_a(), nested_branches()] {
        let file = draft.bytes();
        let graph = read_graph(&file).expect("a valid graph");
        let mut tables: Vec<Table> = (0..4)
            .map(|_| generate::strategy_table(random, &graph))
            .collect();
        if let Outcome::Planned(schedule) = Outcome::of(&file, MOST_STATES) {
            tables.push(schedule.table);
        }
        for table in tables {
            for neighbour in neighbours(&table.bytes()) {
                compare_check(0, &file, &neighbour);
            }
        }
    }
}

#[test]
fn the_largest_file_agrees() {
    let random = &mut Random::new(0);
    let graph = largest().bytes();
    compare_reading_and_schedule(0, &graph, random);
    let Outcome::Planned(schedule) = Outcome::of(&graph, MOST_STATES) else {
        panic!("the largest file has a schedule");
    };
    compare_check(0, &graph, &schedule.table.bytes());
    for _ in 0..1_000 {
        let damaged = generate::damaged_table(random, &schedule.table);
        compare_check(0, &graph, &damaged);
    }
}
