//! The oracle and the generators against themselves, and against the plainest
//! reading of document 01's definitions on graphs of a few operations.

use independent::draft::{nested, Draft, Masks};
use independent::generate::{self, Random};
use independent::oracle::{
    self, is_legal, legal_steps, read_graph, write_graph, Answer, Graph, Outcome, Row, Schedule,
    State, Table, Writing,
};
use std::collections::{BTreeMap, BTreeSet};

const MOST_STATES: usize = 4096;

/// A draft, its graph and its schedule, for every seed that has them.
fn scheduled(seeds: u64) -> impl Iterator<Item = (Draft, Graph, Schedule, Random)> {
    (0..seeds).filter_map(|seed| {
        let mut random = Random::new(seed);
        let draft = generate::graph(&mut random);
        let file = draft.bytes();
        let graph = read_graph(&file).unwrap_or_else(|refusal| panic!("seed {seed}: {refusal:?}"));
        match Outcome::of(&file, MOST_STATES) {
            Outcome::Planned(schedule) => Some((draft, graph, schedule, random)),
            _ => None,
        }
    })
}

fn check(draft: &Draft, table: &Table) -> Answer {
    oracle::check(&draft.bytes(), &table.bytes())
}

fn number_and_place(answer: Answer) -> (u32, u32) {
    (answer.number, answer.place)
}

/// The definitions of document 01 word for word: plain recursion over the
/// masks of the records, every set of operations tried as a step.
mod naive {
    use super::*;

    /// Done mask and value mask.
    pub type State = (u32, u8);

    fn resolved(draft: &Draft, done: u32) -> u8 {
        let is_done = |producer: u8| done >> producer & 1 == 1;
        (draft.controls.iter().enumerate())
            .map(|(control, &producer)| u8::from(is_done(producer)) << control)
            .sum()
    }

    fn any_lost(draft: &Draft, literals: Masks, (done, values): State) -> bool {
        let lost_true = literals.when_true & !values;
        let lost_false = literals.when_false & values;
        (lost_true | lost_false) & resolved(draft, done) != 0
    }

    fn excluded(draft: &Draft, operation: usize, state: State) -> bool {
        any_lost(draft, draft.operations[operation].path, state)
    }

    pub fn complete(draft: &Draft, state: State) -> bool {
        (0..draft.operations.len())
            .all(|operation| state.0 >> operation & 1 == 1 || excluded(draft, operation, state))
    }

    fn legal(draft: &Draft, state: State, step: u32) -> bool {
        let done = |operation: u8| state.0 >> operation & 1 == 1;
        let member = |operation: u8| step >> operation & 1 == 1;
        let arcs_hold = draft.arcs.iter().all(|arc| {
            let void = any_lost(draft, arc.literals, state);
            let depends = !member(arc.target) || void || done(arc.source);
            let demands = arc.kind == 1 && done(arc.source) && !done(arc.target);
            depends && (!demands || member(arc.target))
        });
        let limits_hold = (0..draft.limits.len()).all(|class| {
            let used = (0..draft.operations.len() as u8).filter(|&operation| {
                member(operation)
                    && usize::from(draft.operations[operation as usize].class) == class
            });
            used.count() <= usize::from(draft.limits[class])
        });
        let none_excluded = (0..draft.operations.len())
            .all(|operation| !member(operation as u8) || !excluded(draft, operation, state));
        step != 0 && step & state.0 == 0 && arcs_hold && limits_hold && none_excluded
    }

    pub fn legal_steps(draft: &Draft, state: State) -> impl Iterator<Item = u32> + '_ {
        (1..1 << draft.operations.len()).filter(move |&step| legal(draft, state, step))
    }

    /// All values that keep what was resolved before and leave open bits 0.
    pub fn next_states(draft: &Draft, (done, values): State, step: u32) -> Vec<State> {
        let before = resolved(draft, done);
        let after = resolved(draft, done | step);
        (0..16)
            .filter(|next_values| next_values & before == values && next_values & !after == 0)
            .map(|next_values| (done | step, next_values))
            .collect()
    }

    pub fn remaining(draft: &Draft, state: State) -> Option<u32> {
        if complete(draft, state) {
            return Some(0);
        }
        legal_steps(draft, state)
            .filter_map(|step| remaining_after(draft, state, step))
            .min()
    }

    fn remaining_after(draft: &Draft, state: State, step: u32) -> Option<u32> {
        let next = next_states(draft, state, step).into_iter();
        let numbers: Option<Vec<u32>> = next.map(|next| remaining(draft, next)).collect();
        numbers?.into_iter().max().map(|most| most + 1)
    }

    /// Steps are tried from the smallest on, so the first that attains the
    /// number is the chosen one.
    pub fn collect_rows(draft: &Draft, state: State, cycle: u8, rows: &mut BTreeSet<Row>) {
        if complete(draft, state) {
            return;
        }
        let number = remaining(draft, state);
        let step = legal_steps(draft, state)
            .find(|&step| remaining_after(draft, state, step) == number)
            .expect("a step attains the number");
        let (done, values) = state;
        rows.insert(Row {
            cycle,
            values,
            done,
            step,
        });
        for next in next_states(draft, state, step) {
            collect_rows(draft, next, cycle + 1, rows);
        }
    }

    pub fn collect_reachable(draft: &Draft, state: State, reached: &mut BTreeSet<State>) {
        if !reached.insert(state) || complete(draft, state) {
            return;
        }
        for step in legal_steps(draft, state) {
            for next in next_states(draft, state, step) {
                collect_reachable(draft, next, reached);
            }
        }
    }
}

#[test]
fn the_naive_definitions_agree() {
    let mut compared = 0;
    for seed in 0..20_000 {
        let draft = generate::graph(&mut Random::new(seed));
        if draft.operations.len() > 5 {
            continue;
        }
        compared += 1;
        let mut reached = BTreeSet::new();
        naive::collect_reachable(&draft, (0, 0), &mut reached);
        match Outcome::of(&draft.bytes(), MOST_STATES) {
            Outcome::Planned(schedule) => {
                let mut rows = BTreeSet::new();
                naive::collect_rows(&draft, (0, 0), 1, &mut rows);
                let cycles = Some(u32::from(schedule.table.cycles));
                assert_eq!(naive::remaining(&draft, (0, 0)), cycles, "seed {seed}");
                assert!(rows.iter().eq(&schedule.table.rows), "seed {seed}");
                assert_eq!(schedule.states, reached.len(), "seed {seed}");
            }
            Outcome::Stuck(states) => {
                assert_eq!(naive::remaining(&draft, (0, 0)), None, "seed {seed}");
                assert_eq!(states, reached.len(), "seed {seed}");
            }
            _ => panic!("seed {seed} has a few states at most"),
        }
    }
    assert!(compared > 2_000, "{compared} graphs of a few operations");
}

/// The combinations of the scheduler are the sets that the checker calls
/// legal, each once, in states along random runs.
#[test]
fn combinations_are_the_legal_sets() {
    for seed in 0..4_000 {
        let mut random = Random::new(seed);
        let draft = generate::graph(&mut random);
        if draft.operations.len() > 10 {
            continue;
        }
        let graph = read_graph(&draft.bytes()).expect("a valid graph");
        let mut state = State::default();
        while !graph.is_complete(&state) {
            let mut combined: Vec<u32> = legal_steps(&graph, &state).collect();
            combined.sort();
            let all = 0..2 << draft.operations.len();
            let legal: Vec<u32> = all.filter(|&step| is_legal(&graph, &state, step)).collect();
            assert_eq!(combined, legal, "seed {seed}, {state:?}");
            if legal.is_empty() {
                break;
            }
            let step = legal[random.below(legal.len())];
            let mut next: Vec<State> = graph.next_states(&state, step).collect();
            state = next.swap_remove(random.below(next.len()));
        }
    }
}

#[test]
fn schedules_pass_the_checker() {
    for (draft, _, schedule, _) in scheduled(6_000) {
        let accepted = Answer {
            cycles: schedule.table.cycles.into(),
            rows: schedule.table.rows.len() as u32,
            ..Answer::default()
        };
        assert_eq!(check(&draft, &schedule.table), accepted, "{draft:?}");
        assert_eq!(Table::read(&schedule.table.bytes()), Ok(schedule.table));
    }
}

/// Any other strategy that the checker takes is as long or longer; one that
/// runs into a state with no legal step is refused for the missing row.
#[test]
fn no_strategy_is_shorter() {
    for (draft, graph, schedule, mut random) in scheduled(6_000) {
        for _ in 0..4 {
            let table = generate::strategy_table(&mut random, &graph);
            match check(&draft, &table).number {
                0 => assert!(table.cycles >= schedule.table.cycles, "{draft:?}"),
                number => assert_eq!(number, 19, "{draft:?}"),
            }
        }
    }
}

/// A table made with one rule relaxed is refused for a step or, where that led
/// to another end of the run, for a row too many or too few. If the rule never
/// mattered it is accepted.
#[test]
fn relaxed_strategies_are_refused_for_their_steps() {
    let mut refused_for_steps = 0;
    for (draft, graph, _, mut random) in scheduled(6_000) {
        let relaxed = generate::relaxed(&mut random, &graph);
        let table = generate::strategy_table(&mut random, &relaxed);
        let number = check(&draft, &table).number;
        assert!([0, 17, 18, 19].contains(&number), "{number} for {draft:?}");
        refused_for_steps += u32::from(number == 18);
    }
    assert!(refused_for_steps > 500, "{refused_for_steps} times 18");
}

#[test]
fn lent_buffers_end_as_promised() {
    for (draft, _, schedule, mut random) in scheduled(2_000) {
        let file = draft.bytes();
        let length = schedule.table.bytes().len();
        let mut lend = |slots: usize, room: usize| {
            let mut slots: Vec<u64> = (0..slots).map(|_| random.number()).collect();
            let before: Vec<u8> = (0..room).map(|_| random.byte()).collect();
            let mut after = before.clone();
            let answer = oracle::schedule(&file, &mut slots, &mut after);
            assert!(slots.iter().all(|&slot| slot == 0), "{draft:?}");
            (answer.number, before, after)
        };
        for (slots, room, number) in [
            (schedule.states - 1, length, 12),
            (schedule.states, length - 1, 14),
            (schedule.states + 1, 0, 14),
        ] {
            let (refused, before, after) = lend(slots, room);
            assert_eq!(refused, number, "{draft:?}");
            assert_eq!(before, after, "{draft:?}");
        }
        let (number, before, after) = lend(schedule.states, length + 5);
        assert_eq!(number, 0, "{draft:?}");
        assert_eq!(after[..length], schedule.table.bytes(), "{draft:?}");
        assert_eq!(after[length..], before[length..], "{draft:?}");
    }
}

#[test]
fn a_refused_graph_leaves_both_buffers() {
    for seed in 0..10_000 {
        let file = generate::damaged_file(&mut Random::new(seed));
        let reading = oracle::read(&file);
        if reading.number == 0 {
            continue;
        }
        let (mut slots, mut table) = ([7; 3], [9; 40]);
        let answer = oracle::schedule(&file, &mut slots, &mut table);
        let refusal = (reading.number, reading.place);
        assert_eq!(number_and_place(answer), refusal, "seed {seed}");
        assert_eq!((slots, table), ([7; 3], [9; 40]), "seed {seed}");
    }
}

#[test]
fn the_parts_of_all_cycles_make_up_the_table() {
    for (draft, _, schedule, _) in scheduled(3_000) {
        let (graph, table) = (draft.bytes(), schedule.table.bytes());
        let mut end = 8;
        for cycle in 1..=schedule.table.cycles {
            let part = oracle::rows_of(&graph, &table, cycle.into());
            assert_eq!(part.start, end, "{draft:?}");
            assert!(table[part.clone()].chunks(8).all(|row| row[0] == cycle));
            end = part.end;
        }
        assert_eq!(end, table.len(), "{draft:?}");
        let after = u32::from(schedule.table.cycles) + 1;
        assert_eq!(oracle::rows_of(&graph, &table, after), end..end);
        assert_eq!(oracle::rows_of(&graph, &table[1..], 1), 0..0);
    }
}

/// A draft, its schedule's table, and one of the table's rows.
fn with_some_row(seeds: u64) -> impl Iterator<Item = (Draft, Table, usize)> {
    scheduled(seeds).filter_map(|(draft, _, Schedule { table, .. }, mut random)| {
        let rows = table.rows.len();
        (rows > 0).then(|| (draft, table, random.below(rows)))
    })
}

/// The refusal of a table whose rows were changed.
fn changed(draft: &Draft, table: &Table, change: impl FnOnce(&mut Vec<Row>)) -> (u32, u32) {
    let mut changed = table.clone();
    change(&mut changed.rows);
    number_and_place(check(draft, &changed))
}

/// The rows of the table that the row leads to.
fn later_rows(draft: &Draft, table: &Table, row: &Row) -> Vec<usize> {
    let next = naive::next_states(draft, (row.done, row.values), row.step);
    let follows =
        |later: &Row| later.cycle == row.cycle + 1 && next.contains(&(later.done, later.values));
    (0..table.rows.len())
        .filter(|&at| follows(&table.rows[at]))
        .collect()
}

/// Without a row, the first row that it led to is out of place; if it led to
/// none, the row before it lacks its next.
#[test]
fn a_removed_row_is_missed() {
    for (draft, table, at) in with_some_row(5_000) {
        let later = later_rows(&draft, &table, &table.rows[at]);
        let leads_to_it = |row: &Row| later_rows(&draft, &table, row).contains(&at);
        let expected = match later.first() {
            // One row fewer before it, and places count from 1.
            Some(&orphan) => (17, orphan as u32),
            None => {
                let parent = table.rows.iter().position(leads_to_it);
                (19, parent.map_or(0, |row| row as u32 + 1))
            }
        };
        let refusal = changed(&draft, &table, |rows| {
            rows.remove(at);
        });
        assert_eq!(refusal, expected, "{draft:?} row {at}");
    }
}

#[test]
fn rows_out_of_order_are_refused() {
    for (draft, table, at) in with_some_row(3_000) {
        let place = at as u32 + 1;
        let doubled = changed(&draft, &table, |rows| rows.insert(at, rows[at]));
        assert_eq!(doubled, (16, place + 1), "{draft:?}");
        if at > 0 {
            let exchanged = changed(&draft, &table, |rows| rows.swap(at - 1, at));
            assert_eq!(exchanged, (16, place), "{draft:?}");
        }
    }
}

/// The empty step, one with operations that the graph does not have, and one
/// with operations done before.
#[test]
fn steps_of_other_sets_are_refused() {
    for (draft, table, at) in with_some_row(3_000) {
        let Row { done, step, .. } = table.rows[at];
        let outside = (1 << 24) - (1 << draft.operations.len());
        for other in [0, step | outside, step | done] {
            // Nothing is outside of 24 operations, nor done at the start.
            if other != step {
                let refusal = changed(&draft, &table, |rows| rows[at].step = other);
                assert_eq!(refusal, (18, at as u32 + 1), "{draft:?} step {other}");
            }
        }
    }
}

/// On the last row, so that the order of rows still holds.
#[test]
fn states_with_stray_bits_are_refused() {
    for (draft, table, _) in with_some_row(3_000) {
        let place = table.rows.len() as u32;
        let refusal = |change: fn(&mut Row)| {
            changed(&draft, &table, |rows| {
                rows.last_mut().into_iter().for_each(change)
            })
        };
        assert_eq!(refusal(|row| row.values |= 0x80), (17, place), "{draft:?}");
        assert_eq!(refusal(|row| row.cycle += 1), (17, place), "{draft:?}");
        if draft.operations.len() < 24 {
            assert_eq!(refusal(|row| row.done |= 1 << 23), (17, place), "{draft:?}");
        }
    }
}

/// A byte of `nested`, what to write there, and the refusal that it brings.
const FAULTS: [(usize, u8, (u32, u32)); 33] = [
    (0, 0x49, (2, 0)),
    (1, 0x54, (2, 0)),
    (2, 2, (2, 0)),
    (3, 25, (3, 0)),
    (4, 9, (3, 0)),
    (5, 5, (3, 0)),
    (7, 2, (3, 0)),
    (8, 17, (4, 0)),
    (10, 17, (4, 0)),
    (13, 1, (4, 0)),
    (14, 39, (4, 0)),
    // Past the end: one byte more.
    (58, 0, (5, 0)),
    (18, 2, (6, 0)),
    (33, 255, (6, 5)),
    // Both masks share a bit, and bits not below the controls.
    (28, 1, (7, 3)),
    (31, 4, (7, 4)),
    (35, 0x80, (7, 5)),
    // An operation not below the count, and one named before.
    (36, 6, (8, 0)),
    (37, 0, (8, 1)),
    // Control 1 on its own operation's path, and without control 0.
    (22, 3, (9, 1)),
    (25, 0, (9, 2)),
    (29, 3, (9, 3)),
    // Source not below target, target not below the count, kind, order,
    // a mask bit not below the controls, a follow arc with a literal.
    (38, 2, (10, 0)),
    (41, 4, (10, 0)),
    (44, 6, (10, 1)),
    (48, 2, (10, 2)),
    (50, 2, (10, 2)),
    (56, 1, (10, 3)),
    (57, 4, (10, 3)),
    (57, 1, (10, 3)),
    // A literal of the source's path is lost on the way.
    (47, 0, (11, 1)),
    (46, 0, (11, 1)),
    (52, 0, (11, 2)),
];

#[test]
fn the_lowest_number_then_place_is_given() {
    let valid = nested().bytes();
    assert_eq!(oracle::read(&valid).number, 0);
    for (at, byte, refusal) in FAULTS {
        for (other_at, other_byte, other_refusal) in FAULTS {
            let mut file = valid.clone();
            for (at, byte) in [(at, byte), (other_at, other_byte)] {
                file.resize(file.len().max(at + 1), 0);
                file[at] = byte;
            }
            if at == other_at && byte != other_byte {
                continue;
            }
            let reading = oracle::read(&file);
            let expected = refusal.min(other_refusal);
            let context = format!("bytes {at} and {other_at}");
            assert_eq!((reading.number, reading.place), expected, "{context}");
        }
    }
    assert_eq!(oracle::read(&valid[..15]).number, 1);
    assert_eq!(oracle::read(&valid[..16]).number, 5);
}

/// The writer makes the file that the drafts make by another method, or gives
/// the refusal that the reader gives for it.
#[test]
fn the_writer_and_the_drafts_make_one_file() {
    for seed in 0..20_000 {
        let mut random = Random::new(seed);
        let draft = if random.chance(50) {
            generate::graph(&mut random)
        } else {
            generate::loose_graph(&mut random)
        };
        let file = draft.bytes();
        let expected = read_graph(&file).map(|_| file.clone());
        let written = write_graph(&draft.content(), file.len());
        assert_eq!(written, expected, "seed {seed}");
    }
}

#[test]
fn an_output_ends_as_promised() {
    let (content, file) = (nested().content(), nested().bytes());
    let no_room = Writing {
        number: 14,
        ..Writing::default()
    };
    let written = Writing {
        length: file.len() as u32,
        ..Writing::default()
    };
    for room in 0..file.len() {
        let mut output = vec![7; room];
        assert_eq!(oracle::write(&content, &mut output), no_room);
        assert_eq!(output, vec![7; room]);
    }
    for more in 0..5 {
        let mut output = vec![7; file.len() + more];
        assert_eq!(oracle::write(&content, &mut output), written);
        assert_eq!(output, [file.clone(), vec![7; more]].concat());
    }
}

/// The generators reach every refusal, and most files have a schedule or are
/// refused only by the scheduler.
#[test]
fn the_generators_reach_every_answer() {
    let mut met: BTreeMap<u32, u32> = BTreeMap::new();
    let mut taken = 0;
    for seed in 0..10_000 {
        let mut random = Random::new(seed);
        let file = generate::file(&mut random);
        let room = random.between(8, 400);
        let answer = oracle::schedule(&file, &mut vec![0; 3000], &mut vec![0; room]);
        *met.entry(answer.number).or_default() += 1;
        let Ok(graph) = read_graph(&file) else {
            continue;
        };
        taken += 1;
        let table = generate::strategy_table(&mut random, &graph);
        let damaged = generate::damaged_table(&mut random, &table);
        *met.entry(oracle::check(&file, &damaged).number)
            .or_default() += 1;
    }
    for number in 0..=20 {
        let times = met.get(&number).copied().unwrap_or(0);
        assert!(times >= 20, "{number} was answered {times} times");
    }
    assert!((5_500..8_500).contains(&taken), "{taken} graphs taken");
}
