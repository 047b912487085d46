//! The cases of document 01, those of the writer of document 02's Req 01 and the
//! published examples, put to every implementation of the build.
//!
//! Operations are named by their numbers in the graph file. The figures of
//! document 000 count operations from 1; there operation j is number j - 1.

use independent::draft::{arc, case_a, follow, largest, operation, Draft};
use independent::listing::text;
use independent::oracle::{Answer, Content, Row, Table, Writing, MOST_ROWS};
use independent::Implementation;

const SLOTS: usize = 4096;

/// The file of case A as document 01 prints it.
const CASE_A: [u8; 28] = [
    0x48, 0x53, 0x01, 0x03, 0x02, 0x01, 0x00, 0x00, 0x10, 0x00, 0x12, 0x00, 0x1B, 0x00, 0x1C, 0x00,
    0x01, 0x01, 0x00, 0x00, 0x00, 0x01, 0x01, 0x00, 0x01, 0x00, 0x01, 0x00,
];

/// Each implementation, with a line that names it in the report of a failure.
fn implementations() -> impl Iterator<Item = Implementation> {
    let all = independent::implementations().into_iter();
    all.inspect(|each| println!("put to the {}", each.name))
}

/// The listing program's text for a draft.
fn listing(each: &Implementation, draft: &Draft, slots: usize) -> String {
    match schedule(each, draft, slots) {
        Ok((answer, table)) => text(answer, &table.rows),
        Err(refused) => text(refused, &[]),
    }
}

/// The answer with the table, or the refusal.
fn schedule(each: &Implementation, draft: &Draft, slots: usize) -> Result<(Answer, Table), Answer> {
    let mut slots = vec![0; slots];
    let mut file = vec![0; 8 + 8 * MOST_ROWS];
    let answer = (each.schedule)(&draft.bytes(), &mut slots, &mut file);
    if answer.number != 0 {
        return Err(answer);
    }
    file.truncate(8 + 8 * answer.rows as usize);
    Ok((answer, Table::read(&file).expect("a table file")))
}

/// The cycles of a draft that has a schedule, which the checker takes.
fn cycles(each: &Implementation, draft: &Draft) -> u32 {
    let (answer, table) = schedule(each, draft, SLOTS).expect("a schedule");
    let accepted = format!("cycles {} rows {}", answer.cycles, answer.rows);
    assert_eq!(check(each, draft, &table), accepted);
    answer.cycles
}

/// A table from rows of cycle, values, done, step.
fn table(cycles: u8, rows: &[(u8, u8, u32, u32)]) -> Table {
    let row = |&(cycle, values, done, step): &(u8, u8, u32, u32)| Row {
        cycle,
        values,
        done,
        step,
    };
    Table {
        cycles,
        rows: rows.iter().map(row).collect(),
    }
}

/// The checker's answer as text.
fn check(each: &Implementation, draft: &Draft, table: &Table) -> String {
    let answer = (each.check)(&draft.bytes(), &table.bytes());
    match answer.number {
        0 => format!("cycles {} rows {}", answer.cycles, answer.rows),
        number => format!("refused {number} {}", answer.place),
    }
}

/// Whether the last of these rows holds a legal step, by the checker's word.
fn last_is_legal(each: &Implementation, draft: &Draft, rows: &[(u8, u8, u32, u32)]) -> bool {
    let answer = (each.check)(&draft.bytes(), &table(0, rows).bytes());
    match (answer.number, answer.place) {
        (18, place) if place as usize == rows.len() => false,
        // The rest of the run is left out, and the cycles are 0.
        (19 | 20, _) => true,
        other => panic!("{rows:?} gives {other:?}"),
    }
}

/// A mask from the operations of the paper, which count from 1.
fn paper(operations: &[u32]) -> u32 {
    operations
        .iter()
        .map(|operation| 1 << (operation - 1))
        .sum()
}

fn table_of_a() -> Table {
    table(2, &[(1, 0, 0, 1), (2, 0, 1, 4), (2, 1, 1, 2)])
}

fn case_j() -> Draft {
    let mut draft = case_a();
    draft.limits.push(1);
    draft.operations.push(operation(2));
    draft.arcs = vec![arc(1, 3).through(0, true), arc(2, 3).through(0, false)];
    draft
}

fn case_k() -> Draft {
    Draft {
        limits: vec![1, 1, 1],
        operations: vec![
            operation(0),
            operation(1).on(0, true),
            operation(1).on(0, true),
            operation(2).on(0, false),
            operation(1).on(0, false),
        ],
        controls: vec![0],
        arcs: vec![follow(1, 2), arc(3, 4)],
    }
}

/// Operations of one class, each after the one before.
fn chain(length: u8) -> Draft {
    Draft {
        limits: vec![1],
        operations: vec![operation(0); length.into()],
        controls: vec![],
        arcs: (1..length).map(|target| arc(target - 1, target)).collect(),
    }
}

/// Every operation alone in its class, so that no limit matters.
fn unlimited(draft: Draft) -> Draft {
    let mut draft = draft;
    for (class, operation) in draft.operations.iter_mut().enumerate() {
        operation.class = class as u8;
    }
    draft.limits = vec![1; draft.operations.len()];
    draft
}

#[test]
fn case_a_has_the_bytes_of_the_document() {
    assert_eq!(case_a().bytes(), CASE_A);
    for each in implementations() {
        let reading = (each.read)(&CASE_A);
        assert_eq!(reading.number, 0);
        let counts = [
            reading.operations,
            reading.classes,
            reading.controls,
            reading.arcs,
        ];
        assert_eq!(counts, [3, 2, 1, 0]);
    }
}

#[test]
fn case_a_is_written_from_its_lists() {
    let content = Content {
        edition: 1,
        operations: vec![0, 0, 0, 1, 1, 0, 1, 0, 1],
        limits: vec![1, 1],
        controls: vec![0],
        arcs: vec![],
    };
    for each in implementations() {
        let mut output = [7; 30];
        let written = Writing {
            length: 28,
            ..Writing::default()
        };
        assert_eq!((each.write)(&content, &mut output), written);
        assert_eq!(output[..28], CASE_A);
        assert_eq!(output[28..], [7; 2]);
    }
}

/// The writer's refusal of a content, for which there is room enough.
fn refusal(each: &Implementation, content: &Content) -> (u32, u32) {
    let writing = (each.write)(content, &mut [0; 1480]);
    (writing.number, writing.place)
}

/// Counts are of whole records, over all lists before any piece.
#[test]
fn as_many_records_as_there_may_be_and_a_piece() {
    let cases = [
        (73, 0, 5),
        (74, 0, 5),
        (75, 0, 3),
        (76, 0, 3),
        (77, 0, 3),
        (0, 1381, 5),
        (0, 1384, 5),
        (0, 1385, 3),
        (0, 1386, 3),
        (1, 1385, 3),
        (75, 4, 3),
        (1, 4, 5),
    ];
    for each in implementations() {
        for (operations, arcs, number) in cases {
            let content = Content {
                operations: vec![0; operations],
                arcs: vec![0; arcs],
                ..case_a().content()
            };
            let lengths = format!("{operations} and {arcs} bytes");
            assert_eq!(refusal(&each, &content), (number, 0), "{lengths}");
        }
    }
}

#[test]
fn the_writer_refuses_content_that_the_reader_would() {
    let mut without_literal = case_j();
    without_literal.arcs[1] = arc(2, 3);
    let mut class_and_path_bad = case_a();
    class_and_path_bad.operations[0] = class_and_path_bad.operations[0].on(3, true);
    class_and_path_bad.operations[2].class = 2;
    for each in implementations() {
        assert_eq!(refusal(&each, &without_literal.content()), (11, 1));
        assert_eq!(refusal(&each, &class_and_path_bad.content()), (6, 2));
        assert_eq!(refusal(&each, &chain(24).content()), (0, 0));
        assert_eq!(refusal(&each, &chain(25).content()), (3, 0));
    }
}

#[test]
fn p1_p2_case_a_needs_twelve_slots() {
    let text = "cycles 2 rows 3 states 12\n1 0 0 1\n2 0 1 4\n2 1 1 2\n";
    for each in implementations() {
        assert_eq!(listing(&each, &case_a(), SLOTS), text);
        assert_eq!(listing(&each, &case_a(), 12), text);
        assert_eq!(listing(&each, &case_a(), 11), "refused 12 0\n");
    }
}

#[test]
fn p3_two_adders_take_one_cycle() {
    let mut draft = case_a();
    draft.limits[1] = 2;
    for each in implementations() {
        assert_eq!(cycles(&each, &draft), 1);
        let (_, found) = schedule(&each, &draft, SLOTS).expect("a schedule");
        assert_eq!(found, table(1, &[(1, 0, 0, 7)]));
    }
}

#[test]
fn p4_nothing_to_do() {
    let nothing = Draft::default();
    for each in implementations() {
        assert_eq!(listing(&each, &nothing, 1), "cycles 0 rows 0 states 1\n");
        assert_eq!(listing(&each, &nothing, 0), "refused 12 0\n");
    }
}

#[test]
fn p5_two_followers_on_one_unit() {
    let draft = Draft {
        limits: vec![1],
        operations: vec![operation(0); 3],
        controls: vec![],
        arcs: vec![follow(0, 1), follow(0, 2)],
    };
    for each in implementations() {
        assert_eq!(listing(&each, &draft, 2), "refused 13 0\n");
        assert_eq!(listing(&each, &draft, 1), "refused 12 0\n");
    }
}

#[test]
fn p6_another_strategy_for_a_is_accepted() {
    let speculated = table(2, &[(1, 0, 0, 3), (2, 0, 3, 4)]);
    for each in implementations() {
        assert_eq!(check(&each, &case_a(), &table_of_a()), "cycles 2 rows 3");
        assert_eq!(check(&each, &case_a(), &speculated), "cycles 2 rows 2");
    }
}

#[test]
fn p7_to_p11_damaged_tables_of_a() {
    let damaged = |change: fn(&mut Table)| {
        let mut table = table_of_a();
        change(&mut table);
        table
    };
    let cases = [
        (damaged(|table| table.rows.truncate(2)), "refused 19 1"),
        (damaged(|table| table.cycles = 3), "refused 20 0"),
        (damaged(|table| table.rows[0].step = 6), "refused 18 1"),
        (damaged(|table| table.rows.swap(1, 2)), "refused 16 3"),
        (damaged(|table| table.rows[2].done = 3), "refused 17 3"),
    ];
    for each in implementations() {
        for (table, answer) in &cases {
            assert_eq!(check(&each, &case_a(), table), *answer, "{table:?}");
        }
    }
}

#[test]
fn j_arcs_through_a_join() {
    let mut two_adders = case_j();
    two_adders.limits[1] = 2;
    let mut without_literal = case_j();
    without_literal.arcs[0] = arc(1, 3);
    for each in implementations() {
        assert_eq!(cycles(&each, &case_j()), 3);
        assert_eq!(cycles(&each, &two_adders), 2);
        let refused = listing(&each, &without_literal, SLOTS);
        assert_eq!(refused, "refused 11 0\n");
    }
}

#[test]
fn k_the_fullest_step_is_a_dead_end() {
    // Compare, 1 and 3 together fill every class. Then the follow arc demands
    // 2, which is excluded in the false outcome while 4 is still to be done.
    let fullest = [(1, 0, 0, 0b1011), (2, 0, 0b1011, 0b10000)];
    for each in implementations() {
        assert_eq!(cycles(&each, &case_k()), 3);
        assert!(last_is_legal(&each, &case_k(), &fullest[..1]));
        assert!(!last_is_legal(&each, &case_k(), &fullest));
    }
}

#[test]
fn chains_and_counts_at_their_maximum() {
    for each in implementations() {
        let text = listing(&each, &chain(24), 25);
        assert!(text.starts_with("cycles 24 rows 24 states 25\n"));
        assert_eq!(listing(&each, &chain(24), 24), "refused 12 0\n");
        assert_eq!(listing(&each, &chain(25), SLOTS), "refused 3 0\n");
    }
}

/// One operation per cycle, and each of the first four doubles the outcomes:
/// rows 1 + 2 + 4 + 8 + 20 * 16, and 16 complete states more.
#[test]
fn the_largest_file_and_its_table() {
    let file = largest().bytes();
    assert_eq!(file.len(), 1480);
    for each in implementations() {
        let text = listing(&each, &largest(), 351);
        assert!(text.starts_with("cycles 24 rows 335 states 351\n"));
        assert_eq!(cycles(&each, &largest()), 24);
        let reading = (each.read)(&[&file[..], &[0]].concat());
        assert_eq!(reading.number, 5);
    }
}

#[test]
fn the_lower_number_goes_first_over_the_whole_file() {
    let mut path_bad = case_a();
    path_bad.operations[0] = path_bad.operations[0].on(3, true);
    let mut class_bad_too = path_bad.clone();
    class_bad_too.operations[2].class = 2;
    for each in implementations() {
        assert_eq!(listing(&each, &class_bad_too, SLOTS), "refused 6 2\n");
        assert_eq!(listing(&each, &path_bad, SLOTS), "refused 7 0\n");
    }
}

#[test]
fn an_unconditional_operation_without_units() {
    let mut draft = chain(1);
    draft.limits[0] = 0;
    for each in implementations() {
        assert_eq!(listing(&each, &draft, 1), "refused 13 0\n");
    }
}

/// Nothing asks that a control's operation come before its branch.
#[test]
fn a_control_after_its_branch() {
    let draft = Draft {
        limits: vec![1, 1],
        operations: vec![
            operation(1).on(0, true),
            operation(1).on(0, false),
            operation(0),
        ],
        controls: vec![2],
        arcs: vec![],
    };
    let text = "cycles 2 rows 2 states 12\n1 0 0 1\n2 0 1 6\n";
    for each in implementations() {
        assert_eq!(listing(&each, &draft, SLOTS), text);
    }
}

/// A complete run stops, even where a follow arc still demands its target.
#[test]
fn a_complete_state_with_a_demand() {
    let draft = unlimited(Draft {
        operations: vec![operation(0), operation(0), operation(0).on(0, true)],
        controls: vec![0],
        arcs: vec![follow(1, 2)],
        ..Draft::default()
    });
    let stops = table(2, &[(1, 0, 0, 0b011), (2, 1, 0b011, 0b100)]);
    for each in implementations() {
        assert_eq!(check(&each, &draft, &stops), "cycles 2 rows 2");
    }
}

/// The literal of the other side on an arc does not carry the source's path.
#[test]
fn the_other_side_on_an_arc() {
    let mut draft = case_j();
    draft.arcs[1] = arc(2, 3).through(0, true);
    for each in implementations() {
        assert_eq!(listing(&each, &draft, SLOTS), "refused 11 1\n");
    }
}

/// The rows of each cycle of A, and the two empty parts.
#[test]
fn rows_of_a_cycle() {
    let [graph, accepted] = [case_a().bytes(), table_of_a().bytes()];
    let refused = table(3, &[(1, 0, 0, 1), (2, 0, 1, 4), (2, 1, 1, 2)]).bytes();
    for each in implementations() {
        assert_eq!((each.rows_of)(&graph, &accepted, 1), 8..16);
        assert_eq!((each.rows_of)(&graph, &accepted, 2), 16..32);
        for cycle in [0, 3, 256, 257, u32::MAX] {
            assert_eq!((each.rows_of)(&graph, &accepted, cycle), 32..32);
        }
        assert_eq!((each.rows_of)(&graph, &refused, 1), 0..0);
        assert_eq!((each.rows_of)(&graph[1..], &accepted, 0), 0..0);
    }
}

/// Two of document 01's faults of old tools, seen on case A: what was
/// speculated counts against the limit whatever side wins, and stays done when
/// its side loses. The other three are cases A, K and the open join below.
#[test]
fn speculation_counts_and_stays() {
    for each in implementations() {
        let all_at_once = table(1, &[(1, 0, 0, 7)]);
        assert_eq!(check(&each, &case_a(), &all_at_once), "refused 18 1");
        let dropped = table(2, &[(1, 0, 0, 3), (2, 0, 1, 4)]);
        assert_eq!(check(&each, &case_a(), &dropped), "refused 17 2");
    }
}

/// Figure 1. The text names 1 as the fork's control, 3 and 4 as the operations
/// on its two sides and the data dependency from 1 to 2; which side 3 stands on
/// is not said, nor is anything after the join. No limit is named either.
fn figure_1() -> Draft {
    unlimited(Draft {
        operations: vec![
            operation(0),
            operation(0),
            operation(0).on(0, true),
            operation(0).on(0, false),
        ],
        controls: vec![0],
        arcs: vec![arc(0, 1)],
        ..Draft::default()
    })
}

#[test]
fn figure_1_speculation() {
    let draft = figure_1();
    let hoisted = |first| {
        let last = paper(&[2]);
        let rows = [(1, 0, 0, first), (2, 0, first, last), (2, 1, first, last)];
        table(2, &rows)
    };
    let both = hoisted(paper(&[1, 3, 4]));
    let only_3 = hoisted(paper(&[1, 3]));
    for each in implementations() {
        for step in [&[3][..], &[4], &[3, 4], &[1, 3, 4]] {
            assert!(last_is_legal(&each, &draft, &[(1, 0, 0, paper(step))]));
        }
        assert_eq!(check(&each, &draft, &both), "cycles 2 rows 3");
        // The false outcome has still to do 4.
        assert_eq!(check(&each, &draft, &only_3), "refused 19 2");
    }
}

#[test]
fn figure_1_data_dependency() {
    let draft = figure_1();
    for each in implementations() {
        for step in [&[2][..], &[1, 2]] {
            assert!(!last_is_legal(&each, &draft, &[(1, 0, 0, paper(step))]));
        }
        let after = [(1, 0, 0, paper(&[1])), (2, 0, paper(&[1]), paper(&[2]))];
        assert!(last_is_legal(&each, &draft, &after));
        // Not printed in the paper: 2 after 1 needs two cycles, and with no
        // limits two are enough.
        assert_eq!(cycles(&each, &draft), 2);
    }
}

/// Figure 2 shows histories of 1 and 2 that end in one term before 3. What
/// follows for the count: one state however they were ordered, so nothing, 1,
/// 2, both, and all three.
#[test]
fn figure_2_histories_share_a_state() {
    let draft = unlimited(Draft {
        operations: vec![operation(0); 3],
        arcs: vec![arc(0, 2), arc(1, 2)],
        ..Draft::default()
    });
    for each in implementations() {
        let text = listing(&each, &draft, SLOTS);
        assert_eq!(text, "cycles 2 rows 2 states 5\n1 0 0 3\n2 0 3 4\n");
    }
}

/// Figure 3: 1 to 3 through the true side and 2 to 3 through the false side of
/// a join that 4 resolves. The text gives no branch for 1 and 2. The formula
/// printed under the figure has lost overbars; the sentence before (2) decides.
#[test]
fn figure_3_arcs_through_a_join() {
    let draft = unlimited(Draft {
        operations: vec![operation(0); 4],
        controls: vec![3],
        arcs: vec![arc(0, 2).through(0, true), arc(1, 2).through(0, false)],
        ..Draft::default()
    });
    // Done in the first cycle, value of 4, and whether 3 may come next.
    let cases = [
        // Resolved in favour of the arc whose source is not done.
        (&[2, 4][..], 1, false),
        (&[1, 4], 0, false),
        // Resolved in favour of the arc whose source is done.
        (&[1, 4], 1, true),
        (&[2, 4], 0, true),
        // Unresolved: both arcs apply.
        (&[1], 0, false),
        (&[2], 0, false),
        (&[1, 2], 0, true),
        (&[4], 0, false),
        (&[4], 1, false),
    ];
    for each in implementations() {
        for (done, value, legal) in cases {
            let done = paper(done);
            let rows = [(1, 0, 0, done), (2, value, done, paper(&[3]))];
            assert_eq!(last_is_legal(&each, &draft, &rows), legal, "{rows:?}");
        }
        // Not printed: 3 is after 1 or 2 in every outcome, so two cycles.
        assert_eq!(cycles(&each, &draft), 2);
    }
}

/// Figure 4: 1 is the control, 2 and 4 can be reached only when it is true, 3
/// only when it is false. The text names no data dependency among them.
fn figure_4() -> Draft {
    unlimited(Draft {
        operations: vec![
            operation(0),
            operation(0).on(0, true),
            operation(0).on(0, false),
            operation(0).on(0, true),
        ],
        controls: vec![0],
        ..Draft::default()
    })
}

#[test]
fn figure_4_exclusion() {
    let draft = figure_4();
    let resolved = (1, 0, 0, paper(&[1]));
    let next = |value, step| [resolved, (2, value, paper(&[1]), step)];
    for each in implementations() {
        for step in [&[2][..], &[4], &[2, 4], &[2, 3]] {
            assert!(!last_is_legal(&each, &draft, &next(0, paper(step))));
        }
        for step in [&[3][..], &[2, 3], &[2, 3, 4]] {
            assert!(!last_is_legal(&each, &draft, &next(1, paper(step))));
        }
        let waits = |step| {
            let first = paper(&[1]);
            let rows = [resolved, (2, 0, first, paper(&[3])), (2, 1, first, step)];
            check(&each, &draft, &table(2, &rows))
        };
        assert_eq!(waits(paper(&[2, 4])), "cycles 2 rows 3");
        // A true outcome must still schedule both.
        assert_eq!(waits(paper(&[2])), "refused 19 3");
    }
}

/// An operation is excluded only where it has not been scheduled yet: 2 done
/// before the false outcome stays in its trace, 4 may not be begun there.
#[test]
fn figure_4_speculation_before_exclusion() {
    let draft = figure_4();
    let first = paper(&[1, 2]);
    for each in implementations() {
        let rows = [
            (1, 0, 0, first),
            (2, 0, first, paper(&[3])),
            (2, 1, first, paper(&[4])),
        ];
        let answer = check(&each, &draft, &table(2, &rows));
        assert_eq!(answer, "cycles 2 rows 3");
        let begun = [(1, 0, 0, first), (2, 0, first, paper(&[4]))];
        assert!(!last_is_legal(&each, &draft, &begun));
        // Not printed: with no limits all may be speculated in one cycle.
        assert_eq!(cycles(&each, &draft), 1);
    }
}

/// Figure 5 with one adder is case A: each trace alone ends at cycle 1, but no
/// causal ensemble does.
#[test]
fn figure_5_causal_schedules() {
    for each in implementations() {
        for add in [2, 3] {
            let hoisted = table(1, &[(1, 0, 0, paper(&[1, add]))]);
            assert_eq!(check(&each, &case_a(), &hoisted), "refused 19 1");
        }
        assert_eq!(cycles(&each, &case_a()), 2);
    }
}

/// Section 3.2.2: one ALU, three operations that need it.
#[test]
fn resource_constraint_of_one_unit() {
    let draft = Draft {
        limits: vec![1],
        operations: vec![operation(0); 3],
        ..Draft::default()
    };
    for each in implementations() {
        for step in [&[1, 2][..], &[1, 3], &[2, 3], &[1, 2, 3]] {
            assert!(!last_is_legal(&each, &draft, &[(1, 0, 0, paper(step))]));
        }
        assert_eq!(cycles(&each, &draft), 3);
    }
}

/// Two multiplications of two stages on one unit.
fn two_stage_multiplications(limits: Vec<u8>, second_stage: u8) -> Draft {
    Draft {
        limits,
        operations: [0, second_stage, 0, second_stage].map(operation).into(),
        arcs: vec![follow(0, 1), follow(2, 3)],
        ..Draft::default()
    }
}

/// Section 3.2.6: the stages of a multicycle unit share a class, those of a
/// pipelined unit have one each. The counts follow from that.
#[test]
fn immediacy_of_multicycle_and_pipelined_units() {
    let multicycle = two_stage_multiplications(vec![1], 0);
    let pipelined = two_stage_multiplications(vec![1, 1], 1);
    for each in implementations() {
        assert_eq!(cycles(&each, &multicycle), 4);
        assert_eq!(cycles(&each, &pipelined), 3);
        let late = [(1, 0, 0, 0b0001), (2, 0, 0b0001, 0b0100)];
        assert!(!last_is_legal(&each, &pipelined, &late));
    }
}

/// The differential equation solver of Paulin and Knight: one turn of its loop,
/// with single-cycle units.
fn differential_equation(multipliers: u8) -> Draft {
    const TIMES: u8 = 0;
    const PLUS: u8 = 1;
    const MINUS: u8 = 2;
    const LESS: u8 = 3;
    let classes = [
        TIMES, // 0: 3 * x
        TIMES, // 1: u * dx
        TIMES, // 2: 3 * y
        TIMES, // 3: u * dx, for the new y
        PLUS,  // 4: the new x = x + dx
        TIMES, // 5: (3 * x) * (u * dx)
        TIMES, // 6: (3 * y) * dx
        MINUS, // 7: u - operation 5
        MINUS, // 8: the new u = operation 7 - operation 6
        PLUS,  // 9: the new y = y + operation 3
        LESS,  // 10: the new x < a
    ];
    Draft {
        limits: vec![multipliers, 1, 1, 1],
        operations: classes.map(operation).into(),
        controls: vec![],
        arcs: vec![
            arc(0, 5),
            arc(1, 5),
            arc(2, 6),
            arc(5, 7),
            arc(6, 8),
            arc(7, 8),
            arc(3, 9),
            arc(4, 10),
        ],
    }
}

#[test]
fn differential_equation_solver() {
    for each in implementations() {
        // The critical path 0, 5, 7, 8 has four operations; the published
        // schedule reaches it with two multipliers, and more do not help.
        assert_eq!(cycles(&each, &differential_equation(2)), 4);
        assert_eq!(cycles(&each, &differential_equation(6)), 4);
        // One multiplier takes six cycles, and every product is used later.
        assert_eq!(cycles(&each, &differential_equation(1)), 7);
    }
}
