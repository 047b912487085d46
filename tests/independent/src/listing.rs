//! The text of the listing program, from document 01.

use crate::oracle::{self, Answer, Row, Table, MOST_ROWS};

/// The most bytes of its input that the program keeps.
const KEPT: usize = 1481;

const SLOTS: usize = 4096;

/// The lines of an answer and the rows of its table.
pub fn text(answer: Answer, rows: &[Row]) -> String {
    if answer.number != 0 {
        return format!("refused {} {}\n", answer.number, answer.place);
    }
    let mut text = format!(
        "cycles {} rows {} states {}\n",
        answer.cycles, answer.rows, answer.states
    );
    for row in rows {
        text += &format!("{} {} {} {}\n", row.cycle, row.values, row.done, row.step);
    }
    text
}

/// What the program prints for its standard input.
pub fn printed(input: &[u8]) -> String {
    let graph = &input[..input.len().min(KEPT)];
    let mut file = vec![0; 8 + 8 * MOST_ROWS];
    let answer = oracle::schedule(graph, &mut vec![0; SLOTS], &mut file);
    if answer.number != 0 {
        return text(answer, &[]);
    }
    file.truncate(8 + 8 * answer.rows as usize);
    text(answer, &Table::read(&file).expect("a table file").rows)
}
