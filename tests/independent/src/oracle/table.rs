//! The table file: its rows, its bytes, and refusal 15.

use super::Refusal;

pub const MOST_ROWS: usize = 384;

const HEADER: usize = 8;
const ROW: usize = 8;

/// One row; the order is that of the fields, as the table's rows rise.
#[derive(Clone, Copy, Debug, PartialEq, Eq, PartialOrd, Ord)]
pub struct Row {
    pub cycle: u8,
    pub values: u8,
    pub done: u32,
    pub step: u32,
}

impl Row {
    /// What the order of the rows and the next states are about.
    pub fn place_in_run(&self) -> (u8, u8, u32) {
        (self.cycle, self.values, self.done)
    }

    fn bytes(&self) -> [u8; ROW] {
        let [done_0, done_1, done_2, _] = self.done.to_le_bytes();
        let [step_0, step_1, step_2, _] = self.step.to_le_bytes();
        [
            self.cycle,
            self.values,
            done_0,
            done_1,
            done_2,
            step_0,
            step_1,
            step_2,
        ]
    }

    fn read(record: &[u8]) -> Row {
        let mask = |at: usize| u32::from_le_bytes([record[at], record[at + 1], record[at + 2], 0]);
        Row {
            cycle: record[0],
            values: record[1],
            done: mask(2),
            step: mask(5),
        }
    }
}

#[derive(Clone, Debug, PartialEq, Eq)]
pub struct Table {
    pub cycles: u8,
    pub rows: Vec<Row>,
}

impl Table {
    pub fn bytes(&self) -> Vec<u8> {
        let [rows_low, rows_high] = (self.rows.len() as u16).to_le_bytes();
        let mut file = vec![
            0x48,
            0x54,
            1,
            self.cycles,
            rows_low,
            rows_high,
            HEADER as u8,
            0,
        ];
        file.extend(self.rows.iter().flat_map(Row::bytes));
        file
    }

    /// Takes a table file apart, or gives refusal 15.
    pub fn read(file: &[u8]) -> Result<Table, Refusal> {
        let refused = Err(Refusal::unplaced(15));
        if file.len() < HEADER || file[..3] != [0x48, 0x54, 1] || file[6..8] != [HEADER as u8, 0] {
            return refused;
        }
        let rows = usize::from(u16::from_le_bytes([file[4], file[5]]));
        if rows > MOST_ROWS || file.len() != offset_of_row(rows) {
            return refused;
        }
        Ok(Table {
            cycles: file[3],
            rows: file[HEADER..].chunks_exact(ROW).map(Row::read).collect(),
        })
    }
}

/// Where a row stands in the file, with rows counted from 0.
pub fn offset_of_row(row: usize) -> usize {
    HEADER + ROW * row
}
