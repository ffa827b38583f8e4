//! What rows are compared by.

ghost use Rattle.std.specs.Prelude.{◌<◌, length};

use vx_rows::Table;
use vx_rows_values::Cell;

// The multiplier of the checksums.
const PRIME: u64 = 0x0000_0100_0000_01b3;

/// What is the same of equal rows: how many there are, and checksums of them as a bag and as a list.
#[derive(Clone, Copy, Default)]
pub struct Digest {
    rows: u64,
    bag: u64,
    list: u64,
    // Of the row that is being added.
    row: u64,
}

impl Digest {
    /// Of the rows of a table.
    pub fn of(table: &Table) -> Digest {
        let mut digest = Digest::default();
        for i in 0..table.len() {
            digest.add_cells(table, i);
            digest.end_row();
        }
        digest
    }

    /// How many rows there are.
    pub fn rows(self) -> u64 {
        self.rows
    }

    fn add_word(&mut self, word: u64) {
        let mixed = (self.row ^ word).wrapping_mul(PRIME);
        self.row = mixed ^ (mixed >> 29);
    }

    /// Adds a number to the row.
    pub fn add_number(&mut self, number: i64) {
        self.add_word(number.cast_unsigned());
    }

    /// Adds a text to the row.
    pub fn add_text(&mut self, text: &str) {
        for byte in text.as_bytes() {
            self.add_word(u64::from(*byte));
        }
    }

    /// Adds the values of row i of a table to the row.
    pub fn add_cells(&mut self, table: &Table, i: usize)
        requires { i < length table.now.rows }
    {
        for column in 0..table.types().len() {
            match table.cell(i, column) {
                Cell::Int(number) => self.add_number(number),
                Cell::Text(text) => self.add_text(text),
            }
        }
    }

    /// Ends the row.
    pub fn end_row(&mut self) {
        self.rows = self.rows.wrapping_add(1);
        self.bag = self.bag.wrapping_add(self.row);
        self.list = (self.list ^ self.row).wrapping_mul(PRIME);
        self.row = 0;
    }

    /// Whether these are the same rows, as lists where they are in a total order, and as bags otherwise.
    pub fn agrees(self, other: Digest, total: bool) -> bool {
        self.rows == other.rows && self.bag == other.bag && (!total || self.list == other.list)
    }
}
