//! Shelves, as the library has them: 64 sheets, on each a mark for every state. A call outside alters nothing.

pub const SHEETS: usize = 64;

pub trait Shelf {
    fn covers(&self) -> usize;
    fn look(&self, sheet: usize, state: usize) -> bool;
    fn put(&mut self, sheet: usize, state: usize);
    fn take(&mut self, sheet: usize, state: usize);
    fn wipe(&mut self, sheet: usize);
}

/// A row of bits for each sheet, a bit for each state.
pub struct BitShelf<'a> {
    bytes: &'a mut [u8],
    covers: usize,
    row: usize,
}

impl<'a> BitShelf<'a> {
    /// A shelf with all sheets wiped.
    pub fn open(bytes: &'a mut [u8], covers: usize) -> BitShelf<'a> {
        let row = covers.div_ceil(8);
        bytes[..SHEETS * row].fill(0);
        BitShelf { bytes, covers, row }
    }
}

impl Shelf for BitShelf<'_> {
    fn covers(&self) -> usize {
        self.covers
    }

    fn look(&self, sheet: usize, state: usize) -> bool {
        sheet < SHEETS && state < self.covers && self.bytes[sheet * self.row + state / 8] >> (state % 8) & 1 == 1
    }

    fn put(&mut self, sheet: usize, state: usize) {
        if sheet < SHEETS && state < self.covers {
            self.bytes[sheet * self.row + state / 8] |= 1 << (state % 8);
        }
    }

    fn take(&mut self, sheet: usize, state: usize) {
        if sheet < SHEETS && state < self.covers {
            self.bytes[sheet * self.row + state / 8] &= !(1 << (state % 8));
        }
    }

    fn wipe(&mut self, sheet: usize) {
        if sheet < SHEETS {
            self.bytes[sheet * self.row..][..self.row].fill(0);
        }
    }
}

/// A number for each state, a bit for each sheet.
pub struct ColumnShelf<'a> {
    columns: &'a mut [u64],
    covers: usize,
}

impl<'a> ColumnShelf<'a> {
    /// A shelf with all sheets wiped.
    pub fn open(columns: &'a mut [u64], covers: usize) -> ColumnShelf<'a> {
        columns[..covers].fill(0);
        ColumnShelf { columns, covers }
    }
}

impl Shelf for ColumnShelf<'_> {
    fn covers(&self) -> usize {
        self.covers
    }

    fn look(&self, sheet: usize, state: usize) -> bool {
        sheet < SHEETS && state < self.covers && self.columns[state] >> sheet & 1 == 1
    }

    fn put(&mut self, sheet: usize, state: usize) {
        if sheet < SHEETS && state < self.covers {
            self.columns[state] |= 1 << sheet;
        }
    }

    fn take(&mut self, sheet: usize, state: usize) {
        if sheet < SHEETS && state < self.covers {
            self.columns[state] &= !(1 << sheet);
        }
    }

    fn wipe(&mut self, sheet: usize) {
        if sheet < SHEETS {
            for column in &mut self.columns[..self.covers] {
                *column &= !(1 << sheet);
            }
        }
    }
}
