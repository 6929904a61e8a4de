//! Models and grids, as the library has them.

use crate::cell::Cell;

pub trait Model {
    fn states(&self) -> usize;
    fn slots(&self) -> usize;
    fn slot(&self, state: usize, slot: usize) -> Option<(u8, usize)>;
}

/// A grid over cells that the caller holds.
pub struct Grid<'a> {
    cells: &'a [Cell],
    states: usize,
    slots: usize,
}

impl<'a> Grid<'a> {
    pub fn over(cells: &'a [Cell], states: usize, slots: usize) -> Grid<'a> {
        assert!(cells.len() >= states * slots);
        assert!(cells.iter().all(|cell| !cell.filled || (cell.action < 64 && usize::from(cell.target) < states)));
        Grid { cells, states, slots }
    }
}

impl Model for Grid<'_> {
    fn states(&self) -> usize {
        self.states
    }

    fn slots(&self) -> usize {
        self.slots
    }

    fn slot(&self, state: usize, slot: usize) -> Option<(u8, usize)> {
        if state >= self.states || slot >= self.slots {
            return None;
        }
        let cell = self.cells[state * self.slots + slot];
        cell.filled.then_some((cell.action, usize::from(cell.target)))
    }
}
