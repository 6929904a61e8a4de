//! The data that both sides of the comparison work on, as the library has it.

/// One cell of a grid: slot k of state s is cell s * slots + k. A slice of cells crosses to the library as it is.
#[repr(C)]
#[derive(Clone, Copy, PartialEq, Eq, Debug)]
pub struct Cell {
    pub filled: bool,
    pub action: u8,
    pub target: u16,
}

pub const EMPTY: Cell = Cell { filled: false, action: 0, target: 0 };

impl Cell {
    pub fn step(action: u8, target: usize) -> Cell {
        Cell { filled: true, action, target: u16::try_from(target).expect("a state below 65,536") }
    }
}
