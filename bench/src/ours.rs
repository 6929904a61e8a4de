//! The library, as its static library exports it. A slice crosses as a pointer and a length.

use crate::cell::Cell;
use crate::paths::Step;

#[repr(C)]
#[derive(Default, Debug, PartialEq, Eq)]
pub struct Outcome {
    pub refusal: u8,
    pub start: usize,
    pub transitions: usize,
    pub states: usize,
    pub names: usize,
}

/// 0 for a refusal, 1 for nothing, 2 for a path that ends, 3 for one with a cycle; and the counts.
#[repr(C)]
#[derive(Default, Debug, PartialEq, Eq)]
pub struct PathOutcome {
    pub kind: u8,
    pub stem: usize,
    pub cycle: usize,
}

/// The number of the refusal, or 0; the verdict; and what was found.
#[repr(C)]
#[derive(Default, Debug, PartialEq, Eq)]
pub struct StudyOutcome {
    pub refusal: u8,
    pub holds: bool,
    pub count: usize,
    pub share: usize,
    pub found: PathOutcome,
}

unsafe extern "C" {
    fn neqoylla_read(
        text: *const u8,
        text_len: usize,
        slots: usize,
        rounds: usize,
        cells: *mut Cell,
        cells_len: usize,
        names: *mut u8,
        names_len: usize,
        outcome: *mut Outcome,
    );

    fn neqoylla_mark_bits(
        text: *const u8,
        text_len: usize,
        cells: *const Cell,
        cells_len: usize,
        states: usize,
        slots: usize,
        rounds: usize,
        bytes: *mut u8,
        bytes_len: usize,
    ) -> usize;

    fn neqoylla_mark_columns(
        text: *const u8,
        text_len: usize,
        cells: *const Cell,
        cells_len: usize,
        states: usize,
        slots: usize,
        rounds: usize,
        columns: *mut u64,
        columns_len: usize,
    ) -> usize;

    fn neqoylla_path_airtime(
        text: *const u8,
        text_len: usize,
        cells: *const Cell,
        cells_len: usize,
        states: usize,
        slots: usize,
        tariffs: *const [u16; 64],
        rounds: usize,
        columns: *mut u64,
        columns_len: usize,
        stem: *mut Step,
        stem_len: usize,
        cycle: *mut Step,
        cycle_len: usize,
        outcome: *mut PathOutcome,
    );

    fn neqoylla_path_peak(
        text: *const u8,
        text_len: usize,
        cells: *const Cell,
        cells_len: usize,
        states: usize,
        slots: usize,
        tariffs: *const [u16; 64],
        rounds: usize,
        columns: *mut u64,
        columns_len: usize,
        stem: *mut Step,
        stem_len: usize,
        cycle: *mut Step,
        cycle_len: usize,
        outcome: *mut PathOutcome,
    );

    fn neqoylla_study(
        text: *const u8,
        text_len: usize,
        cells: *const Cell,
        cells_len: usize,
        states: usize,
        slots: usize,
        tariffs: *const [u16; 64],
        rounds: usize,
        columns: *mut u64,
        columns_len: usize,
        stem: *mut Step,
        stem_len: usize,
        cycle: *mut Step,
        cycle_len: usize,
        outcome: *mut StudyOutcome,
    );
}

/// What a reading leaves behind: its answer, the names each with byte 10 after it, and the cells.
#[derive(PartialEq, Eq, Debug)]
pub struct Reading {
    pub outcome: Outcome,
    pub names: Vec<u8>,
    pub cells: Vec<Cell>,
}

/// A cell that no reading writes.
pub const UNTOUCHED: Cell = Cell { filled: true, action: 255, target: 65_535 };

pub fn read(text: &[u8], slots: usize, cells: usize, rounds: usize) -> Reading {
    let mut reading = Reading { outcome: Outcome::default(), names: vec![0; 64 * 17], cells: vec![UNTOUCHED; cells] };
    unsafe {
        neqoylla_read(
            text.as_ptr(),
            text.len(),
            slots,
            rounds,
            reading.cells.as_mut_ptr(),
            reading.cells.len(),
            reading.names.as_mut_ptr(),
            reading.names.len(),
            &mut reading.outcome,
        )
    };
    reading
}

/// Marks a formula on a shelf of bits over the bytes; the number of its nodes.
pub fn mark_bits(formula: &str, cells: &[Cell], states: usize, slots: usize, bytes: &mut [u8], rounds: usize) -> usize {
    unsafe {
        neqoylla_mark_bits(
            formula.as_ptr(),
            formula.len(),
            cells.as_ptr(),
            cells.len(),
            states,
            slots,
            rounds,
            bytes.as_mut_ptr(),
            bytes.len(),
        )
    }
}

/// The same on a shelf of columns.
pub fn mark_columns(formula: &str, cells: &[Cell], states: usize, slots: usize, columns: &mut [u64], rounds: usize) -> usize {
    unsafe {
        neqoylla_mark_columns(
            formula.as_ptr(),
            formula.len(),
            cells.as_ptr(),
            cells.len(),
            states,
            slots,
            rounds,
            columns.as_mut_ptr(),
            columns.len(),
        )
    }
}

/// By airtime or by peak.
#[derive(Clone, Copy, PartialEq, Eq)]
pub enum By {
    Airtime,
    Peak,
}

/// The caller's lists.
pub struct Room {
    pub columns: Vec<u64>,
    pub stem: Vec<Step>,
    pub cycle: Vec<Step>,
}

/// Asks for a deciding path of a formula from state 0.
pub fn find_path(by: By, formula: &str, cells: &[Cell], states: usize, slots: usize, tariffs: &[u16; 64], rounds: usize, room: &mut Room) -> PathOutcome {
    let call = match by {
        By::Airtime => neqoylla_path_airtime,
        By::Peak => neqoylla_path_peak,
    };
    let mut outcome = PathOutcome::default();
    unsafe {
        call(
            formula.as_ptr(),
            formula.len(),
            cells.as_ptr(),
            cells.len(),
            states,
            slots,
            tariffs,
            rounds,
            room.columns.as_mut_ptr(),
            room.columns.len(),
            room.stem.as_mut_ptr(),
            room.stem.len(),
            room.cycle.as_mut_ptr(),
            room.cycle.len(),
            &mut outcome,
        )
    };
    outcome
}

/// Enters a formula into a study, judges it, and asks for a deciding path from state 0 by airtime.
pub fn study(formula: &str, cells: &[Cell], states: usize, slots: usize, tariffs: &[u16; 64], rounds: usize, room: &mut Room) -> StudyOutcome {
    let mut outcome = StudyOutcome::default();
    unsafe {
        neqoylla_study(
            formula.as_ptr(),
            formula.len(),
            cells.as_ptr(),
            cells.len(),
            states,
            slots,
            tariffs,
            rounds,
            room.columns.as_mut_ptr(),
            room.columns.len(),
            room.stem.as_mut_ptr(),
            room.stem.len(),
            room.cycle.as_mut_ptr(),
            room.cycle.len(),
            &mut outcome,
        )
    };
    outcome
}
