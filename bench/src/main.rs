//! Compares the library with plain Rust on the same input in the same run, and prints ratios of times. See README.md.

mod backward;
mod cell;
mod clock;
mod direct;
mod grids;
mod model;
mod node;
mod ours;
mod paths;
mod random;
mod reader;
mod shelf;
mod sweeps;
mod text;

use cell::Cell;
use model::{Grid, Model};
use node::{ActionSet, Node, Operator};
use ours::{By, Outcome, PathOutcome, Reading, Room, StudyOutcome, UNTOUCHED};
use paths::{Airtime, BLANK, Peak, Question, Step, Weight};
use shelf::{BitShelf, ColumnShelf, SHEETS, Shelf};
use std::hint::black_box;
use std::time::Duration;
use text::Differ;

/// The time of one round of each contender: the least of some trials in turn, so that all meet the same machine. What a call does once,
/// however many rounds it has, falls out, since a call of one round is taken off a call of more.
fn times(trials: usize, rounds: usize, contenders: &mut [&mut dyn FnMut(usize)]) -> Vec<Duration> {
    let mut least = vec![(Duration::MAX, Duration::MAX); contenders.len()];
    for _ in 0..trials {
        for (contender, (one, many)) in contenders.iter_mut().zip(&mut least) {
            let mut time = |rounds| {
                let begin = clock::used();
                contender(rounds);
                clock::used() - begin
            };
            *one = time(1).min(*one);
            *many = time(rounds + 1).min(*many);
        }
    }
    least.iter().map(|(one, many)| many.saturating_sub(*one) / rounds as u32).collect()
}

fn ratio(ours: Duration, theirs: Duration) -> String {
    format!("{:.2}", ours.as_secs_f64() / theirs.as_secs_f64())
}

fn milliseconds(time: Duration) -> String {
    format!("{:.2} ms", time.as_secs_f64() * 1e3)
}

fn reading<'a>(answer: Result<reader::Header, reader::Refusal>, names: impl Iterator<Item = &'a [u8]>, cells: Vec<Cell>) -> Reading {
    let mut outcome = Outcome::default();
    let mut text = Vec::new();
    match answer {
        Ok(reader::Header { start, transitions, states }) => {
            outcome = Outcome { start, transitions, states, ..outcome };
            for name in names {
                outcome.names += 1;
                text.extend_from_slice(name);
                text.push(b'\n');
            }
        }
        // of a refused text the library tells no more than the number
        Err(why) => outcome.refusal = why as u8,
    }
    text.resize(64 * 17, 0);
    Reading { outcome, names: text, cells }
}

#[inline(never)]
fn read_same(text: &[u8], slots: usize, cells: usize, rounds: usize) -> Reading {
    let mut room = vec![UNTOUCHED; cells];
    let mut labels = reader::Labels::fresh();
    let mut answer = Err(reader::Refusal::Short);
    for _ in 0..rounds {
        labels = reader::Labels::fresh();
        answer = reader::read(black_box(text), &mut labels, &mut room, slots);
    }
    reading(answer, labels.names(), room)
}

#[inline(never)]
fn read_direct(text: &[u8], slots: usize, cells: usize, rounds: usize) -> Reading {
    let mut room = vec![UNTOUCHED; cells];
    let mut names = Vec::new();
    let mut answer = Err(reader::Refusal::Short);
    for _ in 0..rounds {
        names = vec![b"tau".to_vec()];
        answer = direct::read(black_box(text), &mut names, &mut room, slots);
    }
    reading(answer, names.iter().map(Vec::as_slice), room)
}

/// The three readers agree on texts at the edges of each rule, or the comparison means nothing.
fn agree_on_edges() {
    let edges = text::edges();
    let mut answers = [0; 5];
    for (text, slots, cells) in &edges {
        let ours = ours::read(text.as_bytes(), *slots, *cells, 1);
        answers[usize::from(ours.outcome.refusal)] += 1;
        let shown = &text[..text.len().min(80)];
        assert_eq!(ours, read_same(text.as_bytes(), *slots, *cells, 1), "{shown:?} {slots} {cells}");
        assert_eq!(ours, read_direct(text.as_bytes(), *slots, *cells, 1), "{shown:?} {slots} {cells}");
    }
    let [read, short, garbled, range, crowded] = answers;
    println!("The readers agree on {} small texts: {read} read, {short} short, {garbled} garbled, {range} out of range, {crowded} crowded.", edges.len());
}

fn compare_reading(trials: usize, rounds: usize) {
    println!();
    println!("| text | bytes | ours | same way in Rust | ratio | direct way in Rust | ratio |");
    println!("|---|---|---|---|---|---|---|");
    for (what, states, names, differ, spaced) in [
        ("65,536 states, 63 names that differ at the end", 65_536, 63, Differ::End, false),
        ("the same, in the middle", 65_536, 63, Differ::Middle, false),
        ("the same, at the front", 65_536, 63, Differ::Front, false),
        ("at the end, a space after each comma", 65_536, 63, Differ::End, true),
        ("65,536 states, 4 names", 65_536, 4, Differ::End, false),
        ("8,192 states, 63 names that differ at the end", 8_192, 63, Differ::End, false),
    ] {
        const SLOTS: usize = 8;
        let text = text::text(states, names, differ, spaced);
        let cells = states * SLOTS + 5;
        let ours = ours::read(&text, SLOTS, cells, 2);
        assert_eq!(ours.outcome.refusal, 0);
        assert!(ours == read_same(&text, SLOTS, cells, 2));
        assert!(ours == read_direct(&text, SLOTS, cells, 2));
        let t = times(
            trials,
            rounds,
            &mut [
                &mut |rounds| drop(black_box(ours::read(&text, SLOTS, cells, rounds))),
                &mut |rounds| drop(black_box(read_same(&text, SLOTS, cells, rounds))),
                &mut |rounds| drop(black_box(read_direct(&text, SLOTS, cells, rounds))),
            ],
        );
        println!(
            "| {what} | {} | {} | {} | **{}** | {} | {} |",
            text.len(),
            milliseconds(t[0]),
            milliseconds(t[1]),
            ratio(t[0], t[1]),
            milliseconds(t[2]),
            ratio(t[0], t[2]),
        );
    }
}

/// The sizes of a grid, as numbers that the compiler does not know: the library does not know them either.
fn sizes() -> (usize, usize) {
    black_box((grids::STATES, grids::SLOTS))
}

#[inline(never)]
fn mark_bits(cells: &[Cell], nodes: &[Node], bytes: &mut [u8], rounds: usize) {
    let (states, slots) = sizes();
    let grid = Grid::over(cells, states, slots);
    let mut shelf = BitShelf::open(bytes, states);
    for _ in 0..rounds {
        sweeps::mark_all(black_box(&grid), &mut shelf, nodes);
    }
}

#[inline(never)]
fn mark_columns(cells: &[Cell], nodes: &[Node], columns: &mut [u64], rounds: usize) {
    let (states, slots) = sizes();
    let grid = Grid::over(cells, states, slots);
    let mut shelf = ColumnShelf::open(columns, states);
    for _ in 0..rounds {
        sweeps::mark_all(black_box(&grid), &mut shelf, nodes);
    }
}

#[inline(never)]
fn mark_backward(cells: &[Cell], nodes: &[Node], rounds: usize) -> Vec<Vec<bool>> {
    let (states, slots) = sizes();
    let grid = Grid::over(cells, states, slots);
    let mut marks = Vec::new();
    for _ in 0..rounds {
        marks = backward::mark_all(black_box(&grid), nodes);
    }
    marks
}

/// Marks on every shelf, ours and Rust's, and backwards. All sheets have to be alike, and so have the bytes and columns that the shelves leave.
fn agree_on_marks(cells: &[Cell], formula: &str, nodes: &[Node]) -> usize {
    let mut bytes = vec![0u8; SHEETS * grids::STATES / 8];
    let mut columns = vec![0u64; grids::STATES];
    let (mut our_bytes, mut our_columns) = (bytes.clone(), columns.clone());
    assert_eq!(nodes.len(), ours::mark_bits(formula, cells, grids::STATES, grids::SLOTS, &mut our_bytes, 2), "{formula}");
    assert_eq!(nodes.len(), ours::mark_columns(formula, cells, grids::STATES, grids::SLOTS, &mut our_columns, 2), "{formula}");
    mark_bits(cells, nodes, &mut bytes, 2);
    mark_columns(cells, nodes, &mut columns, 2);
    assert!(bytes == our_bytes, "{formula}");
    assert!(columns == our_columns, "{formula}");
    let row = grids::STATES / 8;
    let marks = mark_backward(cells, nodes, 1);
    for sheet in 0..SHEETS {
        for state in 0..grids::STATES {
            let on = marks.get(sheet).is_some_and(|marks| marks[state]);
            assert_eq!(on, bytes[sheet * row + state / 8] >> (state % 8) & 1 == 1, "{formula} {sheet} {state}");
            assert_eq!(on, columns[state] >> sheet & 1 == 1, "{formula} {sheet} {state}");
        }
    }
    marks.last().map_or(0, |marks| marks.iter().filter(|on| **on).count())
}

fn compare_marking(trials: usize, rounds: usize) {
    println!();
    println!("| grid | formula | marked | bits: ours | same way in Rust | ratio | columns: ours | same way in Rust | ratio | backward in Rust | bits / backward | columns / backward |");
    println!("|---|---|---|---|---|---|---|---|---|---|---|---|");
    for (grid, cells, formulas) in grids::all() {
        for (formula, nodes) in formulas {
            let marked = agree_on_marks(&cells, formula, &nodes);
            let mut bytes = vec![0u8; SHEETS * grids::STATES / 8];
            let mut columns = vec![0u64; grids::STATES];
            let (mut our_bytes, mut our_columns) = (bytes.clone(), columns.clone());
            let t = times(
                trials,
                rounds,
                &mut [
                    &mut |rounds| _ = ours::mark_bits(formula, &cells, grids::STATES, grids::SLOTS, &mut our_bytes, rounds),
                    &mut |rounds| mark_bits(&cells, &nodes, &mut bytes, rounds),
                    &mut |rounds| _ = ours::mark_columns(formula, &cells, grids::STATES, grids::SLOTS, &mut our_columns, rounds),
                    &mut |rounds| mark_columns(&cells, &nodes, &mut columns, rounds),
                    &mut |rounds| drop(black_box(mark_backward(&cells, &nodes, rounds))),
                ],
            );
            println!(
                "| {grid} | {formula} | {marked} | {} | {} | **{}** | {} | {} | **{}** | {} | {} | {} |",
                milliseconds(t[0]),
                milliseconds(t[1]),
                ratio(t[0], t[1]),
                milliseconds(t[2]),
                milliseconds(t[3]),
                ratio(t[2], t[3]),
                milliseconds(t[4]),
                ratio(t[0], t[4]),
                ratio(t[2], t[4]),
            );
        }
    }
}

/// The formula of all rows: a step by b is to come.
const TO_B: &str = "EF {b}";

fn to_b() -> [Node; 2] {
    [Node::True, Node::Short { operator: Operator::Ef, actions: ActionSet::only(2), child: 0 }]
}

/// Marks the formula, and hands the question to a search.
fn with_question<R>(cells: &[Cell], tariffs: &[u16; 64], search: impl FnOnce(&Question<Grid, ColumnShelf>) -> R) -> R {
    let (states, slots) = sizes();
    let grid = Grid::over(cells, states, slots);
    let mut columns = vec![0u64; states];
    let mut shelf = ColumnShelf::open(&mut columns, states);
    let nodes = to_b();
    sweeps::mark_all(&grid, &mut shelf, &nodes);
    let path = nodes[1].path().expect("an operator");
    search(&Question { model: &grid, shelf: &shelf, path, tariffs })
}

#[inline(never)]
fn path_same<W: Weight>(cells: &[Cell], tariffs: &[u16; 64], stem: &mut [Step], rounds: usize) -> usize {
    with_question(cells, tariffs, |question| {
        let mut work = vec![paths::same::Entry::<W>::blank(); cells.len() / grids::SLOTS];
        let mut count = 0;
        for _ in 0..rounds {
            count = black_box(question).same_way(&mut work, stem);
        }
        count
    })
}

#[inline(never)]
fn path_lazy<W: Weight>(cells: &[Cell], tariffs: &[u16; 64], rounds: usize) -> Vec<Step> {
    with_question(cells, tariffs, |question| {
        let mut steps = Vec::new();
        for _ in 0..rounds {
            steps = paths::lazy::<_, _, W>(black_box(question));
        }
        steps
    })
}

/// The same way comes to the same path, and the other to one that is as light; all are decisive.
fn agree_on_paths<W: Weight>(by: By, cells: &[Cell], tariffs: &[u16; 64], room: &mut Room) -> usize {
    let outcome = ours::find_path(by, TO_B, cells, grids::STATES, grids::SLOTS, tariffs, 2, room);
    let mut stem = vec![BLANK; grids::STATES];
    let count = path_same::<W>(cells, tariffs, &mut stem, 2);
    assert_eq!(outcome, PathOutcome { kind: 2, stem: count, cycle: 0 });
    assert!(room.stem == stem);
    let lazy = path_lazy::<W>(cells, tariffs, 2);
    with_question(cells, tariffs, |question| {
        assert!(question.is_decisive(&stem[..count]) && question.is_decisive(&lazy));
        assert!(question.weigh::<W>(&stem[..count]) == question.weigh::<W>(&lazy));
    });
    count
}

fn compare_path<W: Weight>(by: By, name: &str, cells: &[Cell], tariffs: &[u16; 64], trials: usize, rounds: usize) {
    let states = grids::STATES;
    let mut room = Room { columns: vec![0; states], stem: vec![BLANK; states], cycle: vec![BLANK; states] };
    let count = agree_on_paths::<W>(by, cells, tariffs, &mut room);
    let mut stem = vec![BLANK; states];
    let t = times(
        trials,
        rounds,
        &mut [
            &mut |rounds| _ = ours::find_path(by, TO_B, cells, states, grids::SLOTS, tariffs, rounds, &mut room),
            &mut |rounds| _ = black_box(path_same::<W>(cells, tariffs, &mut stem, rounds)),
            &mut |rounds| drop(black_box(path_lazy::<W>(cells, tariffs, rounds))),
        ],
    );
    println!(
        "| {name} | {} | {count} | {} | {} | **{}** | {} | **{}** |",
        if by == By::Airtime { "airtime" } else { "peak" },
        milliseconds(t[0]),
        milliseconds(t[1]),
        ratio(t[0], t[1]),
        milliseconds(t[2]),
        ratio(t[0], t[2]),
    );
}

fn compare_paths(trials: usize, rounds: usize) {
    println!();
    println!("| grid | weight | steps | ours | same way in Rust | ratio | `BinaryHeap` in Rust | ratio |");
    println!("|---|---|---|---|---|---|---|---|");
    for ways in grids::ways() {
        compare_path::<Airtime>(By::Airtime, ways.name, &ways.cells, &ways.airtime, trials, rounds);
        compare_path::<Peak>(By::Peak, ways.name, &ways.cells, &ways.peak, trials, rounds);
    }
}

/// What a study of a formula does, in plain Rust: marks it, counts, and looks for a deciding path from state 0.
fn study_same(
    grid: &Grid,
    shelf: &mut ColumnShelf,
    nodes: &[Node],
    tariffs: &[u16; 64],
    work: &mut [paths::same::Entry<Airtime>],
    stem: &mut [Step],
    cycle: &mut [Step],
) -> StudyOutcome {
    let states = grid.states();
    sweeps::mark_all(grid, shelf, nodes);
    let root = nodes.len() - 1;
    let count = (0..states).filter(|state| shelf.look(root, *state)).count();
    let mut core = root;
    while let Node::Not(child) = nodes[core] {
        core = child;
    }
    let found = match nodes[core].path() {
        None => PathOutcome { kind: 1, stem: 0, cycle: 0 },
        Some(path) => Question { model: grid, shelf: &*shelf, path, tariffs }.deciding(core, work, stem, cycle),
    };
    StudyOutcome { refusal: 0, holds: shelf.look(root, 0), count, share: 1000 * count / states, found }
}

#[inline(never)]
fn study_rounds(cells: &[Cell], nodes: &[Node], tariffs: &[u16; 64], rounds: usize, room: &mut Room) -> StudyOutcome {
    let (states, slots) = sizes();
    let grid = Grid::over(cells, states, slots);
    let Room { columns, stem, cycle } = room;
    let mut shelf = ColumnShelf::open(columns, states);
    let mut work = vec![paths::same::Entry::blank(); states];
    let mut outcome = StudyOutcome::default();
    for _ in 0..rounds {
        outcome = study_same(black_box(&grid), &mut shelf, nodes, tariffs, &mut work, stem, cycle);
    }
    outcome
}

fn compare_study(trials: usize, rounds: usize) {
    println!();
    println!("| grid | formula | at the start | marked | path | ours | same way in Rust | ratio |");
    println!("|---|---|---|---|---|---|---|---|");
    let tariffs: [u16; 64] = std::array::from_fn(|action| 1 + action as u16);
    let states = grids::STATES;
    let fresh = || Room { columns: vec![0; states], stem: vec![BLANK; states], cycle: vec![BLANK; states] };
    for (grid, cells, formulas) in grids::all() {
        for (formula, nodes) in formulas {
            let (mut our_room, mut room) = (fresh(), fresh());
            let outcome = ours::study(formula, &cells, states, grids::SLOTS, &tariffs, 2, &mut our_room);
            assert_eq!(outcome, study_rounds(&cells, &nodes, &tariffs, 2, &mut room), "{grid} {formula}");
            assert!(our_room.columns == room.columns && our_room.stem == room.stem && our_room.cycle == room.cycle, "{grid} {formula}");
            let t = times(
                trials,
                rounds,
                &mut [
                    &mut |rounds| _ = ours::study(formula, &cells, states, grids::SLOTS, &tariffs, rounds, &mut our_room),
                    &mut |rounds| _ = black_box(study_rounds(&cells, &nodes, &tariffs, rounds, &mut room)),
                ],
            );
            let path = match outcome.found {
                PathOutcome { kind: 2, stem, .. } => format!("{stem} steps"),
                PathOutcome { kind: 3, stem, cycle } => format!("{stem} and a cycle of {cycle}"),
                _ => "none".to_string(),
            };
            println!(
                "| {grid} | {formula} | {} | {} | {path} | {} | {} | **{}** |",
                if outcome.holds { "holds" } else { "fails" },
                outcome.count,
                milliseconds(t[0]),
                milliseconds(t[1]),
                ratio(t[0], t[1]),
            );
        }
    }
}

/// `reading`, `marking`, `paths` or `study` alone; `quick` has each contender do its work a few times only, as under a tool that counts instructions;
/// `long` has more trials, for a machine that is not quiet.
fn run() {
    let words: Vec<String> = std::env::args().skip(1).collect();
    let has = |word: &str| words.iter().any(|given| given == word);
    let all = !["reading", "marking", "paths", "study"].into_iter().any(has);
    let (trials, rounds) = if has("quick") {
        (1, 1)
    } else if has("long") {
        (60, 3)
    } else {
        (15, 3)
    };
    if all || has("reading") {
        agree_on_edges();
        compare_reading(trials, rounds);
    }
    if all || has("marking") {
        compare_marking(trials, rounds);
    }
    if all || has("paths") {
        compare_paths(trials, rounds);
    }
    if all || has("study") {
        compare_study(trials, rounds);
    }
}

/// The library keeps a work list of 1.5 MB on the stack, where it is called for paths.
fn main() {
    const STACK: usize = 64 << 20;
    std::thread::Builder::new().stack_size(STACK).spawn(run).expect("a thread").join().expect("no panic");
}
