//! Grids of 65,536 states with 8 slots, and formulas to mark on them.

use crate::cell::{Cell, EMPTY};
use crate::node::{ActionSet, Link, Node, Operator, Quantifier};
use crate::random::Random;

pub const STATES: usize = 65_536;
pub const SLOTS: usize = 8;

const A: u8 = 1;
const B: u8 = 2;
const C: u8 = 3;

/// Every slot is filled, with a random target: c with nine steps of ten, b with one of 4,096, else a.
pub fn random() -> Vec<Cell> {
    let mut random = Random::new(11);
    (0..STATES * SLOTS)
        .map(|_| {
            let action = match random.below(4_096) {
                0 => B,
                1..410 => A,
                _ => C,
            };
            Cell::step(action, random.below(STATES))
        })
        .collect()
}

/// From s to s + 1 under a, and into the last state under b.
pub fn up() -> Vec<Cell> {
    let mut cells = vec![EMPTY; STATES * SLOTS];
    for state in 0..STATES - 1 {
        cells[state * SLOTS] = Cell::step(if state + 2 == STATES { B } else { A }, state + 1);
    }
    cells
}

/// From s to s - 1 under a, and into state 0 under b.
pub fn down() -> Vec<Cell> {
    let mut cells = vec![EMPTY; STATES * SLOTS];
    for state in 1..STATES {
        cells[state * SLOTS] = Cell::step(if state == 1 { B } else { A }, state - 1);
    }
    cells
}

/// A formula as a text over the actions a, b and c, and as the nodes that the text stands for.
pub type Formula = (&'static str, Vec<Node>);

/// Of b each grid has few steps; `much` is an action by which AF marks many states.
pub fn formulas(much: u8) -> Vec<Formula> {
    let short = |operator, actions, child| Node::Short { operator, actions, child };
    let one = |operator, actions| vec![Node::True, short(operator, actions, 0)];
    let rare = ActionSet::only(B);
    let weak = vec![
        Node::True,
        Node::True,
        Node::Path { quantifier: Quantifier::Some, link: Link::Until, first: ActionSet::but(A), left: 0, second: rare, right: 1 },
        Node::True,
        Node::Path {
            quantifier: Quantifier::Every,
            link: Link::Unless,
            first: ActionSet::but(B),
            left: 2,
            second: ActionSet::only(A),
            right: 3,
        },
    ];
    let mixed = vec![
        Node::True,
        short(Operator::Ef, rare, 0),
        Node::True,
        short(Operator::Af, ActionSet::only(much), 2),
        Node::Not(3),
        Node::And(1, 4),
        Node::True,
        short(Operator::Eg, ActionSet::but(B), 6),
        Node::Or(5, 7),
    ];
    vec![
        ("EF {b}", one(Operator::Ef, rare)),
        ("AG {NOT b}", one(Operator::Ag, ActionSet::but(B))),
        (if much == B { "AF {b}" } else { "AF {c}" }, one(Operator::Af, ActionSet::only(much))),
        ("EG {NOT b}", one(Operator::Eg, ActionSet::but(B))),
        ("AG EF {b}", vec![Node::True, short(Operator::Ef, rare, 0), short(Operator::Ag, ActionSet::ALL, 1)]),
        ("A[{NOT b} E[{NOT a} U {b}] W {a}]", weak),
        (if much == B { "EF {b} AND NOT AF {b} OR EG {NOT b}" } else { "EF {b} AND NOT AF {c} OR EG {NOT b}" }, mixed),
    ]
}

pub fn all() -> Vec<(&'static str, Vec<Cell>, Vec<Formula>)> {
    vec![
        ("random targets", random(), formulas(C)),
        ("chain s to s + 1", up(), formulas(B)),
        ("chain s to s - 1", down(), formulas(B)),
    ]
}

/// A grid to look for a lightest path on, with tariffs for airtime and for peak. Only one step is by b, and its tariff is as great as can be, so that
/// every state is settled before it is certain that nothing is lighter.
pub struct Ways {
    pub name: &'static str,
    pub cells: Vec<Cell>,
    pub airtime: [u16; 64],
    pub peak: [u16; 64],
}

fn tariffs(each: impl Fn(usize) -> u16) -> [u16; 64] {
    let mut tariffs = std::array::from_fn(each);
    tariffs[usize::from(B)] = u16::MAX;
    tariffs
}

/// Every slot is filled, with a random target and a random action of those past b.
fn random_ways() -> Ways {
    let mut random = Random::new(13);
    let mut cells: Vec<Cell> = (0..STATES * SLOTS).map(|_| Cell::step(3 + random.below(61) as u8, random.below(STATES))).collect();
    cells[40_000 * SLOTS] = Cell::step(B, 0);
    let each: Vec<u16> = (0..64).map(|_| 1 + random.below(1_000) as u16).collect();
    let tariffs = tariffs(|action| each[action]);
    Ways { name: "8 random slots", cells, airtime: tariffs, peak: tariffs }
}

/// How many layers of states are reached by 8 ever lighter ways.
const LAYERS: usize = 3;

/// The states of a layer are of 8 groups; a state of group h is reached from one state of each group of the layer before, and the later the group is
/// settled, the lighter is the way. The first layer hangs on a tree, by steps whose tariff puts its groups in order.
fn ladder() -> Ways {
    const M: usize = 282;
    const TREE: usize = 8 * M + 1;
    const WIDE: usize = 7 * M + 1;
    let layer = |layer: usize, group: usize, i: usize| TREE + (layer * WIDE + i) * 8 + group;
    let mut cells = vec![EMPTY; STATES * SLOTS];
    for state in 0..TREE {
        for slot in 0..SLOTS {
            let child = 8 * state + 1 + slot;
            let action = if child < TREE { 3 } else { 4 + slot as u8 };
            cells[state * SLOTS + slot] = Cell::step(action, child);
        }
    }
    for from in 0..LAYERS {
        for i in 0..WIDE {
            for g in 0..8 {
                for h in 0..8 {
                    let to = (i * 31 + g * 101 + h * 7) % WIDE;
                    let action = 12 + from * 15 + h + 7 - g;
                    cells[layer(from, g, i) * SLOTS + h] = Cell::step(action as u8, layer(from + 1, h, to));
                }
            }
        }
    }
    cells[layer(LAYERS, 7, WIDE - 1) * SLOTS] = Cell::step(B, 0);
    let rung = |action: usize| ((action - 12) / 15, (action - 12) % 15);
    let first = |action: usize| if action < 4 { 0 } else { action as u16 - 3 };
    let airtime = tariffs(|action| if action < 12 { first(action) } else { let (from, x) = rung(action); (100 + (from + 2) * x) as u16 });
    let peak = tariffs(|action| if action < 12 { first(action) } else { let (from, x) = rung(action); (100 * (from + 1) + x) as u16 });
    Ways { name: "8 ever lighter ways", cells, airtime, peak }
}

pub fn ways() -> Vec<Ways> {
    let even = tariffs(|_| 1);
    vec![random_ways(), Ways { name: "chain s to s + 1", cells: up(), airtime: even, peak: even }, ladder()]
}
