//! Formulas as lists of nodes, as the library has them: a child is a number of a node before it.

#[derive(Clone, Copy, PartialEq, Eq)]
pub enum Quantifier {
    Some,
    Every,
}

#[derive(Clone, Copy, PartialEq, Eq)]
pub enum Link {
    Until,
    Unless,
}

#[derive(Clone, Copy)]
pub enum Operator {
    Ef,
    Eg,
    Af,
    Ag,
}

/// A set of actions, a bit for each.
#[derive(Clone, Copy)]
pub struct ActionSet(u64);

impl ActionSet {
    pub const NONE: ActionSet = ActionSet(0);
    pub const ALL: ActionSet = ActionSet(u64::MAX);

    pub const fn only(action: u8) -> ActionSet {
        ActionSet(1 << action)
    }

    pub const fn but(action: u8) -> ActionSet {
        ActionSet(!(1 << action))
    }

    pub fn has(self, action: u8) -> bool {
        action < 64 && self.0 >> action & 1 == 1
    }
}

#[derive(Clone, Copy)]
pub enum Node {
    True,
    Not(usize),
    And(usize, usize),
    Or(usize, usize),
    Short { operator: Operator, actions: ActionSet, child: usize },
    Path { quantifier: Quantifier, link: Link, first: ActionSet, left: usize, second: ActionSet, right: usize },
}

/// Steps by some actions, to states that are marked on a sheet, or to any.
#[derive(Clone, Copy)]
pub struct Part {
    pub actions: ActionSet,
    pub sheet: Option<usize>,
}

/// An operator with its two parts.
#[derive(Clone, Copy)]
pub struct PathFormula {
    pub quantifier: Quantifier,
    pub link: Link,
    pub first: Part,
    pub second: Part,
}

impl PathFormula {
    /// Whether one step is enough to be in the least set, or no step may lead elsewhere.
    pub fn one_is_enough(&self) -> bool {
        (self.quantifier == Quantifier::Some) == (self.link == Link::Until)
    }

    /// An operator with one part as one with two.
    pub fn short(operator: Operator, actions: ActionSet, child: usize) -> PathFormula {
        let part = Part { actions, sheet: Some(child) };
        let no_step = Part { actions: ActionSet::NONE, sheet: None };
        let any_step = Part { actions: ActionSet::ALL, sheet: None };
        let (quantifier, link, first, second) = match operator {
            Operator::Ef => (Quantifier::Some, Link::Until, any_step, part),
            Operator::Eg => (Quantifier::Some, Link::Unless, part, no_step),
            Operator::Af => (Quantifier::Every, Link::Until, any_step, part),
            Operator::Ag => (Quantifier::Every, Link::Unless, part, no_step),
        };
        PathFormula { quantifier, link, first, second }
    }
}

impl Node {
    /// The node as an operator with two parts, if it is an operator.
    pub fn path(self) -> Option<PathFormula> {
        match self {
            Node::True | Node::Not(_) | Node::And(..) | Node::Or(..) => None,
            Node::Short { operator, actions, child } => Some(PathFormula::short(operator, actions, child)),
            Node::Path { quantifier, link, first, left, second, right } => Some(PathFormula {
                quantifier,
                link,
                first: Part { actions: first, sheet: Some(left) },
                second: Part { actions: second, sheet: Some(right) },
            }),
        }
    }

    /// What a node without steps makes of the marks of a state.
    pub fn gate(self, on: impl Fn(usize) -> bool) -> bool {
        match self {
            Node::True => true,
            Node::Not(child) => !on(child),
            Node::And(left, right) => on(left) && on(right),
            Node::Or(left, right) => on(left) || on(right),
            Node::Short { .. } | Node::Path { .. } => false,
        }
    }
}
