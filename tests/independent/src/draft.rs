//! Graphs on the way to a file: the records as bytes, right or wrong, written
//! with counts and offsets that fit them.

use crate::oracle::Content;

/// The record of an operation.
#[derive(Clone, Copy, Debug)]
pub struct Operation {
    pub class: u8,
    pub path: Masks,
}

/// A set of literals as it stands in a record.
#[derive(Clone, Copy, Debug, Default, PartialEq, Eq)]
pub struct Masks {
    pub when_true: u8,
    pub when_false: u8,
}

/// The record of an arc.
#[derive(Clone, Copy, Debug)]
pub struct Arc {
    pub source: u8,
    pub target: u8,
    pub kind: u8,
    pub literals: Masks,
}

#[derive(Clone, Debug, Default)]
pub struct Draft {
    pub limits: Vec<u8>,
    pub operations: Vec<Operation>,
    pub controls: Vec<u8>,
    pub arcs: Vec<Arc>,
}

impl Masks {
    pub fn with(mut self, control: u8, side: bool) -> Self {
        let mask = if side {
            &mut self.when_true
        } else {
            &mut self.when_false
        };
        *mask |= 1 << control;
        self
    }

    pub fn union(self, other: Masks) -> Self {
        Masks {
            when_true: self.when_true | other.when_true,
            when_false: self.when_false | other.when_false,
        }
    }

    pub fn less(self, other: Masks) -> Self {
        Masks {
            when_true: self.when_true & !other.when_true,
            when_false: self.when_false & !other.when_false,
        }
    }

    pub fn share_a_bit(self) -> bool {
        self.when_true & self.when_false != 0
    }
}

/// An operation that stands on no branch.
pub fn operation(class: u8) -> Operation {
    Operation {
        class,
        path: Masks::default(),
    }
}

impl Operation {
    pub fn on(self, control: u8, side: bool) -> Self {
        Operation {
            path: self.path.with(control, side),
            ..self
        }
    }

    fn record(&self) -> [u8; 3] {
        [self.class, self.path.when_true, self.path.when_false]
    }
}

/// A plain arc that passes no join.
pub fn arc(source: u8, target: u8) -> Arc {
    Arc {
        source,
        target,
        kind: 0,
        literals: Masks::default(),
    }
}

/// A follow arc.
pub fn follow(source: u8, target: u8) -> Arc {
    Arc {
        kind: 1,
        ..arc(source, target)
    }
}

impl Arc {
    pub fn through(self, control: u8, side: bool) -> Self {
        Arc {
            literals: self.literals.with(control, side),
            ..self
        }
    }

    fn record(&self) -> [u8; 5] {
        let Masks {
            when_true,
            when_false,
        } = self.literals;
        [self.source, self.target, self.kind, when_true, when_false]
    }
}

impl Draft {
    /// The lists that the writer takes.
    pub fn content(&self) -> Content {
        Content {
            edition: 1,
            operations: self.operations.iter().flat_map(Operation::record).collect(),
            limits: self.limits.clone(),
            controls: self.controls.clone(),
            arcs: self.arcs.iter().flat_map(Arc::record).collect(),
        }
    }

    /// The graph file. Counts too large for their bytes are cut off.
    pub fn bytes(&self) -> Vec<u8> {
        file_of(&self.content())
    }
}

/// The graph file of lists of whole records, whatever they hold. Counts too
/// large for their bytes are cut off.
pub fn file_of(content: &Content) -> Vec<u8> {
    let operations_at = 16 + content.limits.len();
    let controls_at = operations_at + content.operations.len();
    let arcs_at = controls_at + content.controls.len();
    let arcs = content.arcs.len() / 5;
    let mut file = vec![0x48, 0x53, content.edition];
    file.push((content.operations.len() / 3) as u8);
    file.push(content.limits.len() as u8);
    file.push(content.controls.len() as u8);
    for number in [arcs, 16, operations_at, controls_at, arcs_at] {
        file.extend((number as u16).to_le_bytes());
    }
    file.extend(&content.limits);
    file.extend(&content.operations);
    file.extend(&content.controls);
    file.extend(&content.arcs);
    file
}

/// Case A of document 01: a compare, and an addition on each side.
pub fn case_a() -> Draft {
    Draft {
        limits: vec![1, 1],
        operations: vec![
            operation(0),
            operation(1).on(0, true),
            operation(1).on(0, false),
        ],
        controls: vec![0],
        arcs: vec![],
    }
}

/// A graph for the order of refusals: nested branches, a join, a follow arc.
/// Its limits stand at 16, operations at 18, controls at 36, arcs at 38.
pub fn nested() -> Draft {
    Draft {
        limits: vec![1, 1],
        operations: vec![
            operation(0),
            operation(1).on(0, true),
            operation(1).on(0, true).on(1, false),
            operation(0).on(0, false),
            operation(0),
            operation(0),
        ],
        controls: vec![0, 1],
        arcs: vec![
            arc(1, 2),
            arc(2, 4).through(0, true).through(1, false),
            arc(3, 4).through(0, false),
            follow(4, 5),
        ],
    }
}

/// The largest file: every count at its maximum. The arcs leave one order of
/// the operations, and the first four produce the controls.
pub fn largest() -> Draft {
    let pairs = (1..24).flat_map(|target| (0..target).map(move |source| arc(source, target)));
    Draft {
        limits: vec![1; 8],
        operations: (0..24).map(|number| operation(number % 8)).collect(),
        controls: vec![0, 1, 2, 3],
        arcs: pairs.collect(),
    }
}
