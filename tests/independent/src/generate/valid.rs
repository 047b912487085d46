//! Graphs that the reader takes: nested branches, joins, follow arcs, unused
//! classes and limits of zero, short and long.

use super::Random;
use crate::draft::{self, Arc, Draft, Masks, Operation};
use crate::oracle::MOST_CONTROLS;

/// How many operations a graph gets and how closely its arcs tie them, so that
/// the reachable states stay within some thousands.
#[derive(Clone, Copy)]
struct Shape {
    least: usize,
    most: usize,
    /// Percent of the operations that hang on one of the two before.
    backbone: usize,
    /// Percent of all other pairs that get an arc.
    arcs: usize,
}

const fn shape(least: usize, most: usize, backbone: usize, arcs: usize) -> Shape {
    Shape {
        least,
        most,
        backbone,
        arcs,
    }
}

/// From short and loose to long and tied; one that often passes 4,096 states.
const SHAPES: [Shape; 8] = [
    shape(0, 5, 10, 15),
    shape(4, 8, 20, 10),
    shape(6, 11, 40, 10),
    shape(8, 15, 60, 15),
    shape(8, 15, 80, 20),
    shape(12, 24, 95, 30),
    shape(16, 24, 100, 100),
    shape(12, 24, 60, 5),
];

/// A graph that the reader takes.
pub fn graph(random: &mut Random) -> Draft {
    let shape = random.pick(&SHAPES);
    let count = random.between(shape.least, shape.most);
    let controls = control_operations(random, count);
    let paths = paths(random, count, &controls);
    let limits = limits(random, count);
    let operations = paths
        .into_iter()
        .map(|path| Operation {
            class: random.below(limits.len()) as u8,
            path,
        })
        .collect();
    let mut draft = Draft {
        limits,
        operations,
        controls,
        arcs: Vec::new(),
    };
    draft.arcs = arcs(random, shape, &draft.operations);
    draft
}

/// Distinct operations anywhere, also after the branch they decide.
fn control_operations(random: &mut Random, count: usize) -> Vec<u8> {
    let mut operations: Vec<u8> = (0..count as u8).collect();
    random.shuffle(&mut operations);
    let most = random.pick(&[0, 1, 1, 2, 2, 3, MOST_CONTROLS]);
    operations.truncate(most);
    operations
}

/// A path for every operation, closed under the paths of its controls.
fn paths(random: &mut Random, count: usize, controls: &[u8]) -> Vec<Masks> {
    let mut paths = vec![Masks::default(); count];
    let mut nesting: Vec<usize> = (0..controls.len()).collect();
    random.shuffle(&mut nesting);
    // A control's operation can stand only on controls drawn before it.
    for (depth, &control) in nesting.iter().enumerate() {
        let operation = usize::from(controls[control]);
        paths[operation] = closed_path(random, &nesting[..depth], controls, &paths);
    }
    for operation in 0..count {
        if !controls.contains(&(operation as u8)) {
            paths[operation] = closed_path(random, &nesting, controls, &paths);
        }
    }
    paths
}

fn closed_path(random: &mut Random, drawn: &[usize], controls: &[u8], paths: &[Masks]) -> Masks {
    let mut path = Masks::default();
    if drawn.is_empty() {
        return path;
    }
    for _ in 0..random.pick(&[0, 0, 0, 1, 1, 1, 2, 3]) {
        let control = random.pick(drawn);
        let outer = paths[usize::from(controls[control])];
        let larger = path.union(outer).with(control as u8, random.chance(50));
        if !larger.share_a_bit() {
            path = larger;
        }
    }
    path
}

/// One class at least if there are operations; some are left unused.
fn limits(random: &mut Random, operations: usize) -> Vec<u8> {
    let least = usize::from(operations > 0);
    let classes = random.pick(&[least, 1, 2, 2, 3, 4, 8]);
    (0..classes)
        .map(|_| match random.below(50) {
            0 => 0,
            1..=24 => 1,
            25..=39 => 2,
            40..=46 => 3,
            _ => random.byte(),
        })
        .collect()
}

/// Arcs by target, then source, each with the literals it needs and now and
/// then one more.
fn arcs(random: &mut Random, shape: Shape, operations: &[Operation]) -> Vec<Arc> {
    let follow_percent = random.pick(&[0, 0, 5, 30]);
    let mut arcs = Vec::new();
    for target in 1..operations.len() {
        let backbone = random.chance(shape.backbone).then(|| {
            let distance = random.between(1, 2).min(target);
            target - distance
        });
        for source in 0..target {
            if backbone != Some(source) && !random.chance(shape.arcs) {
                continue;
            }
            let mut arc = draft::arc(source as u8, target as u8);
            arc.literals = operations[source].path.less(operations[target].path);
            if arc.literals != Masks::default() && random.chance(10) {
                arc.literals = with_another(random, arc.literals, operations);
            } else if arc.literals == Masks::default() && random.chance(follow_percent) {
                arc.kind = 1;
            }
            arcs.push(arc);
        }
    }
    arcs
}

/// Adds literals that some operation's path holds, so that they name controls
/// of the graph.
fn with_another(random: &mut Random, literals: Masks, operations: &[Operation]) -> Masks {
    let larger = literals.union(random.pick(operations).path);
    if larger.share_a_bit() {
        literals
    } else {
        larger
    }
}
