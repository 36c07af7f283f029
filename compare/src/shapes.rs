//! Trees of many shapes, their roots and numbers anywhere, with pebbles and targets.

use crate::parts::grouped;
use crate::random::Random;
use crate::yard::{judge, total, Yard, MAX_DEPTH};

#[derive(Clone, Copy, Debug, PartialEq, Eq)]
pub enum Shape {
    Line,
    Star,
    Caterpillar,
    Binary,
    Broom,
    Random,
}

impl Shape {
    pub const ALL: [Shape; 6] = [Shape::Line, Shape::Star, Shape::Caterpillar, Shape::Binary, Shape::Broom, Shape::Random];

    pub fn name(self) -> &'static str {
        match self {
            Shape::Line => "line",
            Shape::Star => "star",
            Shape::Caterpillar => "caterpillar",
            Shape::Binary => "binary",
            Shape::Broom => "broom",
            Shape::Random => "random",
        }
    }

    /// The parents of n nodes, root 0, parents before children.
    pub fn parents(self, n: usize, random: &mut Random) -> Vec<usize> {
        // How far back a random parent may be: 1 gives a line, n − 1 a shallow tree.
        let span = random.within(1, n);
        let parent = |node: usize| match self {
            Shape::Line => node - 1,
            Shape::Star => 0,
            // Even nodes are the spine, each odd one hangs from the even one before it.
            Shape::Caterpillar => (node - 1) / 2 * 2,
            Shape::Binary => (node - 1) / 2,
            // A handle of half the nodes, the remaining nodes at its end.
            Shape::Broom => (node - 1).min(n / 2),
            Shape::Random => node - random.within(1, span.min(node)),
        };
        std::iter::once(0).chain((1..n).map(parent)).collect()
    }
}

/// The same tree, hung up by `root` instead of node 0.
pub fn rooted(mut parents: Vec<usize>, root: usize) -> Vec<usize> {
    let (mut below, mut node) = (root, root);
    loop {
        let above = parents[node];
        parents[node] = below;
        if above == node {
            return parents;
        }
        (below, node) = (node, above);
    }
}

/// The same yard with node v called `names[v]`.
fn renamed(parents: &[usize], counts: [&[u8]; 3], names: &[usize]) -> Yard {
    let moved = |list: &[u8]| {
        let mut moved = vec![0; list.len()];
        for (&name, &entry) in names.iter().zip(list) {
            moved[name] = entry;
        }
        moved
    };
    let named: Vec<u8> = parents.iter().map(|&parent| names[parent] as u8).collect();
    let [pebbles, targets, depths] = counts.map(moved);
    Yard { parents: moved(&named), pebbles, targets, depths }
}

/// The same yard with its numbers anywhere.
fn numbered_anyhow(parents: &[usize], counts: [&[u8]; 3], random: &mut Random) -> Yard {
    let mut names: Vec<usize> = (0..parents.len()).collect();
    random.shuffle(&mut names);
    renamed(parents, counts, &names)
}

/// The same yard with its numbers mixed.
pub fn mixed(yard: &Yard, random: &mut Random) -> Yard {
    let parents: Vec<usize> = yard.parents.iter().map(|&parent| usize::from(parent)).collect();
    numbered_anyhow(&parents, [&yard.pebbles, &yard.targets, &yard.depths], random)
}

/// Counts from places that are taken or not, all those of a node side by side.
fn counted(depths: &[u8], mut places: &[u8]) -> Vec<u8> {
    let count = |&depth: &u8| {
        let (own, others) = places.split_at(usize::from(depth));
        places = others;
        own.iter().sum()
    };
    depths.iter().map(count).collect()
}

/// The k first places taken.
fn first(depths: &[u8], k: usize) -> Vec<u8> {
    counted(depths, &Vec::from_iter((0..total(depths)).map(|place| u8::from(place < k))))
}

/// The k last places taken.
fn last(depths: &[u8], k: usize) -> Vec<u8> {
    let places = total(depths);
    counted(depths, &Vec::from_iter((0..places).map(|place| u8::from(place >= places - k))))
}

/// Any k places taken.
pub fn scattered(depths: &[u8], k: usize, random: &mut Random) -> Vec<u8> {
    let mut places: Vec<u8> = (0..total(depths)).map(|place| u8::from(place < k)).collect();
    random.shuffle(&mut places);
    counted(depths, &places)
}

/// Pebbles and targets, equally many, for a tree numbered parents first.
fn pebbles_and_targets(depths: &[u8], random: &mut Random) -> (Vec<u8>, Vec<u8>) {
    let k = random.within(0, total(depths));
    match random.below(6) {
        // As far apart as can be, both ways: long plans.
        0 => (first(depths, k), last(depths, k)),
        1 => (last(depths, k), first(depths, k)),
        // Nothing to do.
        2 if random.once_in(4) => {
            let pebbles = scattered(depths, k, random);
            (pebbles.clone(), pebbles)
        }
        // A few pebbles in an empty yard.
        3 => {
            let k = k.min(random.within(1, 3));
            (scattered(depths, k, random), scattered(depths, k, random))
        }
        _ => (scattered(depths, k, random), scattered(depths, k, random)),
    }
}

/// Pebbles and targets for a tree whose edges above some nodes are cut: each part gets as many
/// pebbles as targets, so the demand of these nodes is 0. `own` places those of a part, by the
/// depths of its nodes in rising number.
fn part_by_part(
    parents: &[usize],
    depths: &[u8],
    cut: impl Fn(usize) -> bool,
    mut own: impl FnMut(&[u8]) -> (Vec<u8>, Vec<u8>),
) -> (Vec<u8>, Vec<u8>) {
    let climb = |node: usize| {
        let mut at = node;
        while !cut(at) && parents[at] != at {
            at = parents[at];
        }
        at
    };
    let n = parents.len();
    let (mut pebbles, mut targets) = (vec![0; n], vec![0; n]);
    for (_, nodes) in grouped(&Vec::from_iter((0..n).map(climb))) {
        let (held, wanted) = own(&Vec::from_iter(nodes.iter().map(|&node| depths[node])));
        for (&node, (held, wanted)) in nodes.iter().zip(held.into_iter().zip(wanted)) {
            (pebbles[node], targets[node]) = (held, wanted);
        }
    }
    (pebbles, targets)
}

/// A tree of the shape with n nodes of depth 1, as many pebbles as targets, root and numbers
/// anywhere.
pub fn yard(shape: Shape, n: usize, random: &mut Random) -> Yard {
    with_depths(shape, &vec![1; n], random)
}

/// The same with other depths.
pub fn deep_yard(shape: Shape, n: usize, random: &mut Random) -> Yard {
    with_depths(shape, &depths(n, MAX_DEPTH, random), random)
}

/// One of the two.
pub fn any_yard(shape: Shape, n: usize, random: &mut Random) -> Yard {
    if random.once_in(2) {
        yard(shape, n, random)
    } else {
        deep_yard(shape, n, random)
    }
}

/// A tree of the shape whose nodes, numbered parents first, have these depths, as many pebbles as
/// targets, root and numbers anywhere.
pub fn with_depths(shape: Shape, depths: &[u8], random: &mut Random) -> Yard {
    let n = depths.len();
    let parents = shape.parents(n, random);
    let (pebbles, targets) = pebbles_and_targets(depths, random);
    let parents = rooted(parents, random.below(n));
    numbered_anyhow(&parents, [&pebbles, &targets, depths], random)
}

/// The same in parts: on average one edge in so many has the demand 0 (with 1, all of them), and
/// others may have it by chance.
pub fn parted(shape: Shape, depths: &[u8], times: usize, random: &mut Random) -> Yard {
    let n = depths.len();
    let parents = rooted(shape.parents(n, random), random.below(n));
    let cut: Vec<bool> = (0..n).map(|_| random.once_in(times)).collect();
    let (pebbles, targets) = part_by_part(&parents, depths, |node| cut[node], |depths| pebbles_and_targets(depths, random));
    numbered_anyhow(&parents, [&pebbles, &targets, depths], random)
}

/// The depths of n nodes, up to a greatest: any, all the same, or a few that are not 1.
pub fn depths(n: usize, most: u8, random: &mut Random) -> Vec<u8> {
    let mut any = || random.within(1, usize::from(most)) as u8;
    let (same, all) = (any(), Vec::from_iter((0..n).map(|_| any())));
    match random.below(4) {
        0 => vec![same; n],
        1 => all.into_iter().map(|depth| if random.once_in(4) { depth } else { 1 }).collect(),
        _ => all,
    }
}

/// The tree of the shape with root 0 and parents first, all nodes of this depth, the first half of
/// them full, the second half to be filled: for a line of depth 1 this is yard I of document 01.
pub fn far(shape: Shape, n: usize, depth: u8, random: &mut Random) -> Yard {
    far_parts(shape, n, depth, n, random)
}

/// The same in parts: the edge above each node whose number is a multiple of `every` is cut. The
/// first half of each part is full, the second half to be filled.
pub fn far_parts(shape: Shape, n: usize, depth: u8, every: usize, random: &mut Random) -> Yard {
    let parents = shape.parents(n, random);
    let depths = vec![depth; n];
    let own = |depths: &[u8]| {
        let half = usize::from(depth) * (depths.len() / 2);
        (first(depths, half), last(depths, half))
    };
    let (pebbles, targets) = part_by_part(&parents, &depths, |node| node.is_multiple_of(every), own);
    renamed(&parents, [&pebbles, &targets, &depths], &Vec::from_iter(0..n))
}

/// A number of nodes from `low` to `high`, small ones as likely as large ones.
pub fn size(low: usize, high: usize, random: &mut Random) -> usize {
    let top = random.within(low, high);
    random.within(low, top)
}

/// The parents lists of all rooted trees on n numbered nodes.
pub fn every_tree(n: usize) -> Vec<Vec<u8>> {
    let lists = (0..n.pow(n as u32)).map(|code| (0..n).map(|node| (code / n.pow(node as u32) % n) as u8).collect::<Vec<u8>>());
    let zeros = vec![0; n];
    lists.filter(|parents| judge(&Yard::shallow(parents, &zeros, &zeros)).is_ok()).collect()
}

/// All lists with entries from 0 to those of a list: the first changes from one to the next.
pub fn every_count(most: &[u8]) -> Vec<Vec<u8>> {
    most.iter().fold(vec![vec![]], |lists, &most| {
        let longer = |entry: u8| lists.iter().map(move |list| [&list[..], &[entry]].concat());
        (0..=most).flat_map(longer).collect()
    })
}

/// All lists of n depths up to a greatest.
pub fn every_depths(n: usize, most: u8) -> impl Iterator<Item = Vec<u8>> {
    every_count(&vec![most - 1; n]).into_iter().map(|list| list.into_iter().map(|less| less + 1).collect())
}

/// All rooted trees on numbered nodes of these depths, with all pebbles and targets.
pub fn every_yard(depths: Vec<u8>) -> impl Iterator<Item = Yard> {
    let counts = every_count(&depths);
    every_tree(depths.len()).into_iter().flat_map(move |parents| {
        let filled = |pebbles: &Vec<u8>, targets: &Vec<u8>| Yard {
            parents: parents.clone(),
            pebbles: pebbles.clone(),
            targets: targets.clone(),
            depths: depths.clone(),
        };
        counts.iter().flat_map(|pebbles| counts.iter().map(move |targets| filled(pebbles, targets))).collect::<Vec<Yard>>()
    })
}
