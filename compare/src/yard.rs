//! A yard as a caller hands it in, and the tests that it must pass before anything else is asked of
//! it.

/// The largest yard (document 01).
pub const MAX_NODES: usize = 256;

/// The most pebbles that a node can hold (request 2.10).
pub const MAX_DEPTH: u8 = 8;

/// Four lists with an entry for each node: its parent, how many pebbles it holds, how many it is to
/// hold, and how many it can hold. They may hold anything, and differ in length.
#[derive(Clone, Debug, Default, PartialEq, Eq)]
pub struct Yard {
    pub parents: Vec<u8>,
    pub pebbles: Vec<u8>,
    pub targets: Vec<u8>,
    pub depths: Vec<u8>,
}

/// Document 01's refusal: its number in the table there, and its place.
#[derive(Clone, Copy, Debug, PartialEq, Eq)]
pub struct Refusal {
    pub number: u32,
    pub place: u32,
}

pub type Answer<T> = Result<T, Refusal>;

/// A refusal as the answer of a call.
pub fn refuse<T>(number: u32, place: usize) -> Answer<T> {
    Err(Refusal { number, place: place as u32 })
}

impl Yard {
    /// A yard whose nodes can hold one pebble each.
    pub fn shallow(parents: &[u8], pebbles: &[u8], targets: &[u8]) -> Yard {
        let depths = vec![1; parents.len()];
        Yard { parents: parents.to_vec(), pebbles: pebbles.to_vec(), targets: targets.to_vec(), depths }
    }

    /// The same tree with nothing on it.
    pub fn emptied(self) -> Yard {
        let none = vec![0; self.nodes()];
        Yard { pebbles: none.clone(), targets: none, ..self }
    }

    pub fn nodes(&self) -> usize {
        self.parents.len()
    }

    pub fn parent(&self, node: usize) -> usize {
        usize::from(self.parents[node])
    }

    pub fn is_root(&self, node: usize) -> bool {
        self.parent(node) == node
    }

    pub fn is_shallow(&self) -> bool {
        self.depths.iter().all(|&depth| depth == 1)
    }

    /// The children of each node, in rising number. Asks for a tree.
    pub fn children(&self) -> Vec<Vec<usize>> {
        let mut children = vec![Vec::new(); self.nodes()];
        for node in 0..self.nodes() {
            if !self.is_root(node) {
                children[self.parent(node)].push(node);
            }
        }
        children
    }
}

/// The sum of a list of counts.
pub fn total(counts: &[u8]) -> usize {
    counts.iter().map(|&count| usize::from(count)).sum()
}

/// The nodes that have any, in rising number.
pub fn having(counts: &[u8]) -> Vec<usize> {
    (0..counts.len()).filter(|&node| counts[node] > 0).collect()
}

/// The nodes in rising number, each as often as it counts.
pub fn each(counts: &[u8]) -> Vec<usize> {
    (0..counts.len()).flat_map(|node| std::iter::repeat_n(node, usize::from(counts[node]))).collect()
}

/// Refusals 1, 2, 26, 27, 4, 5 and 6, in this order: whether the lists are a tree with its counts.
pub fn judge(yard: &Yard) -> Answer<()> {
    judge_lengths(yard)?;
    let n = yard.nodes();
    if let Some(node) = yard.depths.iter().position(|&depth| depth == 0 || depth > MAX_DEPTH) {
        return refuse(26, node);
    }
    for counts in [&yard.pebbles, &yard.targets] {
        if let Some(node) = (0..n).find(|&node| counts[node] > yard.depths[node]) {
            return refuse(27, node);
        }
    }
    if let Some(node) = (0..n).find(|&node| yard.parent(node) >= n) {
        return refuse(4, node);
    }
    let roots: Vec<usize> = (0..n).filter(|&node| yard.is_root(node)).collect();
    match roots[..] {
        [] => return refuse(5, 0),
        [_] => {}
        [_, second, ..] => return refuse(5, second),
    }
    // A climb that has not ended after n steps has met a node twice, and goes round for ever.
    let reaches_root = |node: usize| yard.is_root((0..n).fold(node, |at, _| yard.parent(at)));
    match (0..n).find(|&node| !reaches_root(node)) {
        Some(node) => refuse(6, node),
        None => Ok(()),
    }
}

/// Refusals 1 and 2.
pub fn judge_lengths(yard: &Yard) -> Answer<()> {
    let n = yard.nodes();
    if n == 0 || n > MAX_NODES {
        return refuse(1, 0);
    }
    if [&yard.pebbles, &yard.targets, &yard.depths].iter().any(|list| list.len() != n) {
        return refuse(2, 0);
    }
    Ok(())
}

/// The same and 7: a tree with as many pebbles as targets, which has a plan.
pub fn judge_matched(yard: &Yard) -> Answer<()> {
    judge(yard)?;
    if total(&yard.pebbles) != total(&yard.targets) {
        return refuse(7, 0);
    }
    Ok(())
}
