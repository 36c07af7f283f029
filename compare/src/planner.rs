//! The plan of Algorithms 1 to 4 of the source, with the neediest child wherever they say 'pick'
//! (request 2.6), on nodes that hold several pebbles (request 2.10).

use crate::demands;
use crate::yard::{judge_matched, refuse, Answer, Yard};
use std::cmp::Reverse;

/// How a child is picked among those whose demand has the wanted sign, as demands are at that
/// moment.
#[derive(Clone, Copy, Debug, PartialEq, Eq)]
pub enum Choice {
    /// The child whose demand is farthest from 0, the lowest-numbered among equals: the plan that
    /// is due (request 2.6).
    Neediest,
    /// The lowest-numbered child: makes another plan, whose length must be the same.
    Lowest,
}

/// When a node that is balanced injects; else it extracts.
#[derive(Clone, Copy, Debug, PartialEq, Eq)]
pub enum Turn {
    /// If it holds a pebble and a child's demand is positive: request 2.10.
    HoldsAndWanted,
    /// If it holds a pebble: makes the same plan if each node can hold one. Elsewhere a node may
    /// hold a pebble that is to stay while its children have too many, and this rule finds no
    /// child.
    Holds,
}

/// The plan, two bytes a move; refused if `room` bytes do not hold it.
pub fn plan(yard: &Yard, room: usize) -> Answer<Vec<u8>> {
    plan_by(Choice::Neediest, Turn::HoldsAndWanted, yard, room)
}

/// The plan by either choice and turn.
pub fn plan_by(choice: Choice, turn: Turn, yard: &Yard, room: usize) -> Answer<Vec<u8>> {
    judge_matched(yard)?;
    let root = (0..yard.nodes()).find(|&node| yard.is_root(node)).expect("a tree has a root");
    let mut state = State {
        yard,
        choice,
        turn,
        children: yard.children(),
        demand: demands::of_tree(yard),
        pebbles: yard.pebbles.clone(),
        moves: Vec::new(),
    };
    state.balance_subtrees(root);
    if state.moves.len() > room {
        return refuse(8, state.moves.len() / 2);
    }
    Ok(state.moves)
}

/// The sign of a demand: a subtree lacks pebbles, or has too many.
const POSITIVE: i16 = 1;
const NEGATIVE: i16 = -1;

struct State<'a> {
    yard: &'a Yard,
    choice: Choice,
    turn: Turn,
    children: Vec<Vec<usize>>,
    demand: Vec<i16>,
    pebbles: Vec<u8>,
    moves: Vec<u8>,
}

impl State<'_> {
    /// Algorithm 1. The children are balanced after the loop has ended: the source's listing can be
    /// read otherwise, and document 01 goes by its text.
    fn balance_subtrees(&mut self, u: usize) {
        while self.children[u].iter().any(|&v| self.demand[v] != 0) {
            if self.injects(u) {
                let v = self.pick(u, POSITIVE).expect("Lemma 9");
                self.inject_pebble(v);
            } else {
                let v = self.pick(u, NEGATIVE).expect("Lemma 10");
                self.extract_pebble(v);
            }
        }
        for v in self.children[u].clone() {
            self.balance_subtrees(v);
        }
    }

    fn injects(&self, u: usize) -> bool {
        let wanted = match self.turn {
            Turn::HoldsAndWanted => self.pick(u, POSITIVE).is_some(),
            Turn::Holds => true,
        };
        self.pebbles[u] > 0 && wanted
    }

    /// Algorithm 2. A node is cleared only when it is full.
    fn inject_pebble(&mut self, v: usize) {
        if self.pebbles[v] == self.yard.depths[v] {
            let w = self.pick(v, POSITIVE).expect("Lemma 6");
            self.inject_pebble(w);
        }
        self.move_pebble(self.yard.parent(v), v);
    }

    /// Algorithm 3.
    fn extract_pebble(&mut self, v: usize) {
        if self.pebbles[v] == 0 {
            let w = self.pick(v, NEGATIVE).expect("as Lemma 6");
            self.extract_pebble(w);
        }
        self.move_pebble(v, self.yard.parent(v));
    }

    /// Algorithm 4.
    fn move_pebble(&mut self, u: usize, v: usize) {
        self.pebbles[u] -= 1;
        self.pebbles[v] += 1;
        if self.yard.parent(v) == u {
            self.demand[v] -= 1;
        } else {
            self.demand[u] += 1;
        }
        self.moves.extend([u as u8, v as u8]);
    }

    /// The child of `u` that is chosen among those whose demand has the sign.
    fn pick(&self, u: usize, sign: i16) -> Option<usize> {
        let wanted = self.children[u].iter().copied().filter(|&v| self.demand[v].signum() == sign);
        match self.choice {
            Choice::Neediest => wanted.min_by_key(|&v| (Reverse(self.demand[v].abs()), v)),
            Choice::Lowest => wanted.min(),
        }
    }
}
