//! Wear (request 2.12): the most crossings of one edge within a stretch, which is so many moves of
//! a plan in a row.

use crate::checker::check;
use crate::yard::{refuse, Answer, Yard};
use std::cmp::Reverse;

/// One edge within one stretch: how often it is crossed there, whichever way, the number of the
/// stretch's first move, from 0, and the edge, by its child node.
#[derive(Clone, Copy, Debug, PartialEq, Eq)]
pub struct Wear {
    pub crossings: u32,
    pub first: u32,
    pub edge: u32,
}

/// Finds what is asked for among the stretches of this width. Asks for moves along edges, and for a
/// stretch.
pub type Count = fn(&Yard, &[u8], usize) -> Wear;

/// The call, with every stretch counted anew.
pub fn wear(yard: &Yard, plan: &[u8], width: u32) -> Answer<Wear> {
    wear_by(every_stretch, yard, plan, width)
}

/// The call by either count.
pub fn wear_by(count: Count, yard: &Yard, plan: &[u8], width: u32) -> Answer<Wear> {
    let moves = check(yard, plan)?.moves;
    if width == 0 || width > moves {
        return refuse(28, 0);
    }
    Ok(count(yard, plan, width as usize))
}

/// Every edge of every stretch.
pub fn every_stretch(yard: &Yard, plan: &[u8], width: usize) -> Wear {
    let edges = crossed(yard, plan);
    let counted = |(first, stretch): (usize, &[usize])| {
        let mut crossings = vec![0; yard.nodes()];
        for &edge in stretch {
            crossings[edge] += 1;
        }
        crossings.into_iter().enumerate().map(move |(edge, crossings)| told(crossings, first, edge))
    };
    asked_for(edges.windows(width).enumerate().flat_map(counted))
}

/// The same by another method, for plans with too many stretches: each edge by the moves that cross
/// it. The first stretch with the most crossings begins the plan or ends with one of them, as the
/// previous stretch has one less.
pub fn every_edge(yard: &Yard, plan: &[u8], width: usize) -> Wear {
    let mut crossings = vec![Vec::new(); yard.nodes()];
    for (place, edge) in crossed(yard, plan).into_iter().enumerate() {
        crossings[edge].push(place);
    }
    let of_edge = |(edge, places): (usize, &Vec<usize>)| {
        let before = |end: usize| places.partition_point(|&place| place < end);
        let ending = |&last: &usize| {
            let first = (last + 1).saturating_sub(width);
            told(before(first + width) - before(first), first, edge)
        };
        places.iter().map(ending).collect::<Vec<Wear>>()
    };
    asked_for(crossings.iter().enumerate().flat_map(of_edge))
}

/// The edge that each move crosses.
fn crossed(yard: &Yard, plan: &[u8]) -> Vec<usize> {
    let edge = |ends: &[u8]| {
        let [from, to] = [ends[0], ends[1]].map(usize::from);
        if yard.parent(from) == to {
            from
        } else {
            to
        }
    };
    plan.chunks(2).map(edge).collect()
}

fn told(crossings: usize, first: usize, edge: usize) -> Wear {
    Wear { crossings: crossings as u32, first: first as u32, edge: edge as u32 }
}

/// The most crossings; of equal ones the first stretch, and in it the lowest edge.
fn asked_for(all: impl Iterator<Item = Wear>) -> Wear {
    all.min_by_key(|wear| (Reverse(wear.crossings), wear.first, wear.edge)).expect("a stretch has a move")
}
