//! Scripts that together play every way there is. Some ways come up too rarely by chance: a
//! party closes once in a script, and a look at the flags just then is rarer still.

use std::collections::VecDeque;

use crate::coverage::reach::{Edge, Reach};

/// A tour goes from the opening to the nearest way not yet played, and on from there, until
/// none of those left can be reached; the next one begins again at the opening.
pub fn tours(reach: &Reach) -> Vec<Vec<u8>> {
    let mut played = vec![false; reach.ways.len()];
    let mut tours = Vec::new();
    loop {
        let tour = tour(reach, &mut played);
        if tour.is_empty() {
            return tours;
        }
        tours.push(tour);
    }
}

fn tour(reach: &Reach, played: &mut [bool]) -> Vec<u8> {
    let mut script = Vec::new();
    let mut at = 0;
    while let Some(path) = nearest(reach, at, played) {
        for edge in path {
            script.extend_from_slice(&reach.records[edge.record].to_bytes());
            played[edge.way] = true;
            at = edge.to;
        }
    }
    script
}

/// The shortest path from a state that ends with a way not yet played.
fn nearest<'a>(reach: &'a Reach, from: usize, played: &[bool]) -> Option<Vec<&'a Edge>> {
    // For each state that was come to: the state before it, and the edge between them.
    let mut came: Vec<Option<(usize, &Edge)>> = vec![None; reach.states.len()];
    let mut open = VecDeque::from([from]);
    while let Some(at) = open.pop_front() {
        let edges = &reach.states[at];
        if let Some(last) = edges.iter().find(|edge| !played[edge.way]) {
            return Some(path(&came, from, at, last));
        }
        for edge in edges {
            if edge.to != from && came[edge.to].is_none() {
                came[edge.to] = Some((at, edge));
                open.push_back(edge.to);
            }
        }
    }
    None
}

fn path<'a>(
    came: &[Option<(usize, &'a Edge)>],
    from: usize,
    to: usize,
    last: &'a Edge,
) -> Vec<&'a Edge> {
    let mut path = vec![last];
    let mut at = to;
    while let (true, Some((before, edge))) = (at != from, came[at]) {
        path.push(edge);
        at = before;
    }
    path.reverse();
    path
}
