//! T12, never still: one of the two always has room and publishes, and where both take turns
//! somebody does.

use super::amid::Publishing;
use super::bounds::in_call;
use super::longest::NO_BOUND;
use super::machine::State;
use super::search::{Edge, Explored};
use crate::party::{Side, Step};

pub const SIDES: [Side; 2] = [Side::Sender, Side::Recorder];
/// T12's number: whoever presses on has published after so many turns.
pub const TURNS: u32 = 6;

/// Both in pushes and pops, or between calls.
pub fn both_in_call(state: &State) -> bool {
    in_call(state, Side::Sender) && in_call(state, Side::Recorder)
}

/// Neither party closes or shuts down by it.
pub fn both_willing(edge: &&Edge) -> bool {
    SIDES.map(|side| edge.event.leaves(side)) == [false; 2]
}

/// For every state with both in calls or between them: the fewest turns, asleep or not, after which
/// one that has room has published, whatever the other does. `amid` has a walk for each side, by
/// what is fair to it, and knows all these states.
pub fn pressing(explored: &Explored, amid: [&Explored; 2]) -> Vec<Option<u32>> {
    let publishing = [0, 1].map(|at| Publishing::asleep(amid[at], SIDES[at]));
    let presses = |state: &State, at: usize| match state.room(SIDES[at]) {
        0 => NO_BOUND,
        _ => {
            let place = amid[at].place(state);
            place.map_or(NO_BOUND, |place| publishing[at].from(place, 1))
        }
    };
    let fewest = |state: &State| presses(state, 0).min(presses(state, 1));
    let states = explored.states.iter();
    states
        .map(|state| both_in_call(state).then(|| fewest(state)))
        .collect()
}

/// Where each state leads with nothing published and both willing, and who takes a turn by it,
/// asleep or not.
fn quiet_ways(explored: &Explored) -> Vec<Vec<(usize, Option<Side>)>> {
    let mut ways = vec![Vec::new(); explored.states.len()];
    for edge in explored.edges.iter().filter(both_willing) {
        if edge.publishes.is_none() {
            ways[edge.from].push((edge.to, edge.event.side().filter(|_| edge.counts)));
        }
    }
    for (place, state) in explored.states.iter().enumerate() {
        let sleepers = SIDES
            .into_iter()
            .filter(|&side| state.step(side) == Step::Asleep);
        ways[place].extend(sleepers.map(|side| (place, Some(side))));
    }
    ways
}

/// The most turns that both have taken with nothing published, told up to `most`.
pub fn without_publish(explored: &Explored, most: usize) -> usize {
    let ways = quiet_ways(explored);
    let starts = (0..ways.len()).filter(|&place| both_in_call(&explored.states[place]));
    let mut open: Vec<(usize, [usize; 2])> = starts.map(|place| (place, [0, 0])).collect();
    let mut known = vec![false; ways.len() * (most + 1) * (most + 1)];
    let mut largest = 0;
    while let Some((place, taken)) = open.pop() {
        largest = largest.max(taken[0].min(taken[1]));
        for &(to, turn) in &ways[place] {
            let count = |at: usize| (taken[at] + usize::from(turn == Some(SIDES[at]))).min(most);
            let taken = [count(0), count(1)];
            let node = (to * (most + 1) + taken[0]) * (most + 1) + taken[1];
            if !known[node] {
                known[node] = true;
                open.push((to, taken));
            }
        }
    }
    largest
}
