//! How many turns a party takes while the other moves too: in every order, whatever it does.
//!
//! T11 and T4 with the other moving are those of crates/rules/specs/Both.antt. An opponent chooses
//! the order and all that may happen; a party's own turns cost one each.

use super::bounds::in_call;
use super::longest::{Arc, Graph};
use super::machine::State;
use super::search::{Edge, Explored};
use crate::party::{Side, Step};

/// One for a turn of a side's that counts.
fn cost(edge: &Edge, side: Side) -> u32 {
    u32::from(edge.counts && edge.event.side() == Some(side))
}

/// The most turns of a side from every state, up to one where it is over.
pub fn most_turns(explored: &Explored, side: Side, over: impl Fn(&State) -> bool) -> Vec<u32> {
    let goes_on = |edge: &&Edge| !over(&explored.states[edge.from]);
    let arc = |edge: &Edge| Arc {
        from: edge.from,
        to: edge.to,
        cost: cost(edge, side),
        event: Some(edge.event),
    };
    let arcs = explored.edges.iter().filter(goes_on).map(arc).collect();
    Graph::new(explored.states.len(), arcs).most()
}

/// T11: how a willing party publishes, whatever the other does. A place of the graph is a state with
/// the number of notes that are still to publish.
pub struct Publishing<'a> {
    explored: &'a Explored,
    side: Side,
    graph: Graph,
    most: Vec<u32>,
}

impl<'a> Publishing<'a> {
    /// For up to so many notes.
    pub fn new(explored: &'a Explored, side: Side, notes: u64) -> Self {
        Publishing::counting(explored, side, notes, false)
    }

    /// T12: one note, with the turns counted too that the party sleeps through.
    pub fn asleep(explored: &'a Explored, side: Side) -> Self {
        Publishing::counting(explored, side, 1, true)
    }

    fn counting(explored: &'a Explored, side: Side, notes: u64, asleep: bool) -> Self {
        let places = explored.states.len();
        let mut arcs = Vec::new();
        for left in 1..=notes as usize {
            for edge in explored
                .edges
                .iter()
                .filter(|edge| !edge.event.leaves(side))
            {
                let published = usize::from(edge.publishes == Some(side));
                arcs.push(Arc {
                    from: left * places + edge.from,
                    to: (left - published) * places + edge.to,
                    cost: cost(edge, side),
                    event: Some(edge.event),
                });
            }
            let sleeps = |place: &usize| explored.states[*place].step(side) == Step::Asleep;
            let naps = (0..places).filter(|place| asleep && sleeps(place));
            arcs.extend(naps.map(|place| Arc {
                from: left * places + place,
                to: left * places + place,
                cost: 1,
                event: None,
            }));
        }
        let graph = Graph::new((notes as usize + 1) * places, arcs);
        let most = graph.most();
        Publishing {
            explored,
            side,
            graph,
            most,
        }
    }

    /// The most turns from the state at a place to publish so many notes.
    pub fn from(&self, place: usize, notes: u64) -> u32 {
        self.most[notes as usize * self.explored.states.len() + place]
    }

    /// The most over all states with room for so many notes, and where.
    pub fn most(&self, notes: u64) -> (u32, usize) {
        let may = |state: &State| in_call(state, self.side) && state.room(self.side) >= notes;
        let mut most = (0, 0);
        for (place, state) in self.explored.states.iter().enumerate() {
            let turns = self.from(place, notes);
            if may(state) && turns > most.0 {
                most = (turns, place);
            }
        }
        most
    }

    /// One of the longest ways to publish so many notes from a place.
    pub fn way(&self, notes: u64, place: usize) -> Vec<Arc> {
        let places = self.explored.states.len();
        self.graph.way(&self.most, notes as usize * places + place)
    }

    /// The party's own steps on a way.
    pub fn own_steps(&self, way: &[Arc]) -> Vec<Step> {
        let states = &self.explored.states;
        let step = |arc: &Arc| states[arc.from % states.len()].step(self.side);
        way.iter().filter(|arc| arc.cost > 0).map(step).collect()
    }
}

/// T11's number: six turns for each note, one fewer where all slots are room; a recorder that looks
/// for no sleeper takes three, and two to come to its first.
pub fn most_to_publish(side: Side, not_full: bool, notes: u64, capacity: u64) -> u32 {
    let (turns, all) = (6 * notes as u32, notes == capacity);
    match (side, not_full) {
        (Side::Recorder, false) => 3 * notes as u32 + 2,
        _ => turns - u32::from(all),
    }
}

/// T4 with the other moving: the most own turns of a party until its call has ended.
pub fn to_rest_amid(explored: &Explored, side: Side) -> Vec<u32> {
    most_turns(explored, side, |state| state.step(side) == Step::Rest)
}

/// T4's number with the other moving. After a shutdown a party that spins may find room as late as
/// at its look after the epoch; after a close none comes.
pub fn most_to_rest_amid(side: Side, step: Step, shut_down: bool) -> u32 {
    match (step, side) {
        (Step::Spin { left }, _) if shut_down => u32::from(left) + 8,
        (Step::Spin { left }, Side::Sender) => 6.max(u32::from(left) + 4),
        (Step::Spin { left }, Side::Recorder) => 6.max(u32::from(left) + 5),
        _ => 7,
    }
}
