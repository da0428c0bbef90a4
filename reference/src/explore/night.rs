//! T13, a whole night: how many rounds it takes until so many notes more are sent and all are
//! delivered, in every order of turns.

use super::longest::{Arc, Graph};
use super::machine::{Event, State};
use super::search::{Edge, Explored};
use super::still::{both_in_call, both_willing, SIDES};
use crate::party::{Side, Step};

/// Who has yet to take part in a round is told by a number below this, the sum of their parts.
const PARTS: usize = 4;

fn part(side: Side) -> usize {
    match side {
        Side::Sender => 1,
        Side::Recorder => 2,
    }
}

fn over(state: &State, to_send: u64) -> bool {
    to_send == 0 && state.waiting() == 0
}

/// Who has to take part in a round that begins here. Only a sender need not that is between calls
/// and has sent all: a recorder that has all has come to the end.
fn due(state: &State, to_send: u64) -> usize {
    let all_sent = to_send == 0 && state.step(Side::Sender) == Step::Rest;
    match all_sent {
        true => part(Side::Recorder),
        false => part(Side::Sender) + part(Side::Recorder),
    }
}

/// The rounds from every state. A place of the graph is a state with the number of notes that are
/// still to send and with who has yet to take part in the round; the end of a round costs one.
pub struct Night<'a> {
    explored: &'a Explored,
    graph: Graph,
    most: Vec<u32>,
}

/// The arcs of a night, as they are found.
struct Arcs<'a> {
    explored: &'a Explored,
    arcs: Vec<Arc>,
}

fn node(explored: &Explored, place: usize, to_send: u64, parts: usize) -> usize {
    (to_send as usize * explored.states.len() + place) * PARTS + parts
}

impl Arcs<'_> {
    fn leads(&mut self, from: (usize, u64, usize), to: (usize, u64, usize), event: Event) {
        let node = |(place, to_send, parts)| node(self.explored, place, to_send, parts);
        self.arcs.push(Arc {
            from: node(from),
            to: node(to),
            cost: 0,
            event: Some(event),
        });
    }

    /// What may happen, but for a note more than are to be sent.
    fn edge(&mut self, edge: &Edge, to_send: u64) {
        let sent = u64::from(edge.publishes == Some(Side::Sender));
        let takes_part = edge.event.side().filter(|_| edge.counts).map_or(0, part);
        if let Some(left) = to_send.checked_sub(sent) {
            for parts in 0..PARTS {
                let to = (edge.to, left, parts & !takes_part);
                self.leads((edge.from, to_send, parts), to, edge.event);
            }
        }
    }

    /// The turns that a party sleeps through, and the end of a round.
    fn place(&mut self, place: usize, to_send: u64) {
        let state = &self.explored.states[place];
        for side in SIDES {
            for parts in (0..PARTS).filter(|_| state.step(side) == Step::Asleep) {
                let to = (place, to_send, parts & !part(side));
                self.leads((place, to_send, parts), to, Event::Turn(side));
            }
        }
        self.arcs.push(Arc {
            from: node(self.explored, place, to_send, 0),
            to: node(self.explored, place, to_send, due(state, to_send)),
            cost: 1,
            event: None,
        });
    }
}

impl<'a> Night<'a> {
    /// For up to so many notes to send.
    pub fn new(explored: &'a Explored, to_send: u64) -> Self {
        let mut arcs = Arcs {
            explored,
            arcs: Vec::new(),
        };
        for to_send in 0..=to_send {
            let goes_on = |place: usize| !over(&explored.states[place], to_send);
            for edge in explored.edges.iter().filter(both_willing) {
                if goes_on(edge.from) {
                    arcs.edge(edge, to_send);
                }
            }
            for place in (0..explored.states.len()).filter(|&place| goes_on(place)) {
                arcs.place(place, to_send);
            }
        }
        let places = node(explored, 0, to_send + 1, 0);
        let graph = Graph::new(places, arcs.arcs);
        let most = graph.most();
        Night {
            explored,
            graph,
            most,
        }
    }

    fn start(&self, place: usize, to_send: u64) -> usize {
        let state = &self.explored.states[place];
        node(self.explored, place, to_send, due(state, to_send))
    }

    /// How many rounds are enough from the state at a place: one more than may end with a note to send
    /// or to deliver.
    pub fn enough(&self, place: usize, to_send: u64) -> u32 {
        match over(&self.explored.states[place], to_send) {
            true => 0,
            false => self.most[self.start(place, to_send)].saturating_add(1),
        }
    }

    /// The most of these over all states with so many notes waiting and both in calls or between them,
    /// and where.
    pub fn most(&self, to_send: u64, waiting: u64) -> (u32, usize) {
        let mut most = (0, 0);
        for (place, state) in self.explored.states.iter().enumerate() {
            let rounds = self.enough(place, to_send);
            if both_in_call(state) && state.waiting() == waiting && rounds > most.0 {
                most = (rounds, place);
            }
        }
        most
    }

    /// One of the longest nights from a place, up to the end of the last round that leaves a note.
    pub fn way(&self, place: usize, to_send: u64) -> Vec<Arc> {
        self.graph.way(&self.most, self.start(place, to_send))
    }
}

/// T13's number.
pub fn claimed_rounds(to_send: u64, waiting: u64) -> u32 {
    6 * to_send as u32 + 6.max(4 * waiting as u32 + 3)
}
