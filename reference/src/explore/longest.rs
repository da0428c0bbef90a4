//! Longest ways through a graph that may go round.
//!
//! To go round at no cost adds nothing; to go round at a cost is to go on for ever. So the
//! places are put together that lead to each other (Tarjan's walk, which comes to the last of
//! them first), and the longest way from each such part is found from the parts that follow it.

use std::collections::hash_map::Entry;
use std::collections::{HashMap, VecDeque};

use super::machine::Event;

/// More than any number: there is no longest way.
pub const NO_BOUND: u32 = u32::MAX;

/// A way from one place to another, what it costs, and what happens on it, if anything does.
#[derive(Clone, Copy, Debug, PartialEq, Eq)]
pub struct Arc {
    pub from: usize,
    pub to: usize,
    pub cost: u32,
    pub event: Option<Event>,
}

pub struct Graph {
    /// In the order of the places that they leave.
    arcs: Vec<Arc>,
    /// Where each place's begin, and where the last one's end.
    begins: Vec<usize>,
}

impl Graph {
    pub fn new(places: usize, mut arcs: Vec<Arc>) -> Self {
        arcs.sort_by_key(|arc| arc.from);
        let mut begins = vec![0; places + 1];
        for arc in &arcs {
            begins[arc.from + 1] += 1;
        }
        for place in 0..places {
            begins[place + 1] += begins[place];
        }
        Graph { arcs, begins }
    }

    fn places(&self) -> usize {
        self.begins.len() - 1
    }

    fn leaving(&self, place: usize) -> &[Arc] {
        &self.arcs[self.begins[place]..self.begins[place + 1]]
    }

    /// The cost of a longest way from each place.
    pub fn most(&self) -> Vec<u32> {
        let mut most = vec![0; self.places()];
        let mut part_of = vec![None; self.places()];
        for (number, part) in Parts::of(self).into_iter().enumerate() {
            part.iter().for_each(|&place| part_of[place] = Some(number));
            let arcs = part.iter().flat_map(|&place| self.leaving(place));
            let ways = arcs.map(|arc| match (part_of[arc.to] == Some(number), arc.cost) {
                (true, 0) => 0,
                (true, _) => NO_BOUND,
                (false, cost) => cost.saturating_add(most[arc.to]),
            });
            let longest = ways.max().unwrap_or(0);
            part.iter().for_each(|&place| most[place] = longest);
        }
        most
    }

    /// One of the longest ways from a place, as short as can be up to each cost; where there is no
    /// longest, nothing.
    pub fn way(&self, most: &[u32], mut place: usize) -> Vec<Arc> {
        let mut way: Vec<Arc> = Vec::new();
        while most[place] != 0 && most[place] != NO_BOUND {
            way.extend(self.to_cost(most, place));
            place = way[way.len() - 1].to;
        }
        way
    }

    /// The shortest way along a longest one to an arc that costs something, with it.
    fn to_cost(&self, most: &[u32], place: usize) -> Vec<Arc> {
        let mut origins: HashMap<usize, Arc> = HashMap::new();
        let mut queue = VecDeque::from([place]);
        while let Some(at) = queue.pop_front() {
            for &arc in self.leaving(at) {
                if most[arc.to].saturating_add(arc.cost) != most[place] {
                    continue;
                }
                if arc.cost > 0 {
                    return way_to(&origins, place, arc);
                }
                if let Entry::Vacant(origin) = origins.entry(arc.to) {
                    origin.insert(arc);
                    queue.push_back(arc.to);
                }
            }
        }
        Vec::new()
    }
}

/// The way from a place to an arc, with it.
fn way_to(origins: &HashMap<usize, Arc>, place: usize, last: Arc) -> Vec<Arc> {
    let mut way = vec![last];
    let mut at = last.from;
    while at != place {
        let arc = origins[&at];
        way.push(arc);
        at = arc.from;
    }
    way.reverse();
    way
}

/// No number: of a place that was not met yet, or whose part is done.
const NONE: usize = usize::MAX;

/// Tarjan's walk.
struct Parts<'a> {
    graph: &'a Graph,
    met: Vec<bool>,
    /// The number of the earliest place that one is known to lead back to.
    low: Vec<usize>,
    count: usize,
    /// The places met whose part is not done.
    open: Vec<usize>,
    done: Vec<Vec<usize>>,
}

/// A place on the way that the walk has come, its number, and the arc to try next.
struct Visit {
    place: usize,
    number: usize,
    next: usize,
}

impl<'a> Parts<'a> {
    /// The parts of a graph, each after those that it leads to.
    fn of(graph: &'a Graph) -> Vec<Vec<usize>> {
        let mut parts = Parts {
            graph,
            met: vec![false; graph.places()],
            low: vec![NONE; graph.places()],
            count: 0,
            open: Vec::new(),
            done: Vec::new(),
        };
        for place in 0..graph.places() {
            if !parts.met[place] {
                parts.walk(place);
            }
        }
        parts.done
    }

    fn meets(&mut self, place: usize) -> Visit {
        let number = self.count;
        self.count += 1;
        self.met[place] = true;
        self.low[place] = number;
        self.open.push(place);
        Visit {
            place,
            number,
            next: 0,
        }
    }

    fn walk(&mut self, root: usize) {
        let mut path = vec![self.meets(root)];
        while let Some(visit) = path.last_mut() {
            let place = visit.place;
            if let Some(arc) = self.graph.leaving(place).get(visit.next) {
                visit.next += 1;
                match self.met[arc.to] {
                    true => self.leads_back(place, self.low[arc.to]),
                    false => path.push(self.meets(arc.to)),
                }
                continue;
            }
            if self.low[place] == visit.number {
                self.closes(place);
            }
            path.pop();
            if let Some(before) = path.last() {
                self.leads_back(before.place, self.low[place]);
            }
        }
    }

    fn leads_back(&mut self, place: usize, number: usize) {
        self.low[place] = self.low[place].min(number);
    }

    /// A place that leads back to none before it: all since it are one part.
    fn closes(&mut self, place: usize) {
        let first = self.open.iter().rposition(|&open| open == place);
        let part = self.open.split_off(first.unwrap_or(0));
        part.iter().for_each(|&member| self.low[member] = NONE);
        self.done.push(part);
    }
}
