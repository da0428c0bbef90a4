//! Every order of turns of two short plans: no order may leave a party asleep for ever.

mod common;

use std::collections::HashSet;

use common::House;
use reference::{Answer, Side, Step};

#[derive(Clone, Copy, PartialEq, Eq)]
enum Call {
    Transfer,
    Close,
    Shutdown,
}

/// A party's calls, one after the other. `forever` repeats the last until it is told to stop.
struct Plan {
    calls: &'static [Call],
    forever: bool,
}

#[derive(Clone)]
struct State {
    house: House,
    /// How many calls each side has finished, and whether it has come to its end.
    finished: [usize; 2],
    over: [bool; 2],
    delivered: u16,
}

impl State {
    /// Takes one turn of a side, with a begin before it when a call must first be begun.
    fn advance(&mut self, side: Side, plan: &Plan) {
        let me = usize::from(side == Side::Recorder);
        if self.house.step(side) == Step::Rest {
            let last = plan.calls.len() - 1;
            let call = plan.calls[self.finished[me].min(last)];
            let tag = self.finished[0] as u16;
            let begun = match (call, side) {
                (Call::Transfer, Side::Sender) => self.house.begin_push(true, tag, &[]),
                (Call::Transfer, Side::Recorder) => self.house.begin_pop(true, 0),
                (Call::Close, _) => self.house.bench.party_mut(side).begin_close(side),
                (Call::Shutdown, _) => self.house.bench.party_mut(side).begin_shutdown(side),
            };
            assert_eq!(begun, Answer::Begun);
        }
        match self.house.turn(side) {
            Answer::GoesOn => return,
            Answer::Closed => {
                let empty = self.house.waiting() == 0;
                assert!(side == Side::Sender || empty, "closed over a note");
                self.over[me] = true;
            }
            Answer::Shutdown => self.over[me] = true,
            Answer::Done => {}
            Answer::Delivered { tag, .. } => {
                assert_eq!(tag, self.delivered);
                self.delivered += 1;
            }
            other => panic!("{other:?}"),
        }
        self.finished[me] += 1;
        self.over[me] |= !plan.forever && self.finished[me] == plan.calls.len();
    }
}

/// Walks through all orders and gives how many states there are.
fn explore(sender: Plan, recorder: Plan) -> usize {
    let start = State {
        house: House::new(1, 8, true, u64::MAX),
        finished: [0; 2],
        over: [false; 2],
        delivered: 0,
    };
    let mut seen = HashSet::new();
    let mut open = vec![start];
    while let Some(state) = open.pop() {
        let key = (
            state.house.region.clone(),
            state.house.bench,
            state.finished,
            state.over,
        );
        if !seen.insert(key) {
            continue;
        }
        let sides = [(Side::Sender, &sender), (Side::Recorder, &recorder)];
        let mut stuck = true;
        for (me, (side, plan)) in sides.into_iter().enumerate() {
            if !state.over[me] && state.house.step(side) != Step::Asleep {
                stuck = false;
                let mut next = state.clone();
                next.advance(side, plan);
                open.push(next);
            }
        }
        assert!(
            !stuck || state.over == [true; 2],
            "somebody sleeps for ever"
        );
    }
    seen.len()
}

use Call::{Close, Shutdown, Transfer};

const FIVE: &[Call] = &[Transfer; 5];

#[test]
fn notes_travel_in_every_order() {
    let plan = || Plan {
        calls: FIVE,
        forever: false,
    };
    assert!(explore(plan(), plan()) > 500);
}

#[test]
fn a_close_ends_the_other_in_every_order() {
    for forever_side in [Side::Sender, Side::Recorder] {
        let endless = Plan {
            calls: &[Transfer],
            forever: true,
        };
        let ending = Plan {
            calls: &[Transfer, Transfer, Transfer, Close],
            forever: false,
        };
        match forever_side {
            Side::Sender => explore(endless, ending),
            Side::Recorder => explore(ending, endless),
        };
    }
}

#[test]
fn a_shutdown_ends_the_other_in_every_order() {
    for forever_side in [Side::Sender, Side::Recorder] {
        let endless = Plan {
            calls: &[Transfer],
            forever: true,
        };
        let ending = Plan {
            calls: &[Transfer, Transfer, Transfer, Shutdown],
            forever: false,
        };
        match forever_side {
            Side::Sender => explore(endless, ending),
            Side::Recorder => explore(ending, endless),
        };
    }
}
