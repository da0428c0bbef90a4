//! Which theorems refuse a set of rules, at small capacities with not-full on.

use super::amid::{most_to_publish, most_to_rest_amid, to_rest_amid, Publishing};
use super::bounds::{
    most_by_slack, most_from_look, most_to_rest, most_to_sleep, to_no_room_stopped, to_rest,
    to_sleep,
};
use super::claims::Claim;
use super::machine::{Machine, State, Turns};
use super::menu::Menu;
use super::night::{claimed_rounds, Night};
use super::search::{Explored, Walk};
use super::still::{pressing, without_publish, SIDES, TURNS};
use crate::header::Header;
use crate::party::{Side, Step};

const POWERS: [u8; 2] = [1, 2];
/// T13 is asked for up to so many notes to send.
const TO_SEND: u64 = 2;

/// A theorem that a set of rules is held to.
#[derive(Clone, Copy, Debug, PartialEq, Eq)]
pub enum Theorem {
    T1,
    T2,
    T3,
    T4,
    T9,
    T10,
    T11,
    T12,
    T13,
    /// T4 with the other moving.
    T4Amid,
}

impl Theorem {
    pub const ALL: [Theorem; 10] = [
        Theorem::T1,
        Theorem::T2,
        Theorem::T3,
        Theorem::T4,
        Theorem::T9,
        Theorem::T10,
        Theorem::T11,
        Theorem::T12,
        Theorem::T13,
        Theorem::T4Amid,
    ];

    pub fn name(self) -> &'static str {
        match self {
            Theorem::T1 => "T1",
            Theorem::T2 => "T2",
            Theorem::T3 => "T3",
            Theorem::T4 => "T4",
            Theorem::T9 => "T9",
            Theorem::T10 => "T10",
            Theorem::T11 => "T11",
            Theorem::T12 => "T12",
            Theorem::T13 => "T13",
            Theorem::T4Amid => "T4*",
        }
    }
}

/// A machine of these rules, with a walk through all that T1 allows and one through what is fair to
/// both.
struct Case {
    machine: Machine,
    all: Explored,
    fair: Explored,
}

fn keeps(machine: &mut Machine, menu: Menu, claims: &[Claim]) -> bool {
    let walk = Walk {
        menu,
        claims,
        raises: 1,
    };
    walk.from_start(machine).broken.is_none()
}

fn keeps_order(machine: &mut Machine) -> bool {
    let claims = [Claim::Order, Claim::Count, Claim::Carries];
    keeps(machine, Menu::ALL, &claims)
}

fn within(turns: Option<u32>, bound: u32) -> bool {
    turns.is_some_and(|turns| turns <= bound)
}

impl Case {
    fn t2(&mut self, side: Side) -> bool {
        let capacity = self.machine.capacity();
        (1..=capacity).all(|room| {
            let states = &self.all.states;
            let most = to_no_room_stopped(&mut self.machine, states, side, Menu::ALL, room);
            within(most.turns, most_by_slack(room, capacity - room))
        })
    }

    fn t9(&mut self, side: Side) -> bool {
        let (machine, states) = (&mut self.machine, &self.all.states);
        let look = |step| matches!(step, Step::P1 | Step::C1);
        let spins = machine.spins();
        let any = to_sleep(machine, states, side, |_| true).turns;
        let look = to_sleep(machine, states, side, look).turns;
        within(any, most_to_sleep(spins)) && within(look, most_from_look(spins))
    }

    fn t11(&self, side: Side) -> bool {
        let capacity = self.machine.capacity();
        let publishing = Publishing::new(&self.all, side, capacity);
        let bound = |notes| most_to_publish(side, true, notes, capacity);
        (1..=capacity).all(|notes| publishing.most(notes).0 <= bound(notes))
    }

    fn t12(&mut self) -> bool {
        let amid = SIDES.map(|side| Walk::all(&mut self.machine, Menu::fair(side)));
        let mut presses = pressing(&self.fair, [&amid[0], &amid[1]])
            .into_iter()
            .flatten();
        let most = TURNS as usize;
        presses.all(|turns| turns <= TURNS) && without_publish(&self.fair, most) < most
    }

    fn t13(&self) -> bool {
        let night = Night::new(&self.fair, TO_SEND);
        let kept =
            |to_send, waiting| night.most(to_send, waiting).0 <= claimed_rounds(to_send, waiting);
        let capacity = self.machine.capacity();
        (0..=TO_SEND).all(|to_send| (0..=capacity).all(|waiting| kept(to_send, waiting)))
    }

    fn t4_amid(&self, side: Side) -> bool {
        let most = to_rest_amid(&self.all, side);
        let kept = |(state, &turns): (&State, &u32)| {
            let shut = state.flags & Header::SHUTDOWN != 0;
            !state.must_stop(side) || turns <= most_to_rest_amid(side, state.step(side), shut)
        };
        self.all.states.iter().zip(&most).all(kept)
    }

    fn refuses(&mut self, theorem: Theorem) -> bool {
        let machine = &mut self.machine;
        let states = &self.all.states;
        let kept = match theorem {
            // Asked before the walks.
            Theorem::T1 => true,
            Theorem::T2 => SIDES.into_iter().all(|side| self.t2(side)),
            Theorem::T3 => SIDES
                .into_iter()
                .all(|side| keeps(machine, Menu::fair(side), &[Claim::Cause(side)])),
            Theorem::T4 => SIDES.into_iter().all(|side| {
                let bound = most_to_rest(side, machine.spins());
                within(to_rest(machine, states, side, Menu::ALL).turns, bound)
            }),
            Theorem::T9 => SIDES.into_iter().all(|side| self.t9(side)),
            Theorem::T10 => {
                let [sender, recorder] = SIDES.map(Claim::Timeout);
                keeps(machine, Menu::ALL, &[Claim::Closed, sender, recorder])
            }
            Theorem::T11 => SIDES.into_iter().all(|side| self.t11(side)),
            Theorem::T12 => self.t12(),
            Theorem::T13 => self.t13(),
            Theorem::T4Amid => SIDES.into_iter().all(|side| self.t4_amid(side)),
        };
        !kept
    }
}

/// The theorems that refuse the rules at capacity 2 or 4; T1 alone if it does, since the rest is of no
/// interest then.
pub fn refused_by(turns: Turns) -> Vec<Theorem> {
    let mut machines = POWERS.map(|power| Machine::new(turns, power, true));
    if !machines.iter_mut().all(keeps_order) {
        return vec![Theorem::T1];
    }
    let mut cases = machines.map(|mut machine| Case {
        all: Walk::all(&mut machine, Menu::ALL),
        fair: Walk::all(&mut machine, Menu::FAIR),
        machine,
    });
    let mut refuses = |theorem: &Theorem| cases.iter_mut().any(|case| case.refuses(*theorem));
    let theorems = Theorem::ALL.into_iter();
    theorems.filter(|theorem| refuses(theorem)).collect()
}
