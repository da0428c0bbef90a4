//! Both parties of one region, with their sleeping places.

use crate::answer::{Answer, Bell};
use crate::party::{Party, Side, Step};
use crate::region;
use crate::rules::{Mended, Rules};
use crate::turn::Wake;

/// Two parties that work on one lent region, turn by turn. A party asleep lies in its side's
/// sleeping place: the sender's belongs to bell NF, the recorder's to bell NE.
#[derive(Clone, Copy, Debug, PartialEq, Eq, Hash)]
pub struct Bench {
    pub sender: Party,
    pub recorder: Party,
}

impl Bench {
    /// Attaches the sender, then the recorder, each with so many spins. After a refusal the
    /// recorder is not tried, and whoever did not come in is a party not attached.
    pub fn attach(region: &mut [u8], spins: u16) -> (Answer, Self) {
        let (mut answer, sender) = region::attach(region, Side::Sender, spins);
        let mut recorder = Party::unattached(Side::Recorder);
        if answer == Answer::Done {
            (answer, recorder) = region::attach(region, Side::Recorder, spins);
        }
        (answer, Bench { sender, recorder })
    }

    pub fn party(&self, side: Side) -> &Party {
        match side {
            Side::Sender => &self.sender,
            Side::Recorder => &self.recorder,
        }
    }

    pub fn party_mut(&mut self, side: Side) -> &mut Party {
        match side {
            Side::Sender => &mut self.sender,
            Side::Recorder => &mut self.recorder,
        }
    }

    /// Moves whoever sleeps on the bell to the first step. Each bell has one sleeping place,
    /// so one and all are the same here; the waker itself is awake and is never moved.
    #[inline]
    fn carry_out(&mut self, wake: Option<Wake>) {
        let sleeper = match wake {
            None => return,
            Some(Wake { bell: Bell::Ne, .. }) => &mut self.recorder,
            Some(Wake { bell: Bell::Nf, .. }) => &mut self.sender,
        };
        if sleeper.step == Step::Asleep {
            sleeper.step = sleeper.side.first_step();
        }
    }

    /// A turn of the sender by other rules.
    #[inline]
    pub fn sender_turn_by<R: Rules>(
        &mut self,
        region: &mut [u8],
        payload: &[u8],
        failure: Option<u16>,
    ) -> Answer {
        let taken = self.sender.sender_turn_by::<R>(region, payload, failure);
        self.carry_out(taken.wake);
        taken.answer
    }

    /// A turn of the recorder by other rules.
    #[inline]
    pub fn recorder_turn_by<R: Rules>(
        &mut self,
        region: &mut [u8],
        buffer: &mut [u8],
        failure: Option<u16>,
    ) -> Answer {
        let taken = self.recorder.recorder_turn_by::<R>(region, buffer, failure);
        self.carry_out(taken.wake);
        taken.answer
    }

    #[inline]
    pub fn sender_turn(
        &mut self,
        region: &mut [u8],
        payload: &[u8],
        failure: Option<u16>,
    ) -> Answer {
        self.sender_turn_by::<Mended>(region, payload, failure)
    }

    #[inline]
    pub fn recorder_turn(
        &mut self,
        region: &mut [u8],
        buffer: &mut [u8],
        failure: Option<u16>,
    ) -> Answer {
        self.recorder_turn_by::<Mended>(region, buffer, failure)
    }
}
