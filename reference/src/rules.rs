//! The steps at which the published queue and document 01, read with request (iii), part, as a
//! switch of rules.
//!
//! A trait's own bodies are the mended steps. A published rule takes the place of the few
//! bodies that it words differently (`published`), and all else stays shared. The ways to
//! a spin and from it are bodies too, which tests put wrong to see that it shows. The rules are
//! chosen when the turn is compiled, so the mended turn pays nothing for the choice.

use crate::answer::{Answer, Bell};
use crate::header::Header;
use crate::party::{CloseTurn, Party, Side, Step};
use crate::turn::{Taken, Wake};

pub trait Rules {
    /// The bits of a bell that a wait compares with its epoch. Bells are only ever compared,
    /// so fewer bits here make a narrower bell.
    const BELL: u32 = u32::MAX;

    #[inline]
    fn after_p2() -> Step {
        Step::P3
    }

    #[inline]
    fn p3(party: &mut Party, header: &mut Header) -> Taken {
        // The own counter moves with the store: if it waited for the wake, a failed wake
        // would let the next push overwrite this note.
        party.count = party.count.wrapping_add(1);
        header.store_head(party.count);
        party.goes_on(Step::P4)
    }

    #[inline]
    fn p4(party: &mut Party, header: &Header) -> Taken {
        // Looked at after the store, so that a recorder that found the ring empty is not
        // missed.
        if header.tail() == party.count.wrapping_sub(1) {
            party.goes_on(Step::P5)
        } else {
            party.ends(Answer::Done)
        }
    }

    #[inline]
    fn p6(party: &mut Party, failure: Option<u16>) -> Taken {
        party.last_wake(Bell::Ne, Wake::ONE, failure, Answer::Done)
    }

    /// B1 and W1 have found the door open.
    #[inline]
    fn after_gate(party: &Party) -> Step {
        party.side.after_spins(party.spins)
    }

    /// A spin has found no room, and so many more are to follow.
    #[inline]
    fn after_spin(party: &Party, left: u16) -> Step {
        party.side.after_spins(left)
    }

    #[inline]
    fn after_b3(epoch: u32) -> Step {
        Step::B4 { epoch }
    }

    #[inline]
    fn after_c2(_party: &Party, length: u16) -> Step {
        Step::C3 { length }
    }

    #[inline]
    fn c3(party: &mut Party, header: &mut Header, length: u16) -> Taken {
        party.count = party.count.wrapping_add(1);
        header.store_tail(party.count);
        if party.not_full {
            party.goes_on(Step::C4 { length })
        } else {
            party.ends(party.delivered(length))
        }
    }

    #[inline]
    fn c4(party: &mut Party, header: &Header, length: u16) -> Taken {
        let old = party.count.wrapping_sub(1);
        if header.head().wrapping_sub(old) == party.capacity() {
            party.goes_on(Step::C5 { length })
        } else {
            party.ends(party.delivered(length))
        }
    }

    #[inline]
    fn c6(party: &mut Party, failure: Option<u16>, length: u16) -> Taken {
        party.last_wake(Bell::Nf, Wake::ONE, failure, party.delivered(length))
    }

    #[inline]
    fn after_w3(epoch: u32) -> Step {
        Step::W4 { epoch }
    }

    /// A look at the flags has found the other side closed.
    #[inline]
    fn other_closed(party: &mut Party) -> Taken {
        match party.side {
            Side::Sender => party.ends(Answer::Closed),
            // The sender's last note may have come after the look at head, and before the
            // close.
            Side::Recorder => party.goes_on(Step::W6 { timed_out: false }),
        }
    }

    /// The time of a sleep or of a wait is over.
    #[inline]
    fn time_over(party: &mut Party) -> Taken {
        // What came since the look before the wait may not have woken the party yet.
        party.goes_on(match party.side {
            Side::Sender => Step::B6,
            Side::Recorder => Step::W6 { timed_out: true },
        })
    }

    #[inline]
    fn after_close_bit() -> CloseTurn {
        CloseTurn::Raise
    }
}

/// Document 01's rules, whole, with the requests that are built.
pub struct Mended;

impl Rules for Mended {}
