//! The rules of document 000 that document 01 mends, and those that request (iii) mends, each
//! alone: everything else is mended.
//!
//! A load that document 000 asks for before a store is made in the turn just before it, which
//! is the latest that its text allows and so the reading under which it loses least.

use crate::answer::Answer;
use crate::header::Header;
use crate::party::{CloseTurn, Party, Step};
use crate::rules::{Mended, Rules};
use crate::turn::Taken;

/// 12.5.2: tail is read, and the wake decided on, before head is stored.
pub struct EarlyPush;

impl Rules for EarlyPush {
    fn after_p2() -> Step {
        Step::P4
    }

    fn p4(party: &mut Party, header: &Header) -> Taken {
        party.rings = header.tail() == party.count;
        party.goes_on(Step::P3)
    }

    fn p3(party: &mut Party, header: &mut Header) -> Taken {
        party.count = party.count.wrapping_add(1);
        header.store_head(party.count);
        if party.rings {
            party.goes_on(Step::P5)
        } else {
            party.ends(Answer::Done)
        }
    }
}

/// 12.7.2: head is read, and the wake decided on, before tail is stored.
pub struct EarlyPop;

impl Rules for EarlyPop {
    fn after_c2(party: &Party, length: u16) -> Step {
        if party.not_full {
            Step::C4 { length }
        } else {
            Step::C3 { length }
        }
    }

    fn c4(party: &mut Party, header: &Header, length: u16) -> Taken {
        party.rings = header.head().wrapping_sub(party.count) == party.capacity();
        party.goes_on(Step::C3 { length })
    }

    fn c3(party: &mut Party, header: &mut Header, length: u16) -> Taken {
        party.count = party.count.wrapping_add(1);
        header.store_tail(party.count);
        if party.not_full && party.rings {
            party.goes_on(Step::C5 { length })
        } else {
            party.ends(party.delivered(length))
        }
    }
}

/// 12.8: a close sets its bit and wakes all, and raises no bell.
pub struct SilentClose;

impl Rules for SilentClose {
    fn after_close_bit() -> CloseTurn {
        CloseTurn::WakeAll
    }
}

/// 12.4.2: a pop looks at the flags before it reads the epoch, and not again before its wait.
pub struct OneLookPop;

impl Rules for OneLookPop {
    fn after_w3(epoch: u32) -> Step {
        Step::W5 { epoch }
    }
}

/// 12.6.3, the same for a push.
pub struct OneLookPush;

impl Rules for OneLookPush {
    fn after_b3(epoch: u32) -> Step {
        Step::B5 { epoch }
    }
}

/// 12.4.2.6: a pop that has found the ring empty, and then the sender closed, answers Closed.
pub struct ClosedAtOnce;

impl Rules for ClosedAtOnce {
    fn other_closed(party: &mut Party) -> Taken {
        party.ends(Answer::Closed)
    }
}

/// 12.3.4: a time-out answers Timeout, against 3.2.4.
pub struct TimeoutAtOnce;

impl Rules for TimeoutAtOnce {
    fn time_over(party: &mut Party) -> Taken {
        party.ends(Answer::Timeout)
    }
}

/// 13.3.2.9: a push moves its own counter last, after the wake; a failed wake returns before.
pub struct LateHead;

impl Rules for LateHead {
    fn p3(party: &mut Party, header: &mut Header) -> Taken {
        header.store_head(party.count.wrapping_add(1));
        party.goes_on(Step::P4)
    }

    fn p4(party: &mut Party, header: &Header) -> Taken {
        if header.tail() == party.count {
            return party.goes_on(Step::P5);
        }
        party.count = party.count.wrapping_add(1);
        party.ends(Answer::Done)
    }

    fn p6(party: &mut Party, failure: Option<u16>) -> Taken {
        if failure.is_none() {
            party.count = party.count.wrapping_add(1);
        }
        Mended::p6(party, failure)
    }
}

/// 13.4.2.12, the same for a pop.
pub struct LateTail;

impl Rules for LateTail {
    fn c3(party: &mut Party, header: &mut Header, length: u16) -> Taken {
        header.store_tail(party.count.wrapping_add(1));
        if party.not_full {
            return party.goes_on(Step::C4 { length });
        }
        party.count = party.count.wrapping_add(1);
        party.ends(party.delivered(length))
    }

    fn c4(party: &mut Party, header: &Header, length: u16) -> Taken {
        if header.head().wrapping_sub(party.count) == party.capacity() {
            return party.goes_on(Step::C5 { length });
        }
        party.count = party.count.wrapping_add(1);
        party.ends(party.delivered(length))
    }

    fn c6(party: &mut Party, failure: Option<u16>, length: u16) -> Taken {
        if failure.is_none() {
            party.count = party.count.wrapping_add(1);
        }
        Mended::c6(party, failure, length)
    }
}

/// A bell of that many bits, which comes round after so many fewer raises.
pub struct NarrowBell<const BITS: u32>;

impl<const BITS: u32> Rules for NarrowBell<BITS> {
    const BELL: u32 = (1 << BITS) - 1;
}
