//! What a second writer may do to the region, or to the buffer of a pop.

use super::machine::{number_after, State, NUMBERS};
use crate::header::Header;

/// What somebody who is neither party may do, where nobody but the parties should write.
#[derive(Clone, Copy, Debug, PartialEq, Eq, Hash)]
pub enum Meddling {
    /// Another note in the slot that the recorder comes to next.
    Slot,
    HeadOn,
    TailOn,
    /// Bell NE put back by one.
    BellBack,
    /// Bit 5, shutdown, set with no bell raised.
    ShutBit,
    /// Another byte in the buffer of a pop that has copied and not yet delivered.
    BufferBeforeStore,
    /// Another byte in the buffer of a pop that has delivered and not yet answered.
    BufferAfterStore,
}

pub fn meddle(state: &mut State, meddling: Meddling) {
    match meddling {
        Meddling::Slot => {
            let slot = state.slot_of(state.tail);
            state.ring[slot] = number_after(state.ring[slot], NUMBERS / 2);
        }
        Meddling::HeadOn => state.head = state.head.wrapping_add(1),
        Meddling::TailOn => state.tail = state.tail.wrapping_add(1),
        Meddling::BellBack => state.ne = state.ne.wrapping_sub(1),
        Meddling::ShutBit => state.flags |= Header::SHUTDOWN,
        Meddling::BufferBeforeStore | Meddling::BufferAfterStore => {
            state.buffer = number_after(state.buffer, NUMBERS / 2);
        }
    }
}
