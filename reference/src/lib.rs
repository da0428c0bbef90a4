//! The queue of document 01 in plain Rust, as a second opinion and as a baseline for speed.
//! Document 01 is read with the requests (i) to (v) of document 02: a pop looks at a slot's
//! header in full (C2), the ring is looked at once more before 11 and 13 (B6, W6), rings are as
//! large as document 000 has them, and a call spins before it reads its epoch (S).
//!
//! One lent region of bytes, two parties, and turns that make at most one shared access each.
//! The rules stand in `header`, `region`, `party`, `turn` and `bench`; the script program and
//! its tools in `script`, `stream`, `random`, `text`, `words`, `compare` and `readout`. `rounds`
//! holds another script program to this one, and `coverage` says what was played with it.
//! The steps that document 01 and request (iii) mend are a switch: `rules` has them mended,
//! `published` as document 000 has them.
//!
//! Where document 01 is silent, this package decides as follows.
//!
//! * A begin, a turn, a spurious return and a time-out are asked of a side. A record of the
//!   other side counts as not attached: 20. A turn on a record that stands at a step of the
//!   other side is 20 as well, since no attach and no begin makes such a record.
//! * 20 is tested before everything else, 253 and 11 included.
//! * A sender's record whose length is above the payload capacity is 20 at any step, at rest
//!   too. A pop may name any length.
//! * A begin, a spurious return and a time-out make no shared access, so no region is lent to
//!   them and only a turn can find the region's length wrong.
//! * The lent payload's or buffer's length matters only at P2 and C2. An announced error 0 is
//!   20 at any step, also at rest and asleep.
//! * A failed wake wakes nobody. A wake reaches only a party asleep on that bell.
//! * A begin of a pop clears the record's tag; C2 then fills it from the slot. A begin of a
//!   close or a shutdown leaves mode, tag and length alone.
//! * A shutdown may be begun after one's own close.
//! * A fresh attach does not count as closed, whatever bits 3 and 4 hold: one's own close
//!   counts from the turn that sets its bit.
//! * The last look (B6, W6) goes by the counters alone: flags that were set meanwhile are not
//!   seen there. A sender that finds the recorder closed answers 11 at once, room or not.
//! * A spin count above 1,000 in a party's record is 20, as sizes outside the limits are. How many
//!   spins are left stands in the step, and is not held to the record's count.

#![forbid(unsafe_code)]

pub mod answer;
pub mod bench;
pub mod cases;
pub mod compare;
pub mod coverage;
pub mod dice;
mod endings;
pub mod explore;
pub mod header;
pub mod party;
pub mod published;
pub mod random;
pub mod readout;
pub mod region;
pub mod rounds;
pub mod rules;
pub mod script;
pub mod stream;
pub mod text;
pub mod turn;
pub mod words;

pub use answer::{Answer, Bell, Operation};
pub use bench::Bench;
pub use header::Header;
pub use party::{Party, Side, Step};
pub use region::{attach, create};
pub use turn::{Taken, Wake};
