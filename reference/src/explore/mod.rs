//! Every order of turns of a small ring, walked through to the end.
//!
//! `machine` plays one event on a state, and `meddling` what a second writer does; `normal`
//! makes states equal that differ only in how far they have counted, so that there are
//! finitely many. `menu` says what may happen, `claims` what must hold. `search` walks breadth
//! first to a shortest run that breaks a claim, `afterwards` follows a sleeper from there, and
//! `bounds` counts a party's own turns while the other does nothing. Where both move, `longest`
//! finds the longest ways through a walk, and `amid`, `rousing`, `still` and `night` count them.
//! `story` tells a run turn by turn, `tables` the numbers, in a `report`. `lost` and `needed` are
//! the two questions that are asked of all this: what a published rule loses, and what a premise
//! is needed for; `both` and `fair` have those that are about two who move. `giving_way` has the
//! turns of the wrong rules of `unfair`, and `verdicts` which theorems refuse them.

pub mod afterwards;
pub mod amid;
pub mod both;
pub mod bounds;
pub mod claims;
pub mod fair;
pub mod giving_way;
pub mod longest;
pub mod lost;
pub mod machine;
mod meddling;
pub mod menu;
pub mod needed;
pub mod night;
pub mod normal;
pub mod report;
pub mod rousing;
pub mod search;
pub mod still;
mod story;
mod tables;
pub mod unfair;
pub mod verdicts;

pub use claims::Claim;
pub use machine::{Event, Machine, State, Turns};
pub use meddling::Meddling;
pub use menu::Menu;
pub use report::Report;
pub use search::Walk;
