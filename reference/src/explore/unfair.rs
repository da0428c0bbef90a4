//! Wrong rules that give way: fair to a party while the other rests, and not where both move.

use super::giving_way::{
    checks, copies, first_look, has_moved, room, stores, turns, GivesWay, Sign,
};
use super::machine::Turns;
use super::verdicts::Theorem;
use crate::bench::Bench;
use crate::party::{Party, Side, Step};

/// A first look that finds room looks again where the other's counter has moved since the last
/// call, or the last look.
struct LooksAgain;

impl GivesWay for LooksAgain {
    fn again(bench: &Bench, side: Side) -> Option<Step> {
        let step = bench.party(side).step;
        let again = first_look(step) && has_moved(bench, side) && room(bench, side) > 0;
        again.then_some(step)
    }

    fn minds(party: &Party, sign: Sign) -> bool {
        sign == Sign::Published && (party.step == Step::Rest || first_look(party.step))
    }
}

/// The same where a bell was raised.
struct BellAgain;

impl GivesWay for BellAgain {
    fn again(bench: &Bench, side: Side) -> Option<Step> {
        LooksAgain::again(bench, side)
    }

    fn minds(party: &Party, sign: Sign) -> bool {
        sign == Sign::Rang && LooksAgain::minds(party, Sign::Published)
    }
}

/// The same after any turn of the other's.
struct AfterYou;

impl GivesWay for AfterYou {
    fn again(bench: &Bench, side: Side) -> Option<Step> {
        LooksAgain::again(bench, side)
    }

    fn minds(party: &Party, _sign: Sign) -> bool {
        LooksAgain::minds(party, Sign::Published)
    }
}

/// A first look that finds room waits as long as the other is awake in a call.
struct LetsFinish;

impl GivesWay for LetsFinish {
    fn again(bench: &Bench, side: Side) -> Option<Step> {
        let step = bench.party(side).step;
        let other = bench.party(side.other()).step;
        let awake = !matches!(other, Step::Rest | Step::Asleep);
        (first_look(step) && awake && room(bench, side) > 0).then_some(step)
    }

    fn minds(_party: &Party, _sign: Sign) -> bool {
        false
    }
}

/// The look before a wake is made again where the other's counter has moved.
struct ChecksAgain;

impl GivesWay for ChecksAgain {
    fn again(bench: &Bench, side: Side) -> Option<Step> {
        let step = bench.party(side).step;
        (checks(step) && has_moved(bench, side)).then_some(step)
    }
}

/// The same, but for a look that finds a wake due.
struct ChecksTwice;

impl GivesWay for ChecksTwice {
    fn again(bench: &Bench, side: Side) -> Option<Step> {
        let due = room(bench, side.other()) == 1;
        ChecksAgain::again(bench, side).filter(|_| !due)
    }
}

/// The look before a wake leads back to the first look where the other's counter has moved.
struct CheckToLook;

impl GivesWay for CheckToLook {
    fn again(bench: &Bench, side: Side) -> Option<Step> {
        ChecksAgain::again(bench, side).map(|_| side.first_step())
    }
}

/// The same to the gate.
struct CheckToGate;

impl GivesWay for CheckToGate {
    fn again(bench: &Bench, side: Side) -> Option<Step> {
        ChecksAgain::again(bench, side).map(|_| match side {
            Side::Sender => Step::B1,
            Side::Recorder => Step::W1,
        })
    }
}

/// A store is given up for a new copy where the other's counter has moved since the copy.
struct CopiesAgain;

impl GivesWay for CopiesAgain {
    fn again(bench: &Bench, side: Side) -> Option<Step> {
        let again = stores(bench.party(side).step) && has_moved(bench, side);
        again.then_some(match side {
            Side::Sender => Step::P2,
            Side::Recorder => Step::C2,
        })
    }

    fn minds(party: &Party, sign: Sign) -> bool {
        sign == Sign::Published && stores(party.step)
    }
}

/// The same for a new look, where it has moved since the look.
struct LooksAndCopiesAgain;

impl GivesWay for LooksAndCopiesAgain {
    fn again(bench: &Bench, side: Side) -> Option<Step> {
        CopiesAgain::again(bench, side).map(|_| side.first_step())
    }

    fn minds(party: &Party, sign: Sign) -> bool {
        sign == Sign::Published && (stores(party.step) || copies(party.step))
    }
}

/// A wrong rule, what it says, and the theorems that refuse it.
pub struct Unfair {
    pub name: &'static str,
    pub says: &'static str,
    pub turns: Turns,
    pub refused: &'static [Theorem],
}

/// The rules. Turns of those from `copy` on go by more than one word of the region, or by what is
/// not in it, which T5 refuses.
pub fn rules() -> [Unfair; 10] {
    use Theorem::{T4Amid, T1, T11, T12, T13, T2, T4};
    let rule = |name, says, turns, refused| Unfair {
        name,
        says,
        turns,
        refused,
    };
    [
        rule(
            "look",
            "a first look that finds room looks again if the other's counter moved",
            turns::<LooksAgain>(),
            &[T11, T12, T13, T4Amid],
        ),
        rule(
            "check",
            "the look before a wake looks again if it finds none due and the counter moved",
            turns::<ChecksTwice>(),
            &[T11, T12, T4Amid],
        ),
        rule(
            "check-all",
            "the look before a wake looks again if the counter moved",
            turns::<ChecksAgain>(),
            &[T2, T11, T12, T13, T4Amid],
        ),
        rule(
            "check-look",
            "the look before a wake goes back to the first look if the counter moved",
            turns::<CheckToLook>(),
            &[T1],
        ),
        rule(
            "check-gate",
            "the look before a wake goes to the gate if the counter moved",
            turns::<CheckToGate>(),
            &[T1],
        ),
        rule(
            "copy",
            "a store copies again if the counter moved since the copy",
            turns::<CopiesAgain>(),
            &[T11, T12, T13, T4Amid],
        ),
        rule(
            "copy-look",
            "a store looks and copies again if the counter moved since the look",
            turns::<LooksAndCopiesAgain>(),
            &[T4, T11, T12, T13, T4Amid],
        ),
        rule(
            "bell",
            "a first look that finds room looks again if a bell was raised",
            turns::<BellAgain>(),
            &[T11, T12, T4Amid],
        ),
        rule(
            "after-you",
            "a first look that finds room looks again if the other took a turn",
            turns::<AfterYou>(),
            &[T11, T12, T13, T4Amid],
        ),
        rule(
            "awake",
            "a first look that finds room waits while the other is awake in a call",
            turns::<LetsFinish>(),
            &[T2, T11, T12, T13, T4Amid],
        ),
    ]
}
