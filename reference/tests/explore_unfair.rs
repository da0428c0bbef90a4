//! Wrong rules that give way to one who moves: which theorems refuse them.

use reference::explore::amid::Publishing;
use reference::explore::longest::NO_BOUND;
use reference::explore::unfair::{self, Unfair};
use reference::explore::verdicts::{refused_by, Theorem};
use reference::explore::{Machine, Menu, Turns, Walk};
use reference::rules::Mended;
use reference::Side;

fn rule(name: &str) -> Unfair {
    let mut rules = unfair::rules().into_iter();
    rules.find(|rule| rule.name == name).unwrap()
}

#[test]
fn nothing_refuses_the_mended_rules() {
    assert_eq!(refused_by(Turns::by::<Mended>()), []);
}

/// A look at one word a turn, and only what is claimed of two who move refuses it.
#[test]
fn two_rules_are_refused_only_where_both_move() {
    for name in ["look", "check"] {
        let rule = rule(name);
        let refused = refused_by(rule.turns);
        assert_eq!(refused, rule.refused, "{name}");
        let alone = Theorem::ALL[..6].iter();
        assert_eq!(alone.filter(|theorem| refused.contains(theorem)).count(), 0);
    }
}

/// The most turns to publish one note, by capacity.
fn most(name: &str, power: u8) -> u32 {
    let mut machine = Machine::new(rule(name).turns, power, true);
    let all = Walk::all(&mut machine, Menu::ALL);
    Publishing::new(&all, Side::Sender, 1).most(1).0
}

/// Where only the other's counter makes a party give way, the ring is the bound; else there is none.
#[test]
fn who_gives_way_may_wait_long() {
    assert_eq!([1, 2, 3].map(|power| most("look", power)), [7, 8, 12]);
    assert_eq!([1, 2, 3].map(|power| most("check", power)), [6, 8, 12]);
    assert_eq!(most("bell", 1), NO_BOUND);
    assert_eq!(most("after-you", 1), NO_BOUND);
}
