//! Labels compared by somebody who goes wrong (document 02, A.7): in make, enter and cancel, which place chunks, in the check, and in the calls that
//! look for a chunk.

use crate::archive::{Archive, Calls};
use crate::faults;
use crate::tickets::{Kind, Ticket};
use reference::arrangements::found_by;
use reference::calls::Reply;
use reference::image::{is_image, made};
use reference::lists::{compare, home, Label};
use reference::paths::{numbers, NUMBER};
use reference::sizes::Made;
use std::cmp::Ordering;

#[derive(Clone, Copy, PartialEq, Eq)]
pub enum Wrong {
    Make(Rule),
    Enter(Rule),
    Cancel(Rule),
    Check(Judge, Rule),
    Search(Searching, Rule),
}

/// Another order of the labels, or in the last case other homes.
#[derive(Clone, Copy, PartialEq, Eq)]
pub enum Rule {
    SecondAsFirst,
    FirstAsSecond,
    TopAlone,
    KeyFirst,
    KeysFalling,
    NumberBeforeKey,
    NumbersFalling,
    HomesFromTop,
}

/// Which tables a check accepts.
#[derive(Clone, Copy, PartialEq, Eq)]
pub enum Judge {
    ByRule,
    Either,
}

/// Which call looks for the chunk of its key.
#[derive(Clone, Copy, PartialEq, Eq)]
pub enum Searching {
    Enter,
    Amend,
    Cancel,
    Lookup,
    Descent,
}

pub const RULES: [(&str, Rule); 8] = [
    (
        "compares the labels of version 2 as those of version 1",
        Rule::SecondAsFirst,
    ),
    (
        "compares the labels of version 1 as those of version 2",
        Rule::FirstAsSecond,
    ),
    (
        "has the top first in version 2 and the other levels rising",
        Rule::TopAlone,
    ),
    ("compares first keys before levels", Rule::KeyFirst),
    ("compares first keys falling", Rule::KeysFalling),
    (
        "compares chunk numbers before first keys",
        Rule::NumberBeforeKey,
    ),
    ("compares chunk numbers falling", Rule::NumbersFalling),
    (
        "counts the levels of version 2 from the top in homes too",
        Rule::HomesFromTop,
    ),
];

impl Rule {
    /// Whether it shows where the front has the only partition of each level.
    fn shows_without_orders(self) -> bool {
        matches!(
            self,
            Rule::SecondAsFirst | Rule::FirstAsSecond | Rule::TopAlone | Rule::HomesFromTop
        )
    }

    fn order(self, made: &Made, one: &Label, two: &Label) -> Ordering {
        let version = made.sizes.version;
        let right = compare(version, one, two);
        let by_key = one.first_key.cmp(&two.first_key);
        let by_number = one.chunk_number.cmp(&two.chunk_number);
        let is_top = |label: &Label| label.level == made.sizes.beta();
        match (self, version) {
            (Rule::SecondAsFirst, 2) => compare(1, one, two),
            (Rule::FirstAsSecond, 1) => compare(2, one, two),
            (Rule::TopAlone, 2) if is_top(one) == is_top(two) => compare(1, one, two),
            (Rule::KeyFirst, _) => by_key.then(right),
            _ if one.level != two.level => right,
            (Rule::KeysFalling, _) => by_key.reverse().then(by_number),
            (Rule::NumberBeforeKey, _) => by_number.then(by_key),
            (Rule::NumbersFalling, _) => by_key.then(by_number.reverse()),
            _ => right,
        }
    }

    fn home(self, made: &Made, label: &Label) -> usize {
        match (self, made.sizes.version) {
            (Rule::HomesFromTop, 2) => {
                let level = (made.sizes.beta() + 1).wrapping_sub(label.level) & 0xff;
                home(made, &Label { level, ..*label })
            }
            _ => home(made, label),
        }
    }
}

/// Each with its name.
pub fn all() -> Vec<(String, Wrong)> {
    let mut all = Vec::new();
    for (name, rule) in RULES {
        if rule.shows_without_orders() {
            all.push((format!("a make that {name}"), Wrong::Make(rule)));
        }
        all.push((format!("an enter that {name}"), Wrong::Enter(rule)));
        all.push((format!("a cancel that {name}"), Wrong::Cancel(rule)));
        let check = |judge| Wrong::Check(judge, rule);
        all.push((format!("a check that {name}"), check(Judge::ByRule)));
        let either = format!("a check that also accepts a table of one who {name}");
        all.push((either, check(Judge::Either)));
    }
    for (call, searching) in SEARCHING {
        let orders = RULES.iter().filter(|(_, rule)| *rule != Rule::HomesFromTop);
        let named = |&(name, rule)| {
            (
                format!("{call} whose search {name}"),
                Wrong::Search(searching, rule),
            )
        };
        all.extend(orders.map(named));
    }
    all
}

const SEARCHING: [(&str, Searching); 5] = [
    ("an enter", Searching::Enter),
    ("an amend", Searching::Amend),
    ("a cancel", Searching::Cancel),
    ("a lookup", Searching::Lookup),
    ("a descent", Searching::Descent),
];

/// Places the chunks anew by the rule.
pub fn arrange(rule: Rule, table: &mut [u8]) {
    let order = |made: &Made, one: &Label, two: &Label| rule.order(made, one, two);
    faults::arrange_in(table, order, |made, label| rule.home(made, label));
}

// ---- check ---------------------------------------------------------------------

/// A check that accepts a table whose chunks stand by the rule, alone or besides a right one.
pub fn check(judge: Judge, rule: Rule, archive: &mut Archive, table: &mut [u8]) -> Reply {
    let mut by_rule = table.to_vec();
    arrange(rule, &mut by_rule);
    match judge {
        _ if by_rule == table => {
            faults::arrange(&mut by_rule);
            archive.check(&mut by_rule)
        }
        Judge::ByRule => Reply::refused(4),
        Judge::Either => archive.check(table),
    }
}

// ---- edits ---------------------------------------------------------------------

/// Whether a search by the rule does not find each chunk on the way to a key.
fn is_lost(rule: Rule, table: &[u8], key: u32) -> bool {
    let made = made(table).expect("an image");
    let (_, all) = found_by(table, key, |one, two| rule.order(&made, one, two));
    !all
}

/// The answer of an enter that places its chunks by the rule; of one that does not find its key and leaves it at that; or of an amend that does not.
pub fn enter_or_amend(
    wrong: Wrong,
    ticket: &Ticket,
    table: &mut [u8],
    before: &[u8],
    right: Reply,
) -> Reply {
    let is_lost = |rule| is_lost(rule, before, ticket.key);
    match (wrong, ticket.kind, right.number) {
        (Wrong::Enter(rule), Kind::Enter, 0) => arrange(rule, table),
        (Wrong::Search(Searching::Enter, rule), Kind::Enter, 13) if is_lost(rule) => {
            return Reply::done()
        }
        (Wrong::Search(Searching::Amend, rule), Kind::Amend, 0) if is_lost(rule) => {
            table.copy_from_slice(before);
            return Reply::refused(9);
        }
        _ => {}
    }
    right
}

/// The answer of a cancel that answered 0.
pub fn cancel(wrong: Wrong, key: u32, table: &mut [u8], before: &[u8], right: Reply) -> Reply {
    match wrong {
        Wrong::Cancel(rule) => arrange(rule, table),
        Wrong::Search(Searching::Cancel, rule) if is_lost(rule, before, key) => {
            table.copy_from_slice(before);
            return Reply::refused(9);
        }
        _ => {}
    }
    right
}

// ---- readings ------------------------------------------------------------------

/// The answer of a lookup that answered 0.
pub fn lookup(wrong: Wrong, key: u32, table: &[u8], right: Reply) -> Reply {
    match wrong {
        Wrong::Search(Searching::Lookup, rule) if is_lost(rule, table, key) => Reply::refused(9),
        _ => right,
    }
}

/// The answer of a descent that answered 0 or 9, with the path as far as it is found. The output is as the right one left it.
pub fn descent(
    rule: Rule,
    key: u32,
    table: &[u8],
    output: &mut [u8],
    before: &[u8],
    right: Reply,
) -> Reply {
    if !is_image(table) || !is_lost(rule, table, key) {
        return right;
    }
    let made = made(table).expect("an image");
    let (labels, _) = found_by(table, key, |one, two| rule.order(&made, one, two));
    output.copy_from_slice(before);
    let places = output.chunks_exact_mut(NUMBER);
    for (block, place) in numbers(table, &labels).iter().zip(places) {
        place.copy_from_slice(&block.to_be_bytes());
    }
    let count = labels.len() as u32;
    Reply {
        count,
        ..Reply::refused(9)
    }
}
