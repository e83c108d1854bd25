//! Versions and prices by somebody who goes wrong: in make, in enter and amend, in the check, in readings, in spans.

use crate::archive::{Archive, Calls};
use crate::faults::{each_block, write};
use crate::tickets::{Found, Kind, Ticket};
use reference::calls::Reply;
use reference::image::write_row;
use reference::lists::Order;
use reference::sizes::{is_key, number_at, row, Sizes, BLOCK_HEAD, FRONT, HEADER};

#[derive(Clone, Copy, PartialEq, Eq)]
pub enum Wrong {
    Make(Making),
    Ticket(Kind, Asked),
    Write(Kind, Written),
    Check(Unseen),
    Reading(Reading, Given),
    Span(Rows),
}

#[derive(Clone, Copy, PartialEq, Eq)]
pub enum Making {
    Three,
    Zero,
    LowestByte,
    VersionFirst,
    VersionLast,
    AlwaysOne,
    NarrowLength,
}

/// Another order of the questions, or another question.
#[derive(Clone, Copy, PartialEq, Eq)]
pub enum Asked {
    AfterFive,
    AfterSix,
    Last,
    SixInstead,
    Nothing,
    ZeroTaken,
    ZeroFirst,
    LowestRefused,
    HighestRefused,
    EveryPrice,
}

/// What stands in the table after an edit.
#[derive(Clone, Copy, PartialEq, Eq)]
pub enum Written {
    Zero,
    LittleEndian,
    AboveToo,
    FrontToo,
    Old,
    NextToo,
    NotAlone,
}

/// What a check does not look at.
#[derive(Clone, Copy, PartialEq, Eq)]
pub enum Unseen {
    ZeroPrice,
    AboveLevel1,
    OfFront,
    BehindCount,
    Three,
    Zero,
    WideTail,
    Second,
}

#[derive(Clone, Copy, PartialEq, Eq)]
pub enum Reading {
    Lookup,
    Descent,
    Seek,
}

/// The price that a reading gives.
#[derive(Clone, Copy, PartialEq, Eq)]
pub enum Given {
    None,
    Next,
    Exchanged,
    Behind,
    Refused,
}

#[derive(Clone, Copy, PartialEq, Eq)]
pub enum Rows {
    TwelveCounted,
    SixteenCounted,
    Narrow,
    Unpriced,
    PriceFirst,
    InReply,
}

/// Each with its name.
pub fn all() -> Vec<(String, Wrong)> {
    let mut all = Vec::new();
    all.extend(MAKING.map(|(name, making)| (format!("a make that {name}"), Wrong::Make(making))));
    for (call, kind) in [("an enter", Kind::Enter), ("an amend", Kind::Amend)] {
        let asked = ASKED.map(|(name, asked)| (name, Wrong::Ticket(kind, asked)));
        let written = WRITTEN.map(|(name, written)| (name, Wrong::Write(kind, written)));
        let named = |(name, wrong)| (format!("{call} that {name}"), wrong);
        all.extend(asked.into_iter().chain(written).map(named));
    }
    let amended = |(name, written)| {
        (
            format!("an amend that {name}"),
            Wrong::Write(Kind::Amend, written),
        )
    };
    all.extend(AMENDED.map(amended));
    all.extend(UNSEEN.map(|(name, unseen)| (format!("a check that {name}"), Wrong::Check(unseen))));
    for (call, reading) in [
        ("a lookup", Reading::Lookup),
        ("a descent", Reading::Descent),
        ("a seek", Reading::Seek),
    ] {
        let named = |(name, given)| {
            (
                format!("{call} that {name}"),
                Wrong::Reading(reading, given),
            )
        };
        all.extend(GIVEN.map(named));
    }
    all.extend(ROWS.map(|(name, rows)| (format!("a span that {name}"), Wrong::Span(rows))));
    all
}

const MAKING: [(&str, Making); 7] = [
    ("accepts version 3", Making::Three),
    ("accepts version 0", Making::Zero),
    (
        "looks at the lowest byte of the version",
        Making::LowestByte,
    ),
    ("asks for the version before the seed", Making::VersionFirst),
    ("asks for the version after the length", Making::VersionLast),
    ("writes version 1 into every table", Making::AlwaysOne),
    (
        "asks version 2 for the length of version 1",
        Making::NarrowLength,
    ),
];

const ASKED: [(&str, Asked); 10] = [
    ("asks 14 after 5", Asked::AfterFive),
    ("asks 14 after 6", Asked::AfterSix),
    ("asks 14 last", Asked::Last),
    ("answers 6 to a price in version 1", Asked::SixInstead),
    ("takes a price in version 1", Asked::Nothing),
    ("takes price 0 in version 2", Asked::ZeroTaken),
    ("asks for price 0 in version 2 before 5", Asked::ZeroFirst),
    ("turns down price 1", Asked::LowestRefused),
    ("turns down the highest price", Asked::HighestRefused),
    ("answers 14 to every price", Asked::EveryPrice),
];

const WRITTEN: [(&str, Written); 4] = [
    ("writes price 0", Written::Zero),
    ("writes the price little-endian", Written::LittleEndian),
    ("writes the price above level 1 too", Written::AboveToo),
    ("writes the price for the front too", Written::FrontToo),
];

const AMENDED: [(&str, Written); 3] = [
    ("keeps the old price", Written::Old),
    ("gives the next order the price too", Written::NextToo),
    (
        "leaves the table where the price alone is another",
        Written::NotAlone,
    ),
];

const UNSEEN: [(&str, Unseen); 8] = [
    ("accepts price 0 of an order", Unseen::ZeroPrice),
    ("accepts a price above level 1", Unseen::AboveLevel1),
    ("accepts a price of the front", Unseen::OfFront),
    ("accepts a price behind the count", Unseen::BehindCount),
    ("takes version 3 for 2", Unseen::Three),
    ("takes version 0 for 1", Unseen::Zero),
    (
        "looks for unused bytes of version 1 behind rows of 16 bytes",
        Unseen::WideTail,
    ),
    (
        "answers 4 to version 2, as before there was one",
        Unseen::Second,
    ),
];

const GIVEN: [(&str, Given); 5] = [
    ("gives no price", Given::None),
    ("gives the price of the next order", Given::Next),
    (
        "gives price and displayed quantity exchanged",
        Given::Exchanged,
    ),
    (
        "gives as price in version 1 what stands behind the row",
        Given::Behind,
    ),
    ("gives a price where it finds no order", Given::Refused),
];

const ROWS: [(&str, Rows); 6] = [
    ("counts 12 bytes a row in version 2", Rows::TwelveCounted),
    ("counts 16 bytes a row in version 1", Rows::SixteenCounted),
    ("writes rows of 12 bytes in version 2", Rows::Narrow),
    ("writes no prices", Rows::Unpriced),
    ("writes the price before the quantities", Rows::PriceFirst),
    ("gives a price in its reply", Rows::InReply),
];

// ---- make --------------------------------------------------------------------

pub fn make(
    wrong: Making,
    archive: &mut Archive,
    table: &mut [u8],
    sizes: &Sizes,
    seed: &mut [u8],
) -> Reply {
    let version = sizes.version;
    let mut in_version = |version, table: &mut [u8]| {
        let sizes = Sizes { version, ..*sizes };
        archive.make(table, &sizes, seed)
    };
    match (wrong, version) {
        (Making::Three, 3) => marked(3, table, |table| in_version(2, table)),
        (Making::Zero, 0) => marked(0, table, |table| in_version(1, table)),
        (Making::LowestByte, _) => in_version(version & 0xff, table),
        (Making::VersionFirst, 0 | 3..) => Reply::refused(2),
        (Making::VersionLast, 0 | 3..) => match in_version(2, &mut table.to_vec()).number {
            0 => Reply::refused(2),
            number => Reply::refused(number),
        },
        (Making::AlwaysOne, _) => marked(1, table, |table| in_version(version, table)),
        (Making::NarrowLength, 2) => marked(2, table, |table| in_version(1, table)),
        _ => in_version(version, table),
    }
}

/// A make that writes this version where it succeeds.
fn marked(version: u8, table: &mut [u8], make: impl FnOnce(&mut [u8]) -> Reply) -> Reply {
    let reply = make(table);
    if reply.number == 0 {
        table[0] = version;
    }
    reply
}

// ---- enter and amend -----------------------------------------------------------

/// Another number than the right one. Nothing is written with it.
pub fn other_number(wrong: Wrong, ticket: &Ticket, found: &Found, number: u32) -> Option<u32> {
    let asked = match wrong {
        Wrong::Ticket(kind, asked) if kind == ticket.kind => asked,
        _ => return None,
    };
    let (second, price) = (found.version() == 2, ticket.new.price);
    let other = match (asked, number) {
        (Asked::AfterFive | Asked::AfterSix, 14) if !is_key(ticket.key) => 5,
        (Asked::AfterSix, 14) if ticket.is_bad() => 6,
        (Asked::Last, 14) => match with_price(ticket, 0)
            .on_reference(&mut found.table())
            .number
        {
            0 => 14,
            number => number,
        },
        (Asked::SixInstead, 14) => 6,
        (Asked::ZeroFirst, 5) if second && price == 0 => 6,
        (Asked::LowestRefused, 0) if price == 1 => 6,
        (Asked::HighestRefused, 0) if price == u32::MAX => 6,
        (Asked::EveryPrice, _) if second && price > 0 => 14,
        _ => return None,
    };
    Some(other)
}

fn with_price(ticket: &Ticket, price: u32) -> Ticket {
    let new = Order {
        price,
        ..ticket.new
    };
    Ticket { new, ..*ticket }
}

/// The answer of somebody who takes a price that the version has not, and what that leaves.
pub fn taken(
    wrong: Wrong,
    archive: &mut Archive,
    table: &mut [u8],
    ticket: &Ticket,
    found: &Found,
) -> Option<Reply> {
    let asked = match wrong {
        Wrong::Ticket(kind, asked) if kind == ticket.kind => asked,
        _ => return None,
    };
    match (asked, found.version(), ticket.new.price) {
        (Asked::Nothing, 1, 1..) => Some(archive.enter_or_amend(table, &with_price(ticket, 0))),
        (Asked::ZeroTaken, 2, 0) => {
            let reply = archive.enter_or_amend(table, &with_price(ticket, 1));
            if reply.number == 0 {
                write(table, &found.with(ticket.key, ticket.new));
            }
            Some(reply)
        }
        _ => None,
    }
}

/// What somebody leaves who answers 0.
pub fn done_otherwise(wrong: Wrong, ticket: &Ticket, found: &Found, table: &mut [u8]) {
    let written = match wrong {
        Wrong::Write(kind, written) if kind == ticket.kind && found.version() == 2 => written,
        _ => return,
    };
    let (key, new) = (ticket.key, ticket.new);
    let priced = |price| found.with(key, Order { price, ..new });
    let own = found.orders.get(&key);
    match written {
        Written::Zero => write(table, &priced(0)),
        Written::LittleEndian => write(table, &priced(new.price.swap_bytes())),
        Written::AboveToo => set_prices(table, |node| {
            (node.level > 1 && node.key == key).then_some(new.price)
        }),
        Written::FrontToo => set_prices(table, |node| {
            (node.level == 1 && node.is_front()).then_some(new.price)
        }),
        Written::Old => write(table, &priced(own.expect("amended").price)),
        Written::NextToo => {
            let mut orders = found.with(key, new);
            if let Some((_, next)) = orders.range_mut(key + 1..).next() {
                next.price = new.price;
            }
            write(table, &orders);
        }
        Written::NotAlone => {
            let price = own.expect("amended").price;
            if own == Some(&Order { price, ..new }) {
                write(table, &found.orders);
            }
        }
    }
}

/// A node of a table of version 2, as its bytes say.
struct Node {
    level: u8,
    is_counted: bool,
    key: u32,
    price: u32,
}

impl Node {
    fn is_front(&self) -> bool {
        self.is_counted && self.key == FRONT
    }
}

/// Writes the prices that are given for the nodes of a table of version 2.
fn set_prices(table: &mut [u8], price: impl Fn(&Node) -> Option<u32>) {
    if table.first() != Some(&2) {
        return;
    }
    each_block(table, |block| {
        let (level, count) = (block[0], usize::from(block[1]));
        let nodes = block[BLOCK_HEAD..].chunks_exact_mut(row(2));
        for (number, bytes) in nodes.enumerate() {
            let node = Node {
                level,
                is_counted: number < count,
                key: number_at(bytes, 0),
                price: number_at(bytes, 12),
            };
            if let Some(price) = price(&node) {
                bytes[12..].copy_from_slice(&price.to_be_bytes());
            }
        }
    });
}

// ---- check ---------------------------------------------------------------------

/// A copy of the table in which nothing is wrong that a check does not see; None where it answers 4 without looking.
pub fn as_seen(unseen: Unseen, table: &[u8]) -> Option<Vec<u8>> {
    let mut copy = table.to_vec();
    let version = table.first().copied();
    match unseen {
        Unseen::ZeroPrice => set_prices(&mut copy, |node| {
            let is_order = node.level == 1 && node.is_counted && node.key != FRONT;
            (is_order && node.price == 0).then_some(1)
        }),
        Unseen::AboveLevel1 => set_prices(&mut copy, |node| {
            (node.level > 1 && node.is_counted).then_some(0)
        }),
        Unseen::OfFront => set_prices(&mut copy, |node| {
            (node.level == 1 && node.is_front()).then_some(0)
        }),
        Unseen::BehindCount => set_prices(&mut copy, |node| (!node.is_counted).then_some(0)),
        Unseen::Three if version == Some(3) => copy[0] = 2,
        Unseen::Zero if version == Some(0) => copy[0] = 1,
        Unseen::WideTail if version == Some(1) => each_block(&mut copy, |block| {
            let [narrow, wide] =
                [1, 2].map(|version| BLOCK_HEAD + row(version) * usize::from(block[1]));
            let end = wide.min(block.len());
            if let Some(unseen) = block.get_mut(narrow..end) {
                unseen.fill(0);
            }
        }),
        Unseen::Second if version == Some(2) => return None,
        _ => {}
    }
    Some(copy)
}

// ---- readings ------------------------------------------------------------------

/// The answer of a lookup, descent or seek with another price.
pub fn given(given: Given, table: &[u8], reply: Reply) -> Reply {
    let found = match Found::in_table(table) {
        Some(found) => found,
        None => return reply,
    };
    let next = found.orders.range(reply.key + 1..).next();
    let (price, displayed) = (reply.price, reply.displayed);
    match (given, reply.number, found.version()) {
        (Given::None, 0, _) => Reply { price: 0, ..reply },
        (Given::Next, 0, _) => Reply {
            price: next.map_or(price, |(_, order)| order.price),
            ..reply
        },
        (Given::Exchanged, 0, _) => Reply {
            price: displayed,
            displayed: price,
            ..reply
        },
        (Given::Behind, 0, 1) => Reply {
            price: behind(table, reply.key),
            ..reply
        },
        (Given::Refused, 9 | 12, 2) => Reply { price: 1, ..reply },
        _ => reply,
    }
}

/// What stands behind the row of an order in a table of version 1; 0 behind the last block.
fn behind(table: &[u8], key: u32) -> u32 {
    let (mut at, mut place) = (HEADER, None);
    each_block(&mut table.to_vec(), |block| {
        let nodes = (0..usize::from(block[1])).map(|node| BLOCK_HEAD + row(1) * node);
        let own = nodes
            .filter(|_| block[0] == 1)
            .find(|&node| number_at(block, node) == key);
        place = place.or(own.map(|node| at + node + row(1)));
        at += block.len();
    });
    match place {
        Some(place) if place + 4 <= table.len() => number_at(table, place),
        _ => 0,
    }
}

// ---- spans ---------------------------------------------------------------------

/// The answer of a span with other rows, where the right one is 0 or 11. The output is as it was lent.
pub fn span(rows: Rows, found: &Found, lo: u32, hi: u32, output: &mut [u8]) -> Option<Reply> {
    let version = found.version();
    let orders: Vec<(u32, Order)> = found
        .orders
        .range(lo..=hi)
        .map(|(&key, &order)| (key, order))
        .collect();
    let needed = |width: usize| width * orders.len();
    let fits = output.len() >= needed(row(version));
    let width = match (rows, version) {
        (Rows::TwelveCounted, 2) if output.len() >= needed(12) => 16,
        (Rows::SixteenCounted, 1) if output.len() < needed(16) => return Some(Reply::refused(11)),
        (Rows::Narrow, 2) if fits => 12,
        (Rows::Unpriced | Rows::PriceFirst | Rows::InReply, 2) if fits => 16,
        _ => return None,
    };
    for ((key, order), place) in orders.iter().zip(output.chunks_mut(width)) {
        let mut bytes = Vec::new();
        write_row(2, *key, order, &mut bytes);
        match rows {
            Rows::Unpriced => bytes[12..].fill(0),
            Rows::PriceFirst => bytes[4..].rotate_right(4),
            _ => {}
        }
        place.copy_from_slice(&bytes[..place.len()]);
    }
    let price = match (rows, orders.last()) {
        (Rows::InReply, Some((_, order))) => order.price,
        _ => 0,
    };
    Some(Reply {
        price,
        ..Reply::count(orders.len())
    })
}
