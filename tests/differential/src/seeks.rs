//! Seeks by somebody who goes wrong: another notion of reserve, another range, another order than the lowest.

use crate::tickets::Found;
use reference::calls::Reply;
use reference::lists::{chunks, lists, Label, Order};
use reference::seeks::label;
use reference::sizes::P;
use std::collections::BTreeSet;

#[derive(Clone, Copy, PartialEq, Eq)]
pub enum Wrong {
    Reserve(Reserve),
    Range(Range),
    Order(Other),
}

/// What is taken for enough.
#[derive(Clone, Copy, PartialEq, Eq)]
pub enum Reserve {
    Old,
    HiddenLeftOut,
    HiddenAtOne,
    HiddenAtTotal,
    ExactRefused,
    OneLess,
}

/// Where the lowest order that has the reserve is looked for.
#[derive(Clone, Copy, PartialEq, Eq)]
pub enum Range {
    LoIgnored,
    HiIgnored,
    LoLeftOut,
    HiLeftOut,
    ToHidden,
    FirstChunks,
    FirstPartition,
}

/// What is given where an order has the reserve.
#[derive(Clone, Copy, PartialEq, Eq)]
pub enum Other {
    Below,
    Highest,
    Second,
    Lowest,
    Most,
    Least,
    LowestKey,
    NextQuantities,
    Cheapest,
}

/// Each with its name.
pub const WRONG: [(&str, Wrong); 22] = [
    (
        "takes a hidden order's total for its reserve",
        Wrong::Reserve(Reserve::Old),
    ),
    (
        "leaves hidden orders out with r = 0",
        Wrong::Reserve(Reserve::HiddenLeftOut),
    ),
    (
        "finds a hidden order with r = 1",
        Wrong::Reserve(Reserve::HiddenAtOne),
    ),
    (
        "finds a hidden order by its exact total",
        Wrong::Reserve(Reserve::HiddenAtTotal),
    ),
    (
        "turns down a reserve of exactly r",
        Wrong::Reserve(Reserve::ExactRefused),
    ),
    (
        "takes a reserve of r − 1 for enough",
        Wrong::Reserve(Reserve::OneLess),
    ),
    ("does not look at lo", Wrong::Range(Range::LoIgnored)),
    ("does not look at hi", Wrong::Range(Range::HiIgnored)),
    ("leaves out the key lo", Wrong::Range(Range::LoLeftOut)),
    ("leaves out the key hi", Wrong::Range(Range::HiLeftOut)),
    (
        "ends with 12 at a hidden order",
        Wrong::Range(Range::ToHidden),
    ),
    (
        "looks at the first chunk of each partition alone",
        Wrong::Range(Range::FirstChunks),
    ),
    (
        "looks at the first partition of its range alone",
        Wrong::Range(Range::FirstPartition),
    ),
    ("gives an order below lo", Wrong::Order(Other::Below)),
    ("gives the highest order", Wrong::Order(Other::Highest)),
    ("gives the second lowest order", Wrong::Order(Other::Second)),
    (
        "gives the lowest order whether or not it has the reserve",
        Wrong::Order(Other::Lowest),
    ),
    (
        "gives the order with the largest reserve",
        Wrong::Order(Other::Most),
    ),
    (
        "gives the order with the smallest reserve that is enough",
        Wrong::Order(Other::Least),
    ),
    (
        "gives the lowest key with the quantities of the order that has the reserve",
        Wrong::Order(Other::LowestKey),
    ),
    (
        "gives the quantities of the next order",
        Wrong::Order(Other::NextQuantities),
    ),
    (
        "gives the order with the lowest price",
        Wrong::Order(Other::Cheapest),
    ),
];

/// An order with its key.
type Row = (u32, Order);

/// The answer of somebody who goes wrong, where the right one is 0 or 12.
pub fn answer(wrong: Wrong, found: &Found, asked: (u32, u32, u32), right: Reply) -> Reply {
    let (lo, hi, r) = asked;
    let has = |order: &Order| order.reserve() >= r;
    match wrong {
        Wrong::Reserve(reserve) => {
            first(&rows(found, lo, hi), |order| is_enough(reserve, order, r))
        }
        Wrong::Range(range) => first(&looked_at(range, found, asked), has),
        Wrong::Order(_) if right.number == 12 => right,
        Wrong::Order(other) => given(other, found, asked, right),
    }
}

/// The orders from one key to another; none where that one is lower.
fn rows(found: &Found, lo: u32, hi: u32) -> Vec<Row> {
    let rows = found.orders.iter().map(|(&key, &order)| (key, order));
    rows.filter(|(key, _)| (lo..=hi).contains(key)).collect()
}

/// The first order that suits, or 12.
fn first(rows: &[Row], suits: impl Fn(&Order) -> bool) -> Reply {
    let found = rows.iter().find(|(_, order)| suits(order));
    found.map_or(Reply::refused(12), |(key, order)| Reply::order(*key, order))
}

fn is_enough(reserve: Reserve, order: &Order, r: u32) -> bool {
    let (hidden, has) = (order.is_hidden(), order.reserve() >= r);
    match reserve {
        Reserve::Old => order.total - order.displayed >= r,
        Reserve::HiddenLeftOut => has && !hidden,
        Reserve::HiddenAtOne => has || r == 1 && hidden,
        Reserve::HiddenAtTotal => has || hidden && order.total == r,
        Reserve::ExactRefused => has && (r == 0 || order.reserve() > r),
        Reserve::OneLess => order.reserve() + 1 >= r,
    }
}

fn looked_at(range: Range, found: &Found, (lo, hi, r): (u32, u32, u32)) -> Vec<Row> {
    let inside = rows(found, lo, hi);
    match range {
        Range::LoIgnored => rows(found, 1, hi),
        Range::HiIgnored => rows(found, lo, P - 1),
        Range::LoLeftOut => rows(found, lo + 1, hi),
        Range::HiLeftOut => rows(found, lo, hi - 1),
        Range::ToHidden => {
            let goes_on = |(_, order): &Row| r == 0 || !order.is_hidden();
            inside.into_iter().take_while(goes_on).collect()
        }
        Range::FirstChunks => among_chunks(inside, found, |first, own| {
            own == first || own.first_key != first.first_key && own.chunk_number == 0
        }),
        Range::FirstPartition => {
            among_chunks(inside, found, |first, own| own.first_key == first.first_key)
        }
    }
}

/// Those of the orders whose chunks are looked at; what decides is the label of the chunk of the first order, and their own.
fn among_chunks(
    rows: Vec<Row>,
    found: &Found,
    is_looked_at: fn(&Label, &Label) -> bool,
) -> Vec<Row> {
    let first = match rows.first() {
        Some(&(key, _)) => label(&found.made, &found.orders, key),
        None => return rows,
    };
    let lists = lists(&found.made, &found.orders);
    let mut chunks = chunks(&found.made, &lists);
    chunks.retain(|chunk| chunk.label.level == 1 && is_looked_at(&first, &chunk.label));
    let nodes = chunks.iter().flat_map(|chunk| chunk.nodes);
    let keys: BTreeSet<u32> = nodes.map(|node| node.key).collect();
    rows.into_iter()
        .filter(|(key, _)| keys.contains(key))
        .collect()
}

/// What is given where an order has the reserve; of several that are alike in that, the lowest.
fn given(other: Other, found: &Found, (lo, hi, r): (u32, u32, u32), right: Reply) -> Reply {
    let inside = rows(found, lo, hi);
    let has = |(_, order): &Row| order.reserve() >= r;
    let having: Vec<Row> = inside.iter().copied().filter(has).collect();
    let behind = rows(found, right.key + 1, P - 1);
    let reserve = |(_, order): &&Row| order.reserve();
    let order = match other {
        Other::Below => rows(found, 1, hi).into_iter().find(has),
        Other::Highest => having.last().copied(),
        Other::Second => having.get(1).copied(),
        Other::Lowest => inside.first().copied(),
        Other::Most => having.iter().rev().max_by_key(reserve).copied(),
        Other::Least => having.iter().min_by_key(reserve).copied(),
        Other::LowestKey => Some((inside[0].0, having[0].1)),
        Other::NextQuantities => behind.first().map(|&(_, order)| (right.key, order)),
        Other::Cheapest => having.iter().min_by_key(|(_, order)| order.price).copied(),
    };
    order.map_or(right, |(key, order)| Reply::order(key, &order))
}
