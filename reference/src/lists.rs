//! Lists, partitions, chunks, labels and homes ("Lists, partitions, chunks").

use crate::sizes::{Made, FRONT, P};
use std::cmp::Ordering;
use std::collections::BTreeMap;

/// An order beside its key. In version 1 the price is 0.
#[derive(Clone, Copy, Debug, Default, PartialEq, Eq)]
pub struct Order {
    pub total: u32,
    pub displayed: u32,
    pub price: u32,
}

impl Order {
    /// "total 1..4,294,967,295, displayed 0..total", and by request A.6 "a limit
    /// price, 1..4,294,967,295 ticks", which version 1 has not: there 14 asks for 0.
    pub fn is_allowed(&self, version: u32) -> bool {
        let is_priced = version == 1 || self.price >= 1;
        self.total >= 1 && self.displayed <= self.total && is_priced
    }

    /// "0: wholly hidden".
    pub fn is_hidden(&self) -> bool {
        self.displayed == 0
    }

    /// What counts as reserve, by request A.2: it is "only what stands behind a
    /// displayed part. A wholly hidden order therefore has reserve 0 from now on;
    /// any other has total − displayed."
    pub fn reserve(&self) -> u32 {
        if self.is_hidden() {
            0
        } else {
            self.total - self.displayed
        }
    }
}

/// A set of orders, by key.
pub type Orders = BTreeMap<u32, Order>;

/// What a seek gives, by request A.5: "the order with the smallest key in lo..hi
/// that has the reserve", which is one of r or more. None where no order there has
/// it.
pub fn lowest_with(orders: &Orders, lo: u32, hi: u32, r: u32) -> Option<(u32, Order)> {
    orders
        .iter()
        .map(|(&key, &order)| (key, order))
        .filter(|&(key, _)| lo <= key && key <= hi)
        .filter(|(_, order)| order.reserve() >= r)
        .min_by_key(|&(key, _)| key)
}

/// An element of a list: the front or a held key. The front "is no order": the
/// numbers of its order are 0.
#[derive(Clone, Copy, Debug, PartialEq, Eq)]
pub struct Element {
    pub key: u32,
    pub order: Order,
    pub level: u32,
}

/// L_k for one k.
pub type List = Vec<Element>;

/// "A chunk's label is (level, first key of its partition, chunk number)." Labels have
/// no order of their own: `compare` asks for the version.
#[derive(Clone, Copy, Debug, PartialEq, Eq, Hash)]
pub struct Label {
    pub level: u32,
    pub first_key: u32,
    pub chunk_number: u32,
}

/// "Labels compare by level, then first key, then chunk number"; other versions than 1
/// compare "by higher level first, then first key, then chunk number" (request A.7).
pub fn compare(version: u32, one: &Label, two: &Label) -> Ordering {
    let by_level = one.level.cmp(&two.level);
    let by_level = if version == 1 {
        by_level
    } else {
        by_level.reverse()
    };
    by_level
        .then(one.first_key.cmp(&two.first_key))
        .then(one.chunk_number.cmp(&two.chunk_number))
}

/// A chunk: its label and its part of a list.
#[derive(Clone, Copy, Debug, PartialEq, Eq)]
pub struct Chunk<'a> {
    pub label: Label,
    pub nodes: &'a [Element],
}

/// L_1 to L_β.
pub fn lists(made: &Made, orders: &Orders) -> Vec<List> {
    let all = all_elements(made, orders);
    (1..=made.sizes.beta()).map(|k| list(&all, k)).collect()
}

/// The front and all held keys, rising.
fn all_elements(made: &Made, orders: &Orders) -> List {
    let element = |key, order| Element {
        key,
        order,
        level: made.level(key),
    };
    let front = element(FRONT, Order::default());
    let held = orders.iter().map(|(&key, &order)| element(key, order));
    std::iter::once(front).chain(held).collect()
}

/// L_k, "the rising list of the front and all held keys of level k or more".
fn list(all: &[Element], k: u32) -> List {
    all.iter()
        .filter(|element| element.level >= k)
        .copied()
        .collect()
}

/// "For k < β a partition of L_k starts at each element that is also in
/// L_(k+1) and runs to just before the next such element. L_β is one partition."
/// No level is above β, so the one rule serves both.
pub fn partitions(list: &List, k: u32) -> impl Iterator<Item = &[Element]> {
    let mut rest = list.as_slice();
    std::iter::from_fn(move || {
        let (_, others) = rest.split_first()?;
        let m = 1 + others.iter().take_while(|other| other.level <= k).count();
        let (partition, after) = rest.split_at(m);
        rest = after;
        Some(partition)
    })
}

/// "A partition of m nodes is cut into chunks 0, 1, ..: all of B nodes but the
/// last, which has 1..B."
fn cut<'a>(made: &Made, level: u32, partition: &'a [Element]) -> impl Iterator<Item = Chunk<'a>> {
    let first_key = partition[0].key;
    let pieces = partition.chunks(made.sizes.nodes as usize);
    (0..).zip(pieces).map(move |(chunk_number, nodes)| Chunk {
        label: Label {
            level,
            first_key,
            chunk_number,
        },
        nodes,
    })
}

/// All chunks of the lists L_1 to L_β, in rising label order of the version.
pub fn chunks<'a>(made: &Made, lists: &'a [List]) -> Vec<Chunk<'a>> {
    let mut chunks = Vec::new();
    for (level, list) in (1..).zip(lists) {
        for partition in partitions(list, level) {
            chunks.extend(cut(made, level, partition));
        }
    }
    sort(made.sizes.version, &mut chunks);
    chunks
}

/// In rising label order of a version.
pub fn sort(version: u32, chunks: &mut [Chunk]) {
    chunks.sort_by(|one, two| compare(version, &one.label, &two.label));
}

/// "home(label) = ((g(first key) + 65,536·level + chunk number) mod p) mod M."
pub fn home(made: &Made, label: &Label) -> usize {
    let sum = u64::from(made.seed.g(label.first_key))
        + 65_536 * u64::from(label.level)
        + u64::from(label.chunk_number);
    ((sum % u64::from(P)) % u64::from(made.sizes.blocks)) as usize
}
