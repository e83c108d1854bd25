//! The calls on byte buffers ("Calls and their questions"), the descent of
//! document 02's request A.1, seek by the reserve of its request A.2 and with the
//! lowest order by its request A.5, enter and amend, which its request A.4 has in
//! place of put, and the price of its request A.6.
//!
//! "Questions run in this order; the first "no" ends the call with its number.
//! All other parts of that answer are 0 and no lent byte changes. Success is 0."
//! Only a descent's 9 writes and gives a count.

use crate::image::{held, image, is_image, obeys_rule_1, write_row};
use crate::lists::{lowest_with, Order, Orders};
use crate::paths::{path, NUMBER};
use crate::sizes::{is_key, Made, Seed, Sizes};

/// An answer. A lookup or descent that succeeds repeats the key; "Lookup, descent
/// and seek give the price too" (request A.6), 0 in version 1; how many orders a span
/// wrote, or blocks a descent, stands in `count`; what a call does not give is 0.
#[derive(Clone, Copy, Debug, Default, PartialEq, Eq)]
pub struct Reply {
    pub number: u32,
    pub key: u32,
    pub total: u32,
    pub displayed: u32,
    pub price: u32,
    pub count: u32,
}

impl Reply {
    pub fn refused(number: u32) -> Reply {
        Reply {
            number,
            ..Reply::default()
        }
    }

    pub fn done() -> Reply {
        Reply::default()
    }

    pub fn order(key: u32, order: &Order) -> Reply {
        Reply {
            key,
            total: order.total,
            displayed: order.displayed,
            price: order.price,
            ..Reply::default()
        }
    }

    pub fn count(count: usize) -> Reply {
        Reply::default().with_count(count)
    }

    fn with_count(self, count: usize) -> Reply {
        Reply {
            count: count as u32,
            ..self
        }
    }
}

/// Make: 1, 2, 3. "It then overwrites every byte with the image of no orders."
pub fn make(sizes: &Sizes, seed: &[u8], table: &mut [u8]) -> Reply {
    let sizes = *sizes;
    let seed = match Seed::from_bytes(seed) {
        Some(seed) => seed,
        None => return Reply::refused(1),
    };
    if !sizes.allowed() {
        return Reply::refused(2);
    }
    if table.len() != sizes.length() {
        return Reply::refused(3);
    }
    let empty = image(&Made { sizes, seed }, &Orders::new());
    table.copy_from_slice(&empty.expect("no orders make β chunks, and M ≥ β"));
    Reply::done()
}

/// Check: only 4.
pub fn check(table: &[u8]) -> Reply {
    if !is_image(table) {
        return Reply::refused(4);
    }
    Reply::done()
}

/// Enter, by request A.4: "takes a key that is not held and asks 4, 5, 6, 13, 7,
/// 8"; 13 is "is the key free?" By request A.6 it asks 14 after 4.
pub fn enter(table: &mut [u8], key: u32, new: Order) -> Reply {
    let (made, mut orders) = match ask_4_14_5_6(table, key, &new) {
        Ok(held) => held,
        Err(refusal) => return refusal,
    };
    if orders.contains_key(&key) {
        return Reply::refused(13);
    }
    if orders.len() >= made.sizes.orders as usize {
        return Reply::refused(7);
    }
    orders.insert(key, new);
    match image(&made, &orders) {
        Some(after) => {
            table.copy_from_slice(&after);
            Reply::done()
        }
        None => Reply::refused(8),
    }
}

/// Amend, by request A.4: "replaces the quantities of a held one and asks 4, 5, 6,
/// 9". By request A.6 it asks 14 after 4, and replaces the price "along with the
/// quantities".
pub fn amend(table: &mut [u8], key: u32, new: Order) -> Reply {
    let (made, mut orders) = match ask_4_14_5_6(table, key, &new) {
        Ok(held) => held,
        Err(refusal) => return refusal,
    };
    if !orders.contains_key(&key) {
        return Reply::refused(9);
    }
    orders.insert(key, new);
    let after = image(&made, &orders);
    table.copy_from_slice(&after.expect("the keys are the same, so the chunks are as many"));
    Reply::done()
}

/// The first questions of enter and amend; 14 is "is the price 0 when the table is
/// version 1?" What the table is made with and holds, or the refusal.
fn ask_4_14_5_6(table: &[u8], key: u32, new: &Order) -> Result<(Made, Orders), Reply> {
    let (made, orders) = held(table).ok_or(Reply::refused(4))?;
    let version = made.sizes.version;
    if version == 1 && new.price != 0 {
        return Err(Reply::refused(14));
    }
    if !is_key(key) {
        return Err(Reply::refused(5));
    }
    if !new.is_allowed(version) {
        return Err(Reply::refused(6));
    }
    Ok((made, orders))
}

/// Cancel: 4, 5, 9.
pub fn cancel(table: &mut [u8], key: u32) -> Reply {
    let (made, mut orders) = match held(table) {
        Some(held) => held,
        None => return Reply::refused(4),
    };
    if !is_key(key) {
        return Reply::refused(5);
    }
    if orders.remove(&key).is_none() {
        return Reply::refused(9);
    }
    let after = image(&made, &orders);
    table.copy_from_slice(&after.expect("taking an order away makes no more chunks"));
    Reply::done()
}

/// Lookup: 4, 5, 9. "Lookup gives total and displayed", and by request A.6 "the price
/// too".
pub fn lookup(table: &[u8], key: u32) -> Reply {
    let orders = match held(table) {
        Some((_, orders)) => orders,
        None => return Reply::refused(4),
    };
    if !is_key(key) {
        return Reply::refused(5);
    }
    match orders.get(&key) {
        Some(order) => Reply::order(key, order),
        None => Reply::refused(9),
    }
}

/// Descent: 4, which is here "only whether rule 1 of an image holds", 5, 11, 9.
/// "It writes the numbers of the blocks on its path, two bytes each, big-endian",
/// for a key that is not held too.
///
/// None, with nothing written, on "bytes that pass 4 and 5 here but are no
/// image": "no definition decides its other results there". `stays_within` says
/// what still must hold of another's answer.
pub fn descent(table: &[u8], key: u32, output: &mut [u8]) -> Option<Reply> {
    if !obeys_rule_1(table) {
        return Some(Reply::refused(4));
    }
    if !is_key(key) {
        return Some(Reply::refused(5));
    }
    let (made, orders) = held(table)?;
    let path = path(table, &made, &orders, key);
    if output.len() < NUMBER * path.len() {
        return Some(Reply::refused(11));
    }
    for (&block, place) in path.iter().zip(output.chunks_exact_mut(NUMBER)) {
        place.copy_from_slice(&block.to_be_bytes());
    }
    let reply = match orders.get(&key) {
        Some(order) => Reply::order(key, order),
        None => Reply::refused(9),
    };
    Some(reply.with_count(path.len()))
}

/// What holds of every descent, also where no definition decides its answer: the
/// counted numbers have room in the output, and its bytes behind them "keep their
/// values".
pub fn stays_within(reply: &Reply, before: &[u8], after: &[u8]) -> bool {
    let written = NUMBER * reply.count as usize;
    before.len() == after.len() && written <= after.len() && before[written..] == after[written..]
}

/// Span: 4, 5, 10, 11. "It writes key, total, displayed of each, rising, and
/// gives their number; output bytes beyond them keep their values." By request A.6
/// "Span rows in version 2 have 16 bytes, and 11 counts those."
pub fn span(table: &[u8], lo: u32, hi: u32, output: &mut [u8]) -> Reply {
    let (version, orders) = match held(table) {
        Some((made, orders)) => (made.sizes.version, orders),
        None => return Reply::refused(4),
    };
    if !is_key(lo) || !is_key(hi) {
        return Reply::refused(5);
    }
    if lo > hi {
        return Reply::refused(10);
    }
    let mut rows = Vec::new();
    for (&key, order) in orders.range(lo..=hi) {
        write_row(version, key, order, &mut rows);
    }
    if output.len() < rows.len() {
        return Reply::refused(11);
    }
    output[..rows.len()].copy_from_slice(&rows);
    Reply::count(orders.range(lo..=hi).count())
}

/// Seek: 4, 5, 10, 12. By request A.5 "It must give the order with the smallest
/// key in lo..hi that has the reserve. So its answer, too, is now read off a
/// definition", here `lowest_with`, and the same seek twice gives the same order.
/// By request A.2 "Seek and its 12 use that definition" of the reserve, and "With
/// r = 0 hidden orders are still found": 0 is a reserve of at least 0.
pub fn seek(table: &[u8], lo: u32, hi: u32, r: u32) -> Reply {
    let orders = match held(table) {
        Some((_, orders)) => orders,
        None => return Reply::refused(4),
    };
    if !is_key(lo) || !is_key(hi) {
        return Reply::refused(5);
    }
    if lo > hi {
        return Reply::refused(10);
    }
    match lowest_with(&orders, lo, hi, r) {
        Some((key, order)) => Reply::order(key, &order),
        None => Reply::refused(12),
    }
}
