//! Seek: the order of its questions, what counts as reserve (document 02, request
//! A.2), and which order it gives (request A.5).

mod common;

use common::{
    damaged_table, document, found, full_table, made_table, order, refused, sizes, some_made,
    some_orders,
};
use reference::calls::{amend, cancel, enter, seek, Reply};
use reference::image::image;
use reference::lists::{Order, Orders};
use reference::samples::Xorshift;
use reference::seeks::{label, some_seek, Sought, SEEKS};
use reference::sizes::{Made, P};

// ---- questions and reserve -------------------------------------------------

#[test]
fn seek_asks_in_order() {
    let full = full_table();
    assert_eq!(refused(&damaged_table(), |t| seek(t, 0, 0, 0)), 4);
    for (lo, hi) in [(0, 5), (5, 0), (P, 5), (5, P), (u32::MAX, 1)] {
        assert_eq!(refused(&full, |t| seek(t, lo, hi, u32::MAX)), 5);
    }
    assert_eq!(refused(&full, |t| seek(t, 7, 2, u32::MAX)), 10);
    assert_eq!(refused(&full, |t| seek(t, 1, P - 1, 81)), 12);
    assert_eq!(refused(&full, |t| seek(t, 6, 6, 1)), 12);
    assert_eq!(refused(&full, |t| seek(t, 4, 5, 0)), 12);
}

/// Sizes and seed of a table with room for ten orders.
fn ten() -> Made {
    Made {
        sizes: sizes(2, 2, 10, 60),
        ..document()
    }
}

/// Such a table, and these orders in it: key, total, displayed.
fn table_of(orders: &[(u32, u32, u32)]) -> Vec<u8> {
    let mut table = made_table(&ten());
    for &(key, total, displayed) in orders {
        assert_eq!(
            enter(&mut table, key, order(total, displayed)),
            Reply::done()
        );
    }
    table
}

/// Request A.2: "A wholly hidden order therefore has reserve 0 from now on; any
/// other has total − displayed." Total, displayed, reserve.
const RESERVES: [(u32, u32, u32); 14] = [
    (1, 0, 0),
    (2, 0, 0),
    (10, 0, 0),
    (4_294_967_295, 0, 0),
    (1, 1, 0),
    (10, 10, 0),
    (4_294_967_295, 4_294_967_295, 0),
    (2, 1, 1),
    (10, 9, 1),
    (10, 1, 9),
    (100, 20, 80),
    (4_294_967_295, 4_294_967_294, 1),
    (4_294_967_295, 2_147_483_648, 2_147_483_647),
    (4_294_967_295, 1, 4_294_967_294),
];

#[test]
fn what_counts_as_reserve() {
    for (total, displayed, reserve) in RESERVES {
        let found = order(total, displayed).reserve();
        assert_eq!(found, reserve, "{displayed} of {total} displayed");
    }
}

/// A seek finds an order up to its reserve, and not for one more. So a hidden
/// order is found with r = 0, not with r = 1.
#[test]
fn seek_finds_an_order_up_to_its_reserve() {
    for (total, displayed, reserve) in RESERVES {
        let table = table_of(&[(3, total, displayed)]);
        for (lo, hi) in [(3, 3), (1, P - 1)] {
            for r in [0, reserve / 2, reserve] {
                assert_eq!(seek(&table, lo, hi, r), found(3, total, displayed), "{r}");
            }
            for r in [reserve + 1, u32::MAX] {
                let number = refused(&table, |t| seek(t, lo, hi, r));
                assert_eq!(number, 12, "{displayed} of {total} displayed, {r}");
            }
        }
    }
}

/// With any r from 1 on a hidden order is none, whatever its total.
#[test]
fn the_total_of_a_hidden_order_is_no_reserve() {
    for total in [1, 2, 10, u32::MAX] {
        let table = table_of(&[(3, total, 0)]);
        for r in [1, total / 2 + 1, total - total / 4, total] {
            assert_eq!(refused(&table, |t| seek(t, 3, 3, r)), 12, "{r} of {total}");
        }
    }
}

/// Hidden orders alone in a range, before others and between them.
#[test]
fn seek_passes_by_hidden_orders() {
    let table = table_of(&[
        (2, 50, 0),
        (3, u32::MAX, 0),
        (5, 50, 49),
        (6, 50, 0),
        (8, 50, 20),
        (9, 70, 70),
        (10, 1, 0),
    ]);
    for (lo, hi, key, total) in [(1, 4, 2, 50), (3, 8, 3, u32::MAX), (10, P - 1, 10, 1)] {
        assert_eq!(seek(&table, lo, hi, 0), found(key, total, 0));
    }
    assert_eq!(seek(&table, 9, P - 1, 0), found(9, 70, 70));
    for (lo, hi) in [(1, 4), (2, 3), (6, 6), (6, 7), (9, 10), (10, P - 1)] {
        assert_eq!(refused(&table, |t| seek(t, lo, hi, 1)), 12, "{lo} {hi}");
    }
    assert_eq!(seek(&table, 1, P - 1, 1), found(5, 50, 49));
    assert_eq!(seek(&table, 1, P - 1, 2), found(8, 50, 20));
    assert_eq!(seek(&table, 6, 9, 30), found(8, 50, 20));
    assert_eq!(refused(&table, |t| seek(t, 1, P - 1, 31)), 12);
}

/// An amend that displays a part of a hidden order, or hides an order, changes
/// what it has in reserve.
#[test]
fn an_amend_that_hides_takes_the_reserve() {
    let mut table = table_of(&[(3, 40, 0)]);
    assert_eq!(refused(&table, |t| seek(t, 1, 9, 39)), 12);
    assert_eq!(amend(&mut table, 3, order(40, 1)), Reply::done());
    assert_eq!(seek(&table, 1, 9, 39), found(3, 40, 1));
    assert_eq!(amend(&mut table, 3, order(40, 0)), Reply::done());
    assert_eq!(refused(&table, |t| seek(t, 1, 9, 39)), 12);
    assert_eq!(seek(&table, 1, 9, 0), found(3, 40, 0));
}

/// The greatest reserve is 4,294,967,294, so no order has the greatest r.
#[test]
fn no_order_has_the_largest_r() {
    for displayed in [0, 1, 2, u32::MAX - 1, u32::MAX] {
        let table = table_of(&[(3, u32::MAX, displayed)]);
        assert_eq!(refused(&table, |t| seek(t, 3, 3, u32::MAX)), 12);
        let next = seek(&table, 3, 3, u32::MAX - 1);
        assert_eq!(next.number, if displayed == 1 { 0 } else { 12 });
    }
}

// ---- which order -----------------------------------------------------------

/// Request A.5: "It must give the order with the smallest key in lo..hi that has
/// the reserve."
#[test]
fn seek_gives_the_lowest_key() {
    let table = table_of(&[(9, 13, 3), (2, 5, 5), (4, 30, 10), (7, 21, 1)]);
    assert_eq!(seek(&table, 1, P - 1, 0), found(2, 5, 5));
    assert_eq!(seek(&table, 1, P - 1, 1), found(4, 30, 10));
    assert_eq!(seek(&table, 1, P - 1, 20), found(4, 30, 10));
    assert_eq!(seek(&table, 5, P - 1, 20), found(7, 21, 1));
    assert_eq!(seek(&table, 8, 9, 10), found(9, 13, 3));
    assert_eq!(seek(&table, 8, 9, 11), Reply::refused(12));
    assert_eq!(seek(&table, 1, P - 1, 21), Reply::refused(12));
}

/// Neither the order that has most, nor the one that has least beyond r, nor the
/// lowest of all.
#[test]
fn seek_looks_at_keys_alone_among_those_that_have_the_reserve() {
    let table = table_of(&[(2, 50, 45), (4, 50, 20), (5, 50, 1), (7, 50, 29)]);
    assert_eq!(seek(&table, 1, P - 1, 5), found(2, 50, 45));
    for r in [6, 20, 21, 22, 30] {
        assert_eq!(seek(&table, 1, P - 1, r), found(4, 50, 20), "{r}");
    }
    assert_eq!(seek(&table, 1, P - 1, 31), found(5, 50, 1));
    assert_eq!(seek(&table, 6, P - 1, 6), found(7, 50, 29));
}

/// Orders outside lo..hi count neither for the answer nor for 12.
#[test]
fn seek_stays_in_its_range() {
    let table = table_of(&[(2, 50, 1), (4, 50, 10), (6, 50, 20), (9, 50, 1)]);
    assert_eq!(seek(&table, 3, 8, 1), found(4, 50, 10));
    assert_eq!(seek(&table, 4, 6, 30), found(4, 50, 10));
    assert_eq!(seek(&table, 5, 8, 30), found(6, 50, 20));
    for (lo, hi, r) in [(3, 8, 41), (5, 6, 31), (3, 3, 0), (7, 8, 0), (10, P - 1, 0)] {
        assert_eq!(refused(&table, |t| seek(t, lo, hi, r)), 12, "{lo} {hi} {r}");
    }
    for key in [2, 4, 6, 9] {
        assert_eq!(seek(&table, key, key, 1).key, key);
        assert_eq!(seek(&table, key, P - 1, 1).key, key);
    }
}

/// The lowest order that has the reserve behind others, in the next chunk of their
/// partition and in the next partition.
#[test]
fn seek_goes_on_to_the_next_chunk_and_partition() {
    let orders = [(3, 9, 9), (5, 9, 0), (7, 9, 8), (12, 9, 9), (13, 9, 7)];
    let table = table_of(&orders);
    let set = set_of(&orders);
    let place = |key| {
        let label = label(&ten(), &set, key);
        (label.first_key, label.chunk_number)
    };
    let places = [3, 5, 7, 12, 13].map(place);
    assert_eq!(places, [(0, 0), (0, 1), (0, 1), (12, 0), (12, 0)]);
    for lo in 1..=7 {
        assert_eq!(seek(&table, lo, 20, 1), found(7, 9, 8));
        assert_eq!(seek(&table, lo, 20, 2), found(13, 9, 7));
    }
}

/// "Dealers run the same seek twice and expect the same order": asked again, and of
/// a table that came to the same orders in another way.
#[test]
fn the_same_seek_gives_the_same_order() {
    let orders = [(2, 9, 9), (3, 9, 4), (6, 9, 1), (8, 9, 4)];
    let table = table_of(&orders);
    let mut another = table_of(&[(8, 9, 9), (7, 9, 1), (6, 9, 1), (3, 9, 4)]);
    assert_eq!(cancel(&mut another, 7), Reply::done());
    assert_eq!(amend(&mut another, 8, order(9, 4)), Reply::done());
    assert_eq!(enter(&mut another, 2, order(9, 9)), Reply::done());
    for r in 0..=9 {
        let reply = seek(&table, 1, P - 1, r);
        assert_eq!(seek(&table, 1, P - 1, r), reply);
        assert_eq!(seek(&another, 1, P - 1, r), reply);
    }
    assert_eq!(table, table_of(&orders));
    assert_eq!(another, table);
}

fn set_of(orders: &[(u32, u32, u32)]) -> Orders {
    let order = |&(key, total, displayed)| (key, order(total, displayed));
    orders.iter().map(order).collect()
}

/// Request A.5 in the slowest way: number by number from lo to hi, until one is the
/// key of an order of which r more could be displayed, or of any where r is 0.
fn slow_seek(orders: &Orders, lo: u32, hi: u32, r: u32) -> Reply {
    for key in lo..=hi {
        match orders.get(&key) {
            Some(order) if r == 0 => return Reply::order(key, order),
            Some(order) if order.displayed > 0 && order.displayed + r <= order.total => {
                return Reply::order(key, order)
            }
            _ => {}
        }
    }
    Reply::refused(12)
}

/// Four keys, each absent or with one of four pairs of quantities: every seek from
/// and to these keys and the next, for every r that an order has and one more.
#[test]
fn every_seek_in_every_small_set() {
    let quantities = [(5, 0), (5, 5), (5, 4), (5, 3)];
    for number in 0..5usize.pow(4) {
        let mut orders = Orders::new();
        for (place, key) in (1..=4).enumerate() {
            let choice = number / 5usize.pow(place as u32) % 5;
            if choice > 0 {
                let (total, displayed) = quantities[choice - 1];
                orders.insert(key, order(total, displayed));
            }
        }
        let table = image(&ten(), &orders).expect("they fit");
        for lo in 1..=5 {
            for hi in lo..=5 {
                for r in 0..=3 {
                    let wanted = slow_seek(&orders, lo, hi, r);
                    assert_eq!(seek(&table, lo, hi, r), wanted, "{orders:?} {lo} {hi} {r}");
                }
            }
        }
    }
}

/// Whether an answer is what "the order with the smallest key in lo..hi that has
/// the reserve" says, part by part: it is an order of the set, there, has it, and
/// none with a smaller key there has it. Where none at all has it, it is 12.
fn is_the_lowest(orders: &Orders, (lo, hi, r): (u32, u32, u32), reply: &Reply) -> bool {
    let has = |key: u32, order: &Order| lo <= key && key <= hi && order.reserve() >= r;
    match orders.get(&reply.key) {
        Some(order) => {
            let lower = |(&key, order): (&u32, &Order)| key < reply.key && has(key, order);
            *reply == Reply::order(reply.key, order)
                && has(reply.key, order)
                && !orders.iter().any(lower)
        }
        None => *reply == Reply::refused(12) && !orders.iter().any(|(&key, order)| has(key, order)),
    }
}

/// Made-up seeks in made-up tables, every kind of them met.
#[test]
fn seek_gives_the_lowest_key_in_any_table() {
    let mut generator = Xorshift::new(51);
    let mut met = [0; SEEKS.len()];
    for _ in 0..400 {
        let made = some_made(&mut generator);
        let orders = some_orders(&mut generator, &made, 60);
        let table = image(&made, &orders).expect("they fit");
        for _ in 0..60 {
            let one = generator.within(1, 2 * made.sizes.orders + 2);
            let two = generator.within(1, 2 * made.sizes.orders + 2);
            let asked = some_seek(&mut generator, &orders, (one.min(two), one.max(two)));
            let (lo, hi, r) = asked;
            let reply = seek(&table, lo, hi, r);
            assert!(
                is_the_lowest(&orders, asked, &reply),
                "{made:?} {orders:?} {asked:?}"
            );
            let sought = Sought::new(&table, asked, reply).expect("an image and keys");
            for (count, is_met) in met.iter_mut().zip(sought.kinds()) {
                *count += u32::from(is_met);
            }
        }
    }
    for ((kind, _), times) in SEEKS.iter().zip(met) {
        assert!(times >= 20, "{kind}: {times}");
    }
}
