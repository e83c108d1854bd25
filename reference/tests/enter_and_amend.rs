//! Enter and amend, and the text program's `put`, which is made of them (document
//! 02, request A.4).

mod common;

use common::{
    damaged_table, document, full_table, is_full, made_table, order, put_of_document_01, refused,
    sizes, some_key, some_made, some_orders,
};
use reference::calls::{amend, cancel, enter, lookup, Reply};
use reference::image::{held, image};
use reference::lists::Orders;
use reference::program::put;
use reference::samples::{some_order, some_price, Xorshift};
use reference::sizes::{number_at, row, Made, P};

/// Order that 6 turns down.
const BAD: [(u32, u32); 4] = [(0, 0), (0, 1), (1, 2), (u32::MAX - 1, u32::MAX)];

/// Keys 3 and 6, room for one order more, and every block used.
fn full_of_chunks() -> Vec<u8> {
    table_of(&Made {
        sizes: sizes(2, 2, 3, 5),
        ..document()
    })
}

/// The other way round: no room for an order, and blocks to spare.
fn full_of_orders() -> Vec<u8> {
    table_of(&Made {
        sizes: sizes(2, 2, 2, 9),
        ..document()
    })
}

fn table_of(made: &Made) -> Vec<u8> {
    let orders = [(3, order(100, 20)), (6, order(50, 50))].into();
    image(made, &orders).expect("they fit")
}

#[test]
fn the_tables_are_full_as_they_are_called() {
    assert_eq!(is_full(&full_table()), (true, true));
    assert_eq!(is_full(&full_of_orders()), (true, false));
    assert_eq!(is_full(&full_of_chunks()), (false, true));
}

// ---- questions -------------------------------------------------------------

/// 4 before 5 before 6, whatever comes after: on a full table, of a key that is
/// held and of one that is not. versions.rs has 14 between 4 and 5.
#[test]
fn both_ask_4_5_6_first() {
    for call in [enter, amend] {
        for (key, total, displayed) in [(3, 1, 1), (4, 1, 1), (0, 1, 1), (3, 0, 1), (0, 0, 1)] {
            let ask = |table: &mut [u8]| call(table, key, order(total, displayed));
            assert_eq!(refused(&damaged_table(), ask), 4);
            assert_eq!(refused(&full_table()[..180], ask), 4);
            assert_eq!(refused(&[], ask), 4);
        }
        for table in [full_table(), full_of_chunks(), made_table(&document())] {
            for key in [0, P, u32::MAX] {
                assert_eq!(refused(&table, |t| call(t, key, order(1, 1))), 5);
                assert_eq!(refused(&table, |t| call(t, key, order(0, 1))), 5);
            }
            for (total, displayed) in BAD {
                for key in [3, 4, 6, P - 1] {
                    assert_eq!(
                        refused(&table, |t| call(t, key, order(total, displayed))),
                        6
                    );
                }
            }
        }
    }
}

/// "13, enter only, after 6", and before 7 and 8: a held key answers 13 however
/// full the table is, with the quantities that are there as well.
#[test]
fn enter_asks_13_before_7_and_8() {
    let half = {
        let mut table = full_table();
        assert_eq!(cancel(&mut table, 6), Reply::done());
        table
    };
    for table in [full_table(), full_of_orders(), full_of_chunks(), half] {
        for (total, displayed) in [(100, 20), (1, 0), (u32::MAX, u32::MAX)] {
            assert_eq!(
                refused(&table, |t| enter(t, 3, order(total, displayed))),
                13
            );
        }
    }
}

/// 7 before 8: key 4 is one order too many and makes too many chunks.
#[test]
fn enter_asks_7_before_8() {
    assert_eq!(refused(&full_table(), |t| enter(t, 4, order(10, 0))), 7);
    assert_eq!(refused(&full_of_orders(), |t| enter(t, 4, order(10, 0))), 7);
    assert_eq!(refused(&full_of_chunks(), |t| enter(t, 4, order(10, 0))), 8);
    let mut one = made_table(&document());
    assert_eq!(enter(&mut one, 3, order(100, 20)), Reply::done());
    assert_eq!(refused(&one, |t| enter(t, 4, order(10, 0))), 8);
}

/// Amend has 9 and nothing behind it.
#[test]
fn amend_asks_9_last() {
    let tables = [
        full_table(),
        full_of_orders(),
        full_of_chunks(),
        made_table(&document()),
    ];
    for table in tables {
        for key in [1, 2, 4, 5, 7, P - 1] {
            assert_eq!(refused(&table, |t| amend(t, key, order(10, 0))), 9);
        }
    }
}

/// A cancelled key is free again, and no longer there to be amended.
#[test]
fn a_cancelled_key_is_free() {
    let mut table = full_table();
    assert_eq!(cancel(&mut table, 3), Reply::done());
    assert_eq!(refused(&table, |t| amend(t, 3, order(100, 20))), 9);
    assert_eq!(enter(&mut table, 3, order(100, 20)), Reply::done());
    assert_eq!(table, full_table());
}

// ---- what they leave -------------------------------------------------------

/// No table is too full for an amend. Only the bytes behind the key change, and back
/// again.
#[test]
fn amend_on_a_full_table() {
    for full in [full_table(), full_of_orders(), full_of_chunks()] {
        for (key, was) in [(3, order(100, 20)), (6, order(50, 50))] {
            let mut table = full.clone();
            for (total, displayed) in [(1, 0), (u32::MAX, u32::MAX), (7, 7), (7, 6), (8, 6)] {
                assert_eq!(
                    amend(&mut table, key, order(total, displayed)),
                    Reply::done()
                );
                let found = Reply::order(key, &order(total, displayed));
                assert_eq!(lookup(&table, key), found);
                only_its_node_differs(&full, &table, key);
            }
            assert_eq!(amend(&mut table, key, was), Reply::done());
            assert_eq!(table, full);
        }
    }
}

/// Whether the tables are equal but for the bytes behind this key, in the one node of
/// level 1 that has it.
fn only_its_node_differs(one: &[u8], two: &[u8], key: u32) {
    let (made, _) = held(one).expect("an image");
    let width = row(made.sizes.version);
    let blocks = one[53..]
        .chunks_exact(made.sizes.block_length())
        .enumerate();
    let mut nodes = Vec::new();
    for (number, block) in blocks.filter(|(_, block)| block[0] == 1) {
        let start = 53 + number * made.sizes.block_length() + 8;
        let places = (0..usize::from(block[1])).map(|node| start + width * node);
        nodes.extend(places.filter(|&place| number_at(one, place) == key));
    }
    assert_eq!(nodes.len(), 1, "nodes of level 1 with {key}");
    let node = nodes[0];
    assert_eq!(one.len(), two.len());
    assert_eq!(one[..node + 4], two[..node + 4]);
    assert_eq!(one[node + width..], two[node + width..]);
}

/// In many tables: an amend changes the numbers behind its key and nothing else, an
/// order entered and amended leaves the bytes of one entered so at once, and the same
/// order again leaves every byte.
#[test]
fn amend_in_many_tables() {
    let mut generator = Xorshift::new(51);
    let (mut with_n_orders, mut with_m_chunks, mut amended) = (0, 0, 0);
    for _ in 0..800 {
        let made = some_made(&mut generator);
        let orders = some_orders(&mut generator, &made, 60);
        let table = image(&made, &orders).expect("they fit");
        let (n_orders, m_chunks) = is_full(&table);
        for (&key, &was) in &orders {
            let new = some_order(&mut generator, made.sizes.version);
            let mut after = table.clone();
            assert_eq!(amend(&mut after, key, was), Reply::done());
            assert_eq!(after, table, "the order that is there");
            assert_eq!(amend(&mut after, key, new), Reply::done());
            assert_eq!(lookup(&after, key), Reply::order(key, &new));
            only_its_node_differs(&table, &after, key);
            let mut entered = table.clone();
            assert_eq!(cancel(&mut entered, key), Reply::done());
            assert_eq!(enter(&mut entered, key, new), Reply::done());
            assert_eq!(entered, after);
            amended += 1;
            with_n_orders += u32::from(n_orders);
            with_m_chunks += u32::from(m_chunks);
        }
    }
    assert!(amended > 3000, "{amended}");
    assert!(with_n_orders > 300, "{with_n_orders}");
    assert!(with_m_chunks > 300, "{with_m_chunks}");
}

/// Every pair of call and number, on tables of all kinds, and no other number.
#[test]
fn every_number_of_both() {
    let mut generator = Xorshift::new(52);
    let mut met = [[0; 15]; 2];
    for _ in 0..3000 {
        let made = some_made(&mut generator);
        let orders = some_orders(&mut generator, &made, 60);
        let mut table = image(&made, &orders).expect("they fit");
        let key = match generator.below(10) {
            0 => generator.pick(&[0, P, u32::MAX]),
            _ => some_key(&mut generator, &made),
        };
        let mut new = some_order(&mut generator, made.sizes.version);
        if generator.one_in(8) {
            (new.total, new.displayed) = generator.pick(&BAD);
        }
        if generator.one_in(8) {
            new.price = some_price(&mut generator);
        }
        if generator.one_in(10) {
            table[generator.below(53) as usize] ^= 0x55;
        }
        for (call, met) in [enter, amend].into_iter().zip(&mut met) {
            let number = call(&mut table.clone(), key, new).number;
            met[number as usize] += 1;
        }
    }
    let numbers: [&[usize]; 2] = [&[0, 4, 5, 6, 7, 8, 13, 14], &[0, 4, 5, 6, 9, 14]];
    for (numbers, met) in numbers.into_iter().zip(met) {
        for (number, times) in met.into_iter().enumerate() {
            let right = match numbers.contains(&number) {
                true => times > 20,
                false => times == 0,
            };
            assert!(right, "{number}: {times}");
        }
    }
}

// ---- the text program's put ------------------------------------------------

/// Keys with levels 1, 2, 3, 3, 1 in the document's table, both ends, and none.
const KEYS: [u32; 9] = [3, 6, 4, 8, 5, P - 1, 0, P, u32::MAX];

/// Every set of at most three orders with some of these keys and quantities.
fn small_sets() -> Vec<Orders> {
    let mut sets = vec![Orders::new()];
    for key in KEYS.into_iter().filter(|key| (1..P).contains(key)) {
        for set in sets.clone().into_iter().filter(|set| set.len() < 3) {
            for quantities in [order(2, 1), order(7, 0)] {
                let mut more = set.clone();
                more.insert(key, quantities);
                sets.push(more);
            }
        }
    }
    sets
}

/// `put` on every small set that fits gives the number of document 01's put and
/// leaves the image of its set; so it never gives 9 or 13.
#[test]
fn put_is_document_01_s() {
    let mut met = [0; 14];
    for (orders, blocks) in [(1, 4), (2, 4), (2, 9), (3, 5), (3, 6), (3, 12)] {
        let made = Made {
            sizes: sizes(2, 2, orders, blocks),
            ..document()
        };
        let fits = |set: &Orders| set.len() <= orders as usize;
        for set in small_sets().into_iter().filter(fits) {
            if let Some(table) = image(&made, &set) {
                every_put(&made, &set, &table, &mut met);
            }
        }
    }
    for number in [0, 5, 6, 7, 8] {
        assert!(met[number] > 100, "{number}: {met:?}");
    }
    assert_eq!(met[9] + met[13], 0);
}

fn every_put(made: &Made, set: &Orders, table: &[u8], met: &mut [u32; 14]) {
    for key in KEYS {
        for (total, displayed) in [(2, 1), (7, 0), (u32::MAX, u32::MAX), (0, 0), (1, 2)] {
            let mut after = table.to_vec();
            let reply = put(&mut after, key, total, displayed);
            let mut wanted = set.clone();
            let new = order(total, displayed);
            let number = put_of_document_01(made, &mut wanted, key, new);
            assert_eq!(
                reply,
                Reply::refused(number),
                "{made:?} {set:?} {key} {new:?}"
            );
            assert_eq!(after, image(made, &wanted).expect("it fits"));
            met[number as usize] += 1;
        }
    }
}

/// 4, which document 01 asks before all of these.
#[test]
fn put_on_no_table() {
    for key in KEYS {
        for (total, displayed) in [(2, 1), (0, 0), (1, 2)] {
            let ask = |table: &mut [u8]| put(table, key, total, displayed);
            assert_eq!(refused(&damaged_table(), ask), 4);
            assert_eq!(refused(&[], ask), 4);
        }
    }
}
