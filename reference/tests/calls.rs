//! Make, check, cancel, lookup and span: the order of their questions, what they
//! give, what they leave.

mod common;

use common::{
    damaged_table, document, found, full_table, in_version, made_table, priced, refused, sizes,
};
use reference::calls::{cancel, check, enter, lookup, make, span, Reply};
use reference::image::is_image;
use reference::samples::identity_seed;
use reference::sizes::{Made, P};

/// Where several questions have the answer "no", the first one's number is given.
#[test]
fn make_asks_in_order() {
    let seed = identity_seed().bytes();
    let mut large = seed.clone();
    large[0] = 0xff;
    let (right, wrong) = (sizes(2, 2, 2, 4), sizes(1, 2, 2, 4));
    let wrong_length = vec![9; 180];
    let length = vec![9; 181];
    for seed in [&seed[..39], &large[..], &[]] {
        assert_eq!(refused(&wrong_length, |t| make(&wrong, seed, t)), 1);
        assert_eq!(refused(&length, |t| make(&right, seed, t)), 1);
    }
    for (gamma, nodes, orders, blocks) in [
        (1, 2, 2, 4),
        (2, 33, 2, 4),
        (2, 2, 0, 4),
        (2, 2, 2, 2),
        (2, 2, 2, 65_536),
    ] {
        let wrong = sizes(gamma, nodes, orders, blocks);
        let call = |table: &mut [u8]| make(&wrong, &seed, table);
        assert_eq!(refused(&wrong_length, call), 2);
        assert_eq!(refused(&length, call), 2);
    }
    for length in [0, 1, 53, 180, 182, 213] {
        assert_eq!(refused(&vec![9; length], |t| make(&right, &seed, t)), 3);
    }
    let mut table = length;
    assert_eq!(make(&right, &seed, &mut table), Reply::done());
    assert_eq!(table, made_table(&document()));
}

#[test]
fn make_overwrites_a_used_table() {
    let mut table = full_table();
    let Made { sizes, seed } = document();
    assert_eq!(make(&sizes, &seed.bytes(), &mut table), Reply::done());
    assert_eq!(table, made_table(&document()));
    assert!(is_image(&table));
}

#[test]
fn check_asks_only_for_an_image() {
    assert_eq!(check(&full_table()), Reply::done());
    assert_eq!(check(&damaged_table()), Reply::refused(4));
    assert_eq!(check(&[]), Reply::refused(4));
    let mut long = full_table();
    long.push(0);
    assert_eq!(check(&long), Reply::refused(4));
    assert_eq!(check(&long[..180]), Reply::refused(4));
}

#[test]
fn cancel_and_lookup_ask_in_order() {
    let full = full_table();
    for call in [cancel, |table: &mut [u8], key| lookup(table, key)] {
        assert_eq!(refused(&damaged_table(), |t| call(t, 0)), 4);
        for key in [0, P, u32::MAX] {
            assert_eq!(refused(&full, |t| call(t, key)), 5);
        }
        for key in [1, 2, 4, 5, 7, P - 1] {
            assert_eq!(refused(&full, |t| call(t, key)), 9);
        }
    }
    let mut table = full;
    assert_eq!(cancel(&mut table, 6), Reply::done());
    assert_eq!(refused(&table, |t| cancel(t, 6)), 9);
    assert_eq!(lookup(&table, 3), found(3, 100, 20));
}

#[test]
fn span_asks_in_order() {
    let full = full_table();
    let ask = |table: &[u8], lo, hi, length| {
        let mut output = vec![0xee; length];
        let number = refused(table, |_| {
            let mut output = vec![0xee; length];
            span(table, lo, hi, &mut output)
        });
        span(table, lo, hi, &mut output);
        assert_eq!(output, vec![0xee; length]);
        number
    };
    assert_eq!(ask(&damaged_table(), 0, 0, 0), 4);
    for (lo, hi) in [
        (0, 5),
        (5, 0),
        (P, 5),
        (5, P),
        (0, 0),
        (P, P),
        (u32::MAX, 1),
    ] {
        assert_eq!(ask(&full, lo, hi, 0), 5, "{lo} {hi}");
    }
    assert_eq!(ask(&full, 7, 2, 0), 10);
    assert_eq!(ask(&full, 4, 3, 100), 10);
    for length in [0, 12, 23] {
        assert_eq!(ask(&full, 1, P - 1, length), 11);
    }
    assert_eq!(ask(&full, 3, 3, 11), 11);
}

#[test]
fn span_writes_rising_orders_and_no_more() {
    let table = full_table();
    let mut output = [0xee; 30];
    // Their number stands in `count` alone.
    let two = Reply {
        number: 0,
        key: 0,
        total: 0,
        displayed: 0,
        price: 0,
        count: 2,
    };
    assert_eq!(span(&table, 3, 6, &mut output), two);
    let three = [0, 0, 0, 3, 0, 0, 0, 100, 0, 0, 0, 20];
    let six = [0, 0, 0, 6, 0, 0, 0, 50, 0, 0, 0, 50];
    assert_eq!(output, *[&three[..], &six[..], &[0xee; 6][..]].concat());
    for (lo, hi, count) in [(4, 5, 0), (1, 2, 0), (3, 3, 1), (4, 6, 1), (7, P - 1, 0)] {
        let mut output = [0xee; 24];
        assert_eq!(span(&table, lo, hi, &mut output), Reply::count(count));
        assert_eq!(output[12 * count..], vec![0xee; 24 - 12 * count]);
    }
}

/// The largest sizes of all, and the length field of such a table.
#[test]
fn the_largest_tables() {
    let made = Made {
        sizes: sizes(64, 32, 65_535, 65_535),
        seed: identity_seed(),
    };
    for (version, row, price) in [(1, 12, 0), (2, 16, u32::MAX)] {
        let mut table = made_table(&in_version(version, made));
        assert_eq!(table.len(), 53 + 65_535 * (8 + row * 32));
        assert_eq!(table[1..5], (table.len() as u32).to_be_bytes());
        let order = priced(u32::MAX, 1, price);
        assert_eq!(enter(&mut table, P - 1, order), Reply::done());
        assert_eq!(lookup(&table, P - 1), Reply::order(P - 1, &order));
    }
}
