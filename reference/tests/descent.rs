//! The descent of document 02's request A.1: its path, its questions, and what it
//! says where the bytes are no image.

mod common;

use common::{
    document, full_table, made_table, order, sizes, some_key, some_made, some_orders, walked_path,
};
use reference::calls::{check, descent, lookup, stays_within, Reply};
use reference::image::{blocks, image};
use reference::lists::{chunks, lists, Label, Orders};
use reference::paths::{path, way};
use reference::samples::{identity_seed, zero_seed, Xorshift};
use reference::sizes::{Made, Seed, HEADER, P};

/// What stands in an output before.
const UNTOUCHED: u8 = 0xee;

/// The answer, and what was written: the counted blocks. The rest of the output
/// is as it was.
fn ask(table: &[u8], key: u32, room: usize) -> (Reply, Vec<u16>) {
    let before = vec![UNTOUCHED; room];
    let mut output = before.clone();
    let reply = descent(table, key, &mut output).expect("an image");
    assert!(stays_within(&reply, &before, &output));
    let numbers = output.chunks_exact(2).take(reply.count as usize);
    let path = numbers.map(|two| u16::from_be_bytes([two[0], two[1]]));
    (reply, path.collect())
}

/// Sees that the key's path is this one, for every output from none on, and that
/// the quantities are those of lookup.
fn expect_path(table: &[u8], key: u32, path: &[u16]) {
    let needed = 2 * path.len();
    for room in 0..needed {
        assert_eq!(ask(table, key, room), (Reply::refused(11), vec![]), "{key}");
    }
    let count = path.len() as u32;
    let found = Reply {
        count,
        ..lookup(table, key)
    };
    for room in [needed, needed + 1, needed + 2, needed + 30] {
        assert_eq!(ask(table, key, room), (found, path.to_vec()), "{key}");
    }
}

fn table_of(made: &Made, keys: &[u32]) -> Vec<u8> {
    let orders = keys.iter().map(|&key| (key, order(key, 1))).collect();
    image(made, &orders).expect("they fit")
}

/// Keys 3 and 6 stand in the document's blocks: 0 and 2 of level 1, 1 of level 2, 3
/// of level 3.
#[test]
fn the_document_s_run() {
    let table = full_table();
    let three = Reply {
        number: 0,
        key: 3,
        total: 100,
        displayed: 20,
        price: 0,
        count: 3,
    };
    assert_eq!(ask(&table, 3, 6), (three, vec![3, 1, 0]));
    let six = Reply {
        number: 0,
        key: 6,
        total: 50,
        displayed: 50,
        price: 0,
        count: 3,
    };
    assert_eq!(ask(&table, 6, 6), (six, vec![3, 1, 2]));
    for key in [1, 2, 3, 4, 5] {
        expect_path(&table, key, &[3, 1, 0]);
    }
    for key in [6, 7, 1000, P - 1] {
        expect_path(&table, key, &[3, 1, 2]);
    }
}

/// Two bytes for each block, the greater one first.
#[test]
fn numbers_are_big_endian() {
    let made = Made {
        sizes: sizes(2, 2, 2, 700),
        seed: Seed {
            b: [1000, 0, 0, 0, 0],
            ..identity_seed()
        },
    };
    // 65,536 mod 700 is 436, so level 1 stands at 1436 mod 700, 2 at 472, 3 at 208.
    let mut output = [UNTOUCHED; 7];
    let reply = descent(&table_of(&made, &[]), 9, &mut output);
    let nine = Reply {
        count: 3,
        ..Reply::refused(9)
    };
    assert_eq!(reply, Some(nine));
    assert_eq!(output, [0, 208, 1, 216, 0, 36, UNTOUCHED]);
}

/// "The front at level β": one block for each level.
#[test]
fn no_orders() {
    let table = made_table(&document());
    for key in [1, 3, 6, P - 1] {
        expect_path(&table, key, &[2, 1, 0]);
    }
    for (gamma, orders, beta) in [(2, 1, 2), (2, 65_535, 18), (64, 65_535, 5)] {
        let made = Made {
            sizes: sizes(gamma, 2, orders, beta + 3),
            seed: zero_seed(),
        };
        let (reply, path) = ask(&made_table(&made), 5, 100);
        assert_eq!((reply.number, reply.count), (9, beta));
        assert_eq!(path.len(), beta as usize);
    }
}

/// Every key has level 1. A home is the chunk number alone, since 8 divides
/// 65,536: level 1 has chunks 0, 10 and 20, 30 and 40, 50 in blocks 0 to 2, and
/// the levels above stand in 3 to 6.
fn flat() -> Vec<u8> {
    let made = Made {
        sizes: sizes(2, 2, 6, 8),
        seed: Seed {
            a: [1, 0, 0, 0, 0],
            ..zero_seed()
        },
    };
    table_of(&made, &[10, 20, 30, 40, 50])
}

#[test]
fn several_chunks_on_a_level() {
    let table = flat();
    for key in [1, 9, 10] {
        expect_path(&table, key, &[6, 5, 4, 3, 0]);
    }
    for key in [20, 21, 30] {
        expect_path(&table, key, &[6, 5, 4, 3, 0, 1]);
    }
    for key in [40, 41, 50, 51, P - 1] {
        expect_path(&table, key, &[6, 5, 4, 3, 0, 1, 2]);
    }
}

/// 10 and 30 are the last nodes of full chunks. A key behind one of them and
/// before the next chunk's first ends there: the next chunk is not on the path.
#[test]
fn the_chunk_looked_ahead_at_is_not_on_the_path() {
    let table = flat();
    for key in [11, 15, 19] {
        expect_path(&table, key, &[6, 5, 4, 3, 0]);
    }
    for key in [31, 35, 39] {
        expect_path(&table, key, &[6, 5, 4, 3, 0, 1]);
    }
}

/// The path to the last key can have every block of a table.
#[test]
fn all_blocks() {
    let made = Made {
        sizes: sizes(2, 2, 6, 7),
        seed: Seed {
            a: [1, 0, 0, 0, 0],
            ..identity_seed()
        },
    };
    let table = table_of(&made, &[10, 20, 30, 40, 50]);
    let (reply, mut path) = ask(&table, 50, 14);
    assert_eq!((reply.number, reply.count), (0, 7));
    path.sort_unstable();
    assert_eq!(path, [0, 1, 2, 3, 4, 5, 6]);
}

/// 1, 2, 4 and 8 have the levels 1 to 4. All chunks have one home, so they stand
/// by rising label: level 1 in blocks 0 to 3, 2 in 4 to 6, 3 in 7 and 8, 4 in 9.
#[test]
fn a_key_of_each_level() {
    let made = Made {
        sizes: sizes(2, 2, 4, 16),
        seed: Seed {
            a: identity_seed().a,
            ..zero_seed()
        },
    };
    let table = table_of(&made, &[1, 2, 4, 8]);
    assert_eq!([1, 2, 4, 8].map(|key| made.level(key)), [1, 2, 3, 4]);
    expect_path(&table, 1, &[9, 7, 4, 0]);
    for key in [2, 3] {
        expect_path(&table, key, &[9, 7, 4, 1]);
    }
    for key in [4, 5, 7] {
        expect_path(&table, key, &[9, 7, 5, 2]);
    }
    for key in [8, 9, P - 1] {
        expect_path(&table, key, &[9, 8, 6, 3]);
    }
}

/// The greatest key and the lowest, held and not.
#[test]
fn keys_at_the_ends() {
    let made = Made {
        sizes: sizes(2, 2, 4, 16),
        seed: Seed {
            a: identity_seed().a,
            ..zero_seed()
        },
    };
    // P - 1 has level 2: blocks 0 and 1 of level 1, 2 of level 2, 3, 4 above.
    let table = table_of(&made, &[P - 1]);
    expect_path(&table, P - 1, &[4, 3, 2, 1]);
    expect_path(&table, P - 2, &[4, 3, 2, 0]);
    expect_path(&table, 1, &[4, 3, 2, 0]);
    let table = table_of(&made, &[1]);
    expect_path(&table, 1, &[3, 2, 1, 0]);
    // Level 1 has chunks 0, 5 and 7; key 1 is before the lowest order.
    let table = table_of(&made, &[5, 7]);
    expect_path(&table, 1, &[4, 3, 2, 0]);
    expect_path(&table, 6, &[4, 3, 2, 0]);
    expect_path(&table, 7, &[4, 3, 2, 0, 1]);
}

// ---- questions -------------------------------------------------------------

/// The number, with nothing written and all other parts 0.
fn refused(table: &[u8], key: u32, room: usize) -> u32 {
    let mut output = vec![UNTOUCHED; room];
    let reply = descent(table, key, &mut output).expect("the header or the key decides");
    assert_eq!(reply, Reply::refused(reply.number));
    assert_eq!(output, vec![UNTOUCHED; room]);
    reply.number
}

#[test]
fn it_asks_in_order() {
    let table = full_table();
    for length in [0, 1, 52, 53, table.len() - 1] {
        assert_eq!(refused(&table[..length], 0, 0), 4);
        assert_eq!(refused(&table[..length], 3, 6), 4);
    }
    let longer = [&table[..], &[0]].concat();
    assert_eq!(refused(&longer, 3, 6), 4);
    for key in [0, P, u32::MAX] {
        assert_eq!(refused(&table, key, 0), 5);
        assert_eq!(refused(&table, key, 6), 5);
    }
    // 4 is not held: 11 all the same.
    for room in 0..6 {
        assert_eq!(refused(&table, 3, room), 11);
        assert_eq!(refused(&table, 4, room), 11);
    }
}

/// "The one refusal that writes".
#[test]
fn nine_writes_its_path() {
    let mut output = [UNTOUCHED; 9];
    let nine = Reply {
        number: 9,
        key: 0,
        total: 0,
        displayed: 0,
        price: 0,
        count: 3,
    };
    assert_eq!(descent(&full_table(), 4, &mut output), Some(nine));
    let untouched = UNTOUCHED;
    assert_eq!(output, [0, 3, 0, 1, 0, 0, untouched, untouched, untouched]);
}

/// 4 is asked of the header alone, so damage behind it leaves 5, and for a key no
/// answer is decided.
#[test]
fn damage_behind_the_header_is_not_judged() {
    let table = full_table();
    for place in HEADER..table.len() {
        let mut damaged = table.clone();
        damaged[place] ^= 0x40;
        if check(&damaged).number == 0 {
            // Only an order's quantities can change and leave an image.
            assert_eq!(ask(&damaged, 3, 6).0.number, 0);
            continue;
        }
        for key in [0, P] {
            assert_eq!(refused(&damaged, key, 0), 5, "{place}");
        }
        let mut output = [UNTOUCHED; 8];
        assert_eq!(descent(&damaged, 3, &mut output), None, "{place}");
        assert_eq!(output, [UNTOUCHED; 8]);
    }
}

/// Each part of rule 1. A seed number or n that is allowed passes it, though the
/// bytes are no image any more.
#[test]
fn damage_of_the_header() {
    let table = full_table();
    let with = |place: usize, byte: u8| {
        let mut damaged = table.clone();
        damaged[place] = byte;
        damaged
    };
    let wrong = [
        (0, 2),
        (4, 0),
        (5, 1),
        (5, 65),
        (6, 33),
        (8, 0),
        (10, 2),
        (12, 3),
        (13, 0x80),
    ];
    for (place, byte) in wrong {
        assert_eq!(refused(&with(place, byte), 0, 0), 4, "{place}");
        assert_eq!(refused(&with(place, byte), 3, 8), 4, "{place}");
    }
    for (place, byte) in [(12, 0), (12, 1), (20, 0), (36, 1)] {
        let damaged = with(place, byte);
        assert_eq!(check(&damaged), Reply::refused(4), "{place}");
        assert_eq!(descent(&damaged, 3, &mut [0; 8]), None, "{place}");
    }
}

#[test]
fn staying_within() {
    let counted = |count| Reply {
        count,
        ..Reply::refused(7)
    };
    let before = [1, 2, 3, 4, 5];
    assert!(stays_within(&counted(0), &before, &before));
    assert!(stays_within(&counted(2), &before, &[9, 9, 9, 9, 5]));
    assert!(stays_within(&counted(2), &before, &before));
    assert!(stays_within(&counted(0), &[], &[]));
    assert!(!stays_within(&counted(1), &before, &[9, 9, 9, 4, 5]));
    assert!(!stays_within(&counted(2), &before, &[9, 9, 9, 9, 9]));
    assert!(!stays_within(&counted(3), &before, &before));
    assert!(!stays_within(&counted(1), &[], &[]));
    assert!(!stays_within(&counted(u32::MAX), &before, &before));
    assert!(!stays_within(&counted(0), &before, &before[..4]));
}

// ---- many tables -----------------------------------------------------------

/// "So no level shows two partitions": the levels go down by one at a time, each
/// has one first key, and its chunks are 0, 1, .. without a gap.
fn goes_down(labels: &[Label], beta: u32) {
    let first = labels.first().expect("a level has a chunk");
    assert_eq!(
        (first.level, first.first_key, first.chunk_number),
        (beta, 0, 0)
    );
    assert_eq!(labels.last().map(|label| label.level), Some(1));
    for pair in labels.windows(2) {
        let (one, two) = (&pair[0], &pair[1]);
        if one.level == two.level {
            assert_eq!(one.first_key, two.first_key);
            assert_eq!(one.chunk_number + 1, two.chunk_number);
        } else {
            assert_eq!(one.level, two.level + 1);
            assert_eq!(two.chunk_number, 0);
            assert!(one.first_key <= two.first_key);
        }
    }
}

/// A path, its labels in the blocks, the walk over these, and the answers. Says
/// whether some level shows more than one chunk.
fn one_path(made: &Made, orders: &Orders, table: &[u8], key: u32) -> bool {
    let path = path(table, made, orders, key);
    assert!(path.len() <= made.sizes.blocks as usize);
    assert_eq!(path, walked_path(table, key), "{made:?} {orders:?} {key}");
    let blocks = blocks(table).expect("an image");
    let label = |&block: &u16| blocks[usize::from(block)].expect("a chunk").label;
    let labels: Vec<Label> = path.iter().map(label).collect();
    let lists = lists(made, orders);
    assert_eq!(labels, way(&lists, &chunks(made, &lists), key));
    goes_down(&labels, made.sizes.beta());
    assert!(labels.iter().all(|label| label.first_key <= key));
    expect_path(table, key, &path);
    labels.len() > made.sizes.beta() as usize
}

#[test]
fn paths_of_many_tables() {
    let mut generator = Xorshift::new(41);
    let (mut held, mut free, mut long) = (0, 0, 0);
    for _ in 0..1500 {
        let made = some_made(&mut generator);
        let orders = some_orders(&mut generator, &made, 60);
        let table = image(&made, &orders).expect("they fit");
        let mut keys = vec![1, P - 1, some_key(&mut generator, &made)];
        if let Some((&key, _)) = orders.iter().nth(generator.below(60) as usize) {
            keys.extend([key, key - 1, key + 1]);
        }
        keys.retain(|key| (1..P).contains(key));
        for key in keys {
            long += u32::from(one_path(&made, &orders, &table, key));
            *if orders.contains_key(&key) {
                &mut held
            } else {
                &mut free
            } += 1;
        }
    }
    assert!(
        held > 500 && free > 500 && long > 500,
        "{held} {free} {long}"
    );
}

/// All orders in one partition: the longest paths, and many of them.
#[test]
fn a_long_path() {
    let made = Made {
        sizes: sizes(64, 2, 2000, 1200),
        seed: Seed {
            a: [1, 0, 0, 0, 0],
            ..identity_seed()
        },
    };
    let keys: Vec<u32> = (1..=2000).map(|i| 1000 * i).collect();
    let table = table_of(&made, &keys);
    let (reply, path) = ask(&table, 2_000_000, 2400);
    // 2001 nodes of level 1 are 1001 chunks, and three levels stand above.
    assert_eq!((made.sizes.beta(), reply.count), (4, 1004));
    assert_eq!(path, walked_path(&table, 2_000_000));
    assert_eq!(ask(&table, 2_000_000, 2007).0, Reply::refused(11));
    assert_eq!(ask(&table, 2_000_001, 2008).0.number, 9);
}
