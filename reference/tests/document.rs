//! The full run and the checked examples of document 01.

mod common;

use common::{document, found, full_table, made_table, order, sizes};
use reference::calls::{self, Reply};
use reference::image::{blocks, image, is_image};
use reference::lists::{home, Label, Orders};
use reference::program::program;
use reference::sizes::{Made, Seed, Sizes, P};

const RUN: &str = "make 2 2 2 4 0 1 0 0 0 0 1 0 0 0
put 6 50 50
put 3 100 20
put 4 10 0
blocks
";

const RUN_OUTPUT: &str = "0
0
0
7
0
0 1 0 0 2 0 3
1 2 0 0 2 0 6
2 1 0 6 1 6
3 3 0 0 1 0
";

/// Level, chunk number, first key and keys of each block.
type Shown = Option<(u32, u32, u32, Vec<u32>)>;

fn shown(table: &[u8]) -> Vec<Shown> {
    let blocks = blocks(table).expect("rule 1 holds");
    let show = |block: &reference::image::Block| {
        let keys: Vec<u32> = block.nodes().map(|node| node.key).collect();
        assert_eq!(keys.len() as u32, block.count);
        (
            block.label.level,
            block.label.chunk_number,
            block.label.first_key,
            keys,
        )
    };
    blocks
        .iter()
        .map(|block| block.as_ref().map(show))
        .collect()
}

fn p4() -> Vec<Shown> {
    vec![
        Some((1, 0, 0, vec![0, 3])),
        Some((2, 0, 0, vec![0, 6])),
        Some((1, 0, 6, vec![6])),
        Some((3, 0, 0, vec![0])),
    ]
}

#[test]
fn full_run() {
    assert_eq!(program(RUN.as_bytes()), RUN_OUTPUT.as_bytes());
}

#[test]
fn full_run_without_the_last_line_end() {
    let input = RUN.strip_suffix('\n').unwrap();
    assert_eq!(program(input.as_bytes()), RUN_OUTPUT.as_bytes());
}

/// The table of the run, byte for byte, written by hand from the pages.
#[test]
fn bytes_of_the_full_run() {
    let header = "01 000000b5 02 02 0002 0004 0002 \
        00000000 00000001 00000000 00000000 00000000 \
        00000000 00000001 00000000 00000000 00000000";
    let block_0 = "01 02 0000 00000000 00000000 00000000 00000000 00000003 00000064 00000014";
    let block_1 = "02 02 0000 00000000 00000000 00000000 00000000 00000006 00000000 00000000";
    let block_2 = "01 01 0000 00000006 00000006 00000032 00000032 00000000 00000000 00000000";
    let block_3 = "03 01 0000 00000000 00000000 00000000 00000000 00000000 00000000 00000000";
    let text: String = [header, block_0, block_1, block_2, block_3].concat();
    let digits: Vec<u8> = text.bytes().filter(|byte| *byte != b' ').collect();
    let byte = |pair: &[u8]| u8::from_str_radix(std::str::from_utf8(pair).unwrap(), 16).unwrap();
    let expected: Vec<u8> = digits.chunks(2).map(byte).collect();

    let mut table = made_table(&document());
    calls::enter(&mut table, 6, order(50, 50));
    calls::enter(&mut table, 3, order(100, 20));
    assert_eq!(table, expected);
    assert!(is_image(&expected));
}

#[test]
fn p1_levels() {
    let levels = [3, 6, 4, 8].map(|key| document().level(key));
    assert_eq!(levels, [1, 2, 3, 3]);
}

#[test]
fn p2_beta() {
    let beta = |gamma, orders| sizes(gamma, 2, orders, 100).beta();
    assert_eq!(beta(2, 1), 2);
    assert_eq!(beta(2, 65_535), 18);
    assert_eq!(beta(64, 65_535), 5);
}

#[test]
fn p3_no_orders() {
    let table = made_table(&document());
    let level = |level| Some((level, 0, 0, vec![0]));
    assert_eq!(shown(&table), [level(1), level(2), level(3), None]);
}

#[test]
fn p4_either_order() {
    let orders = [(3, 100, 20), (6, 50, 50)];
    let mut one = made_table(&document());
    let mut two = one.clone();
    for (key, total, displayed) in orders {
        assert_eq!(
            calls::enter(&mut one, key, order(total, displayed)),
            Reply::done()
        );
    }
    for (key, total, displayed) in orders.into_iter().rev() {
        assert_eq!(
            calls::enter(&mut two, key, order(total, displayed)),
            Reply::done()
        );
    }
    assert_eq!(one, two);
    assert_eq!(shown(&one), p4());
}

#[test]
fn p5_cancel_clears_the_node() {
    let mut table = full_table();
    assert_eq!(calls::cancel(&mut table, 3), Reply::done());
    let mut p5 = p4();
    p5[0] = Some((1, 0, 0, vec![0]));
    assert_eq!(shown(&table), p5);
    let second_node = &table[53 + 8 + 12..53 + 8 + 24];
    assert_eq!(second_node, [0; 12]);
}

#[test]
fn p6_five_chunks() {
    let mut table = made_table(&document());
    assert_eq!(calls::enter(&mut table, 3, order(1, 0)).number, 0);
    let before = table.clone();
    assert_eq!(calls::enter(&mut table, 4, order(1, 0)), Reply::refused(8));
    assert_eq!(table, before);
}

#[test]
fn p7_keys_at_the_edges() {
    let empty = made_table(&document());
    for key in [0, 2_147_483_647] {
        let mut table = empty.clone();
        assert_eq!(
            calls::enter(&mut table, key, order(1, 0)),
            Reply::refused(5)
        );
        assert_eq!(
            calls::amend(&mut table, key, order(1, 0)),
            Reply::refused(5)
        );
        assert_eq!(calls::cancel(&mut table, key), Reply::refused(5));
        assert_eq!(calls::lookup(&table, key), Reply::refused(5));
        assert_eq!(table, empty);
    }
    let mut table = empty;
    assert_eq!(
        calls::enter(&mut table, 2_147_483_646, order(1, 0)),
        Reply::done()
    );
    assert_eq!(document().level(2_147_483_646), 2);
    let label = Label {
        level: 1,
        first_key: 2_147_483_646,
        chunk_number: 0,
    };
    assert_eq!(home(&document(), &label), 3);
    assert_eq!(
        shown(&table)[3],
        Some((1, 0, 2_147_483_646, vec![2_147_483_646]))
    );
}

#[test]
fn p8_quantities() {
    let mut table = made_table(&document());
    assert_eq!(
        calls::enter(&mut table, 3, order(100, 101)),
        Reply::refused(6)
    );
    assert_eq!(calls::enter(&mut table, 3, order(100, 100)), Reply::done());
    assert_eq!(calls::lookup(&table, 3), found(3, 100, 100));
}

#[test]
fn p9_seed_numbers_and_blocks() {
    let Made { sizes, seed } = document();
    for place in 0..10 {
        let with = |number: u32| {
            let mut bytes = seed.bytes();
            bytes[4 * place..4 * place + 4].copy_from_slice(&number.to_be_bytes());
            bytes
        };
        let mut table = vec![0; sizes.length()];
        assert_eq!(calls::make(&sizes, &with(P), &mut table).number, 1);
        assert_eq!(table, vec![0; sizes.length()]);
        assert_eq!(calls::make(&sizes, &with(P - 1), &mut table).number, 0);
    }
    for (blocks, number) in [(2, 2), (3, 0)] {
        let sizes = Sizes { blocks, ..sizes };
        let mut table = vec![0; sizes.length()];
        let reply = calls::make(&sizes, &seed.bytes(), &mut table);
        assert_eq!(reply.number, number);
    }
}

#[test]
fn run_only() {
    let mut table = made_table(&document());
    assert_eq!(calls::span(&table, 1, P - 1, &mut []), Reply::count(0));
    calls::enter(&mut table, 3, order(100, 20));
    let mut eleven = [7; 11];
    assert_eq!(
        calls::span(&table, 1, P - 1, &mut eleven),
        Reply::refused(11)
    );
    assert_eq!(eleven, [7; 11]);
    let mut twelve = [7; 12];
    assert_eq!(calls::span(&table, 1, P - 1, &mut twelve), Reply::count(1));
    assert_eq!(twelve, [0, 0, 0, 3, 0, 0, 0, 100, 0, 0, 0, 20]);
}

// ---- "What students do wrong here" that no example above shows ---------------

/// "They empty a block and do not pull later chunks back toward home."
#[test]
fn later_chunks_are_pulled_back() {
    let mut table = made_table(&document());
    let empty = table.clone();
    calls::enter(&mut table, 6, order(50, 50));
    // Key 6's level 1 chunk stands between those of levels 1 and 3.
    assert_eq!(shown(&table)[2], Some((1, 0, 6, vec![6])));
    calls::cancel(&mut table, 6);
    assert_eq!(table, empty);
}

/// "They split a partition and keep the old chunk numbers." The chunks of the
/// new partition count from 0 again.
#[test]
fn a_split_partition_counts_again() {
    let made = Made {
        sizes: sizes(2, 2, 8, 12),
        seed: document().seed,
    };
    let mut orders: Orders = [1, 3, 5, 9, 11].map(|key| (key, order(1, 0))).into();
    let labels = |orders: &Orders| {
        let mut found: Vec<Shown> = shown(&image(&made, orders).unwrap());
        found.retain(|block| matches!(block, Some((1, ..))));
        found.sort();
        found.into_iter().flatten().collect::<Vec<_>>()
    };
    let whole = [
        (1, 0, 0, vec![0, 1]),
        (1, 1, 0, vec![3, 5]),
        (1, 2, 0, vec![9, 11]),
    ];
    assert_eq!(labels(&orders), whole);
    orders.insert(6, order(1, 0));
    let split = [
        (1, 0, 0, vec![0, 1]),
        (1, 0, 6, vec![6, 9]),
        (1, 1, 0, vec![3, 5]),
        (1, 1, 6, vec![11]),
    ];
    assert_eq!(labels(&orders), split);
}

/// "They take mod M before mod p": also for a seed whose g reaches p − 1.
#[test]
fn home_takes_p_before_blocks() {
    let seed = Seed {
        a: [0; 5],
        b: [P - 1, 0, 0, 0, 0],
    };
    let made = Made {
        sizes: sizes(2, 2, 2, 10),
        seed,
    };
    let label = Label {
        level: 3,
        first_key: 0,
        chunk_number: 2,
    };
    // p − 1 + 196,608 + 2 is 196,609 over a multiple of p.
    assert_eq!(home(&made, &label), 9);
}
