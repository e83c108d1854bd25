//! The order of the labels (document 02, request A.7): in version 2 "by higher level
//! first, then first key, then chunk number"; "Version 1 compares as it did." Worked
//! examples of both versions, and tables that stand by the order of the other one.

mod common;

use common::{
    document, in_version, made_table, priced, sizes, some_made, some_orders, walked_path,
};
use reference::arrangements::{
    arranged_by, by_other_order, exchangeable, exchanged, gives_way, is_lost, tells_apart, Other,
};
use reference::calls::{
    amend, cancel, check, descent, enter, lookup, seek, span, stays_within, Reply,
};
use reference::image::{blocks, image, is_image, is_image_by_rebuilding};
use reference::lists::{Label, Order};
use reference::samples::{fnv_1a, identity_seed, sample, zero_seed, Shape, Xorshift};
use reference::sizes::{Made, Seed, HEADER, P};

/// Level, first key and chunk number of what stands in a block; level 0 where nothing
/// does.
type Stands = (u32, u32, u32);
const EMPTY: Stands = (0, 0, 0);

fn stands(table: &[u8]) -> Vec<Stands> {
    let label = |label: Label| (label.level, label.first_key, label.chunk_number);
    let blocks = blocks(table).expect("rule 1 holds");
    let shown = blocks
        .iter()
        .map(|block| block.map_or(EMPTY, |block| label(block.label)));
    shown.collect()
}

/// What both ways to judge a table say; they must agree.
fn judged(table: &[u8]) -> bool {
    let says = is_image(table);
    assert_eq!(says, is_image_by_rebuilding(table), "{table:02x?}");
    says
}

/// An order that a table of this version may have.
fn some(version: u32) -> Order {
    priced(9, 5, version - 1)
}

/// A table into which these keys were entered one by one.
fn entered(made: &Made, keys: &[u32]) -> Vec<u8> {
    let mut table = made_table(made);
    for &key in keys {
        let reply = enter(&mut table, key, some(made.sizes.version));
        assert_eq!(reply, Reply::done(), "{key}");
    }
    table
}

/// The blocks in another order.
fn rearranged(table: &[u8], order: &[usize]) -> Vec<u8> {
    let width = (table.len() - HEADER) / order.len();
    let blocks: Vec<&[u8]> = table[HEADER..].chunks(width).collect();
    let moved = order.iter().flat_map(|&block| blocks[block]);
    table[..HEADER].iter().chain(moved).copied().collect()
}

// ---- the document's run ------------------------------------------------------

/// Sizes and seed of the run: β = 3. 4 divides 65,536, so a home is (first key + chunk
/// number) mod 4: 0 for each level of the front, 2 for 6 in level 1.
fn run(version: u32) -> Made {
    in_version(version, document())
}

/// P3 in each version: three chunks have home 0. The smallest label stands there, and
/// that is level 1 in version 1, level 3 in version 2.
#[test]
fn no_orders() {
    let first = [(1, 0, 0), (2, 0, 0), (3, 0, 0), EMPTY];
    let second = [(3, 0, 0), (2, 0, 0), (1, 0, 0), EMPTY];
    for (version, expected) in [(1, first), (2, second)] {
        let table = made_table(&run(version));
        assert_eq!(stands(&table), expected);
        assert!(judged(&table));
    }
}

/// P4 in each version, the chunks by rising label. Version 1: (1, 0, 0) takes its home
/// 0, (1, 6, 0) its home 2; (2, 0, 0) passes block 0; (3, 0, 0) passes 0, 1 and 2.
/// Version 2: (3, 0, 0) takes its home 0; (2, 0, 0) passes it; (1, 0, 0) passes both;
/// (1, 6, 0) finds its home 2 taken by a smaller label.
#[test]
fn orders_3_and_6() {
    let first = [(1, 0, 0), (2, 0, 0), (1, 6, 0), (3, 0, 0)];
    let second = [(3, 0, 0), (2, 0, 0), (1, 0, 0), (1, 6, 0)];
    for (version, expected) in [(1, first), (2, second)] {
        let made = run(version);
        let table = entered(&made, &[3, 6]);
        assert_eq!(stands(&table), expected);
        assert_eq!(table, entered(&made, &[6, 3]));
        assert!(judged(&table));
    }
}

/// P5 in each version, and 6 cancelled: what stands behind it goes back toward home.
#[test]
fn orders_cancelled() {
    for version in [1, 2] {
        let made = run(version);
        let both = entered(&made, &[3, 6]);
        for (key, left) in [(3, 6), (6, 3)] {
            let mut table = both.clone();
            assert_eq!(cancel(&mut table, key), Reply::done());
            assert_eq!(table, entered(&made, &[left]));
            assert_eq!(cancel(&mut table, left), Reply::done());
            assert_eq!(table, made_table(&made));
        }
    }
    // Without 6 the chunks of the front stand as in P3.
    let three = entered(&run(2), &[3]);
    assert_eq!(stands(&three), stands(&made_table(&run(2))));
}

/// "A descent begins at the top": its first block is the home of the top's chunk.
#[test]
fn paths_of_the_run() {
    for (version, three, six) in [(1, [3, 1, 0], [3, 1, 2]), (2, [0, 1, 2], [0, 1, 3])] {
        let table = entered(&run(version), &[3, 6]);
        for (key, number, expected) in [(3, 0, three), (5, 9, three), (6, 0, six), (7, 9, six)] {
            let mut output = [0xee; 8];
            let reply = descent(&table, key, &mut output).expect("an image");
            assert_eq!((reply.number, reply.count), (number, 3));
            let blocks = expected.map(|block| [0, block]).concat();
            assert_eq!(output[..6], blocks, "{key}");
            assert!(stays_within(&reply, &[0xee; 8], &output));
        }
    }
}

/// The run's table of version 2 as it was before the request, its blocks in the order
/// of version 1: no image any more.
#[test]
fn the_run_in_version_2_before() {
    let header = "02 000000d5 02 02 0002 0004 0002 \
        00000000 00000001 00000000 00000000 00000000 \
        00000000 00000001 00000000 00000000 00000000";
    let blocks = [
        "01 02 0000 00000000",
        "00000000 00000000 00000000 00000000  00000003 00000064 00000014 01020304",
        "02 02 0000 00000000",
        "00000000 00000000 00000000 00000000  00000006 00000000 00000000 00000000",
        "01 01 0000 00000006",
        "00000006 00000032 00000032 00000007  00000000 00000000 00000000 00000000",
        "03 01 0000 00000000",
        "00000000 00000000 00000000 00000000  00000000 00000000 00000000 00000000",
    ];
    let text = [header, &blocks.concat()].concat();
    let digits: Vec<u8> = text.bytes().filter(|byte| *byte != b' ').collect();
    let byte = |pair: &[u8]| u8::from_str_radix(std::str::from_utf8(pair).unwrap(), 16).unwrap();
    let before: Vec<u8> = digits.chunks(2).map(byte).collect();
    assert!(!judged(&before));
    assert!(judged(&rearranged(&before, &[3, 1, 0, 2])));
}

// ---- other tables by hand ----------------------------------------------------

/// Every key has level 1, N = 6 gives five levels, and g = 0 with M = 8 makes a home of
/// the chunk number alone: first the levels from the top down, then the three chunks of
/// level 1 by rising number. The way to the last key goes straight on.
#[test]
fn several_chunks_on_a_level() {
    let made = Made {
        sizes: sizes(2, 2, 6, 8),
        seed: Seed {
            a: [1, 0, 0, 0, 0],
            ..zero_seed()
        },
    };
    let keys = [10, 20, 30, 40, 50];
    let first = [
        (1, 0, 0),
        (1, 0, 1),
        (1, 0, 2),
        (2, 0, 0),
        (3, 0, 0),
        (4, 0, 0),
        (5, 0, 0),
    ];
    let second = [
        (5, 0, 0),
        (4, 0, 0),
        (3, 0, 0),
        (2, 0, 0),
        (1, 0, 0),
        (1, 0, 1),
        (1, 0, 2),
    ];
    let ways = [[6, 5, 4, 3, 0, 1, 2], [0, 1, 2, 3, 4, 5, 6]];
    for (version, expected, way) in [(1, first, ways[0]), (2, second, ways[1])] {
        let table = entered(&in_version(version, made), &keys);
        assert_eq!(stands(&table)[..7], expected);
        assert_eq!(stands(&table)[7], EMPTY);
        assert_eq!(walked_path(&table, 50), way);
    }
}

/// 1, 2, 4 and 8 have the levels 1 to 4, and all chunks have one home: they stand by
/// rising label. In a level first keys rise, in version 2 too.
#[test]
fn several_partitions_on_a_level() {
    let made = Made {
        sizes: sizes(2, 2, 4, 16),
        seed: Seed {
            a: identity_seed().a,
            ..zero_seed()
        },
    };
    let level_1 = [(1, 0, 0), (1, 2, 0), (1, 4, 0), (1, 8, 0)];
    let level_2 = [(2, 0, 0), (2, 4, 0), (2, 8, 0)];
    let level_3 = [(3, 0, 0), (3, 8, 0)];
    let level_4 = [(4, 0, 0)];
    let first: [&[Stands]; 4] = [&level_1, &level_2, &level_3, &level_4];
    let second: [&[Stands]; 4] = [&level_4, &level_3, &level_2, &level_1];
    for (version, levels) in [(1, first), (2, second)] {
        let made = in_version(version, made);
        let mut table = entered(&made, &[4, 8, 1, 2]);
        assert_eq!(stands(&table)[..10], levels.concat());
        // 8 opens a partition in each level below its own; they go with it.
        assert_eq!(cancel(&mut table, 8), Reply::done());
        let left: Vec<Stands> = levels.concat().into_iter().filter(|l| l.1 != 8).collect();
        assert_eq!(stands(&table)[..7], left);
        assert_eq!(stands(&table)[7..], [EMPTY; 9]);
    }
}

/// Home in block M−1, placed in block 0. M = 9 and g = 0: levels 1 to 5 have the homes
/// 7, 5, 3, 1 and 8, and 5, of level 5, opens a partition in each other one. Version 1:
/// (1, 5, 0) goes on from 7 to 8, and (5, 0, 0) from 8 to 0. Version 2: (5, 0, 0) keeps
/// its home, and (1, 5, 0) goes on from 7 past 8 to 0.
#[test]
fn going_round_the_end() {
    let made = Made {
        sizes: sizes(2, 2, 8, 9),
        seed: zero_seed(),
    };
    let between = [(4, 0), (4, 5), (3, 0), (3, 5), (2, 0), (2, 5), (1, 0)];
    for (version, at_0, at_8) in [(1, (5, 0), (1, 5)), (2, (1, 5), (5, 0))] {
        let table = entered(&in_version(version, made), &[5]);
        let found: Vec<_> = stands(&table).iter().map(|l| (l.0, l.1)).collect();
        assert_eq!(found[0], at_0);
        assert_eq!(found[1..8], between);
        assert_eq!(found[8], at_8);
        for turn in 1..9 {
            let turned: Vec<usize> = (0..9).map(|block| (block + turn) % 9).collect();
            assert!(!judged(&rearranged(&table, &turned)), "turned by {turn}");
        }
    }
}

/// 7, and P6's 8, do not depend on the order: the last block that is free goes to the
/// top's chunk in version 1, to one of level 1 in version 2.
#[test]
fn a_full_table() {
    for (version, last) in [(1, (3, 0, 0)), (2, (1, 6, 0))] {
        let mut table = entered(&run(version), &[3, 6]);
        assert_eq!(stands(&table)[3], last);
        assert_eq!(enter(&mut table, 4, some(version)), Reply::refused(7));
        assert_eq!(cancel(&mut table, 6), Reply::done());
        assert_eq!(enter(&mut table, 4, some(version)), Reply::refused(8));
    }
}

// ---- by the other order --------------------------------------------------------

/// Every call on bytes that are no image but obey rule 1: 4, or for a descent nothing
/// that a definition decides.
fn all_refuse(table: &[u8]) {
    let version = table[0].into();
    let mut copy = table.to_vec();
    let mut output = [7; 40];
    let numbers = [
        check(&copy).number,
        enter(&mut copy, 4, some(version)).number,
        amend(&mut copy, 3, some(version)).number,
        cancel(&mut copy, 3).number,
        lookup(&copy, 3).number,
        span(&copy, 1, P - 1, &mut output).number,
        seek(&copy, 1, P - 1, 0).number,
    ];
    assert_eq!(numbers, [4; 7]);
    assert_eq!(descent(&copy, 3, &mut output), None);
    assert_eq!(copy, table);
    assert_eq!(output, [7; 40]);
}

/// The run's tables with their blocks as the other version has them, and the empty one's
/// with its first and third block exchanged.
#[test]
fn the_run_by_the_other_order() {
    for (version, as_other) in [(1, [3, 1, 0, 2]), (2, [2, 1, 3, 0])] {
        let (made, other) = (run(version), run(3 - version));
        let orders = [3, 6].map(|key| (key, some(version))).into();
        let table = rearranged(&entered(&made, &[3, 6]), &as_other);
        assert_eq!(stands(&table), stands(&entered(&other, &[3, 6])));
        assert_eq!(table, arranged_by(3 - version, &made, &orders));
        assert!(!judged(&table));
        all_refuse(&table);
        let empty = rearranged(&made_table(&made), &[2, 1, 0, 3]);
        assert_eq!(stands(&empty), stands(&made_table(&other)));
        assert!(!judged(&empty));
        all_refuse(&empty);
    }
}

/// What shows the order, told by hand on the run's tables: which neighbours change
/// places, who is lost on the way to 3, and whether 6 drives a chunk from its block.
#[test]
fn what_shows_the_order() {
    for (version, neighbours, drives) in [(1, [0, 2], true), (2, [0, 1], false)] {
        let made = run(version);
        let (three, both) = (entered(&made, &[3]), entered(&made, &[3, 6]));
        assert_eq!(exchangeable(&made, &both), neighbours);
        assert!(is_lost(&both, 3) && is_lost(&both, 6));
        assert_eq!(gives_way(&three, &both), drives);
        assert!(!gives_way(&both, &three) && !gives_way(&both, &both));
        assert!(tells_apart(&made, &[(3, some(version))].into()));
        assert_eq!(by_other_order(&both), None);
    }
    // 65,536 mod 7 is 2: the homes of the three levels are 2, 4 and 6.
    let mut made = run(2);
    made.sizes.blocks = 7;
    let table = made_table(&made);
    assert!(!tells_apart(&made, &[].into()) && !is_lost(&table, 3));
    assert_eq!(exchangeable(&made, &table), []);
    let moved = rearranged(&table, &[0, 1, 4, 3, 2, 5, 6]);
    assert_eq!(by_other_order(&moved), None);
}

/// Of made-up tables: as they are, by the other order, and with each two neighbouring
/// chunks exchanged. Only where both orders put every chunk into the same block is a
/// table by the other order an image.
#[test]
fn made_up_tables_by_the_other_order() {
    let mut generator = Xorshift::new(71);
    let (mut same, mut others, mut neighbours) = ([0; 3], [0; 3], [0; 3]);
    for _ in 0..1500 {
        let made = some_made(&mut generator);
        let orders = some_orders(&mut generator, &made, 60);
        let version = made.sizes.version as usize;
        let right = image(&made, &orders).expect("they fit");
        assert_eq!(arranged_by(made.sizes.version, &made, &orders), right);
        let other = arranged_by(3 - made.sizes.version, &made, &orders);
        assert_eq!(judged(&other), other == right, "{made:?} {orders:?}");
        let expected = (other != right).then_some(Other::All);
        assert_eq!(by_other_order(&other), expected);
        assert_eq!(tells_apart(&made, &orders), other != right);
        *if other == right {
            &mut same[version]
        } else {
            &mut others[version]
        } += 1;
        for block in exchangeable(&made, &right) {
            let changed = exchanged(&made, &right, block);
            assert!(!judged(&changed), "{made:?} {orders:?}");
            let expected = match changed == other {
                true => Other::All,
                false => Other::Neighbours,
            };
            assert_eq!(by_other_order(&changed), Some(expected));
            neighbours[version] += u32::from(expected == Other::Neighbours);
        }
    }
    for version in [1, 2] {
        let met = [same[version], others[version], neighbours[version]];
        assert!(met.iter().all(|&times| times > 50), "{version}: {met:?}");
    }
}

// ---- version 1 as it was ---------------------------------------------------------

/// "Version 1 compares as it did": γ, B, N, and a hash over tables of N orders, of each
/// shape and three loads, recorded before the request.
const BEFORE: [(u32, u32, u32, u64); 8] = [
    (2, 2, 3, 0x32bb_0b46_12ab_f741),
    (2, 3, 20, 0x8000_605c_2866_d4b9),
    (3, 2, 9, 0x32b5_551d_69b3_1697),
    (3, 4, 50, 0xa559_4c7f_fbad_7c04),
    (10, 2, 30, 0xa3b7_3165_8eff_66e7),
    (16, 16, 200, 0x04c4_fe51_ccd7_6626),
    (64, 32, 300, 0x0691_bce8_69cf_db2c),
    (2, 32, 70, 0x03fc_385d_d68a_28ac),
];

#[test]
fn version_1_has_the_bytes_of_before() {
    let shapes = [Shape::Random, Shape::Flat, Shape::Tall, Shape::OneHome];
    for (gamma, nodes, orders, recorded) in BEFORE {
        let mut hash = 0u64;
        for (shape, percent) in shapes.iter().flat_map(|&s| [50, 80, 100].map(|p| (s, p))) {
            let sizes = sizes(gamma, nodes, orders, 0);
            let own = fnv_1a(&sample(&sizes, orders, percent, shape));
            hash = fnv_1a(&[hash.to_be_bytes(), own.to_be_bytes()].concat());
        }
        assert_eq!(
            hash, recorded,
            "γ {gamma} B {nodes} N {orders}: {hash:016x}"
        );
    }
}
