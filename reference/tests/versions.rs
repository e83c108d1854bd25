//! Versions 1 and 2 and the price (document 02, request A.6): worked examples of each
//! call, the bytes, damage, and a reader from before the request.

mod common;

use common::{
    damaged_table, document, found, full_table, in_version, made_table, order, priced, refused,
    sizes, some_made, some_orders,
};
use reference::calls::{amend, cancel, check, descent, enter, lookup, make, seek, span, Reply};
use reference::image::{image, is_image, is_image_by_rebuilding};
use reference::lists::{chunks, home, lists, Order, Orders};
use reference::samples::{identity_seed, random_seed, Xorshift};
use reference::sizes::{row, Made, Seed, Sizes, BLOCK_HEAD, HEADER, P};

/// Sizes and seed of the document's run, in version 2.
fn document_2() -> Made {
    in_version(2, document())
}

/// The orders of the document's run, with a price each.
const THREE: Order = Order {
    total: 100,
    displayed: 20,
    price: 0x0102_0304,
};
const SIX: Order = Order {
    total: 50,
    displayed: 50,
    price: 7,
};

/// Keys 3 and 6 in a table of version 2, which has N orders and M chunks then.
fn full_table_2() -> Vec<u8> {
    let mut table = made_table(&document_2());
    assert_eq!(enter(&mut table, 6, SIX), Reply::done());
    assert_eq!(enter(&mut table, 3, THREE), Reply::done());
    table
}

/// What both ways to judge a table say; they must agree.
fn judged(table: &[u8]) -> bool {
    let says = is_image(table);
    assert_eq!(says, is_image_by_rebuilding(table), "{table:02x?}");
    says
}

/// A table with other bytes at a place.
fn with(table: &[u8], place: usize, bytes: &[u8]) -> Vec<u8> {
    let mut changed = table.to_vec();
    changed[place..place + bytes.len()].copy_from_slice(bytes);
    changed
}

fn unhex(text: &str) -> Vec<u8> {
    let digits: Vec<u8> = text.bytes().filter(|byte| *byte != b' ').collect();
    let byte = |pair: &[u8]| u8::from_str_radix(std::str::from_utf8(pair).unwrap(), 16).unwrap();
    digits.chunks(2).map(byte).collect()
}

// ---- bytes -----------------------------------------------------------------

/// The document's run in version 2, byte for byte, written by hand. 213 bytes are
/// 53 + 4·(8 + 16·2). Levels 3, 2 and 1 of the front and then key 6 stand in blocks 0
/// to 3 (request A.7; label_order.rs works that out).
#[test]
fn bytes_of_the_full_run() {
    let header = "02 000000d5 02 02 0002 0004 0002 \
        00000000 00000001 00000000 00000000 00000000 \
        00000000 00000001 00000000 00000000 00000000";
    let blocks = [
        "03 01 0000 00000000",
        "00000000 00000000 00000000 00000000  00000000 00000000 00000000 00000000",
        "02 02 0000 00000000",
        "00000000 00000000 00000000 00000000  00000006 00000000 00000000 00000000",
        "01 02 0000 00000000",
        "00000000 00000000 00000000 00000000  00000003 00000064 00000014 01020304",
        "01 01 0000 00000006",
        "00000006 00000032 00000032 00000007  00000000 00000000 00000000 00000000",
    ];
    let expected = unhex(&[header, &blocks.concat()].concat());
    assert_eq!(full_table_2(), expected);
    assert_eq!(check(&expected), Reply::done());
}

/// A block of each version with the same two orders: key, total, displayed, and in
/// version 2 price. With three levels and no key above level 1 it is block 0 in version
/// 1 and block 2 in version 2.
#[test]
fn a_block_of_each_version() {
    let first = "01 03 0000 00000000 \
        00000000 00000000 00000000 \
        00000001 00000009 00000008 \
        00000003 00000007 00000000";
    let second = "01 03 0000 00000000 \
        00000000 00000000 00000000 00000000 \
        00000001 00000009 00000008 ffffffff \
        00000003 00000007 00000000 00000001";
    let unpriced = [(1, order(9, 8)), (3, order(7, 0))];
    let priced = [(1, priced(9, 8, u32::MAX)), (3, priced(7, 0, 1))];
    for (version, expected, number, orders) in [(1, first, 0, unpriced), (2, second, 2, priced)] {
        let made = in_version(version, of_nodes(3));
        let table = image(&made, &orders.into()).expect("they fit");
        let block = unhex(expected);
        assert_eq!(made.sizes.block_length(), block.len());
        assert_eq!(blocks_of(&made, &table)[number], block);
        assert_eq!(table[0], version as u8);
    }
}

/// The bytes of each block.
fn blocks_of(made: &Made, table: &[u8]) -> Vec<Vec<u8>> {
    let blocks = table[HEADER..].chunks(made.sizes.block_length());
    blocks.map(<[u8]>::to_vec).collect()
}

/// The document's seed with so many nodes in a block.
fn of_nodes(nodes: u32) -> Made {
    Made {
        sizes: sizes(2, nodes, 2, 4),
        seed: identity_seed(),
    }
}

/// A block of version 2 without its prices.
fn unpriced(block: &[u8]) -> Vec<u8> {
    let mut narrow = block[..BLOCK_HEAD].to_vec();
    for node in block[BLOCK_HEAD..].chunks(16) {
        narrow.extend(&node[..12]);
    }
    narrow
}

/// Levels, labels and homes are those of version 1, so the blocks of a version 2 table
/// without their prices are those of version 1. Which block each has, the labels' order
/// decides (request A.7): often it is not the same.
#[test]
fn without_its_prices_it_has_the_chunks_of_version_1() {
    let mut generator = Xorshift::new(61);
    let (mut prices, mut same, mut moved) = (0, 0, 0);
    for _ in 0..800 {
        let made = in_version(2, some_made(&mut generator));
        let orders = some_orders(&mut generator, &made, 60);
        let table = image(&made, &orders).expect("they fit");
        let first = in_version(1, made);
        let without = orders
            .iter()
            .map(|(&key, o)| (key, order(o.total, o.displayed)));
        let expected = image(&first, &without.collect()).expect("as many chunks");
        assert_eq!(table[5..HEADER], expected[5..HEADER], "{made:?}");
        let blocks = blocks_of(&made, &table);
        let nodes = blocks
            .iter()
            .flat_map(|block| block[BLOCK_HEAD..].chunks(16));
        prices += nodes.filter(|node| node[12..] != [0; 4]).count();
        prices -= orders.len();
        let mut found: Vec<_> = blocks.iter().map(|block| unpriced(block)).collect();
        let mut expected = blocks_of(&first, &expected);
        *if found == expected {
            &mut same
        } else {
            &mut moved
        } += 1;
        found.sort();
        expected.sort();
        assert_eq!(found, expected, "{made:?} {orders:?}");
    }
    assert_eq!(prices, 0, "each order's price stands once, and no other");
    assert!(same > 50 && moved > 200, "{same} {moved}");
}

// ---- make ------------------------------------------------------------------

/// "Make takes the version, 1 or 2, another answering 2", so after 1 and before 3.
#[test]
fn make_takes_version_1_or_2() {
    let Made { sizes, seed } = document();
    let seed = seed.bytes();
    for version in [0, 3, 4, 255, 256, 257, 258, 1 << 16, 1 << 31, u32::MAX] {
        let wrong = Sizes { version, ..sizes };
        assert!(!wrong.allowed());
        for length in [0, 53, 181, 213, 245] {
            let table = vec![9; length];
            assert_eq!(refused(&table, |t| make(&wrong, &seed, t)), 2, "{version}");
            assert_eq!(refused(&table, |t| make(&wrong, &seed[1..], t)), 1);
            assert_eq!(refused(&table, |t| make(&wrong, &[0xff; 40], t)), 1);
        }
    }
    for (version, length) in [(1, 181), (2, 213)] {
        let right = Sizes { version, ..sizes };
        assert_eq!(right.length(), length);
        for other in [0, 53, 181, 213].into_iter().filter(|&l| l != length) {
            assert_eq!(refused(&vec![9; other], |t| make(&right, &seed, t)), 3);
        }
        let mut table = vec![9; length];
        assert_eq!(make(&right, &seed, &mut table), Reply::done());
        assert_eq!(table[0], version as u8);
        assert_eq!(check(&table), Reply::done());
    }
}

// ---- enter and amend -------------------------------------------------------

/// "14, after 4 in enter and amend": before 5 and 6 and all that follows.
#[test]
fn a_price_in_version_1_answers_14() {
    for call in [enter, amend] {
        for (key, total, displayed) in [(3, 9, 9), (4, 9, 0), (0, 9, 9), (P, 0, 0), (3, 0, 1)] {
            for price in [1, 700, u32::MAX] {
                let ask = |table: &mut [u8]| call(table, key, priced(total, displayed, price));
                assert_eq!(refused(&damaged_table(), ask), 4);
                assert_eq!(refused(&full_table(), ask), 14);
                assert_eq!(refused(&made_table(&document()), ask), 14);
            }
        }
    }
}

/// "Price 0 in version 2 answers 6": after 5, before 13, 7, 8 and 9, and never 14.
#[test]
fn price_0_in_version_2_answers_6() {
    let mut damaged = full_table_2();
    damaged[HEADER + 7] ^= 1;
    for call in [enter, amend] {
        for table in [full_table_2(), made_table(&document_2())] {
            for key in [3, 4, 6, P - 1] {
                assert_eq!(refused(&table, |t| call(t, key, order(9, 9))), 6);
                assert_eq!(refused(&table, |t| call(t, key, priced(0, 0, 1))), 6);
                assert_eq!(refused(&table, |t| call(t, key, priced(9, 10, 1))), 6);
            }
            for key in [0, P, u32::MAX] {
                assert_eq!(refused(&table, |t| call(t, key, order(9, 9))), 5);
            }
        }
        assert_eq!(refused(&damaged, |t| call(t, 3, order(9, 9))), 4);
    }
    let full = full_table_2();
    assert_eq!(refused(&full, |t| enter(t, 3, THREE)), 13);
    assert_eq!(refused(&full, |t| enter(t, 4, THREE)), 7);
    assert_eq!(refused(&full, |t| amend(t, 4, THREE)), 9);
    let mut one = full;
    assert_eq!(cancel(&mut one, 6), Reply::done());
    assert_eq!(refused(&one, |t| enter(t, 4, THREE)), 8);
}

/// The lowest price and the highest are accepted; "amend replaces it along with the
/// quantities", each alone too.
#[test]
fn amend_replaces_the_price() {
    let full = full_table_2();
    let mut table = full.clone();
    for new in [
        priced(100, 20, 1),
        priced(100, 20, u32::MAX),
        priced(101, 20, u32::MAX),
        priced(101, 21, u32::MAX),
        priced(7, 0, 5),
        THREE,
    ] {
        assert_eq!(amend(&mut table, 3, new), Reply::done());
        assert_eq!(lookup(&table, 3), Reply::order(3, &new));
        assert_eq!(lookup(&table, 6), Reply::order(6, &SIX));
        let expected = image(&document_2(), &[(3, new), (6, SIX)].into());
        assert_eq!(Some(&table), expected.as_ref());
    }
    assert_eq!(table, full);
}

// ---- readings --------------------------------------------------------------

/// "Lookup, descent and seek give the price too"; in version 1 it is 0.
#[test]
fn readings_give_the_price() {
    let three = Reply {
        number: 0,
        key: 3,
        total: 100,
        displayed: 20,
        price: 0x0102_0304,
        count: 0,
    };
    let first = Reply { price: 0, ..three };
    for (table, three, six, way) in [
        (
            full_table_2(),
            three,
            Reply::order(6, &SIX),
            [0, 0, 0, 1, 0, 2, 9],
        ),
        (full_table(), first, found(6, 50, 50), [0, 3, 0, 1, 0, 0, 9]),
    ] {
        assert_eq!(lookup(&table, 3), three);
        assert_eq!(seek(&table, 1, P - 1, 80), three);
        assert_eq!(seek(&table, 4, P - 1, 0), six);
        let mut path = [9; 7];
        let by_descent = Reply { count: 3, ..three };
        assert_eq!(descent(&table, 3, &mut path), Some(by_descent));
        assert_eq!(path, way);
        let nine = Reply {
            count: 3,
            ..Reply::refused(9)
        };
        assert_eq!(descent(&table, 4, &mut path), Some(nine));
        assert_eq!(descent(&table, 3, &mut path[..5]), Some(Reply::refused(11)));
    }
}

/// "Span rows in version 2 have 16 bytes, and 11 counts those." The reply's price
/// is 0.
#[test]
fn a_span_of_each_version() {
    let one_row = [0, 0, 0, 3, 0, 0, 0, 100, 0, 0, 0, 20, 1, 2, 3, 4];
    let two_rows = unhex("00000003 00000064 00000014 01020304 00000006 00000032 00000032 00000007");
    let table = full_table_2();
    for length in 0..=35 {
        let mut output = vec![0xee; length];
        let reply = span(&table, 1, P - 1, &mut output);
        match length {
            0..=31 => {
                assert_eq!(reply, Reply::refused(11), "{length}");
                assert_eq!(output, vec![0xee; length]);
            }
            _ => {
                assert_eq!(reply, Reply::count(2), "{length}");
                assert_eq!(output[..32], two_rows);
                assert_eq!(output[32..], vec![0xee; length - 32]);
            }
        }
    }
    for (length, number) in [(11, 11), (12, 11), (15, 11), (16, 0), (17, 0)] {
        assert_eq!(span(&table, 3, 3, &mut vec![0; length]).number, number);
    }
    let mut output = [0; 16];
    assert_eq!(span(&table, 3, 5, &mut output), Reply::count(1));
    assert_eq!(output, one_row);
    assert_eq!(span(&table, 4, 5, &mut []), Reply::count(0));

    let mut output = [0xee; 25];
    let first = full_table();
    assert_eq!(
        span(&first, 1, P - 1, &mut output[..23]),
        Reply::refused(11)
    );
    assert_eq!(span(&first, 1, P - 1, &mut output), Reply::count(2));
    assert_eq!(output[..12], one_row[..12]);
    assert_eq!(output[12..24], two_rows[16..28]);
    assert_eq!(output[24], 0xee);
}

// ---- damage ----------------------------------------------------------------

/// Places in the run's table of version 2: the blocks, and the prices in a block.
const BLOCK: [usize; 4] = [53, 93, 133, 173];
const FIRST_PRICE: usize = 8 + 12;
const SECOND_PRICE: usize = 24 + 12;

/// "price is 0 above level 1 and for the front"; unused nodes are zero; an order has
/// 1 or more.
#[test]
fn prices_where_none_may_be() {
    let table = full_table_2();
    assert!(judged(&table));
    let [block_0, block_1, block_2, block_3] = BLOCK;
    for byte in 0..4 {
        for (what, place) in [
            ("of the front in level 1", block_2 + FIRST_PRICE),
            ("of the front in level 2", block_1 + FIRST_PRICE),
            ("of the front in level 3", block_0 + FIRST_PRICE),
            ("of key 6 in level 2", block_1 + SECOND_PRICE),
            ("of an unused node", block_0 + SECOND_PRICE),
            ("of an unused node", block_3 + SECOND_PRICE),
        ] {
            for value in [1, 0x80, 0xff] {
                let changed = with(&table, place + byte, &[value]);
                assert!(!judged(&changed), "a price {what}");
                assert_eq!(check(&changed), Reply::refused(4));
                assert_eq!(refused(&changed, |t| amend(t, 6, SIX)), 4);
            }
        }
    }
    for price in [block_2 + SECOND_PRICE, block_3 + FIRST_PRICE] {
        assert!(!judged(&with(&table, price, &[0; 4])), "price 0");
        for other in [[0, 0, 0, 1], [0xff; 4], [1, 0, 0, 0]] {
            assert!(judged(&with(&table, price, &other)), "another price");
        }
    }
}

/// The version byte alone asks for another length. With the B that leaves blocks as
/// long as they are rule 1 holds, and the nodes are read otherwise: 4·12 is 3·16. Blocks
/// that hold the front alone are the same in both, and stand in the same places if no
/// two of them have one home (request A.7).
#[test]
fn another_version() {
    for table in [full_table(), full_table_2()] {
        for version in (0..=255).filter(|&version| version != table[0]) {
            assert!(!judged(&with(&table, 0, &[version])));
        }
    }
    for (blocks, is_alike) in [(4, false), (7, true)] {
        for (version, nodes, other_nodes) in [(1, 4, 3), (2, 3, 4)] {
            let made = in_version(version, of_nodes(nodes));
            let sizes = Sizes {
                blocks,
                ..made.sizes
            };
            let other = 3 - version as u8;
            let changed = |table: &[u8]| with(&with(table, 0, &[other]), 6, &[other_nodes]);
            let mut table = made_table(&Made { sizes, ..made });
            // 65,536 mod 4 is 0; mod 7 it is 2, so that the homes are 2, 4 and 6.
            assert_eq!(judged(&changed(&table)), is_alike);
            let order = priced(9, 9, u32::from(version == 2));
            assert_eq!(enter(&mut table, 3, order), Reply::done());
            assert!(judged(&table));
            assert!(!judged(&changed(&table)));
            assert_eq!(refused(&changed(&table), |t| cancel(t, 3)), 4);
            let mut path = [9; 8];
            assert_eq!(descent(&changed(&table), 3, &mut path), None);
            let five = descent(&changed(&table), 0, &mut path);
            assert_eq!(five, Some(Reply::refused(5)));
        }
    }
}

/// The block of the run's table of version 1 that has the chunk of this block in version
/// 2.
const IN_VERSION_1: [usize; 4] = [3, 1, 0, 2];

/// The place in a table of version 1 of what stands at this one in the run's table of
/// version 2; None for a price.
fn place_in_version_1(place: usize) -> Option<usize> {
    if place < HEADER {
        return Some(place);
    }
    let (block, place) = ((place - HEADER) / 40, (place - HEADER) % 40);
    let block = HEADER + 32 * IN_VERSION_1[block];
    let (node, byte) = match place.checked_sub(BLOCK_HEAD) {
        None => return Some(block + place),
        Some(place) => (place / 16, place % 16),
    };
    (byte < 12).then_some(block + BLOCK_HEAD + 12 * node + byte)
}

/// Whether the run's table of version 2 is one with this byte of b0..b4 changed. b0 is
/// g(0): level 3 stands in block 0 if its home is 0, and level 2 and level 1 of the
/// front behind it if theirs are, for which 4 must divide b0. The chunk of 6 takes the
/// last block, whatever its home is, so that the others may be any number below p.
fn is_g(place: usize, value: u8) -> bool {
    match place {
        33 | 37 | 41 | 45 | 49 => value < 0x80,
        36 => value % 4 == 0,
        _ => true,
    }
}

/// Every byte of the run's table of version 2 to every value. Behind version and
/// length, and but for g, what remains an image is what does in version 1, which
/// damage.rs tells by hand, and every other price but 0.
#[test]
fn every_byte_to_every_value() {
    let (first, table) = (full_table(), full_table_2());
    let orders = [BLOCK[2] + SECOND_PRICE, BLOCK[3] + FIRST_PRICE];
    let mut prices = 0;
    for place in 0..table.len() {
        for value in (0..=255).filter(|&value| value != table[place]) {
            let changed = with(&table, place, &[value]);
            let expected = match place_in_version_1(place) {
                Some(0..=4) => false,
                Some(33..=52) => is_g(place, value),
                Some(same) => is_image(&with(&first, same, &[value])),
                None => orders.into_iter().any(|price| {
                    (price..price + 4).contains(&place) && changed[price..price + 4] != [0; 4]
                }),
            };
            assert_eq!(judged(&changed), expected, "{place} {value}");
            prices += u32::from(expected && place_in_version_1(place).is_none());
        }
    }
    // One byte makes 0 of the price of 6, none of that of 3.
    assert_eq!(prices, 2 * 4 * 255 - 1);
}

// ---- a reader built before -------------------------------------------------

/// Question 4 as it was before request A.6, from document 01's three rules alone: "the
/// version is 1", nodes of 12 bytes.
fn older_check(table: &[u8]) -> u32 {
    let number = |place: usize, width: usize| {
        let bytes = table[place..place + width].iter();
        bytes.fold(0u32, |number, &byte| number << 8 | u32::from(byte))
    };
    if table.len() < 53 || table[0] != 1 {
        return 4;
    }
    let sizes = sizes(number(5, 1), number(6, 1), number(7, 2), number(9, 2));
    let seed = match Seed::from_bytes(&table[13..53]) {
        Some(seed) if sizes.allowed() => seed,
        _ => return 4,
    };
    let block_length = 8 + 12 * sizes.nodes as usize;
    let length = 53 + sizes.blocks as usize * block_length;
    if number(1, 4) as usize != length || table.len() != length || number(11, 2) > sizes.orders {
        return 4;
    }
    let made = Made { sizes, seed };
    let mut orders = Orders::new();
    for block in (0..sizes.blocks as usize).map(|block| 53 + block * block_length) {
        let count = u32::from(table[block + 1]).min(sizes.nodes) as usize;
        for node in (0..count).map(|node| block + 8 + 12 * node) {
            if table[block] == 1 && number(node, 4) != 0 {
                let quantities = order(number(node + 4, 4), number(node + 8, 4));
                orders.insert(number(node, 4), quantities);
            }
        }
    }
    let is_order = |(&key, order): (&u32, &Order)| {
        key < P && order.total >= 1 && order.displayed <= order.total
    };
    let right = orders.len() == number(11, 2) as usize && orders.iter().all(is_order);
    match right {
        true if older_blocks(&made, &orders).as_deref() == Some(&table[53..]) => 0,
        _ => 4,
    }
}

/// The blocks of these orders in version 1; None where they have more than M chunks.
fn older_blocks(made: &Made, orders: &Orders) -> Option<Vec<u8>> {
    let lists = lists(made, orders);
    let chunks = chunks(made, &lists);
    let count = made.sizes.blocks as usize;
    if chunks.len() > count {
        return None;
    }
    let length = 8 + 12 * made.sizes.nodes as usize;
    let mut blocks = vec![Vec::new(); count];
    for chunk in &chunks {
        let mut at = home(made, &chunk.label);
        while !blocks[at].is_empty() {
            at = (at + 1) % count;
        }
        let bytes: &mut Vec<u8> = &mut blocks[at];
        bytes.extend([chunk.label.level as u8, chunk.nodes.len() as u8]);
        bytes.extend((chunk.label.chunk_number as u16).to_be_bytes());
        bytes.extend(chunk.label.first_key.to_be_bytes());
        for node in chunk.nodes {
            let shown = u32::from(chunk.label.level == 1);
            let numbers = [
                node.key,
                shown * node.order.total,
                shown * node.order.displayed,
            ];
            bytes.extend(numbers.into_iter().flat_map(u32::to_be_bytes));
        }
    }
    blocks.iter_mut().for_each(|block| block.resize(length, 0));
    Some(blocks.concat())
}

/// "A reader built before this request answers 4 to version 2", and to version 1 what
/// a reader answers today: on tables as they are, and with bytes changed.
#[test]
fn an_older_reader_knows_version_1_alone() {
    let mut generator = Xorshift::new(62);
    // Images of version 1 and 2, and bytes that are none, by their version byte.
    let (mut images, mut others) = ([0; 3], [0; 3]);
    for _ in 0..1500 {
        let made = some_made(&mut generator);
        let orders = some_orders(&mut generator, &made, 30);
        let mut table = image(&made, &orders).expect("they fit");
        for _ in 0..6 {
            let version = usize::from(table[0]);
            let today = check(&table).number;
            let expected = if version == 1 { today } else { 4 };
            assert_eq!(older_check(&table), expected, "{table:02x?}");
            if let 1 | 2 = version {
                *if today == 0 {
                    &mut images[version]
                } else {
                    &mut others[version]
                } += 1;
            }
            let place = generator.below(table.len() as u32) as usize;
            match generator.below(8) {
                0 => table[0] = 3 - made.sizes.version as u8,
                _ => table[place] ^= generator.pick(&[1, 2, 0x80, 0xff]),
            }
        }
        for length in [0, 1, 52, 53, table.len() - 1] {
            assert_eq!(older_check(&table[..length]), 4);
        }
    }
    for version in [1, 2] {
        assert!(
            images[version] > 500 && others[version] > 500,
            "{images:?} {others:?}"
        );
    }
}

/// Version 2 bytes that differ from a table of version 1 as little as can be: no two
/// levels have one home, since 65,536 times 1 to 5 is 16, 32, 8, 24 and 0 mod 40.
#[test]
fn an_older_reader_and_blocks_of_the_same_length() {
    let mut generator = Xorshift::new(63);
    for _ in 0..200 {
        let nodes = 4 * generator.within(1, 8);
        let made = Made {
            sizes: sizes(2, nodes, 8, 40),
            seed: random_seed(&mut generator),
        };
        let mut table = made_table(&made);
        assert_eq!((older_check(&table), check(&table).number), (0, 0));
        table[0] = 2;
        table[6] = (nodes / 4 * 3) as u8;
        assert_eq!(row(2) * usize::from(table[6]), row(1) * nodes as usize);
        assert_eq!((older_check(&table), check(&table).number), (4, 0));
    }
}
