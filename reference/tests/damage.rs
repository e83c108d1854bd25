//! Tables that are no image, one way or another. `is_image` goes by the letter of
//! the rules; `is_image_by_rebuilding` must say the same.

mod common;

use common::{document, made_table, order, sizes, some_made, some_orders};
use reference::calls;
use reference::image::{image, is_image, is_image_by_rebuilding, table};
use reference::lists::{chunks, lists, Orders};
use reference::samples::{identity_seed, zero_seed, Xorshift};
use reference::sizes::{row, Made, P};

/// What both ways say; they must agree.
fn judged(table: &[u8]) -> bool {
    let says = is_image(table);
    assert_eq!(says, is_image_by_rebuilding(table), "{table:02x?}");
    says
}

/// The table of the document's run.
fn run_table() -> Vec<u8> {
    let orders: Orders = [(3, order(100, 20)), (6, order(50, 50))].into();
    image(&document(), &orders).unwrap()
}

/// Images whose every byte is changed: small ones of several kinds.
fn small_images(generator: &mut Xorshift) -> Vec<Vec<u8>> {
    let mut images = vec![made_table(&document()), run_table()];
    while images.len() < 60 {
        let made = some_made(generator);
        let orders = some_orders(generator, &made, 12);
        if made.sizes.length() <= 800 {
            images.push(image(&made, &orders).unwrap());
        }
    }
    images
}

/// Every byte of small images changed to several values, both ways agree.
#[test]
fn every_byte_changed() {
    let mut generator = Xorshift::new(41);
    let (mut still, mut no_more) = (0, 0);
    for image in small_images(&mut generator) {
        assert!(judged(&image));
        let mut changed = image.clone();
        for place in 0..image.len() {
            let old = image[place];
            let random = generator.draw() as u8;
            let near = [old.wrapping_add(1), old.wrapping_sub(1), old ^ 0x80, !old];
            for value in near.into_iter().chain([0, 1, 2, 0xff, random]) {
                changed[place] = value;
                if judged(&changed) {
                    still += u32::from(value != old);
                } else {
                    assert_ne!(value, old);
                    no_more += 1;
                }
            }
            changed[place] = old;
        }
    }
    // Quantities within their bounds, or sizes and seeds that change no place.
    assert!(still > 100 && no_more > 100 * 60, "{still} {no_more}");
}

/// Every byte of the run's table changed to every value. What remains an image is
/// told by hand: another key in 3's place, other quantities within their bounds,
/// γ = 6, and seed numbers that move nothing.
#[test]
fn every_byte_to_every_value() {
    let image = run_table();
    let mut accepted = Vec::new();
    for place in 0..image.len() {
        let mut changed = image.clone();
        for value in (0..=255).filter(|&value| value != image[place]) {
            changed[place] = value;
            if judged(&changed) {
                accepted.push((place, value));
            }
        }
    }
    let seed = 13..53;
    accepted.retain(|(place, _)| !seed.contains(place));
    assert_eq!(accepted, remaining_images());
}

/// Place and new value, rising.
fn remaining_images() -> Vec<(usize, u8)> {
    // Under γ = 6 as under γ = 2 key 3 has level 1, key 6 level 2, and β is 3.
    let mut remaining = vec![(5, 6)];
    // Keys 1 and 5 have level 1 too.
    let three = BLOCK[0] + SECOND;
    remaining.extend([(three + 3, 1), (three + 3, 5)]);
    remaining.extend(other_quantities(three + 4, 100, 20));
    let six = BLOCK[2] + FIRST;
    remaining.extend(other_quantities(six + 4, 50, 50));
    remaining
}

/// One byte of total or displayed changed, displayed ≤ total; both are below 256.
fn other_quantities(place: usize, total: u8, displayed: u8) -> Vec<(usize, u8)> {
    let mut remaining = Vec::new();
    for high in 0..3 {
        remaining.extend((1..=255).map(|value| (place + high, value)));
    }
    let low = (displayed..=255).filter(|&value| value != total);
    remaining.extend(low.map(|value| (place + 3, value)));
    let low = (0..=total).filter(|&value| value != displayed);
    remaining.extend(low.map(|value| (place + 7, value)));
    remaining
}

/// Blocks exchanged, copied, emptied; numbers set; several bytes at once.
#[test]
fn larger_damage() {
    let mut generator = Xorshift::new(42);
    let (mut still, mut no_more) = (0, 0);
    for _ in 0..400 {
        let made = some_made(&mut generator);
        let orders = some_orders(&mut generator, &made, 60);
        let image = image(&made, &orders).unwrap();
        for _ in 0..30 {
            let mut changed = image.clone();
            for _ in 0..generator.within(1, 2) {
                spoil(&mut generator, &made, &mut changed);
            }
            if judged(&changed) {
                still += u32::from(changed != image);
            } else {
                no_more += 1;
            }
        }
    }
    assert!(still > 20 && no_more > 5000, "{still} {no_more}");
}

fn spoil(generator: &mut Xorshift, made: &Made, table: &mut [u8]) {
    let width = made.sizes.block_length();
    let blocks = made.sizes.blocks;
    let (one, two) = (
        generator.below(blocks) as usize,
        generator.below(blocks) as usize,
    );
    let (one, two) = (53 + one * width, 53 + two * width);
    match generator.below(7) {
        0 => {
            for i in 0..width {
                table.swap(one + i, two + i);
            }
        }
        1 => table.copy_within(one..one + width, two),
        2 => table[one..one + width].fill(0),
        3 => table[53..].rotate_right(width),
        4 => {
            let numbers = row(made.sizes.version) as u32 / 4;
            let number = generator.below(numbers * made.sizes.nodes.min(5)) as usize;
            let value = generator.pick(&[0, 1, 2, 3, P - 1, P, u32::MAX]);
            table[one + 8 + 4 * number..][..4].copy_from_slice(&value.to_be_bytes());
        }
        5 => table[11..13].copy_from_slice(&(generator.below(70) as u16).to_be_bytes()),
        _ => other_version(table, made),
    }
}

/// The other version; with the B that leaves the blocks as long as they are, where
/// there is one, so that rule 1 holds.
fn other_version(table: &mut [u8], made: &Made) {
    let version = 3 - made.sizes.version;
    table[0] = version as u8;
    let bytes = row(made.sizes.version) * made.sizes.nodes as usize;
    if bytes % row(version) == 0 {
        table[6] = (bytes / row(version)) as u8;
    }
}

/// Tables with the right header whose chunks are those of the orders, but each
/// in some block: only the image is one.
#[test]
fn chunks_in_other_blocks() {
    let mut generator = Xorshift::new(43);
    let (mut right, mut wrong) = (0, 0);
    for _ in 0..2000 {
        let made = some_made(&mut generator);
        let orders = some_orders(&mut generator, &made, 8);
        let lists = lists(&made, &orders);
        let mut arrangement: Vec<_> = chunks(&made, &lists).into_iter().map(Some).collect();
        arrangement.resize(made.sizes.blocks as usize, None);
        generator.shuffle(&mut arrangement);
        let bytes = table(&made, orders.len(), &arrangement);
        let is_it = bytes == image(&made, &orders).unwrap();
        assert_eq!(judged(&bytes), is_it);
        right += u32::from(is_it);
        wrong += u32::from(!is_it);
    }
    assert!(right > 20 && wrong > 1000, "{right} {wrong}");
}

#[test]
fn bytes_of_any_kind_and_length() {
    let mut generator = Xorshift::new(44);
    let image = run_table();
    for length in 0..image.len() {
        assert!(!judged(&image[..length]));
    }
    let mut longer = image.clone();
    for _ in 0..64 {
        longer.push(0);
        assert!(!judged(&longer));
    }
    for length in 0..400 {
        assert!(!judged(&vec![0; length]));
        assert!(!judged(&vec![1; length]));
        let random: Vec<u8> = (0..length).map(|_| generator.draw() as u8).collect();
        assert!(!judged(&random));
    }
}

// ---- each part of the rules broken alone -----------------------------------

/// A table of other bytes at a place.
fn with(table: &[u8], place: usize, bytes: &[u8]) -> Vec<u8> {
    let mut changed = table.to_vec();
    changed[place..place + bytes.len()].copy_from_slice(bytes);
    changed
}

/// Places in the run's table: the blocks, and the nodes in a block.
const BLOCK: [usize; 4] = [53, 85, 117, 149];
const FIRST: usize = 8;
const SECOND: usize = 20;

#[test]
fn rule_1_parts() {
    let image = run_table();
    let broken = [
        ("version", 0, vec![0]),
        ("version", 0, vec![2]),
        ("length", 1, vec![0, 0, 0, 180]),
        ("length", 1, vec![0, 0, 0, 182]),
        ("length", 1, vec![1, 0, 0, 181]),
        ("γ", 5, vec![1]),
        ("γ", 5, vec![65]),
        ("B", 6, vec![1]),
        ("B", 6, vec![3]),
        ("B", 6, vec![33]),
        ("N", 7, vec![0, 0]),
        ("N below n", 7, vec![0, 1]),
        ("M", 9, vec![0, 3]),
        ("M", 9, vec![0, 5]),
        ("n", 11, vec![0, 1]),
        ("n", 11, vec![0, 3]),
        ("n", 11, vec![1, 2]),
    ];
    for (what, place, bytes) in broken {
        assert!(!judged(&with(&image, place, &bytes)), "{what} {bytes:?}");
    }
    // b4 has no part in the place of a chunk of the front, but must be below p.
    let empty = made_table(&document());
    assert!(judged(&with(&empty, 49, &(P - 1).to_be_bytes())));
    assert!(!judged(&with(&empty, 49, &P.to_be_bytes())));
    assert!(!judged(&with(&empty, 49, &[0xff; 4])));
    assert!(judged(&with(&empty, 29, &(P - 1).to_be_bytes())));
    assert!(!judged(&with(&empty, 29, &P.to_be_bytes())));
}

/// N and n may be other numbers only if β, and the number held, remain.
#[test]
fn sizes_that_change_no_block() {
    // γ = 3: N = 2 and N = 3 both give β = 3.
    let made = Made {
        sizes: sizes(3, 2, 2, 4),
        seed: identity_seed(),
    };
    let table = made_table(&made);
    assert!(judged(&with(&table, 7, &[0, 3])));
    assert!(!judged(&with(&table, 7, &[0, 4])));
    assert!(!judged(&with(&table, 7, &[0, 1])));
    assert!(!judged(&with(&table, 11, &[0, 1])));
}

#[test]
fn rule_2_parts() {
    let image = run_table();
    let [block_0, block_1, block_2, block_3] = BLOCK;
    let broken = [
        ("level 0 with other bytes", block_3, vec![0]),
        ("a level above β", block_3, vec![4]),
        ("no nodes", block_3 + 1, vec![0]),
        ("a node more, all zero", block_3 + 1, vec![2]),
        ("more nodes than B", block_0 + 1, vec![3]),
        ("more nodes than B", block_0 + 1, vec![255]),
        ("a node fewer, its bytes kept", block_0 + 1, vec![1]),
        ("chunk number", block_2 + 2, vec![0, 1]),
        ("first key", block_2 + 4, vec![0, 0, 0, 5]),
        ("bytes behind the count", block_2 + SECOND + 11, vec![1]),
        ("bytes behind the count", block_3 + SECOND, vec![1]),
        (
            "a total for the front",
            block_0 + FIRST + 4,
            vec![0, 0, 0, 1],
        ),
        (
            "quantities above level 1",
            block_1 + SECOND + 4,
            vec![0, 0, 0, 50, 0, 0, 0, 50],
        ),
        (
            "a displayed above level 1",
            block_1 + SECOND + 8,
            vec![0, 0, 0, 1],
        ),
        ("total 0", block_0 + SECOND + 4, vec![0; 8]),
        (
            "displayed above total",
            block_0 + SECOND + 8,
            vec![0, 0, 0, 101],
        ),
        ("the other's key", block_0 + SECOND, vec![0, 0, 0, 6]),
        ("a key of another level", block_0 + SECOND, vec![0, 0, 0, 4]),
        (
            "a key that is none",
            block_0 + SECOND,
            vec![0x7f, 0xff, 0xff, 0xff],
        ),
        (
            "a key behind the next partition",
            block_0 + SECOND,
            vec![0, 0, 0, 7],
        ),
        ("no front", block_0 + FIRST, vec![0, 0, 0, 1]),
        ("the front twice", block_0 + SECOND, vec![0; 12]),
        ("an empty block", block_2, vec![0; 32]),
        ("an empty block", block_3, vec![0; 32]),
    ];
    for (what, place, bytes) in broken {
        assert!(!judged(&with(&image, place, &bytes)), "{what}");
    }
    // Other keys of the same level in the same places, and other quantities, are images.
    assert!(judged(&with(&image, block_0 + SECOND, &[0, 0, 0, 5])));
    assert!(judged(&with(&image, block_0 + SECOND + 8, &[0, 0, 0, 100])));
    assert!(judged(&with(&image, block_0 + SECOND + 8, &[0, 0, 0, 0])));
}

/// The same chunk in two blocks, where a search would never reach the second.
#[test]
fn a_chunk_twice() {
    let image = made_table(&document());
    for block in 0..3 {
        let bytes = image[BLOCK[block]..BLOCK[block] + 32].to_vec();
        assert!(!judged(&with(&image, BLOCK[3], &bytes)));
    }
}

/// An order held twice, in well-formed blocks and counted twice.
#[test]
fn a_key_twice() {
    // One partition of level 1: front, 1, 1.
    let made = Made {
        sizes: sizes(2, 3, 2, 4),
        seed: identity_seed(),
    };
    let orders: Orders = [(1, order(9, 9)), (3, order(9, 9))].into();
    let table = image(&made, &orders).unwrap();
    assert!(judged(&table));
    let third_node = 53 + 8 + 24;
    assert_eq!(table[third_node..third_node + 4], [0, 0, 0, 3]);
    assert!(!judged(&with(&table, third_node, &[0, 0, 0, 1])));
    assert!(!judged(&with(
        &with(&table, third_node, &[0, 0, 0, 1]),
        11,
        &[0, 1]
    )));
}

/// Keys that do not rise, each chunk otherwise well formed.
#[test]
fn keys_out_of_order() {
    let made = Made {
        sizes: sizes(2, 3, 2, 4),
        seed: identity_seed(),
    };
    let orders: Orders = [(1, order(9, 9)), (3, order(9, 9))].into();
    let mut table = image(&made, &orders).unwrap();
    for i in 0..12 {
        table.swap(53 + 8 + 12 + i, 53 + 8 + 24 + i);
    }
    assert!(!judged(&table));
}

/// The levels of the blocks, 0 for an empty one.
fn levels(made: &Made, table: &[u8]) -> Vec<u8> {
    table[53..]
        .chunks(made.sizes.block_length())
        .map(|block| block[0])
        .collect()
}

/// The table with its blocks in another order.
fn rearranged(made: &Made, table: &[u8], order: &[usize]) -> Vec<u8> {
    let blocks: Vec<&[u8]> = table[53..].chunks(made.sizes.block_length()).collect();
    let mut changed = table[..53].to_vec();
    order
        .iter()
        .for_each(|&block| changed.extend(blocks[block]));
    changed
}

#[test]
fn no_empty_block_before_a_chunk() {
    // 65,536 mod 6 is 4, 131,072 mod 6 is 2, 196,608 mod 6 is 0: all are at home.
    let made = Made {
        sizes: sizes(2, 2, 2, 6),
        seed: zero_seed(),
    };
    let table = made_table(&made);
    assert_eq!(levels(&made, &table), [3, 0, 2, 0, 1, 0]);
    assert!(judged(&table));
    for order in [
        [1, 0, 2, 3, 4, 5],
        [0, 1, 3, 2, 4, 5],
        [0, 1, 2, 3, 5, 4],
        [4, 1, 2, 3, 0, 5],
    ] {
        assert!(!judged(&rearranged(&made, &table, &order)), "{order:?}");
    }
}

#[test]
fn no_larger_label_before_a_chunk() {
    // 65,536 mod 3 is 1, 131,072 mod 3 is 2, 196,608 mod 3 is 0: a full table, so
    // no chunk passes over an empty block wherever it stands.
    let made = Made {
        sizes: sizes(2, 2, 2, 3),
        seed: zero_seed(),
    };
    let table = made_table(&made);
    assert_eq!(levels(&made, &table), [3, 1, 2]);
    assert!(judged(&table));
    for order in [[0, 2, 1], [1, 0, 2], [2, 1, 0], [1, 2, 0], [2, 0, 1]] {
        assert!(!judged(&rearranged(&made, &table, &order)), "{order:?}");
    }
}

/// Rule 3 across the end: home in block M−1, placed in block 0.
#[test]
fn going_round_the_end() {
    let made = Made {
        sizes: sizes(2, 2, 8, 9),
        seed: zero_seed(),
    };
    let mut table = made_table(&made);
    let before = table.clone();
    // Levels 1 to 5 have the homes 7, 5, 3, 1, 8. Key 5 has level 5, so it opens
    // a partition at each of levels 1 to 4, and level 5 finds block 8 taken.
    assert_eq!(levels(&made, &table), [0, 4, 0, 3, 0, 2, 0, 1, 5]);
    assert_eq!(calls::enter(&mut table, 5, order(1, 1)).number, 0);
    assert_eq!(levels(&made, &table), [5, 4, 4, 3, 3, 2, 2, 1, 1]);
    assert!(judged(&table));
    for turn in 1..9 {
        let order: Vec<usize> = (0..9).map(|block| (block + turn) % 9).collect();
        assert!(
            !judged(&rearranged(&made, &table, &order)),
            "turned by {turn}"
        );
    }
    // "pull later chunks back toward home"
    assert_eq!(calls::cancel(&mut table, 5).number, 0);
    assert_eq!(table, before);
}

/// A damaged table answers 4 to all these calls and stays as it is.
#[test]
fn damaged_tables_answer_4() {
    let image = run_table();
    let damaged = with(&image, 0, &[2]);
    let mut table = damaged.clone();
    let mut output = [7; 40];
    let numbers = [
        calls::check(&table).number,
        calls::enter(&mut table, 3, order(1, 1)).number,
        calls::amend(&mut table, 3, order(1, 1)).number,
        calls::cancel(&mut table, 3).number,
        calls::lookup(&table, 3).number,
        calls::span(&table, 1, 9, &mut output).number,
        calls::seek(&table, 1, 9, 0).number,
    ];
    assert_eq!(numbers, [4; 7]);
    assert_eq!(table, damaged);
    assert_eq!(output, [7; 40]);
}
