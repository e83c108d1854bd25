//! Rule 3 leaves one arrangement of the chunks, and a search under it ends where
//! the document says; which label is smaller, the version says (document 02, request
//! A.7).

mod common;

use common::{in_version, is_smaller, order, sizes, some_made, some_orders};
use reference::arrangements::arranged_by;
use reference::image::{image, is_image, place, rule_3, table, Arrangement};
use reference::lists::{chunks, home, lists, Chunk, Label, Orders};
use reference::samples::{some_seed, zero_seed, Xorshift};
use reference::sizes::{Made, Seed};

/// All ways to put the chunks into blocks, each in one.
fn all_arrangements<'a>(chunks: &[Chunk<'a>], blocks: usize) -> Vec<Arrangement<'a>> {
    let (last, others) = match chunks.split_last() {
        Some(parts) => parts,
        None => return vec![vec![None; blocks]],
    };
    let mut found = Vec::new();
    for arrangement in all_arrangements(others, blocks) {
        for block in (0..blocks).filter(|&block| arrangement[block].is_none()) {
            let mut more = arrangement.clone();
            more[block] = Some(*last);
            found.push(more);
        }
    }
    found
}

fn labels(arrangement: &Arrangement) -> Vec<Option<Label>> {
    arrangement
        .iter()
        .map(|block| block.map(|chunk| chunk.label))
        .collect()
}

/// Rule 3, block by block.
fn slow_rule_3(made: &Made, arrangement: &Arrangement) -> bool {
    let (version, blocks) = (made.sizes.version, arrangement.len());
    for block in 0..blocks {
        let chunk = match arrangement[block] {
            Some(chunk) => chunk,
            None => continue,
        };
        let home = home(made, &chunk.label);
        let distance = (block + blocks - home) % blocks;
        for step in 0..distance {
            match arrangement[(home + step) % blocks] {
                Some(passed) if is_smaller(version, &passed.label, &chunk.label) => (),
                _ => return false,
            }
        }
    }
    true
}

/// Tables of either version and of at most 5 blocks, with some orders.
fn tiny(generator: &mut Xorshift) -> (Made, Orders) {
    loop {
        let (gamma, nodes) = (generator.within(2, 4), generator.within(2, 3));
        let n = generator.within(1, 8);
        let least = sizes(gamma, nodes, n, 0).beta();
        if least > 5 {
            continue;
        }
        let blocks = generator.within(least, 5);
        let made = Made {
            sizes: sizes(gamma, nodes, n, blocks),
            seed: some_seed(generator),
        };
        let made = in_version(generator.within(1, 2), made);
        let orders = some_orders(generator, &made, n);
        return (made, orders);
    }
}

/// What was met, by version.
type Versions = [u32; 3];

/// "a version 2 table has one arrangement under the new order", as a table of version 1
/// has under the old one: of all arrangements of a table's chunks one obeys, which is
/// its image. Often it is not the one of the other version.
#[test]
fn one_arrangement_obeys() {
    let mut generator = Xorshift::new(21);
    let (mut full, mut obeying, mut all) = (0, 0, 0);
    let (mut met, mut told_apart): (Versions, Versions) = ([0; 3], [0; 3]);
    for _ in 0..3000 {
        let (made, orders) = tiny(&mut generator);
        let lists = lists(&made, &orders);
        let chunks = chunks(&made, &lists);
        let blocks = made.sizes.blocks as usize;
        let placed = place(&made, &chunks);
        let right = image(&made, &orders).unwrap();
        let mut found = 0;
        for arrangement in all_arrangements(&chunks, blocks) {
            let obeys = rule_3(&made, &labels(&arrangement));
            assert_eq!(obeys, slow_rule_3(&made, &arrangement));
            assert_eq!(obeys, arrangement == placed);
            let bytes = table(&made, orders.len(), &arrangement);
            assert_eq!(obeys, is_image(&bytes));
            assert_eq!(obeys, bytes == right);
            found += u32::from(obeys);
            all += 1;
        }
        assert_eq!(found, 1, "{made:?} {orders:?}");
        full += u32::from(chunks.len() == blocks);
        obeying += found;
        let version = made.sizes.version;
        let by_other = arranged_by(3 - version, &made, &orders);
        assert_eq!(is_image(&by_other), by_other == right);
        met[version as usize] += 1;
        told_apart[version as usize] += u32::from(by_other != right);
    }
    assert!(full > 200, "{full} full tables");
    assert!(all > 10 * obeying, "{all} arrangements");
    for version in [1, 2] {
        let (met, told_apart) = (met[version], told_apart[version]);
        assert!(2 * told_apart > met && met > 1000, "{told_apart} of {met}");
    }
}

/// All orders in which some things can come.
fn all_orders<T: Copy>(things: &[T]) -> Vec<Vec<T>> {
    if things.is_empty() {
        return vec![vec![]];
    }
    let mut found = Vec::new();
    for (place, &first) in things.iter().enumerate() {
        let others = [&things[..place], &things[place + 1..]].concat();
        let behind = all_orders(&others).into_iter();
        found.extend(behind.map(|rest| [vec![first], rest].concat()));
    }
    found
}

/// Ordered linear probing: a chunk that meets a larger label takes its block, and that
/// one goes on.
fn insert<'a>(made: &Made, arrangement: &mut Arrangement<'a>, mut chunk: Chunk<'a>) {
    let blocks = arrangement.len();
    let mut block = home(made, &chunk.label);
    while let Some(other) = arrangement[block] {
        if is_smaller(made.sizes.version, &chunk.label, &other.label) {
            arrangement[block] = Some(chunk);
            chunk = other;
        }
        block = (block + 1) % blocks;
    }
    arrangement[block] = Some(chunk);
}

/// In whichever order the chunks come, each stands in the same block at the end.
#[test]
fn every_order_of_arrival_leaves_it() {
    let mut generator = Xorshift::new(23);
    let mut arrivals: Versions = [0; 3];
    for _ in 0..400 {
        let (made, orders) = tiny(&mut generator);
        let lists = lists(&made, &orders);
        let chunks = chunks(&made, &lists);
        let placed = place(&made, &chunks);
        for came in all_orders(&chunks) {
            let mut arrangement = vec![None; placed.len()];
            for chunk in came {
                insert(&made, &mut arrangement, chunk);
            }
            assert_eq!(arrangement, placed, "{made:?} {orders:?}");
            arrivals[made.sizes.version as usize] += 1;
        }
    }
    assert!(arrivals[1..].iter().all(|&n| n > 5000), "{arrivals:?}");
}

/// "Under it the search for a label ends at the first block that is empty, has
/// that label or has a larger one, or after M blocks."
fn search(made: &Made, labels: &[Option<Label>], wanted: &Label) -> Option<usize> {
    let home = home(made, wanted);
    let blocks = labels.len();
    let goes_on = |label: Label| is_smaller(made.sizes.version, &label, wanted);
    let mut round = (0..blocks).map(|step| (home + step) % blocks);
    let end = round.find(|&block| !labels[block].map_or(false, goes_on))?;
    (labels[end] == Some(*wanted)).then_some(end)
}

/// Whoever goes by the other version's order does not find every chunk.
#[test]
fn searches_end_at_the_label() {
    let mut generator = Xorshift::new(22);
    let (mut found, mut missing) = (0, 0);
    let mut lost: Versions = [0; 3];
    for _ in 0..400 {
        let made = some_made(&mut generator);
        let orders = some_orders(&mut generator, &made, 60);
        let lists = lists(&made, &orders);
        let chunks = chunks(&made, &lists);
        let labels = labels(&place(&made, &chunks));
        let version = made.sizes.version;
        let other = in_version(3 - version, made);
        for (block, label) in labels.iter().enumerate() {
            if let Some(label) = label {
                assert_eq!(search(&made, &labels, label), Some(block));
                found += 1;
                let by_other = search(&other, &labels, label);
                lost[version as usize] += u32::from(by_other.is_none());
            }
        }
        for _ in 0..20 {
            let label = Label {
                level: generator.within(1, made.sizes.beta()),
                first_key: generator.below(2 * made.sizes.orders + 2),
                chunk_number: generator.below(4),
            };
            let place = labels.iter().position(|other| *other == Some(label));
            assert_eq!(search(&made, &labels, &label), place);
            missing += u32::from(place.is_none());
        }
    }
    assert!(found > 1000 && missing > 1000, "{found} {missing}");
    assert!(lost[1] > 200 && lost[2] > 200, "{lost:?}");
}

/// "They prefer the chunk that came first": two chunks with one home, the smaller
/// label stands at home whichever order was put first.
#[test]
fn the_smaller_label_stands_nearer_home() {
    // h(x) = x, g = 0: every chunk of one level has one home.
    let seed = Seed {
        a: [0, 1, 0, 0, 0],
        b: [0; 5],
    };
    let made = Made {
        sizes: sizes(2, 2, 4, 16),
        seed,
    };
    let orders: Orders = [(2, order(1, 0)), (6, order(1, 0))].into();
    let table = image(&made, &orders).unwrap();
    let first_key = |block: usize| table[53 + block * 32 + 7];
    // 65,536 mod 16 is 0: the level 1 chunks of 0, 2 and 6 stand in 0, 1 and 2.
    assert_eq!([first_key(0), first_key(1), first_key(2)], [0, 2, 6]);
}

/// Three levels with one home: in version 1 the lowest stands there, in version 2 the
/// highest.
#[test]
fn which_level_stands_nearer_home() {
    let seed = Seed {
        a: [0, 1, 0, 0, 0],
        b: [0; 5],
    };
    let made = Made {
        sizes: sizes(2, 2, 2, 8),
        seed,
    };
    for (version, levels) in [(1, [1, 2, 3, 0]), (2, [3, 2, 1, 0])] {
        let made = in_version(version, made);
        let table = image(&made, &Orders::new()).unwrap();
        let level = |block: usize| table[53 + block * made.sizes.block_length()];
        assert_eq!([0, 1, 2, 3].map(level), levels);
    }
}

/// A label equal to its own is not smaller, whether or not rule 2 allows two.
#[test]
fn an_equal_label_is_not_smaller() {
    let made = Made {
        sizes: sizes(2, 2, 2, 4),
        seed: zero_seed(),
    };
    let label = Label {
        level: 1,
        first_key: 0,
        chunk_number: 0,
    };
    for made in [1, 2].map(|version| in_version(version, made)) {
        assert_eq!(home(&made, &label), 0);
        assert!(rule_3(&made, &[Some(label), None, None, None]));
        assert!(!rule_3(&made, &[Some(label), Some(label), None, None]));
    }
}
