//! Levels, lists, chunks, homes and bytes, worked out a second time from the
//! pages in the slowest and most literal way, and compared.

mod common;

use common::{document, in_version, is_smaller, sizes, some_made, some_orders};
use reference::arrangements::tells_apart;
use reference::image::image;
use reference::lists::{chunks, compare, home, lists, Label, Orders};
use reference::samples::{
    identity_seed, largest_seed, power_seed, random_seed, seed_with, some_order, some_seed,
    Xorshift, EDGE_KEYS,
};
use reference::sizes::{is_key, Made, Seed, Sizes, P};
use std::cmp::Ordering;

// ---- the second way --------------------------------------------------------

fn slow_beta(gamma: u32, orders: u32) -> u32 {
    let e = (0..).find(|&e| u128::from(gamma).pow(e) >= u128::from(orders));
    2 + e.unwrap()
}

fn slow_hash(c: &[u32; 5], x: u32) -> u32 {
    let p = u128::from(P);
    let x = u128::from(x);
    let powers = [
        1,
        x % p,
        x * x % p,
        x * x * x % p,
        (x * x % p) * (x * x % p) % p,
    ];
    let sum: u128 = c
        .iter()
        .zip(powers)
        .map(|(&c, power)| u128::from(c) * power)
        .sum();
    (sum % p) as u32
}

/// x^exponent mod p by squaring: no power is made from the one before.
fn squared_power(x: u32, exponent: u32) -> u128 {
    let p = u128::from(P);
    let half = match exponent {
        0 => return 1,
        _ => squared_power(x, exponent / 2),
    };
    let odd = if exponent % 2 == 1 { x } else { 1 };
    half * half % p * u128::from(odd) % p
}

/// The sum of the numbers times these powers.
fn squared_hash(c: &[u32; 5], x: u32) -> u32 {
    let terms = (0..)
        .zip(c)
        .map(|(i, &c)| u128::from(c) * squared_power(x, i));
    (terms.sum::<u128>() % u128::from(P)) as u32
}

fn slow_level(made: &Made, key: u32) -> u32 {
    let beta = slow_beta(made.sizes.gamma, made.sizes.orders);
    let h = u128::from(slow_hash(&made.seed.a, key));
    if key == 0 || h == 0 {
        return beta;
    }
    let divides = |j: u32| h % u128::from(made.sizes.gamma).pow(j) == 0;
    1 + (0..beta).filter(|&j| divides(j)).max().unwrap()
}

/// Level, first key and chunk number.
type Parts = (u32, u32, u32);

fn slow_home(made: &Made, label: Parts) -> usize {
    let (level, first_key, chunk_number) = label;
    let g = u128::from(slow_hash(&made.seed.b, first_key));
    let sum = g + 65_536 * u128::from(level) + u128::from(chunk_number);
    (sum % u128::from(P) % u128::from(made.sizes.blocks)) as usize
}

/// What labels are sorted by: the level, in version 2 from the highest down (document
/// 02, A.7), then the two others.
fn rising(made: &Made, (level, first_key, chunk_number): Parts) -> (i64, u32, u32) {
    let level = match made.sizes.version {
        2 => -i64::from(level),
        _ => i64::from(level),
    };
    (level, first_key, chunk_number)
}

/// Label and keys of a chunk.
type SlowChunk = (Parts, Vec<u32>);

/// Every chunk, in any order.
fn slow_chunks(made: &Made, orders: &Orders) -> Vec<SlowChunk> {
    let beta = slow_beta(made.sizes.gamma, made.sizes.orders);
    let list = |k: u32| -> Vec<u32> {
        let keys = std::iter::once(0).chain(orders.keys().copied());
        keys.filter(|&key| slow_level(made, key) >= k).collect()
    };
    let mut found = Vec::new();
    for k in 1..=beta {
        let starts = if k == beta { vec![0] } else { list(k + 1) };
        for (i, &first) in starts.iter().enumerate() {
            let next = starts.get(i + 1).copied().unwrap_or(u32::MAX);
            let partition: Vec<u32> = list(k)
                .into_iter()
                .filter(|&key| first <= key && key < next)
                .collect();
            let m = partition.len() as u32;
            for from in (0..m).step_by(made.sizes.nodes as usize) {
                let to = m.min(from + made.sizes.nodes);
                found.push((
                    (k, first, from / made.sizes.nodes),
                    partition[from as usize..to as usize].to_vec(),
                ));
            }
        }
    }
    found
}

/// The image by ordered linear probing: the chunks come in any order, and on
/// meeting a larger label a chunk takes its block and sends it on.
fn slow_image(made: &Made, orders: &Orders, generator: &mut Xorshift) -> Vec<u8> {
    let mut chunks = slow_chunks(made, orders);
    generator.shuffle(&mut chunks);
    let blocks = made.sizes.blocks as usize;
    assert!(chunks.len() <= blocks, "{made:?} {orders:?}");
    let mut placed: Vec<Option<SlowChunk>> = vec![None; blocks];
    for mut chunk in chunks {
        let mut block = slow_home(made, chunk.0);
        while let Some(other) = placed[block].take() {
            let (smaller, larger) = if rising(made, chunk.0) < rising(made, other.0) {
                (chunk, other)
            } else {
                (other, chunk)
            };
            placed[block] = Some(smaller);
            chunk = larger;
            block = (block + 1) % blocks;
        }
        placed[block] = Some(chunk);
    }
    slow_bytes(made, orders, &placed)
}

fn slow_bytes(made: &Made, orders: &Orders, placed: &[Option<SlowChunk>]) -> Vec<u8> {
    // Document 02, A.6: nodes of 16 bytes, the last four for the price.
    let version = made.sizes.version;
    let row = if version == 2 { 16 } else { 12 };
    let block_length = 8 + row * made.sizes.nodes as usize;
    let length = 53 + placed.len() * block_length;
    let mut bytes = vec![0; length];
    let mut write = |place: usize, width: usize, number: u32| {
        let four = number.to_be_bytes();
        bytes[place..place + width].copy_from_slice(&four[4 - width..]);
    };
    write(0, 1, version);
    write(1, 4, length as u32);
    write(5, 1, made.sizes.gamma);
    write(6, 1, made.sizes.nodes);
    write(7, 2, made.sizes.orders);
    write(9, 2, made.sizes.blocks);
    write(11, 2, orders.len() as u32);
    for i in 0..5 {
        write(13 + 4 * i, 4, made.seed.a[i]);
        write(33 + 4 * i, 4, made.seed.b[i]);
    }
    for (number, block) in placed.iter().enumerate() {
        let ((level, first_key, chunk_number), keys) = match block {
            Some(chunk) => chunk,
            None => continue,
        };
        let place = 53 + number * block_length;
        write(place, 1, *level);
        write(place + 1, 1, keys.len() as u32);
        write(place + 2, 2, *chunk_number);
        write(place + 4, 4, *first_key);
        for (i, key) in keys.iter().enumerate() {
            let node = place + 8 + row * i;
            write(node, 4, *key);
            if *level == 1 && *key != 0 {
                write(node + 4, 4, orders[key].total);
                write(node + 8, 4, orders[key].displayed);
                if version == 2 {
                    write(node + 12, 4, orders[key].price);
                }
            }
        }
    }
    bytes
}

// ---- comparing -------------------------------------------------------------

#[test]
fn beta_for_every_gamma() {
    for gamma in 2..=64 {
        let mut orders = vec![1, 2, 3, 65_534, 65_535];
        let powers = (1..17).map(|e| u64::from(gamma).pow(e));
        for power in powers.take_while(|&power| power < 65_535) {
            orders.extend([power - 1, power, power + 1].map(|n| n as u32));
        }
        for n in orders {
            assert_eq!(
                sizes(gamma, 2, n, 20).beta(),
                slow_beta(gamma, n),
                "γ {gamma} N {n}"
            );
        }
    }
}

#[test]
fn sizes_allowed_at_their_ends() {
    let allowed = |gamma, nodes, orders, blocks| sizes(gamma, nodes, orders, blocks).allowed();
    assert!(allowed(2, 2, 1, 2) && allowed(64, 32, 65_535, 65_535));
    assert!(allowed(2, 2, 65_535, 18) && !allowed(2, 2, 65_535, 17));
    assert!(allowed(64, 2, 65_535, 5) && !allowed(64, 2, 65_535, 4));
    for gamma in [0, 1, 65, 256 + 2, u32::MAX] {
        assert!(!allowed(gamma, 2, 1, 100), "γ {gamma}");
    }
    for nodes in [0, 1, 33, 256 + 2, u32::MAX] {
        assert!(!allowed(2, nodes, 1, 100), "B {nodes}");
    }
    for orders in [0, 65_536, 65_537, u32::MAX] {
        assert!(!allowed(2, 2, orders, 65_535), "N {orders}");
    }
    for blocks in [0, 1, 65_536, 65_538, u32::MAX] {
        assert!(!allowed(2, 2, 1, blocks), "M {blocks}");
    }
}

#[test]
fn hashes_and_levels() {
    let mut generator = Xorshift::new(11);
    let mut seen = [0; 20];
    for _ in 0..20_000 {
        let gamma = generator.pick(&[2, 3, 5, 16, 40, 64]);
        let orders = generator.pick(&[1, 2, 10, 1000, 65_535]);
        let made = Made {
            sizes: sizes(gamma, 2, orders, 20),
            seed: some_seed(&mut generator),
        };
        let small = generator.within(0, 5000);
        let large = generator.within(1, P - 1);
        let key = generator.pick(&[small, large, 1, P - 1]);
        assert_eq!(
            made.seed.h(key),
            slow_hash(&made.seed.a, key),
            "{made:?} {key}"
        );
        assert_eq!(
            made.seed.g(key),
            slow_hash(&made.seed.b, key),
            "{made:?} {key}"
        );
        assert_eq!(made.level(key), slow_level(&made, key), "{made:?} {key}");
        seen[made.level(key) as usize] += 1;
    }
    assert!(
        seen[1..=5].iter().all(|&times| times > 100),
        "levels seen: {seen:?}"
    );
}

/// Keys at the ends and numbers whose powers go round p, then numbers that no
/// table may hold but damaged bytes say. Behind each its powers 0 to 4 mod p,
/// worked out by hand: 2^31 is 1 there, and p − n is −n.
const POWERS: [(u32, [u32; 5]); 11] = [
    (0, [1, 0, 0, 0, 0]),
    (1, [1; 5]),
    (2, [1, 2, 4, 8, 16]),
    (P - 1, [1, P - 1, 1, P - 1, 1]),
    (P - 2, [1, P - 2, 4, P - 8, 16]),
    (1 << 30, [1, 1 << 30, 1 << 29, 1 << 28, 1 << 27]),
    (65_536, [1, 65_536, 2, 1 << 17, 4]),
    (P, [1, 0, 0, 0, 0]),
    (1 << 31, [1; 5]),
    (2 * P, [1, 0, 0, 0, 0]),
    (u32::MAX, [1; 5]),
];

/// "h(x) = (a0 + a1·x + a2·x² + a3·x³ + a4·x⁴) mod p. g(x) is the same with
/// b0..b4": with one number 1 and the others 0 that is one power; with all of
/// them p−1, the largest sums, it is p less the sum of the five powers.
#[test]
fn hashes_of_one_power_and_of_all() {
    assert_eq!(squared_power(3, P - 1), 1); // Fermat's theorem: p is prime
    for (x, powers) in POWERS {
        for (i, &power) in powers.iter().enumerate() {
            assert_eq!(squared_power(x, i as u32), power.into(), "{x}^{i}");
            for k in 0..5 {
                let seed = power_seed(i, k);
                assert_eq!(seed.h(x), power, "{x}^{i}");
                assert_eq!(seed.g(x), powers[k], "{x}^{k}");
            }
        }
        let sum: u64 = powers.into_iter().map(u64::from).sum();
        let expected = (5 * u64::from(P) - sum) % u64::from(P);
        assert_eq!(u64::from(largest_seed().h(x)), expected, "{x}");
        assert_eq!(u64::from(largest_seed().g(x)), expected, "{x}");
    }
}

/// The same passage on many seeds: all that have only 0, 1 and p−1, and random
/// ones.
#[test]
fn hashes_by_squared_powers() {
    let mut generator = Xorshift::new(19);
    let mut seeds: Vec<Seed> = (0..3usize.pow(5))
        .map(|choice| {
            let a = std::array::from_fn(|i| [0, 1, P - 1][choice / 3usize.pow(i as u32) % 3]);
            let mut b = a;
            b.reverse();
            Seed { a, b }
        })
        .collect();
    seeds.extend((0..500).map(|_| random_seed(&mut generator)));
    for seed in seeds {
        let some = [(); 20].map(|_| generator.draw());
        for x in POWERS.into_iter().map(|(x, _)| x).chain(some) {
            assert_eq!(seed.h(x), squared_hash(&seed.a, x), "{seed:?} {x}");
            assert_eq!(seed.g(x), squared_hash(&seed.b, x), "{seed:?} {x}");
        }
    }
}

/// "level(x) = 1 + the largest j ≤ β−1 such that γ^j divides h(x); h(x) = 0 gives
/// β": h is γ^j, a multiple of it that is none of γ^(j+1), a neighbour, or 0. Both
/// where h(x) = x and where all five numbers of h count.
#[test]
fn levels_of_powers_and_multiples() {
    let mut generator = Xorshift::new(20);
    for gamma in [2, 3, 16, 63, 64] {
        for orders in [1, gamma, gamma + 1, 1000, 65_535] {
            let sizes = sizes(gamma, 2, orders, 20);
            let beta = slow_beta(gamma, orders);
            let mut judge = |h, level| {
                let key = generator.pick(&POWERS).0;
                let key = if is_key(key) { key } else { 77 };
                let mut ways = vec![(key, seed_with(&mut generator, key, h))];
                if is_key(h) {
                    ways.push((h, identity_seed()));
                }
                for (key, seed) in ways {
                    let made = Made { sizes, seed };
                    assert_eq!(squared_hash(&seed.a, key), h, "{made:?} {key}");
                    assert_eq!(slow_level(&made, key), level, "{made:?} {key}");
                    assert_eq!(made.level(key), level, "{made:?} {key}");
                }
            };
            judge(0, beta);
            for j in 0..=beta {
                let power = gamma.pow(j);
                let most = 100.min((P - 1) / power);
                for factor in (1..=most).filter(|factor| factor % gamma != 0) {
                    judge(power * factor, 1 + j.min(beta - 1));
                }
                if j > 0 {
                    judge(power - 1, 1);
                    judge(power + 1, 1);
                }
            }
        }
    }
}

/// h(x) = 0 for a key that is not the front, and the front where h(0) is not 0.
#[test]
fn levels_of_zero_and_the_front() {
    let root = Seed {
        a: [P - 77, 1, 0, 0, 0],
        b: [0; 5],
    };
    let made = Made {
        sizes: sizes(3, 2, 100, 20),
        seed: root,
    };
    assert_eq!(made.sizes.beta(), 7);
    assert_eq!(made.seed.h(77), 0);
    assert_eq!(made.level(77), 7);
    assert_ne!(made.seed.h(0) % 3, 0);
    assert_eq!(made.level(0), 7);
}

/// "Labels compare by level, then first key, then chunk number"; in version 2 by
/// "higher level first" (document 02, request A.7).
#[test]
fn labels_compare_by_level_then_key_then_chunk() {
    let mut generator = Xorshift::new(12);
    let mut label = || Label {
        level: generator.pick(&[1, 2, 18, 255]),
        first_key: generator.pick(&[0, 1, 65_535, 65_536, P - 1, u32::MAX]),
        chunk_number: generator.pick(&[0, 1, 65_535]),
    };
    for _ in 0..20_000 {
        let (one, two) = (label(), label());
        for version in [1, 2] {
            let expected = match (is_smaller(version, &one, &two), one == two) {
                (true, _) => Ordering::Less,
                (_, true) => Ordering::Equal,
                _ => Ordering::Greater,
            };
            assert_eq!(compare(version, &one, &two), expected, "{one:?} {two:?}");
        }
        // The versions differ where the levels do, and only there.
        let both = [1, 2].map(|version| compare(version, &one, &two));
        assert_eq!(both[0] == both[1], one.level == two.level);
    }
}

/// By hand: each label is smaller than the next.
#[test]
fn labels_of_each_version_by_hand() {
    let by_level = [
        (1, 0, 0),
        (1, 0, 1),
        (1, 6, 0),
        (2, 0, 0),
        (2, 0, 1),
        (3, 0, 0),
    ];
    let upper_first = [
        (3, 0, 0),
        (2, 0, 0),
        (2, 0, 1),
        (1, 0, 0),
        (1, 0, 1),
        (1, 6, 0),
    ];
    for (version, labels) in [(1, by_level), (2, upper_first)] {
        let labels = labels.map(|(level, first_key, chunk_number)| Label {
            level,
            first_key,
            chunk_number,
        });
        for pair in labels.windows(2) {
            assert_eq!(compare(version, &pair[0], &pair[1]), Ordering::Less);
            assert_eq!(compare(version, &pair[1], &pair[0]), Ordering::Greater);
            assert_eq!(compare(version, &pair[0], &pair[0]), Ordering::Equal);
        }
    }
}

/// A home is the same in either version: the level counts in it as it did.
#[test]
fn homes() {
    let mut generator = Xorshift::new(13);
    for _ in 0..20_000 {
        let blocks = generator.within(20, 65_535);
        let made = Made {
            sizes: sizes(2, 2, 1000, blocks),
            seed: some_seed(&mut generator),
        };
        let label = (
            generator.within(1, 18),
            generator.below(P),
            generator.below(32_768),
        );
        let (level, first_key, chunk_number) = label;
        for made in [1, 2].map(|version| in_version(version, made)) {
            let found = home(
                &made,
                &Label {
                    level,
                    first_key,
                    chunk_number,
                },
            );
            assert_eq!(found, slow_home(&made, label), "{made:?} {label:?}");
        }
    }
}

/// The chunks are those of the definition and come in rising label order, which is the
/// version's.
#[test]
fn chunks_by_definition() {
    let mut generator = Xorshift::new(14);
    let mut with_second_chunk = 0;
    for _ in 0..1500 {
        let made = some_made(&mut generator);
        let orders = some_orders(&mut generator, &made, 60);
        let lists = lists(&made, &orders);
        let found: Vec<_> = chunks(&made, &lists)
            .iter()
            .map(|chunk| {
                let Label {
                    level,
                    first_key,
                    chunk_number,
                } = chunk.label;
                let keys: Vec<u32> = chunk.nodes.iter().map(|node| node.key).collect();
                ((level, first_key, chunk_number), keys)
            })
            .collect();
        with_second_chunk += u32::from(found.iter().any(|(label, _)| label.2 > 0));
        let mut expected = slow_chunks(&made, &orders);
        expected.sort_by_key(|(label, _)| rising(&made, *label));
        assert_eq!(found, expected, "{made:?}");
    }
    assert!(with_second_chunk > 200, "{with_second_chunk}");
}

/// Placing in rising order and ordered probing in any order give equal bytes. In many
/// tables of either version the other's order would put a chunk elsewhere.
#[test]
fn images_by_ordered_probing() {
    let mut generator = Xorshift::new(15);
    let (mut full, mut told_apart) = (0, [0; 3]);
    for _ in 0..1500 {
        let made = some_made(&mut generator);
        let orders = some_orders(&mut generator, &made, 60);
        let expected = slow_image(&made, &orders, &mut generator);
        assert_eq!(
            image(&made, &orders).unwrap(),
            expected,
            "{made:?} {orders:?}"
        );
        let chunks = slow_chunks(&made, &orders).len();
        full += u32::from(chunks == made.sizes.blocks as usize);
        let version = made.sizes.version as usize;
        told_apart[version] += u32::from(tells_apart(&made, &orders));
    }
    assert!(full > 50, "{full} tables were full");
    let [_, first, second] = told_apart;
    assert!(first > 200 && second > 200, "{first} {second}");
}

/// A larger table, to see chunk numbers and keys of several bytes.
#[test]
fn large_images() {
    let mut generator = Xorshift::new(16);
    let all_level_1 = Seed {
        a: [1, 0, 0, 0, 0],
        ..random_seed(&mut generator)
    };
    let seeds = [random_seed(&mut generator), all_level_1];
    for (version, seed) in [1, 2].into_iter().flat_map(|v| seeds.map(|seed| (v, seed))) {
        let sizes = sizes(64, 2, 700, 800);
        let made = in_version(version, Made { sizes, seed });
        let mut orders = Orders::new();
        for _ in 0..700 {
            let key = generator.within(1, P - 1);
            orders.insert(key, some_order(&mut generator, version));
        }
        let table = image(&made, &orders).unwrap();
        assert_eq!(table, slow_image(&made, &orders, &mut generator));
    }
    let made = Made {
        sizes: sizes(64, 2, 700, 800),
        seed: all_level_1,
    };
    let label = Label {
        level: 1,
        first_key: 0,
        chunk_number: 300,
    };
    assert_eq!(home(&made, &label), slow_home(&made, (1, 0, 300)));
}

/// More than M chunks have no image, M chunks have one.
#[test]
fn images_end_at_the_number_of_blocks() {
    let mut generator = Xorshift::new(17);
    let (mut fitting, mut exact) = (0, 0);
    for _ in 0..3000 {
        let made = some_made(&mut generator);
        let loose = Made {
            sizes: Sizes {
                blocks: 2000,
                ..made.sizes
            },
            ..made
        };
        let orders = some_orders(&mut generator, &loose, 60);
        let chunks = slow_chunks(&made, &orders).len() as u32;
        assert_eq!(image(&made, &orders).is_some(), chunks <= made.sizes.blocks);
        fitting += u32::from(chunks <= made.sizes.blocks);
        exact += u32::from(chunks == made.sizes.blocks);
    }
    assert!(
        exact > 20 && fitting > exact && fitting < 3000,
        "{exact} {fitting}"
    );
}

/// Taking an order away never makes more chunks, so cancel has no question 8.
#[test]
fn fewer_orders_make_no_more_chunks() {
    let mut generator = Xorshift::new(18);
    let mut merged = 0;
    for _ in 0..500 {
        let made = some_made(&mut generator);
        let orders = some_orders(&mut generator, &made, 60);
        let before = chunks(&made, &lists(&made, &orders)).len();
        for key in orders.keys() {
            let mut fewer = orders.clone();
            fewer.remove(key);
            let after = chunks(&made, &lists(&made, &fewer)).len();
            assert!(after <= before, "{made:?} {orders:?} without {key}");
            merged += u32::from(after < before);
        }
    }
    assert!(merged > 100, "{merged}");
}

#[test]
fn seeds_from_bytes() {
    let seed = document().seed;
    assert_eq!(Seed::from_bytes(&seed.bytes()), Some(seed));
    for length in [0, 1, 4, 39, 41, 44, 80] {
        let bytes: Vec<u8> = seed.bytes().into_iter().cycle().take(length).collect();
        assert_eq!(Seed::from_bytes(&bytes), None, "{length} bytes");
    }
    for number in EDGE_KEYS {
        let mut bytes = seed.bytes();
        bytes[36..].copy_from_slice(&number.to_be_bytes());
        let expected = (number < P).then_some(Seed {
            b: [0, 1, 0, 0, number],
            ..seed
        });
        assert_eq!(Seed::from_bytes(&bytes), expected);
    }
}
