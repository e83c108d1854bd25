//! What several tests need.

// Each test file takes what it needs.
#![allow(dead_code)]

use reference::calls::{self, Reply};
use reference::image::{blocks, held, image};
use reference::lists::{chunks, lists, Label, Order, Orders};
use reference::samples::{identity_seed, some_order, some_seed, Xorshift};
use reference::sizes::{Made, Sizes, P};

/// Sizes and seed of the document's run.
pub fn document() -> Made {
    Made {
        sizes: sizes(2, 2, 2, 4),
        seed: identity_seed(),
    }
}

/// Of version 1.
pub fn sizes(gamma: u32, nodes: u32, orders: u32, blocks: u32) -> Sizes {
    Sizes {
        version: 1,
        gamma,
        nodes,
        orders,
        blocks,
    }
}

/// The same in this version.
pub fn in_version(version: u32, made: Made) -> Made {
    let sizes = Sizes {
        version,
        ..made.sizes
    };
    Made { sizes, ..made }
}

/// Without a price.
pub fn order(total: u32, displayed: u32) -> Order {
    priced(total, displayed, 0)
}

pub fn priced(total: u32, displayed: u32, price: u32) -> Order {
    Order {
        total,
        displayed,
        price,
    }
}

/// The answer that gives this order.
pub fn found(key: u32, total: u32, displayed: u32) -> Reply {
    Reply::order(key, &order(total, displayed))
}

/// A table made by the call.
pub fn made_table(made: &Made) -> Vec<u8> {
    let mut table = vec![0xa5; made.sizes.length()];
    let reply = calls::make(&made.sizes, &made.seed.bytes(), &mut table);
    assert_eq!(reply.number, 0, "{made:?}");
    table
}

/// Keys 3 and 6 held in the document's table, so that N is reached and every block
/// is used.
pub fn full_table() -> Vec<u8> {
    let mut table = made_table(&document());
    assert_eq!(calls::enter(&mut table, 6, order(50, 50)), Reply::done());
    assert_eq!(calls::enter(&mut table, 3, order(100, 20)), Reply::done());
    table
}

/// No image any more, by one bit behind the header.
pub fn damaged_table() -> Vec<u8> {
    let mut table = full_table();
    table[53 + 7] ^= 1;
    table
}

/// Whether a table has N orders, and whether its chunks fill every block.
pub fn is_full(table: &[u8]) -> (bool, bool) {
    let (made, orders) = held(table).expect("an image");
    let chunks = chunks(&made, &lists(&made, &orders)).len();
    (
        orders.len() == made.sizes.orders as usize,
        chunks == made.sizes.blocks as usize,
    )
}

/// Asks of a copy and sees that a refusal changes nothing and gives zeros.
pub fn refused(table: &[u8], call: impl Fn(&mut [u8]) -> Reply) -> u32 {
    let mut copy = table.to_vec();
    let reply = call(&mut copy);
    assert_ne!(reply.number, 0);
    assert_eq!(
        reply,
        Reply {
            number: reply.number,
            key: 0,
            total: 0,
            displayed: 0,
            price: 0,
            count: 0
        }
    );
    assert_eq!(copy, table);
    reply.number
}

/// Document 01's put on a set of orders: "Is the key 1..p−1? 5. Is total ≥ 1 and
/// displayed ≤ total? 6. Is the key held, or n < N? 7. Does the resulting set have
/// at most M chunks? 8. A put on a held key replaces both quantities."
pub fn put_of_document_01(made: &Made, orders: &mut Orders, key: u32, new: Order) -> u32 {
    let mut resulting = orders.clone();
    resulting.insert(key, new);
    let room = orders.len() < made.sizes.orders as usize;
    let most = made.sizes.blocks as usize;
    let questions = [
        (5, key >= 1 && key < P),
        (6, new.total >= 1 && new.displayed <= new.total),
        (7, orders.contains_key(&key) || room),
        (8, chunks(made, &lists(made, &resulting)).len() <= most),
    ];
    match questions.into_iter().find(|(_, yes)| !yes) {
        Some((number, _)) => number,
        None => {
            *orders = resulting;
            0
        }
    }
}

/// Some version, sizes and seed, of tables with few orders, M from tight to loose.
pub fn some_made(generator: &mut Xorshift) -> Made {
    let gamma = generator.pick(&[2, 2, 3, 4, 7, 16, 64]);
    let nodes = generator.pick(&[2, 2, 3, 4, 5, 16, 32]);
    let orders = generator.pick(&[1, 2, 3, 5, 8, 13, 30, 60]);
    let beta = sizes(gamma, nodes, orders, 0).beta();
    let blocks = match generator.below(5) {
        0 => beta,
        1 => beta + generator.below(4),
        2 => beta + orders / nodes,
        3 => beta + orders,
        _ => beta * (orders + 1),
    };
    let made = Made {
        sizes: sizes(gamma, nodes, orders, blocks),
        seed: some_seed(generator),
    };
    in_version(generator.within(1, 2), made)
}

/// A key from a range that a table of this size can fill densely, or from anywhere.
pub fn some_key(generator: &mut Xorshift, made: &Made) -> u32 {
    match generator.below(10) {
        0 => generator.within(1, P - 1),
        1 => generator.pick(&[1, P - 1]),
        _ => generator.within(1, 2 * made.sizes.orders + 2),
    }
}

/// Whether a label is the smaller one, its parts asked in turn: "by level, then first
/// key, then chunk number"; in version 2, by document 02's request A.7, "by higher
/// level first, then first key, then chunk number".
pub fn is_smaller(version: u32, one: &Label, two: &Label) -> bool {
    if one.level != two.level {
        return (one.level < two.level) == (version == 1);
    }
    if one.first_key != two.first_key {
        return one.first_key < two.first_key;
    }
    one.chunk_number < two.chunk_number
}

/// At most `wanted` orders that the table has room for.
pub fn some_orders(generator: &mut Xorshift, made: &Made, wanted: u32) -> Orders {
    let mut orders = Orders::new();
    for _ in 0..wanted.min(made.sizes.orders) {
        let key = some_key(generator, made);
        let mut more = orders.clone();
        more.insert(key, some_order(generator, made.sizes.version));
        if image(made, &more).is_some() {
            orders = more;
        }
    }
    orders
}

/// A descent's path in another way: a walk over the blocks as they stand. In each
/// level it goes on to the next chunk while that one starts at a key not above
/// the one sought.
pub fn walked_path(table: &[u8], key: u32) -> Vec<u16> {
    let blocks = blocks(table).expect("an image");
    let find = |level, first_key, chunk_number| {
        let label = Label {
            level,
            first_key,
            chunk_number,
        };
        blocks
            .iter()
            .position(|block| block.map(|block| block.label) == Some(label))
    };
    let keys = |at: usize| -> Vec<u32> {
        let block = blocks[at].expect("a chunk");
        block.nodes().map(|node| node.key).collect()
    };
    let highest = blocks.iter().flatten().map(|block| block.label.level).max();
    let (mut path, mut head) = (Vec::new(), 0);
    for level in (1..=highest.expect("a front")).rev() {
        let mut at = find(level, head, 0).expect("a partition has a chunk 0");
        path.push(at as u16);
        for number in 1.. {
            match find(level, head, number) {
                Some(next) if keys(next)[0] <= key => at = next,
                _ => break,
            }
            path.push(at as u16);
        }
        let last = keys(at).into_iter().rfind(|&other| other <= key);
        head = last.expect("a chunk's first key was not above");
    }
    path
}
