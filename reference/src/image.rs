//! The bytes of a table and when they are an image ("Bytes of the table",
//! "When bytes are an image").

use crate::lists::{chunks, compare, home, lists, Chunk, Label, Order, Orders};
use crate::sizes::{
    is_key, number_at, row, short_at, Made, Seed, Sizes, BLOCK_HEAD, FRONT, HEADER, SEED,
};

/// Places of the header fields.
const VERSION_AT: usize = 0;
const LENGTH_AT: usize = 1;
const GAMMA_AT: usize = 5;
const NODES_AT: usize = 6;
const ORDERS_AT: usize = 7;
const BLOCKS_AT: usize = 9;
const HELD_AT: usize = 11;
const SEED_AT: usize = 13;

// ---- writing ---------------------------------------------------------------

/// The chunk in each block, None where the block is empty.
pub type Arrangement<'a> = Vec<Option<Chunk<'a>>>;

/// The image of these orders, or None when they make more than M chunks.
pub fn image(made: &Made, orders: &Orders) -> Option<Vec<u8>> {
    let lists = lists(made, orders);
    let chunks = chunks(made, &lists);
    let fits = chunks.len() <= made.sizes.blocks as usize;
    fits.then(|| table(made, orders.len(), &place(made, &chunks)))
}

/// Places at most M chunks, which come in the version's rising label order, each at
/// the first free block from its home, going round. All blocks passed over hold smaller
/// labels, and no later chunk moves one, so rule 3 holds.
pub fn place<'a>(made: &Made, chunks: &[Chunk<'a>]) -> Arrangement<'a> {
    let mut arrangement = vec![None; made.sizes.blocks as usize];
    for chunk in chunks {
        let mut block = home(made, &chunk.label);
        while arrangement[block].is_some() {
            block = after(made, block);
        }
        arrangement[block] = Some(*chunk);
    }
    arrangement
}

/// "block M−1 is followed by 0".
fn after(made: &Made, block: usize) -> usize {
    if block + 1 == made.sizes.blocks as usize {
        0
    } else {
        block + 1
    }
}

/// The bytes of a table with this arrangement, whether it obeys rule 3 or not.
pub fn table(made: &Made, held: usize, arrangement: &Arrangement) -> Vec<u8> {
    let mut bytes = Vec::with_capacity(made.sizes.length());
    write_header(made, held, &mut bytes);
    for block in arrangement {
        write_block(&made.sizes, block.as_ref(), &mut bytes);
    }
    bytes
}

/// Bytes 0..52.
fn write_header(made: &Made, held: usize, bytes: &mut Vec<u8>) {
    let sizes = &made.sizes;
    bytes.push(sizes.version as u8);
    bytes.extend((sizes.length() as u32).to_be_bytes());
    bytes.push(sizes.gamma as u8);
    bytes.push(sizes.nodes as u8);
    bytes.extend((sizes.orders as u16).to_be_bytes());
    bytes.extend((sizes.blocks as u16).to_be_bytes());
    bytes.extend((held as u16).to_be_bytes());
    bytes.extend(made.seed.bytes());
}

/// "A block: level (1 byte), node count (1), chunk number (2), first key of the
/// partition (4), then B nodes [..]. Unused nodes are zero. An empty block is all
/// zero."
fn write_block(sizes: &Sizes, chunk: Option<&Chunk>, bytes: &mut Vec<u8>) {
    let end = bytes.len() + sizes.block_length();
    if let Some(Chunk { label, nodes }) = chunk {
        bytes.push(label.level as u8);
        bytes.push(nodes.len() as u8);
        bytes.extend((label.chunk_number as u16).to_be_bytes());
        bytes.extend(label.first_key.to_be_bytes());
        for node in *nodes {
            write_node(sizes.version, label.level, node.key, &node.order, bytes);
        }
    }
    bytes.resize(end, 0);
}

/// "Both quantities are 0 at levels above 1 and for the front", and so is the price
/// (request A.6). The front's element has no others.
fn write_node(version: u32, level: u32, key: u32, order: &Order, bytes: &mut Vec<u8>) {
    let none = Order::default();
    write_row(version, key, if level == 1 { order } else { &none }, bytes);
}

/// A row of a span, and a node that has the order: "key, total, displayed" and in
/// version 2 price, four bytes each.
pub fn write_row(version: u32, key: u32, order: &Order, bytes: &mut Vec<u8>) {
    let numbers = [key, order.total, order.displayed, order.price];
    for number in &numbers[..row(version) / 4] {
        bytes.extend(number.to_be_bytes());
    }
}

// ---- reading ---------------------------------------------------------------

/// The bytes of a block that is not empty, and what its head says.
#[derive(Clone, Copy)]
pub struct Block<'a> {
    pub label: Label,
    pub count: u32,
    version: u32,
    bytes: &'a [u8],
}

/// A node as its bytes say. In version 1 "their price is 0".
pub struct Node {
    pub key: u32,
    pub order: Order,
}

impl Block<'_> {
    /// The counted nodes, no more than there are.
    pub fn nodes(&self) -> impl Iterator<Item = Node> + '_ {
        let places = self.bytes[BLOCK_HEAD..].chunks_exact(row(self.version));
        places.take(self.count as usize).map(read_node)
    }
}

/// A node of 12 or 16 bytes.
fn read_node(bytes: &[u8]) -> Node {
    Node {
        key: number_at(bytes, 0),
        order: Order {
            total: number_at(bytes, 4),
            displayed: number_at(bytes, 8),
            price: if bytes.len() > 12 {
                number_at(bytes, 12)
            } else {
                0
            },
        },
    }
}

/// The head of a block as it stands; None for an empty block, which "is all zero".
fn read_block(version: u32, bytes: &[u8]) -> Option<Block<'_>> {
    let empty = bytes.iter().all(|&byte| byte == 0);
    (!empty).then(|| Block {
        label: Label {
            level: u32::from(bytes[0]),
            first_key: number_at(bytes, 4),
            chunk_number: short_at(bytes, 2),
        },
        count: u32::from(bytes[1]),
        version,
        bytes,
    })
}

/// Blocks 0..M−1 of a table of the right length.
fn read_blocks<'a>(sizes: &Sizes, table: &'a [u8]) -> Vec<Option<Block<'a>>> {
    table[HEADER..]
        .chunks_exact(sizes.block_length())
        .map(|bytes| read_block(sizes.version, bytes))
        .collect()
}

/// The blocks of a table for showing them; None where rule 1 fails.
pub fn blocks(table: &[u8]) -> Option<Vec<Option<Block<'_>>>> {
    let header = rule_1(table)?;
    Some(read_blocks(&header.made.sizes, table))
}

/// What a table is made with; None where rule 1 fails.
pub fn made(table: &[u8]) -> Option<Made> {
    Some(rule_1(table)?.made)
}

/// Version and sizes as they stand and a seed that make allows. None when there are
/// fewer than 53 bytes or the seed is none.
fn read_made(table: &[u8]) -> Option<Made> {
    if table.len() < HEADER {
        return None;
    }
    let sizes = Sizes {
        version: u32::from(table[VERSION_AT]),
        gamma: u32::from(table[GAMMA_AT]),
        nodes: u32::from(table[NODES_AT]),
        orders: short_at(table, ORDERS_AT),
        blocks: short_at(table, BLOCKS_AT),
    };
    let seed = Seed::from_bytes(&table[SEED_AT..SEED_AT + SEED])?;
    Some(Made { sizes, seed })
}

// ---- the three rules -------------------------------------------------------

/// "Are the bytes an image?" by the letter of rules 1, 2 and 3.
pub fn is_image(table: &[u8]) -> bool {
    held(table).is_some()
}

/// Whether rule 1 holds, whatever stands in the blocks.
pub fn obeys_rule_1(table: &[u8]) -> bool {
    rule_1(table).is_some()
}

/// What the table is made with and the orders it holds, if it is an image.
pub fn held(table: &[u8]) -> Option<(Made, Orders)> {
    let Header { made, held } = rule_1(table)?;
    let blocks = read_blocks(&made.sizes, table);
    let orders = level_1_orders(&blocks);
    let labels: Vec<_> = blocks
        .iter()
        .map(|block| block.map(|block| block.label))
        .collect();
    let obeyed = orders.len() == held
        && are_orders(made.sizes.version, &orders)
        && rule_2(&made, &orders, &blocks)
        && rule_3(&made, &labels);
    obeyed.then_some((made, orders))
}

/// What a header tells beside the length.
struct Header {
    made: Made,
    held: usize,
}

/// "There are at least 53 bytes, the version is 1, the sizes and seed numbers are
/// ones that make allows, the length field has the value above and equals the
/// lent length, and n ≤ N." By request A.6 the version, too, is one that make allows.
fn rule_1(table: &[u8]) -> Option<Header> {
    let made = read_made(table)?;
    let length = number_at(table, LENGTH_AT) as usize;
    let held = short_at(table, HELD_AT);
    let obeyed = made.sizes.allowed()
        && length == made.sizes.length()
        && length == table.len()
        && held <= made.sizes.orders;
    obeyed.then_some(Header {
        made,
        held: held as usize,
    })
}

/// What stands in the blocks of level 1 beside the front. L_1 has all keys, so
/// rule 2 can hold for no other set; nor can it if a key stands there twice.
fn level_1_orders(blocks: &[Option<Block>]) -> Orders {
    let level_1 = blocks
        .iter()
        .flatten()
        .filter(|block| block.label.level == 1);
    let nodes = level_1
        .flat_map(Block::nodes)
        .filter(|node| node.key != FRONT);
    nodes.map(|node| (node.key, node.order)).collect()
}

/// Whether all of them are orders of a table of this version, "key 1..p−1".
fn are_orders(version: u32, orders: &Orders) -> bool {
    orders
        .iter()
        .all(|(&key, order)| is_key(key) && order.is_allowed(version))
}

/// "The non-empty blocks, in the byte form above, are exactly the chunks of the
/// lists of some n orders [..], each chunk in one block." No two chunks share a
/// label, so in rising label order there is one block for each chunk in turn, of
/// exactly its bytes.
fn rule_2(made: &Made, orders: &Orders, blocks: &[Option<Block>]) -> bool {
    let mut found: Vec<&Block> = blocks.iter().flatten().collect();
    found.sort_by(|one, two| compare(made.sizes.version, &one.label, &two.label));
    let lists = lists(made, orders);
    let chunks = chunks(made, &lists);
    let mut bytes = Vec::new();
    found.len() == chunks.len()
        && found.iter().zip(&chunks).all(|(block, chunk)| {
            bytes.clear();
            write_block(&made.sizes, Some(chunk), &mut bytes);
            block.bytes == bytes
        })
}

/// "Going round from a chunk's home (block M−1 is followed by 0) up to just
/// before its block, every block holds a smaller label", smaller by the version. The
/// labels are those in the blocks, None for an empty one, which holds no smaller label.
pub fn rule_3(made: &Made, labels: &[Option<Label>]) -> bool {
    let is_smaller = |passed: &Option<Label>, label: &Label| {
        let version = made.sizes.version;
        passed.map_or(false, |passed| compare(version, &passed, label).is_lt())
    };
    labels.iter().enumerate().all(|(block, label)| match label {
        Some(label) => {
            let (before_end, from_0) = going_round(labels, home(made, label), block);
            let mut passed = before_end.iter().chain(from_0);
            passed.all(|passed| is_smaller(passed, label))
        }
        None => true,
    })
}

/// The blocks from `start` up to just before `end`, going round: those up to
/// block M−1 at most, then those from block 0 on.
fn going_round<T>(blocks: &[T], start: usize, end: usize) -> (&[T], &[T]) {
    if start <= end {
        (&blocks[start..end], &[])
    } else {
        (&blocks[start..], &blocks[..end])
    }
}

// ---- the same answer in another way ----------------------------------------

/// Whether the bytes are the image of the orders that can be read from them. It
/// says the same as `is_image`, since one arrangement alone obeys rule 3.
pub fn is_image_by_rebuilding(table: &[u8]) -> bool {
    let made = match read_made(table) {
        Some(made) => made,
        None => return false,
    };
    if !made.sizes.allowed() || made.sizes.length() != table.len() {
        return false;
    }
    let orders = level_1_orders(&read_blocks(&made.sizes, table));
    are_orders(made.sizes.version, &orders)
        && orders.len() <= made.sizes.orders as usize
        && image(&made, &orders).as_deref() == Some(table)
}
