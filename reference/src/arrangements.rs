//! Tables that show by which order the labels compare (document 02, request A.7), and
//! the kinds of calls that a test of either order has to meet.

use crate::image::{blocks, held, image, is_image, made, place, table, Block};
use crate::lists::{chunks, compare, home, lists, sort, Label, Orders};
use crate::paths::way;
use crate::sizes::{number_at, short_at, Made, HEADER};
use std::cmp::Ordering;

fn other_version(made: &Made) -> u32 {
    3 - made.sizes.version
}

/// The label in each block of a table that obeys rule 1.
fn labels(table: &[u8]) -> Vec<Option<Label>> {
    let blocks = blocks(table).expect("rule 1 holds");
    let label = |block: Option<Block>| Some(block?.label);
    blocks.into_iter().map(label).collect()
}

// ---- by the other order ------------------------------------------------------

/// The bytes of these orders, which fit, with the chunks where the labels' order of
/// this version puts them. They are an image if that is the table's own version, or if
/// both put every chunk into the same block.
pub fn arranged_by(version: u32, made: &Made, orders: &Orders) -> Vec<u8> {
    let lists = lists(made, orders);
    let mut chunks = chunks(made, &lists);
    sort(version, &mut chunks);
    table(made, orders.len(), &place(made, &chunks))
}

/// Whether the other version's order would put some chunk of these orders elsewhere.
pub fn tells_apart(made: &Made, orders: &Orders) -> bool {
    image(made, orders) != Some(arranged_by(other_version(made), made, orders))
}

/// Blocks of an image whose chunk changes places with that of the next block by the
/// other version's order: the next one is of another level and not at its home, so it
/// passes this one, which is smaller by the one order and larger by the other.
pub fn exchangeable(made: &Made, table: &[u8]) -> Vec<usize> {
    let labels = labels(table);
    let pairs = labels.iter().zip(&labels[1..]);
    let changes_places = |(block, (one, two)): (usize, (&Option<Label>, &Option<Label>))| {
        let (one, two) = (one.as_ref()?, two.as_ref()?);
        (one.level != two.level && home(made, two) != block + 1).then_some(block)
    };
    pairs.enumerate().filter_map(changes_places).collect()
}

/// The table with the bytes of a block and the next one exchanged.
pub fn exchanged(made: &Made, table: &[u8], block: usize) -> Vec<u8> {
    let (mut bytes, width) = (table.to_vec(), made.sizes.block_length());
    let place = HEADER + block * width;
    bytes[place..place + 2 * width].rotate_left(width);
    bytes
}

/// The blocks of a table of these sizes, whatever they hold, placed anew: by rising
/// label of some order, each at the first empty block from some home.
pub fn rearranged(
    made: &Made,
    table: &[u8],
    order: impl Fn(&Label, &Label) -> Ordering,
    home: impl Fn(&Label) -> usize,
) -> Vec<u8> {
    let label = |block: &[u8]| Label {
        level: block[0].into(),
        first_key: number_at(block, 4),
        chunk_number: short_at(block, 2),
    };
    let width = made.sizes.block_length();
    let mut used: Vec<&[u8]> = table[HEADER..].chunks_exact(width).collect();
    used.retain(|block| block.iter().any(|&byte| byte != 0));
    used.sort_by(|one, two| order(&label(one), &label(two)));
    let mut placed: Vec<Option<&[u8]>> = vec![None; made.sizes.blocks as usize];
    for block in used {
        let mut place = home(&label(block));
        while placed[place].is_some() {
            place = (place + 1) % placed.len();
        }
        placed[place] = Some(block);
    }
    let empty = vec![0; width];
    let blocks = placed.iter().flat_map(|block| block.unwrap_or(&empty));
    table[..HEADER].iter().chain(blocks).copied().collect()
}

/// The same by a version's order and the right homes.
fn rearranged_by(version: u32, made: &Made, table: &[u8]) -> Vec<u8> {
    let order = |one: &Label, two: &Label| compare(version, one, two);
    rearranged(made, table, order, |label| home(made, label))
}

/// How bytes that are no image come of one by the other version's order.
#[derive(Clone, Copy, Debug, PartialEq, Eq)]
pub enum Other {
    /// All chunks stand by it.
    All,
    /// Two neighbours have changed places.
    Neighbours,
}

/// None where they come of no image, or otherwise.
pub fn by_other_order(table: &[u8]) -> Option<Other> {
    let made = made(table)?;
    let right = rearranged_by(made.sizes.version, &made, table);
    if right == table || !is_image(&right) {
        return None;
    }
    if rearranged_by(other_version(&made), &made, table) == table {
        return Some(Other::All);
    }
    let changed = (0..)
        .zip(table)
        .find(|&(place, byte)| right[place] != *byte);
    let block = (changed?.0 - HEADER) / made.sizes.block_length();
    let exchanged =
        exchangeable(&made, &right).contains(&block) && exchanged(&made, &right, block) == table;
    exchanged.then_some(Other::Neighbours)
}

// ---- searches and edits --------------------------------------------------------

/// "The search for a label ends at the first block that is empty, has that label or has
/// a larger one, or after M blocks", larger by some order. The block that has it, if
/// that is where it ends.
pub fn search(
    made: &Made,
    labels: &[Option<Label>],
    wanted: &Label,
    order: impl Fn(&Label, &Label) -> Ordering,
) -> Option<usize> {
    let (home, blocks) = (home(made, wanted), labels.len());
    let goes_on = |label: Label| order(&label, wanted).is_lt();
    let mut round = (0..blocks).map(|step| (home + step) % blocks);
    let end = round.find(|&block| !labels[block].map_or(false, goes_on))?;
    (labels[end] == Some(*wanted)).then_some(end)
}

/// The labels on the way to a key of an image, as many as are found one after the other
/// by searches of some order; and whether all are.
pub fn found_by(
    table: &[u8],
    key: u32,
    order: impl Fn(&Label, &Label) -> Ordering,
) -> (Vec<Label>, bool) {
    let (made, orders) = held(table).expect("an image");
    let lists = lists(&made, &orders);
    let way = way(&lists, &chunks(&made, &lists), key);
    let labels = labels(table);
    let is_found = |label: &&Label| search(&made, &labels, label, &order).is_some();
    let found: Vec<Label> = way.iter().take_while(is_found).copied().collect();
    let all = found.len() == way.len();
    (found, all)
}

/// Whether somebody who goes by the other version's order does not find every chunk on
/// the way to a key of an image.
pub fn is_lost(table: &[u8], key: u32) -> bool {
    let other = 3 - u32::from(table[0]);
    let (_, all) = found_by(table, key, |one, two| compare(other, one, two));
    !all
}

/// Whether an enter drove a chunk from its block to make room for one of another level:
/// the order of the labels decides which of the two goes on. A cancel that pulls a chunk
/// back is the same from its end to its beginning.
pub fn gives_way(before: &[u8], after: &[u8]) -> bool {
    let (before, after) = (labels(before), labels(after));
    let is_driven = |(old, new): (&Option<Label>, &Option<Label>)| match (old, new) {
        (Some(old), Some(new)) => old.level != new.level && after.contains(&Some(*old)),
        _ => false,
    };
    before.iter().zip(&after).any(is_driven)
}

// ---- kinds -----------------------------------------------------------------------

/// Calls that answer or leave something else where labels compare by the other
/// version's order.
pub const ORDERS: [&str; 8] = [
    "a make of levels that the other order has otherwise",
    "a check of a table that the other order has otherwise",
    "4 to a table as the other order has it",
    "4 to two neighbours exchanged as the other order has them",
    "an enter that drives a chunk of another level on",
    "a cancel that pulls one back",
    "a descent on which the other order is lost",
    "a lookup on which the other order is lost",
];

/// Which of these kinds a call by this name is, answered by this number. The key is
/// that of a descent or lookup, the bytes are the table before and after.
pub fn kinds(
    call: &str,
    number: u32,
    key: u32,
    before: &[u8],
    after: &[u8],
) -> [bool; ORDERS.len()] {
    let mut kinds = [false; ORDERS.len()];
    let tells_apart = || held(after).map_or(false, |(made, orders)| tells_apart(&made, &orders));
    match (call, number) {
        ("make", 0) => kinds[0] = tells_apart(),
        ("check", 0) => kinds[1] = tells_apart(),
        ("check", 4) => {
            let other = by_other_order(after);
            kinds[2] = other == Some(Other::All);
            kinds[3] = other == Some(Other::Neighbours);
        }
        ("enter", 0) => kinds[4] = gives_way(before, after),
        ("cancel", 0) => kinds[5] = gives_way(after, before),
        ("descent", 0 | 9) => kinds[6] = is_lost(after, key),
        ("lookup", 0 | 9) => kinds[7] = is_lost(after, key),
        _ => {}
    }
    kinds
}
