//! The way down the levels to a key (document 02, request A.1).

use crate::image::blocks;
use crate::lists::{chunks, lists, Chunk, Label, List, Orders};
use crate::sizes::{Made, FRONT};
use std::collections::HashMap;

/// Bytes of a block's number in a path.
pub const NUMBER: usize = 2;

/// The labels on the way to a key, in the order of the way: "from level β down to
/// 1, chunks 0 up to the one with the greatest key not above the one sought, of
/// the partition headed by the greatest such key one level higher (the front at
/// level β)". The lists are L_1 to L_β, the chunks all of theirs.
pub fn way(lists: &[List], chunks: &[Chunk], key: u32) -> Vec<Label> {
    let mut way = Vec::new();
    let mut head = FRONT;
    for level in (1..=lists.len()).rev() {
        let greatest = greatest_not_above(&lists[level - 1], key);
        let has = |chunk: &Chunk| chunk.nodes.iter().any(|node| node.key == greatest);
        let partition: Vec<&Chunk> = chunks
            .iter()
            .filter(|chunk| chunk.label.level as usize == level && chunk.label.first_key == head)
            .collect();
        let last = partition.iter().position(|chunk| has(chunk));
        let last = last.expect("the next partition is headed by a greater key");
        way.extend(partition[..=last].iter().map(|chunk| chunk.label));
        head = greatest;
    }
    way
}

/// The greatest key of a list that is not above this one. The front is in every
/// list.
fn greatest_not_above(list: &List, key: u32) -> u32 {
    let keys = list.iter().map(|element| element.key);
    keys.filter(|&other| other <= key).max().unwrap_or(FRONT)
}

/// The numbers of the blocks where the chunks on the way to a key stand, in an
/// image that is made with this and holds these orders.
pub fn path(table: &[u8], made: &Made, orders: &Orders, key: u32) -> Vec<u16> {
    let lists = lists(made, orders);
    numbers(table, &way(&lists, &chunks(made, &lists), key))
}

/// The numbers of the blocks of an image where the chunks with these labels stand.
pub fn numbers(table: &[u8], labels: &[Label]) -> Vec<u16> {
    let blocks = blocks(table).expect("an image");
    let stand: HashMap<Label, u16> = (0..)
        .zip(blocks)
        .filter_map(|(number, block)| Some((block?.label, number)))
        .collect();
    labels.iter().map(|label| stand[label]).collect()
}
