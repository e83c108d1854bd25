//! What is tried, in tables of either version: edges of make, histories, every edit and every seek in small tables, crowded tables, damaged bytes,
//! prices in every node, blocks in other places, chunks of other lists, hashes and levels, long tables.

use crate::labels::{self, RULES};
use crate::steps::{most_levels, Mismatch, Outcome, Pair, Step, GAMMAS, MOST_ORDERS};
use crate::tickets::{Kind, Ticket, BOTH};
use reference::arrangements::{arranged_by, exchangeable, exchanged};
use reference::calls::Reply;
use reference::image::{held, image, place, table, write_row};
use reference::lists::{
    chunks, lists, partitions, sort, Chunk, Element, Label, List, Order, Orders,
};
use reference::paths::{path, NUMBER};
use reference::samples::{
    constant_seed, identity_seed, largest_seed, power_seed, random_seed, seed_with, some_order,
    some_price, zero_seed, Xorshift, EDGE_KEYS,
};
use reference::seeks::some_seek;
use reference::sizes::{is_key, number_at, row, Made, Seed, Sizes, BLOCK_HEAD, FRONT, HEADER, P};

/// How much is done: `make test` does 150.
#[derive(Clone, Copy)]
pub struct Amount(pub u32);

impl Amount {
    /// The tables with orders of every level come in every so many rounds.
    const BETWEEN_HASHES: u32 = 10;

    /// How often they come.
    pub fn of_hashes(self) -> u32 {
        (self.0 + Self::BETWEEN_HASHES - 1) / Self::BETWEEN_HASHES
    }
}

pub struct Rounds<'p, 'a> {
    pub pair: &'p mut Pair<'a>,
    pub generator: Xorshift,
    /// Changed tables that were still images, and that were none.
    pub still_images: u64,
    pub no_images: u64,
    /// Prices that were changed, of each kind.
    pub prices: [u64; PRICES.len()],
    /// Which version, γ and B come next.
    turn: u32,
}

impl<'p, 'a> Rounds<'p, 'a> {
    pub fn new(pair: &'p mut Pair<'a>, start: u64) -> Rounds<'p, 'a> {
        Rounds {
            pair,
            generator: Xorshift::new(start),
            still_images: 0,
            no_images: 0,
            prices: [0; PRICES.len()],
            turn: 0,
        }
    }

    pub fn all(&mut self, amount: Amount) -> Outcome {
        self.makes()?;
        for round in 0..amount.0 {
            self.histories(28)?;
            self.every_edit()?;
            for _ in 0..4 {
                let (made, orders) = self.small_image(900);
                self.every_seek(&made, orders)?;
            }
            for _ in 0..4 {
                self.crowded_table()?;
            }
            if round % Amount::BETWEEN_HASHES == 0 {
                self.hashes()?;
            }
            for _ in 0..2 {
                let (made, orders) = self.small_image(260);
                self.every_byte(&made, &orders)?;
                let (made, orders) = self.small_image(900);
                self.other_blocks(&made, &orders)?;
                self.other_lengths(&made, &orders)?;
                self.other_prices(&made, &orders)?;
            }
            for _ in 0..40 {
                self.other_chunks()?;
                self.made_up_chunks()?;
            }
        }
        self.long_tables(amount)
    }
}

// ---- make --------------------------------------------------------------------

impl Rounds<'_, '_> {
    fn make(&mut self, sizes: &Sizes, seed: &[u8], length: usize) -> Result<Reply, Box<Mismatch>> {
        let (sizes, seed) = (*sizes, seed.to_vec());
        self.pair.take(Step::Make {
            sizes,
            seed,
            length,
        })
    }

    /// Versions, sizes and seeds at and just beyond what is allowed.
    fn makes(&mut self) -> Outcome {
        for version in [1, 2] {
            self.seeds_and_lengths(sizes(version, 2, 2, 2, 4))?;
        }
        self.versions()?;
        let seed = identity_seed().bytes();
        for gamma in (0..70).chain([254, 255, 256, 257, 258, 1 << 16, u32::MAX]) {
            for nodes in [0, 1, 2, 3, 31, 32, 33, 34, 256, 258, u32::MAX] {
                let version = self.generator.within(1, 2);
                let sizes = sizes(version, gamma, nodes, 2, 4);
                self.pair.room(allowed_length(&sizes), 0xff);
                self.make(&sizes, &seed, self.pair.bytes().len())?;
            }
        }
        // β steps up just above each power of γ.
        for gamma in 2..=64u32 {
            for e in 0..=16 {
                let version = self.generator.within(1, 2);
                let power = u64::from(gamma).pow(e).min(70_000) as u32;
                for orders in [power - 1, power, power + 1] {
                    let beta = sizes(version, gamma, 2, orders, 0).beta();
                    for blocks in [beta - 1, beta] {
                        let sizes = sizes(version, gamma, 2, orders, blocks);
                        self.pair.room(allowed_length(&sizes), 1);
                        self.make(&sizes, &seed, self.pair.bytes().len())?;
                    }
                }
            }
        }
        for (orders, blocks) in [
            (65_535, 65_535),
            (65_536, 65_535),
            (65_535, 65_536),
            (1, 65_537),
            (65_537, 3),
            (u32::MAX, 4),
            (2, u32::MAX),
        ] {
            for version in [1, 2] {
                let sizes = sizes(version, 64, 2, orders, blocks);
                self.pair.room(allowed_length(&sizes), 1);
                self.make(&sizes, &seed, self.pair.bytes().len())?;
            }
        }
        Ok(())
    }

    /// Every length up to some bytes more than the right one; seeds of other lengths, and with numbers at the edge of what is allowed.
    fn seeds_and_lengths(&mut self, good: Sizes) -> Outcome {
        let seed = identity_seed().bytes();
        let length = good.length();
        self.pair.room(length + 100, 0x3c);
        for seed_length in (0..=48).chain([80, 400]) {
            let seed: Vec<u8> = seed.iter().copied().cycle().take(seed_length).collect();
            self.make(&good, &seed, length)?;
        }
        for number in 0..10 {
            for value in [0, 1, P - 1, P, P + 1, 1 << 31, u32::MAX] {
                let mut seed = seed.clone();
                seed[4 * number..4 * number + 4].copy_from_slice(&value.to_be_bytes());
                for length in [length, length - 1] {
                    self.make(&good, &seed, length)?;
                }
            }
        }
        for length in 0..=length + 100 {
            self.make(&good, &seed, length)?;
        }
        Ok(())
    }

    /// Versions that are none, alone and with a "no" to 1, to another part of 2 and to 3; the numbers are also such whose lowest byte is a version.
    fn versions(&mut self) -> Outcome {
        let seed = identity_seed().bytes();
        self.pair.room(300, 0xa5);
        for version in (0..=4).chain([127, 128, 255, 256, 257, 258, 513, 65_537, u32::MAX]) {
            // 181 is the length of version 1, 213 of version 2.
            for length in [0, 53, 181, 182, 213, 245] {
                let good = sizes(version, 2, 2, 2, 4);
                self.make(&good, &seed, length)?;
                self.make(&good, &[0xff; 40], length)?;
                self.make(&good, &seed[1..], length)?;
                self.make(&sizes(version, 2, 2, 2, 2), &seed, length)?;
            }
        }
        Ok(())
    }
}

/// The length of a table where the sizes are allowed, else a short one.
fn allowed_length(sizes: &Sizes) -> usize {
    if sizes.allowed() {
        sizes.length()
    } else {
        149
    }
}

// ---- made-up tables ----------------------------------------------------------

pub fn sizes(version: u32, gamma: u32, nodes: u32, orders: u32, blocks: u32) -> Sizes {
    Sizes {
        version,
        gamma,
        nodes,
        orders,
        blocks,
    }
}

impl Rounds<'_, '_> {
    /// Hashes of every kind: spread, all in one place, all of one level, mostly of high levels.
    fn seed(&mut self, gamma: u32) -> Seed {
        let generator = &mut self.generator;
        let random = random_seed(generator);
        match generator.below(12) {
            0 => zero_seed(),
            1 => identity_seed(),
            2 => Seed {
                b: [generator.below(P), 0, 0, 0, 0],
                ..random
            },
            3 => Seed {
                a: [generator.below(P), 0, 0, 0, 0],
                ..random
            },
            4 => constant_seed(
                generator.pick(&[0, 1, gamma, P - 1]),
                generator.pick(&[0, P - 1, P - 65_537]),
            ),
            5 => {
                let step = u64::from(gamma).pow(generator.within(1, 3)) % u64::from(P);
                Seed {
                    a: [0, step as u32, 0, 0, 0],
                    ..random
                }
            }
            6 => largest_seed(),
            7 => Seed {
                b: [0, 1, 0, 0, 0],
                ..random
            },
            _ => random,
        }
    }

    /// Some more keys than N, none twice: neighbours or far apart, often with both ends.
    fn keys(&mut self, orders: u32) -> Vec<u32> {
        let generator = &mut self.generator;
        let highest = if generator.one_in(2) {
            2 * orders + 8
        } else {
            P - 1
        };
        let mut keys: Vec<u32> = (0..orders + orders / 4 + 4)
            .map(|_| generator.within(1, highest))
            .collect();
        if generator.one_in(2) {
            keys.extend([1, P - 1]);
        }
        keys.sort_unstable();
        keys.dedup();
        generator.shuffle(&mut keys);
        keys
    }

    /// This version with this γ, B and N, M from the least on; often so many blocks that the first N keys fill the table exactly.
    fn made(&mut self, version: u32, gamma: u32, nodes: u32, orders: u32, keys: &[u32]) -> Made {
        let seed = self.seed(gamma);
        let mut made = Made {
            sizes: sizes(version, gamma, nodes, orders, 65_535),
            seed,
        };
        let beta = made.sizes.beta();
        let first = keys.iter().take(orders as usize);
        let exact = chunk_count(&made, &first.map(|&key| (key, Order::default())).collect());
        let generator = &mut self.generator;
        let blocks = match generator.below(8) {
            0 => beta,
            1 => beta + generator.within(0, 3),
            2 => generator.within(beta, exact.max(beta)),
            3 => exact + 1,
            4 => exact + generator.within(0, 2 * exact),
            _ => exact,
        };
        made.sizes.blocks = blocks.clamp(beta, 65_535);
        made
    }

    /// A table of at most some bytes, and orders that fit into it.
    fn small_image(&mut self, most: usize) -> (Made, Orders) {
        loop {
            let gamma = self.generator.pick(&[2, 2, 3, 4, 16, 64]);
            let nodes = self.generator.pick(&[2, 2, 3, 4, 8]);
            let orders = self.generator.pick(&[1, 2, 3, 4, 6, 9, 14]);
            let keys = self.keys(orders);
            let version = self.generator.within(1, 2);
            let made = self.made(version, gamma, nodes, orders, &keys);
            if made.sizes.length() > most {
                continue;
            }
            let wanted = self.generator.within(0, orders) as usize;
            let mut held = Orders::new();
            for &key in keys.iter().take(wanted) {
                held.insert(key, some_order(&mut self.generator, made.sizes.version));
                if chunk_count(&made, &held) > made.sizes.blocks {
                    held.remove(&key);
                }
            }
            return (made, held);
        }
    }
}

/// The orders of a table; none where the bytes are no image.
fn orders_of(table: &[u8]) -> Orders {
    held(table).map_or(Orders::new(), |(_, orders)| orders)
}

fn chunk_count(made: &Made, orders: &Orders) -> u32 {
    chunks(made, &lists(made, orders)).len() as u32
}

// ---- histories ---------------------------------------------------------------

/// Quantities that 6 turns down.
const BAD_QUANTITIES: [(u32, u32); 5] = [
    (0, 0),
    (0, 1),
    (100, 101),
    (1, u32::MAX),
    (u32::MAX - 1, u32::MAX),
];

impl Rounds<'_, '_> {
    /// So many histories, which go through both versions with all γ and B in turn.
    fn histories(&mut self, count: u32) -> Outcome {
        for _ in 0..count {
            // No two of 2, 63 and 31 have a common divisor, so the steps meet all three together.
            let version = 1 + self.turn % 2;
            let (gamma, nodes) = (2 + self.turn % 63, 2 + self.turn % 31);
            self.turn += 1;
            let orders = match self.generator.below(12) {
                0 => gamma,
                1 => gamma + 1,
                2 => nodes + 1,
                3 => self.generator.within(20, 120),
                _ => self.generator.pick(&[1, 2, 3, 4, 5, 8, 13, 21]),
            };
            let keys = self.keys(orders);
            let made = self.made(version, gamma, nodes, orders, &keys);
            self.history(&made, &keys, 150)?;
        }
        Ok(())
    }

    fn history(&mut self, made: &Made, keys: &[u32], steps: u32) -> Outcome {
        let length = made.sizes.length();
        let extra = self.generator.pick(&[0, 1, 16, made.sizes.block_length()]);
        self.pair.room(length + extra, self.generator.draw() as u8);
        self.pair.take(Step::Check { length })?;
        self.make(&made.sizes, &made.seed.bytes(), length)?;
        for &key in keys.iter().take(40 + steps as usize) {
            let new = some_order(&mut self.generator, made.sizes.version);
            self.ticket(Kind::Enter, length, key, new)?;
        }
        for step in 0..steps {
            self.random_step(length, keys)?;
            if step % 16 == 15 {
                self.damage(made, keys)?;
            }
        }
        self.another_way(made, length + extra)
    }

    /// A key of the pool, or one at the edges, or any number.
    fn key(&mut self, keys: &[u32]) -> u32 {
        let generator = &mut self.generator;
        match generator.below(14) {
            0 => generator.pick(&EDGE_KEYS),
            1 => generator.draw(),
            2 => generator
                .pick(keys)
                .wrapping_add(generator.pick(&[1, u32::MAX])),
            _ => generator.pick(keys),
        }
    }

    /// One call, whatever it answers.
    fn random_step(&mut self, length: usize, keys: &[u32]) -> Outcome {
        let lent = if self.generator.one_in(30) {
            let odd = [0, 1, 52, 53, length - 1, length + 1, length + 12];
            self.generator.pick(&odd).min(self.pair.bytes().len())
        } else {
            length
        };
        let length = lent;
        let key = self.key(keys);
        match self.generator.below(20) {
            0..=6 => {
                let kind = self.generator.pick(&BOTH);
                let new = self.order(length, key);
                self.ticket(kind, length, key, new)?;
            }
            7..=11 => {
                self.pair.take(Step::Cancel { length, key })?;
            }
            12 => {
                self.pair.take(Step::Check { length })?;
            }
            _ => self.reading(length, keys)?,
        }
        Ok(())
    }

    fn ticket(
        &mut self,
        kind: Kind,
        length: usize,
        key: u32,
        new: Order,
    ) -> Result<Reply, Box<Mismatch>> {
        let ticket = Ticket { kind, key, new };
        self.pair.take(Step::Ticket { length, ticket })
    }

    /// Amends a held key and enters any other.
    fn put(&mut self, length: usize, key: u32, order: Order) -> Result<Reply, Box<Mismatch>> {
        let is_held = orders_of(&self.pair.bytes()[..length]).contains_key(&key);
        let kind = if is_held { Kind::Amend } else { Kind::Enter };
        self.ticket(kind, length, key, order)
    }

    /// The version of the table, as its first byte says.
    fn version(&self) -> u32 {
        self.pair.bytes()[0].into()
    }

    /// A price that the version has not: 14 turns it down in version 1, 6 in version 2.
    fn bad_price(&mut self) -> u32 {
        match self.version() {
            1 => some_price(&mut self.generator),
            _ => 0,
        }
    }

    /// Some order; now and then with bad quantities, a bad price or both, or the one that stands under the key, or that one but for one number.
    fn order(&mut self, length: usize, key: u32) -> Order {
        let version = self.version();
        let mut new = some_order(&mut self.generator, version);
        let kind = self.generator.below(16);
        if let 0 | 1 = kind {
            (new.total, new.displayed) = self.generator.pick(&BAD_QUANTITIES);
        }
        if let 1 | 2 | 3 = kind {
            new.price = self.bad_price();
        }
        if !(4..=7).contains(&kind) {
            return new;
        }
        let own = match orders_of(&self.pair.bytes()[..length]).get(&key) {
            Some(own) => *own,
            None => return new,
        };
        match kind {
            4 => own,
            5 => Order {
                displayed: new.displayed.min(own.total),
                ..own
            },
            6 => Order {
                total: new.total.max(own.displayed),
                ..own
            },
            _ => Order {
                price: new.price,
                ..own
            },
        }
    }

    /// One lookup, descent or span, or a seek asked twice.
    fn reading(&mut self, length: usize, keys: &[u32]) -> Outcome {
        let (one, two) = (self.key(keys), self.key(keys));
        let (lo, hi) = match self.generator.below(12) {
            0 => (one, two),
            1 => (1, P - 1),
            _ => (one.min(two), one.max(two)),
        };
        let step = match self.generator.below(5) {
            0 => Step::Lookup { length, key: one },
            1 | 2 => self.descent(length, one),
            3 => self.span(length, lo, hi),
            _ => {
                let seek = self.seek(length, lo, hi);
                self.pair.take(seek.clone())?;
                seek
            }
        };
        self.pair.take(step)?;
        Ok(())
    }

    /// A span with an output of the exact room, less, more or none, or of the room that the rows of the other version take.
    fn span(&mut self, length: usize, lo: u32, hi: u32) -> Step {
        let orders = orders_of(&self.pair.bytes()[..length]);
        let inside = orders.keys().filter(|&&key| lo <= key && key <= hi);
        let (inside, width) = (inside.count(), row(self.version()));
        let needed = width * inside;
        let room = match self.generator.below(9) {
            0 => 0,
            1 => needed.saturating_sub(1),
            2 => needed.saturating_sub(width),
            3 => needed + self.generator.within(1, 30) as usize,
            4 => 12 * inside,
            5 => 12 * inside + 1,
            6 => 16 * inside,
            _ => needed,
        };
        Step::Span {
            length,
            lo,
            hi,
            room,
        }
    }

    /// A seek in that range or a narrower one, for a reserve that orders there have or just do not have.
    fn seek(&mut self, length: usize, lo: u32, hi: u32) -> Step {
        let orders = orders_of(&self.pair.bytes()[..length]);
        let (lo, hi, r) = some_seek(&mut self.generator, &orders, (lo, hi));
        Step::Seek { length, lo, hi, r }
    }

    /// A descent with an output of the exact room, less, more or none; where there is no path, with some output.
    fn descent(&mut self, length: usize, key: u32) -> Step {
        let table = &self.pair.bytes()[..length];
        let needed = match held(table) {
            Some((made, orders)) => NUMBER * path(table, &made, &orders, key).len(),
            None => self.generator.below(50) as usize,
        };
        let room = match self.generator.below(8) {
            0 => 0,
            1 => needed.saturating_sub(1),
            2 => needed.saturating_sub(NUMBER),
            3 => needed + 1,
            4 => needed + self.generator.within(2, 30) as usize,
            _ => needed,
        };
        Step::Descent { length, key, room }
    }

    /// The held orders entered into a new table in another order, with others among them that are cancelled again, and then amended: the bytes
    /// must be equal.
    fn another_way(&mut self, made: &Made, size: usize) -> Outcome {
        let length = made.sizes.length();
        let orders = match held(&self.pair.bytes()[..length]) {
            Some((_, orders)) => orders,
            None => return Err(self.pair.mismatch("a history ended without a table".into())),
        };
        let left = self.pair.tested_bytes()[..length].to_vec();
        self.pair.room(size, self.generator.draw() as u8);
        self.make(&made.sizes, &made.seed.bytes(), length)?;
        let mut others: Vec<u32> = (0..4).map(|_| self.generator.within(1, P - 1)).collect();
        others.extend(orders.keys().map(|key| key + 1));
        others.retain(|key| !orders.contains_key(key) && (1..P).contains(key));
        self.generator.shuffle(&mut others);
        others.truncate(orders.len() / 2 + 1);
        let mut wanted: Vec<u32> = orders.keys().copied().collect();
        self.generator.shuffle(&mut wanted);
        let mut mixed = [others.as_slice(), wanted.as_slice()].concat();
        self.generator.shuffle(&mut mixed);
        for &key in &mixed {
            let new = some_order(&mut self.generator, made.sizes.version);
            self.ticket(Kind::Enter, length, key, new)?;
        }
        for &key in &others {
            self.pair.take(Step::Cancel { length, key })?;
        }
        // Each as it was; those that the others kept out come in now.
        for key in wanted {
            if self.put(length, key, orders[&key])?.number != 0 {
                return Err(self
                    .pair
                    .mismatch("an order of a set that fits was turned down".into()));
            }
        }
        if self.pair.tested_bytes()[..length] != left {
            return Err(self
                .pair
                .mismatch("two histories to one set of orders left different bytes".into()));
        }
        Ok(())
    }
}

// ---- every edit of every small set ---------------------------------------------

impl Rounds<'_, '_> {
    /// Four keys, each absent or with one of two orders: from every such set that fits, every enter, amend and cancel of these keys; the order
    /// that is there, the other one, one of its quantities or its price alone, and a price that the version has not.
    fn every_edit(&mut self) -> Outcome {
        let gamma = self.generator.pick(&[2, 2, 2, 3, 4, 8]);
        let nodes = self.generator.pick(&[2, 2, 3, 4]);
        let most = self.generator.within(1, 4);
        let mut keys = self.keys(4);
        keys.truncate(4);
        let version = self.generator.within(1, 2);
        let made = self.made(version, gamma, nodes, most, &keys);
        let length = made.sizes.length();
        let (low, high) = match version {
            1 => (0, 0),
            _ => (1, u32::MAX),
        };
        let both = [(1, 0, low), (u32::MAX, u32::MAX, high)].map(order);
        let tried = match version {
            1 => vec![both[0], both[1], order((u32::MAX, 0, 0)), order((1, 0, 1))],
            _ => vec![
                both[0],
                both[1],
                order((u32::MAX, 0, 1)),
                order((1, 0, high)),
                order((1, 0, 0)),
            ],
        };
        self.pair.room(length, 0);
        for set in 0..3usize.pow(keys.len() as u32) {
            let mut orders = Orders::new();
            for (place, &key) in keys.iter().enumerate() {
                let choice = set / 3usize.pow(place as u32) % 3;
                if choice > 0 {
                    orders.insert(key, both[choice - 1]);
                }
            }
            if orders.len() > most as usize {
                continue;
            }
            let bytes = match image(&made, &orders) {
                Some(bytes) => bytes,
                None => continue,
            };
            self.pair.set(0, &bytes);
            self.pair.take(Step::Span {
                length,
                lo: 1,
                hi: P - 1,
                room: row(version) * orders.len(),
            })?;
            for &key in &keys {
                self.edits_of(&bytes, key, &tried)?;
            }
        }
        Ok(())
    }

    /// Every call with this key on a table of these bytes.
    fn edits_of(&mut self, bytes: &[u8], key: u32, tried: &[Order]) -> Outcome {
        let length = bytes.len();
        self.pair.take(Step::Lookup { length, key })?;
        let descent = self.descent(length, key);
        self.pair.take(descent)?;
        for kind in BOTH {
            for &new in tried {
                if self.ticket(kind, length, key, new)?.number == 0 {
                    self.pair.set(0, bytes);
                }
            }
        }
        if self.pair.take(Step::Cancel { length, key })?.number == 0 {
            self.pair.set(0, bytes);
        }
        Ok(())
    }
}

/// Of total, displayed and price.
fn order((total, displayed, price): (u32, u32, u32)) -> Order {
    Order {
        total,
        displayed,
        price,
    }
}

// ---- every seek in small tables ------------------------------------------------

/// Total and displayed of orders whose reserves are equal or differ by one: hidden, displayed whole, and with 1, 1, 2, 3 behind what they display.
const CLOSE_QUANTITIES: [(u32, u32); 6] = [(2, 0), (7, 7), (7, 6), (2, 1), (7, 5), (7, 4)];

impl Rounds<'_, '_> {
    /// The orders with such quantities: every seek from one of their keys to another, and from just behind the one to just before the other, for
    /// every r that one of them can have and one more. Each is asked twice.
    fn every_seek(&mut self, made: &Made, mut orders: Orders) -> Outcome {
        for order in orders.values_mut() {
            (order.total, order.displayed) = self.generator.pick(&CLOSE_QUANTITIES);
        }
        let length = made.sizes.length();
        self.stand(made, &orders);
        for &lo in orders.keys() {
            for (&hi, _) in orders.range(lo..) {
                for (lo, hi) in [(lo, hi), (lo + 1, hi - 1)] {
                    for r in 0..=4 {
                        self.pair.take(Step::Seek { length, lo, hi, r })?;
                        self.pair.take(Step::Seek { length, lo, hi, r })?;
                    }
                }
            }
        }
        Ok(())
    }
}

// ---- crowded tables ------------------------------------------------------------

impl Rounds<'_, '_> {
    /// A table with few blocks to spare, whose chunks have one home in each level or homes next to one another, so that labels of all levels meet:
    /// a descent to each of its orders, which is cancelled and entered again; then its chunks where other orders of the labels put them.
    fn crowded_table(&mut self) -> Outcome {
        let version = self.generator.within(1, 2);
        let (gamma, nodes) = (
            self.generator.pick(&[2, 3, 8]),
            self.generator.pick(&[2, 3]),
        );
        let most = self.generator.within(4, 20);
        let mut keys = self.keys(most);
        keys.truncate(most as usize);
        let seed = Seed {
            b: [self.generator.below(P), self.generator.below(2), 0, 0, 0],
            ..random_seed(&mut self.generator)
        };
        let mut made = Made {
            sizes: sizes(version, gamma, nodes, most, 65_535),
            seed,
        };
        let mut orders = Orders::new();
        for key in keys {
            orders.insert(key, some_order(&mut self.generator, version));
        }
        made.sizes.blocks = chunk_count(&made, &orders) + self.generator.below(3);
        let keys = self.stand(&made, &orders);
        let length = made.sizes.length();
        for (&key, &order) in &orders {
            let descent = self.descent(length, key);
            self.pair.take(descent)?;
            self.pair.take(Step::Cancel { length, key })?;
            self.ticket(Kind::Enter, length, key, order)?;
        }
        self.pair.take(Step::Check { length })?;
        self.other_orders(&made, &keys)
    }

    /// The table that stands there as each order of the labels has it that is not its own; then with each two neighbours exchanged that the other
    /// version's order has so.
    fn other_orders(&mut self, made: &Made, keys: &[u32]) -> Outcome {
        let right = self.pair.bytes().to_vec();
        for (_, rule) in RULES {
            let mut bytes = right.clone();
            labels::arrange(rule, &mut bytes);
            self.ask_changed(right.len(), keys, 0, &bytes)?;
        }
        for block in exchangeable(made, &right) {
            let bytes = exchanged(made, &right, block);
            self.ask_changed(right.len(), keys, 0, &bytes)?;
        }
        Ok(())
    }
}

// ---- damage ------------------------------------------------------------------

impl Rounds<'_, '_> {
    /// Asks a changed table; now and then by a descent, or by every call.
    fn ask(&mut self, length: usize, keys: &[u32]) -> Outcome {
        let image = self.pair.take(Step::Check { length })?.number == 0;
        *if image {
            &mut self.still_images
        } else {
            &mut self.no_images
        } += 1;
        if self.generator.one_in(4) {
            let key = self.key(keys);
            let descent = self.descent(length, key);
            self.pair.take(descent)?;
        }
        if self.generator.one_in(12) {
            let key = self.key(keys);
            for kind in BOTH {
                let price = u32::from(self.version() == 2);
                self.ticket(kind, length, key, order((7, 3, price)))?;
            }
            self.pair.take(Step::Cancel { length, key })?;
            self.reading(length, keys)?;
        }
        Ok(())
    }

    /// Changes the bytes from some place on, asks, and changes them back.
    fn ask_changed(&mut self, length: usize, keys: &[u32], place: usize, bytes: &[u8]) -> Outcome {
        let before = self.pair.bytes().to_vec();
        if before[place..place + bytes.len()] == *bytes {
            return Ok(());
        }
        self.pair.set(place, bytes);
        self.ask(length, keys)?;
        self.pair.set(0, &before);
        Ok(())
    }

    /// One change of a kind that somebody who edits bytes by hand would make.
    fn damage(&mut self, made: &Made, keys: &[u32]) -> Outcome {
        let sizes = &made.sizes;
        let (length, width) = (sizes.length(), sizes.block_length());
        let numbers = row(sizes.version) as u32 / 4;
        let bytes = self.pair.bytes().to_vec();
        let block = HEADER + self.generator.below(sizes.blocks) as usize * width;
        let count = usize::from(bytes[block + 1]);
        let (place, bytes) = match self.generator.below(12) {
            0 => {
                let place = self.generator.below(length as u32) as usize;
                (place, vec![bytes[place] ^ 1 << self.generator.below(8)])
            }
            1 => {
                let place = self.generator.below(HEADER as u32) as usize;
                (
                    place,
                    vec![bytes[place].wrapping_add(self.generator.pick(&[1, 255]))],
                )
            }
            // A number in some node, or the last one in a node up to the first unused, which is the price in version 2.
            kind @ (2 | 3) => {
                let used = (count as u32 + 1).min(sizes.nodes);
                let (number, values) = match kind {
                    2 => (
                        self.generator.below(numbers * sizes.nodes),
                        [0, 1, P, u32::MAX],
                    ),
                    _ => (
                        numbers * self.generator.within(1, used) - 1,
                        [0, 0, 1, u32::MAX],
                    ),
                };
                let value = self.generator.pick(&values);
                (
                    block + BLOCK_HEAD + 4 * number as usize,
                    value.to_be_bytes().to_vec(),
                )
            }
            // A tail behind the count.
            4 if count < sizes.nodes as usize => {
                let key = self.generator.pick(keys);
                tail(made, block, count, key)
            }
            // The count, with or without the node.
            5 => (
                block + 1,
                vec![bytes[block + 1].wrapping_add(self.generator.pick(&[1, 255]))],
            ),
            6 => (block + 3, vec![bytes[block + 3].wrapping_add(1)]),
            // The number of orders.
            7 => (
                12,
                vec![bytes[12].wrapping_add(self.generator.pick(&[1, 255]))],
            ),
            8 => match self.generator.below(4) {
                0 => (0, vec![0]),
                1 => (0, vec![3]),
                _ => (0, other_version(made, &bytes)),
            },
            // Chunks where the other version's order puts them.
            9 | 10 => (HEADER, self.by_other_order(made, &bytes)[HEADER..].to_vec()),
            // A block over the next.
            _ => {
                let next = if block + width < length {
                    block + width
                } else {
                    HEADER
                };
                (next, bytes[block..block + width].to_vec())
            }
        };
        self.ask_changed(length, keys, place, &bytes)
    }

    /// A table with all chunks, or only two neighbours, where the other version's order puts them.
    fn by_other_order(&mut self, made: &Made, store: &[u8]) -> Vec<u8> {
        let table = &store[..made.sizes.length()];
        let neighbours = exchangeable(made, table);
        match self.generator.below(2) {
            0 if !neighbours.is_empty() => exchanged(made, table, self.generator.pick(&neighbours)),
            _ => arranged_by(3 - made.sizes.version, made, &orders_of(table)),
        }
    }

    /// Stands a table of these orders in a new store.
    fn stand(&mut self, made: &Made, orders: &Orders) -> Vec<u32> {
        let bytes = image(made, orders).expect("they fit");
        self.pair.room(bytes.len(), 0);
        self.pair.set(0, &bytes);
        orders.keys().copied().chain([1, 2, 3, P - 1]).collect()
    }

    /// Every byte of a table changed to several values.
    fn every_byte(&mut self, made: &Made, orders: &Orders) -> Outcome {
        let keys = self.stand(made, orders);
        let bytes = self.pair.bytes().to_vec();
        self.pair.take(Step::Check {
            length: bytes.len(),
        })?;
        for place in 0..bytes.len() {
            let old = bytes[place];
            let mut values = vec![
                0,
                1,
                0xff,
                old ^ 1,
                old ^ 0x80,
                old.wrapping_add(1),
                old.wrapping_sub(1),
                old << 1,
                old ^ 0xff,
            ];
            values.sort_unstable();
            values.dedup();
            for value in values {
                self.ask_changed(bytes.len(), &keys, place, &[value])?;
            }
        }
        Ok(())
    }

    /// Blocks exchanged, moved, doubled, taken out, turned round; tails behind the count.
    fn other_blocks(&mut self, made: &Made, orders: &Orders) -> Outcome {
        let keys = self.stand(made, orders);
        let (length, width) = (made.sizes.length(), made.sizes.block_length());
        let bytes = self.pair.bytes().to_vec();
        let blocks: Vec<&[u8]> = bytes[HEADER..].chunks_exact(width).collect();
        let empty = vec![0; width];
        for one in 0..blocks.len() {
            for two in 0..blocks.len() {
                if one == two
                    || blocks.len() > 12 && !self.generator.one_in(blocks.len() as u32 / 6)
                {
                    continue;
                }
                let mut exchanged = blocks.clone();
                exchanged.swap(one, two);
                let mut doubled = blocks.clone();
                doubled[two] = blocks[one];
                let mut moved = doubled.clone();
                moved[one] = &empty;
                for changed in [exchanged, doubled, moved] {
                    self.ask_changed(length, &keys, HEADER, &changed.concat())?;
                }
            }
        }
        for turn in 0..blocks.len() {
            let mut turned = blocks.clone();
            turned.rotate_left(turn);
            self.ask_changed(length, &keys, HEADER, &turned.concat())?;
        }
        for (block, own) in blocks.iter().enumerate() {
            let at = HEADER + block * width;
            self.ask_changed(length, &keys, at, &empty)?;
            let count = usize::from(bytes[at + 1]);
            let node_width = row(made.sizes.version);
            for node in count..made.sizes.nodes as usize {
                let key = self.generator.pick(&keys);
                let (place, tail) = tail(made, at, node, key);
                for last in (3..node_width).step_by(4) {
                    self.ask_changed(length, &keys, place + last, &[1])?;
                }
                self.ask_changed(length, &keys, place, &tail)?;
            }
            // The last node cut out, its bytes kept; the first cut out, the others pulled up.
            if count > 0 {
                self.ask_changed(length, &keys, at + 1, &[count as u8 - 1])?;
                let mut shorter = own.to_vec();
                shorter[1] -= 1;
                shorter.drain(BLOCK_HEAD..BLOCK_HEAD + node_width);
                shorter.resize(width, 0);
                self.ask_changed(length, &keys, at, &shorter)?;
            }
        }
        Ok(())
    }

    /// The same bytes lent shorter and longer; version and sizes in the header changed so that the length is right again.
    fn other_lengths(&mut self, made: &Made, orders: &Orders) -> Outcome {
        let keys = self.stand(made, orders);
        let bytes = self.pair.bytes().to_vec();
        let width = made.sizes.block_length();
        let in_version = |version| Sizes {
            version,
            ..made.sizes
        };
        let most = in_version(2).length().max(bytes.len() + 2 * width);
        self.pair.room(most, 0);
        self.pair.set(0, &bytes);
        let near = bytes.len().saturating_sub(width + 2)..=bytes.len() + width + 2;
        for length in (0..=60).chain(near) {
            if length <= self.pair.bytes().len() {
                self.ask(length, &keys)?;
            }
        }
        let plus = |size: u32, change: i32| size.wrapping_add(change as u32);
        let other_sizes = [
            (1, 0, 0),
            (-1, 0, 0),
            (2, 0, 0),
            (0, 1, 0),
            (0, -1, 0),
            (0, 0, 1),
            (0, 0, -1),
            (1, 1, 1),
        ];
        let other_sizes = other_sizes.map(|(blocks, gamma, most)| Sizes {
            gamma: plus(made.sizes.gamma, gamma),
            blocks: plus(made.sizes.blocks, blocks),
            orders: plus(made.sizes.orders, most),
            ..made.sizes
        });
        for changed in other_sizes.into_iter().chain([0, 1, 2, 3].map(in_version)) {
            let length = changed.length();
            let mut header = bytes[..HEADER].to_vec();
            header[0] = changed.version as u8;
            header[1..5].copy_from_slice(&(length as u32).to_be_bytes());
            header[5] = changed.gamma as u8;
            header[7..9].copy_from_slice(&(changed.orders as u16).to_be_bytes());
            header[9..11].copy_from_slice(&(changed.blocks as u16).to_be_bytes());
            self.ask_changed(length, &keys, 0, &header)?;
        }
        self.ask_changed(bytes.len(), &keys, 0, &other_version(made, &bytes))
    }

    /// Every price of a table of version 2, those where none may be too, changed to 0, to another, and to the lowest and the highest.
    fn other_prices(&mut self, made: &Made, orders: &Orders) -> Outcome {
        if made.sizes.version == 1 {
            return Ok(());
        }
        let keys = self.stand(made, orders);
        let bytes = self.pair.bytes().to_vec();
        for block in (HEADER..bytes.len()).step_by(made.sizes.block_length()) {
            for node in 0..made.sizes.nodes as usize {
                let place = block + BLOCK_HEAD + row(2) * node;
                let price = number_at(&bytes, place + 12);
                for value in [0, 1, u32::MAX, price.wrapping_add(1), price ^ 1 << 31] {
                    if value != price {
                        let kind =
                            price_kind(&bytes[block..], node, number_at(&bytes, place), value);
                        self.prices[kind] += 1;
                        self.ask_changed(bytes.len(), &keys, place + 12, &value.to_be_bytes())?;
                    }
                }
            }
        }
        Ok(())
    }
}

/// Prices that are changed in a table of version 2.
pub const PRICES: [&str; 6] = [
    "a price in an empty block",
    "a price behind the count",
    "a price above level 1",
    "a price of the front in level 1",
    "price 0 of an order",
    "another price of an order",
];

/// Which of these a value is as the price of a node with this key.
fn price_kind(block: &[u8], node: usize, key: u32, value: u32) -> usize {
    match (block[0], usize::from(block[1])) {
        (0, _) => 0,
        (_, count) if node >= count => 1,
        (level, _) if level > 1 => 2,
        _ if key == FRONT => 3,
        _ if value == 0 => 4,
        _ => 5,
    }
}

/// The place of a node and what an order with this key would be there.
fn tail(made: &Made, block: usize, node: usize, key: u32) -> (usize, Vec<u8>) {
    let version = made.sizes.version;
    let place = block + BLOCK_HEAD + row(version) * node;
    let mut bytes = Vec::new();
    write_row(version, key, &order((5, 5, 5)), &mut bytes);
    (place, bytes)
}

/// The header in the other version; where some B leaves the blocks as long as they are, with that B, so that the length is right.
fn other_version(made: &Made, table: &[u8]) -> Vec<u8> {
    let mut header = table[..HEADER].to_vec();
    let version = 3 - made.sizes.version;
    header[0] = version as u8;
    let nodes = row(made.sizes.version) * made.sizes.nodes as usize;
    if nodes % row(version) == 0 {
        header[6] = (nodes / row(version)) as u8;
    }
    header
}

// ---- chunks in other places, and other chunks ---------------------------------

impl Rounds<'_, '_> {
    /// Tables that obey all rules but one: chunks placed as they came, at random, by the other version's order, cut unevenly, or of lists with
    /// other levels.
    fn other_chunks(&mut self) -> Outcome {
        let (made, orders) = self.small_image(2000);
        let own_lists = lists(&made, &orders);
        let own = chunks(&made, &own_lists);
        let bytes = match self.generator.below(8) {
            // First come, first served.
            0 | 1 => {
                let mut came = own.clone();
                self.generator.shuffle(&mut came);
                table(&made, orders.len(), &place(&made, &came))
            }
            // Anywhere.
            2 => {
                let mut arrangement = vec![None; made.sizes.blocks as usize];
                for (block, chunk) in own.iter().enumerate() {
                    arrangement[block] = Some(*chunk);
                }
                self.generator.shuffle(&mut arrangement);
                table(&made, orders.len(), &arrangement)
            }
            // Cut elsewhere than after B nodes.
            3 => {
                let cut = self.cut_unevenly(&made, &own_lists);
                if cut.len() > made.sizes.blocks as usize {
                    return Ok(());
                }
                table(&made, orders.len(), &place(&made, &cut))
            }
            // Levels by another hash, places by this one.
            4 => {
                let other = Made {
                    seed: Seed {
                        a: self.seed(made.sizes.gamma).a,
                        ..made.seed
                    },
                    ..made
                };
                let other_lists = lists(&other, &orders);
                let chunks = chunks(&other, &other_lists);
                if chunks.len() > made.sizes.blocks as usize {
                    return Ok(());
                }
                table(&made, orders.len(), &place(&made, &chunks))
            }
            // By the other version's order.
            5 | 6 => {
                let right = image(&made, &orders).expect("they fit");
                self.by_other_order(&made, &right)
            }
            // One chunk missing, or the number of orders another.
            _ => {
                let mut fewer = own.clone();
                let mut held = orders.len();
                if self.generator.one_in(2) {
                    fewer.remove(self.generator.below(own.len() as u32) as usize);
                }
                if self.generator.one_in(2) {
                    held = self.generator.below(made.sizes.orders + 2) as usize;
                }
                table(&made, held, &place(&made, &fewer))
            }
        };
        self.pair.room(bytes.len(), 0);
        self.pair.set(0, &bytes);
        let keys: Vec<u32> = orders.keys().copied().chain([1, P - 1]).collect();
        self.ask(bytes.len(), &keys)?;
        Ok(())
    }

    /// Chunks of no lists, each where a search for its label finds it: partitions that lead astray, go round, or have no end in sight. Only what
    /// a descent does there is asked; now and then a count is one that no block can have.
    fn made_up_chunks(&mut self) -> Outcome {
        let (mut made, _) = self.small_image(900);
        made.sizes.blocks += self.generator.below(40);
        let nodes = self.made_up_labels(&made.sizes);
        let mut chunks: Vec<Chunk> = nodes
            .iter()
            .map(|(label, nodes)| Chunk {
                label: *label,
                nodes,
            })
            .collect();
        sort(made.sizes.version, &mut chunks);
        let held = self.generator.within(0, made.sizes.orders) as usize;
        let mut bytes = table(&made, held, &place(&made, &chunks));
        if self.generator.one_in(3) {
            let block = self.generator.below(made.sizes.blocks) as usize;
            let count = HEADER + block * made.sizes.block_length() + 1;
            bytes[count] = self
                .generator
                .pick(&[0, 1, made.sizes.nodes as u8 + 1, 255]);
        }
        self.pair.room(bytes.len(), 0);
        self.pair.set(0, &bytes);
        for _ in 0..6 {
            let key = self.generator.pick(&[1, 2, 3, 4, 5, 7, 9, P - 1]);
            let room = self.generator.below(4 * made.sizes.blocks + 8) as usize;
            let length = bytes.len();
            self.pair.take(Step::Descent { length, key, room })?;
        }
        Ok(())
    }

    /// At most M labels with some nodes each. The front has a partition in nearly every level, so that a descent comes down.
    fn made_up_labels(&mut self, sizes: &Sizes) -> Vec<(Label, List)> {
        let beta = sizes.beta();
        let label = |level, first_key, chunk_number| Label {
            level,
            first_key,
            chunk_number,
        };
        let mut nodes: Vec<(Label, List)> = Vec::new();
        for level in 1..=beta {
            if !self.generator.one_in(12) {
                nodes.push((label(level, 0, 0), self.made_up_nodes(sizes)));
            }
        }
        let wanted = self.generator.within(beta, sizes.blocks) as usize;
        while nodes.len() < wanted {
            let level = self.generator.within(1, beta);
            let first_key = self.generator.pick(&[0, 0, 0, 1, 1, 2, 3]);
            for chunk_number in 0..=self.generator.below(8) {
                let own = label(level, first_key, chunk_number);
                let is_there = nodes.iter().any(|(other, _)| *other == own);
                if !is_there && nodes.len() < wanted {
                    nodes.push((own, self.made_up_nodes(sizes)));
                }
            }
        }
        nodes
    }

    /// Up to B nodes, their keys mostly small, in any order.
    fn made_up_nodes(&mut self, sizes: &Sizes) -> List {
        let generator = &mut self.generator;
        let count = if generator.one_in(3) {
            generator.within(0, sizes.nodes)
        } else {
            sizes.nodes
        };
        (0..count)
            .map(|_| Element {
                key: generator.pick(&[0, 0, 0, 0, 0, 1, 1, 1, 2, 3, 9, u32::MAX]),
                order: some_order(generator, sizes.version),
                level: 1,
            })
            .collect()
    }

    /// Chunks in rising label order of the version, each of 1 to B nodes.
    fn cut_unevenly<'l>(&mut self, made: &Made, lists: &'l [List]) -> Vec<Chunk<'l>> {
        let mut cut = Vec::new();
        for (level, list) in (1..).zip(lists) {
            for partition in partitions(list, level) {
                let (mut rest, mut chunk_number) = (partition, 0);
                while !rest.is_empty() {
                    let most = made.sizes.nodes.min(rest.len() as u32);
                    let (nodes, others) = rest.split_at(self.generator.within(1, most) as usize);
                    let label = Label {
                        level,
                        first_key: partition[0].key,
                        chunk_number,
                    };
                    cut.push(Chunk { label, nodes });
                    (rest, chunk_number) = (others, chunk_number + 1);
                }
            }
        }
        sort(made.sizes.version, &mut cut);
        cut
    }
}

// ---- hashes and levels ---------------------------------------------------------

impl Rounds<'_, '_> {
    /// Orders of every level, by one power of the key, by the largest sums, and by five numbers that were chosen for one key.
    fn hashes(&mut self) -> Outcome {
        for gamma in GAMMAS {
            for i in 0..5 {
                self.multiples(gamma, power_seed(i, 4 - i))?;
            }
            self.multiples(gamma, largest_seed())?;
            self.chosen_hashes(gamma)?;
        }
        Ok(())
    }

    /// γ^j, or a multiple of it that is none of γ^(j+1).
    fn multiple(&mut self, gamma: u32, j: u32) -> u32 {
        let power = gamma.pow(j);
        let most = self.generator.pick(&[1, (P - 1) / power]);
        let factor = self.generator.within(1, most);
        power * (factor - u32::from(factor % gamma == 0))
    }

    /// A table whose keys are such multiples, for every j up to β, and their neighbours.
    fn multiples(&mut self, gamma: u32, seed: Seed) -> Outcome {
        let mut keys = Vec::new();
        for j in 0..=most_levels(gamma) {
            let key = self.multiple(gamma, j);
            keys.extend([key, self.generator.pick(&[key - 1, key + 1])]);
        }
        keys.retain(|&key| is_key(key));
        self.filled(gamma, seed, &keys)
    }

    /// Tables with a key whose h is such a multiple, for every j up to β, or the number before one, or 0; its neighbour and others beside it.
    /// Among the places of the front's chunks is one whose sum is p.
    fn chosen_hashes(&mut self, gamma: u32) -> Outcome {
        let beta = most_levels(gamma);
        let mut hashes = vec![0];
        for j in 0..=beta {
            let h = self.multiple(gamma, j);
            hashes.extend([h, h - 1]);
        }
        for h in hashes {
            let any = self.generator.within(1, P - 2);
            let odd = self.generator.pick(&[1, 2, 65_536, 1 << 30, P - 2]);
            let key = self.generator.pick(&[any, odd]);
            let mut seed = seed_with(&mut self.generator, key, h);
            seed.b[0] = P - 65_536 * self.generator.within(1, beta);
            self.filled(gamma, seed, &[key, key + 1, any, odd])?;
        }
        Ok(())
    }

    /// Enters these keys into a table with room for one order more and cancels half of them. Between, a number that is no key stands in the table,
    /// which is right otherwise.
    fn filled(&mut self, gamma: u32, seed: Seed, keys: &[u32]) -> Outcome {
        let nodes = self.generator.pick(&[2, 2, 3, 8]);
        let version = self.generator.within(1, 2);
        let mut made = Made {
            sizes: sizes(version, gamma, nodes, MOST_ORDERS, 65_535),
            seed,
        };
        let mut orders = Orders::new();
        for &key in keys {
            orders.insert(key, some_order(&mut self.generator, version));
        }
        let with = |number: u32| {
            let mut more = orders.clone();
            more.insert(number, orders[&keys[0]]);
            more
        };
        made.sizes.blocks = chunk_count(&made, &with(P)) + self.generator.pick(&[0, 1, 9]);
        let length = made.sizes.length();
        self.pair.room(length, self.generator.draw() as u8);
        self.make(&made.sizes, &made.seed.bytes(), length)?;
        let mut keys: Vec<u32> = orders.keys().copied().collect();
        self.generator.shuffle(&mut keys);
        for &key in &keys {
            let reply = self.ticket(Kind::Enter, length, key, orders[&key])?;
            if reply.number == 0 {
                self.pair.tally.count_hash(&made, key);
            }
        }
        self.pair.take(Step::Check { length })?;
        let descent = self.descent(length, keys[0]);
        self.pair.take(descent)?;
        let odd = [P + 1, P + keys[0], 2 * P, u32::MAX];
        for number in [P, self.generator.pick(&odd)] {
            if let Some(bytes) = image(&made, &with(number)) {
                self.ask_changed(length, &keys, 0, &bytes)?;
            }
        }
        for &key in &keys[..keys.len() / 2] {
            self.pair.take(Step::Cancel { length, key })?;
        }
        self.pair.take(Step::Check { length })?;
        Ok(())
    }
}

// ---- long tables ---------------------------------------------------------------

impl Rounds<'_, '_> {
    /// Tables up to the greatest sizes, filled by the reference, with some calls on each.
    fn long_tables(&mut self, amount: Amount) -> Outcome {
        let random = random_seed(&mut self.generator);
        let flat = Seed {
            a: [1, 0, 0, 0, 0],
            ..random
        };
        let crowded = Seed {
            b: [P - 65_540, 0, 0, 0, 0],
            ..random
        };
        let all = [
            (sizes(1, 16, 16, 2_000, 400), random, 1_900),
            (sizes(2, 2, 2, 3_000, 0), random, 3_000),
            (sizes(2, 64, 32, 5_000, 0), flat, 5_000),
            (sizes(1, 16, 8, 3_000, 0), crowded, 3_000),
            (sizes(2, 3, 2, 300, 0), zero_seed(), 300),
            (sizes(2, 16, 16, 65_535, 20_000), random, 60_000),
            (sizes(1, 2, 3, 65_535, 65_535), identity_seed(), 20_000),
            (sizes(2, 64, 32, 65_535, 65_535), random, 65_535),
            (sizes(1, 64, 2, 65_535, 65_535), flat, 65_535),
        ];
        let tried = if amount.0 >= 10 { all.len() } else { 5 };
        for (sizes, seed, held) in all.into_iter().take(tried) {
            self.long_table(sizes, seed, held)?;
        }
        Ok(())
    }

    /// Descents, the longest paths of the table among them; any calls; changed bytes.
    fn some_calls(&mut self, made: &Made, keys: &[u32]) -> Outcome {
        let length = made.sizes.length();
        for key in [keys[0], keys[keys.len() / 2], keys[keys.len() - 1], P - 1] {
            let descent = self.descent(length, key);
            self.pair.take(descent)?;
        }
        let steps = if length > 1_000_000 { 8 } else { 40 };
        for _ in 0..steps {
            self.random_step(length, keys)?;
        }
        for _ in 0..3 {
            self.damage(made, keys)?;
        }
        Ok(())
    }

    /// As it is, as the other version's order has it, and after any calls. M = 0 asks for exactly as many blocks as there are chunks.
    fn long_table(&mut self, sizes: Sizes, seed: Seed, held: usize) -> Outcome {
        let mut orders = Orders::new();
        while orders.len() < held {
            let key = self.generator.within(1, P - 1);
            orders.insert(key, some_order(&mut self.generator, sizes.version));
        }
        let mut made = Made { sizes, seed };
        if sizes.blocks == 0 {
            made.sizes.blocks = chunk_count(&made, &orders);
        }
        let bytes = image(&made, &orders).expect("they fit");
        let keys: Vec<u32> = orders.keys().copied().collect();
        let length = bytes.len();
        self.pair.room(length, 0xaa);
        self.make(&made.sizes, &made.seed.bytes(), length)?;
        self.pair.set(HEADER, &bytes[HEADER..]);
        self.pair.set(11, &bytes[11..13]);
        self.pair.take(Step::Check { length })?;
        self.pair.take(Step::Span {
            length,
            lo: 1,
            hi: P - 1,
            room: row(sizes.version) * held,
        })?;
        let other = arranged_by(3 - sizes.version, &made, &orders);
        self.ask_changed(length, &keys, HEADER, &other[HEADER..])?;
        self.some_calls(&made, &keys)?;
        // Out, in again as another, and amended: every byte as before.
        let before = self.pair.tested_bytes().to_vec();
        let key = self.generator.pick(&keys);
        let found = self.pair.take(Step::Lookup { length, key })?;
        self.pair.take(Step::Cancel { length, key })?;
        if found.number == 0 {
            let other = some_order(&mut self.generator, sizes.version);
            self.ticket(Kind::Enter, length, key, other)?;
            let own = order((found.total, found.displayed, found.price));
            self.ticket(Kind::Amend, length, key, own)?;
            if self.pair.tested_bytes() != before {
                return Err(self
                    .pair
                    .mismatch("an order out and in again changed the bytes".into()));
            }
        }
        Ok(())
    }
}
