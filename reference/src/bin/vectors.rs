//! Prints recorded vectors for a test of the calls from C.
//!
//!     vectors [LINES]
//!
//! LINES is 20,000 when left out. The same LINES gives the same text every time,
//! and a smaller one gives its beginning.
//!
//! The reader keeps a store of bytes. Each line is one step; its fields are
//! parted by one blank. Numbers are decimal. BYTES and SEED are two hex digits
//! for each byte, or `-` for no bytes. Hashes are 64-bit FNV-1a, 16 hex digits.
//!
//!     room SIZE BYTE
//!         The store becomes SIZE bytes, each of them BYTE.
//!     xor PLACE BYTE
//!         The byte at PLACE is changed to its exclusive or with BYTE.
//!     set PLACE BYTES
//!         The bytes from PLACE on become BYTES. This also undoes damage.
//!     make VERSION γ B N M SEED LENGTH = ANSWER
//!     check LENGTH = ANSWER
//!     enter LENGTH KEY TOTAL DISPLAYED PRICE = ANSWER
//!     amend LENGTH KEY TOTAL DISPLAYED PRICE = ANSWER
//!     cancel LENGTH KEY = ANSWER
//!     lookup LENGTH KEY = ANSWER
//!     descent LENGTH KEY OUTPUT = ANSWER WRITTEN
//!     descent LENGTH KEY OUTPUT = ? STORE
//!     span LENGTH LO HI OUTPUT = ANSWER WRITTEN
//!     seek LENGTH LO HI R = ANSWER
//!         A call. It is lent the first LENGTH bytes of the store as its table.
//!
//! ANSWER is NUMBER KEY TOTAL DISPLAYED PRICE COUNT STORE: the expected reply and
//! the hash of the whole store after the call. A lookup or descent that succeeds
//! repeats the key.
//!
//! OUTPUT is the length of the output lent to span or descent, byte i of which is
//! i mod 251 before the call. WRITTEN is the hash of the whole output after it.
//!
//! `?` stands where no definition decides a descent's answer. Then the store must
//! have that hash, the numbers that the reply counts, two bytes each, must have
//! room in the output, and the bytes behind them must be as before.

use reference::arrangements::{arranged_by, exchangeable, exchanged};
use reference::calls::{self, Reply};
use reference::image::held;
use reference::lists::{chunks, lists, Order, Orders};
use reference::paths::path;
use reference::samples::{
    constant_seed, fnv_1a, identity_seed, random_seed, some_order, some_price, some_seed,
    zero_seed, Xorshift, EDGE_KEYS,
};
use reference::seeks::some_seek;
use reference::sizes::{row, Made, Seed, Sizes, BLOCK_HEAD, HEADER, P};
use std::io::{self, BufWriter, Write};

fn main() -> io::Result<()> {
    let lines = match std::env::args().nth(1) {
        Some(text) => text.parse().expect("a number of lines"),
        None => 20_000,
    };
    let mut recorder = Recorder::new(lines);
    record_all(&mut recorder);
    let mut output = BufWriter::new(io::stdout().lock());
    for line in &recorder.lines {
        writeln!(output, "{line}")?;
    }
    output.flush()
}

// ---- recording -------------------------------------------------------------

/// Takes each step on its own store and writes down the line.
struct Recorder {
    store: Vec<u8>,
    lines: Vec<String>,
    wanted: usize,
}

impl Recorder {
    fn new(wanted: usize) -> Recorder {
        Recorder {
            store: Vec::new(),
            lines: Vec::new(),
            wanted,
        }
    }

    /// As the store's first byte says.
    fn version(&self) -> u32 {
        self.store[0].into()
    }

    fn done(&self) -> bool {
        self.lines.len() >= self.wanted
    }

    fn line(&mut self, text: String) {
        if !self.done() {
            self.lines.push(text);
        }
    }

    fn call(&mut self, text: String, reply: Reply, written: Option<u64>) -> Reply {
        if self.done() {
            return reply;
        }
        let Reply {
            number,
            key,
            total,
            displayed,
            price,
            count,
        } = reply;
        let store = fnv_1a(&self.store);
        let written = written.map_or(String::new(), |hash| format!(" {hash:016x}"));
        self.line(format!(
            "{text} = {number} {key} {total} {displayed} {price} {count} {store:016x}{written}"
        ));
        reply
    }

    fn room(&mut self, size: usize, byte: u8) {
        self.store = vec![byte; size];
        self.line(format!("room {size} {byte}"));
    }

    fn xor(&mut self, place: usize, byte: u8) {
        self.store[place] ^= byte;
        self.line(format!("xor {place} {byte}"));
    }

    fn set(&mut self, place: usize, bytes: &[u8]) {
        self.store[place..place + bytes.len()].copy_from_slice(bytes);
        self.line(format!("set {place} {}", hex(bytes)));
    }

    fn make(&mut self, sizes: &Sizes, seed: &[u8], length: usize) -> Reply {
        let Sizes {
            version,
            gamma,
            nodes,
            orders,
            blocks,
        } = *sizes;
        let reply = calls::make(sizes, seed, &mut self.store[..length]);
        let seed = hex(seed);
        self.call(
            format!("make {version} {gamma} {nodes} {orders} {blocks} {seed} {length}"),
            reply,
            None,
        )
    }

    fn check(&mut self, length: usize) -> Reply {
        let reply = calls::check(&self.store[..length]);
        self.call(format!("check {length}"), reply, None)
    }

    fn enter(&mut self, length: usize, key: u32, new: Order) -> Reply {
        let reply = calls::enter(&mut self.store[..length], key, new);
        self.ticket("enter", length, key, new, reply)
    }

    fn amend(&mut self, length: usize, key: u32, new: Order) -> Reply {
        let reply = calls::amend(&mut self.store[..length], key, new);
        self.ticket("amend", length, key, new, reply)
    }

    fn ticket(&mut self, word: &str, length: usize, key: u32, new: Order, reply: Reply) -> Reply {
        let Order {
            total,
            displayed,
            price,
        } = new;
        let text = format!("{word} {length} {key} {total} {displayed} {price}");
        self.call(text, reply, None)
    }

    fn cancel(&mut self, length: usize, key: u32) -> Reply {
        let reply = calls::cancel(&mut self.store[..length], key);
        self.call(format!("cancel {length} {key}"), reply, None)
    }

    fn lookup(&mut self, length: usize, key: u32) -> Reply {
        let reply = calls::lookup(&self.store[..length], key);
        self.call(format!("lookup {length} {key}"), reply, None)
    }

    /// None where no definition decides.
    fn descent(&mut self, length: usize, key: u32, room: usize) -> Option<Reply> {
        let mut output = output_before(room);
        let reply = calls::descent(&self.store[..length], key, &mut output);
        let text = format!("descent {length} {key} {room}");
        match reply {
            Some(reply) => {
                self.call(text, reply, Some(fnv_1a(&output)));
            }
            None => self.line(format!("{text} = ? {:016x}", fnv_1a(&self.store))),
        }
        reply
    }

    fn span(&mut self, length: usize, lo: u32, hi: u32, room: usize) -> Reply {
        let mut output = output_before(room);
        let reply = calls::span(&self.store[..length], lo, hi, &mut output);
        let written = Some(fnv_1a(&output));
        self.call(format!("span {length} {lo} {hi} {room}"), reply, written)
    }

    fn seek(&mut self, length: usize, lo: u32, hi: u32, r: u32) -> Reply {
        let reply = calls::seek(&self.store[..length], lo, hi, r);
        self.call(format!("seek {length} {lo} {hi} {r}"), reply, None)
    }
}

fn output_before(room: usize) -> Vec<u8> {
    (0..room).map(|i| (i % 251) as u8).collect()
}

fn hex(bytes: &[u8]) -> String {
    if bytes.is_empty() {
        return "-".to_string();
    }
    bytes.iter().map(|byte| format!("{byte:02x}")).collect()
}

// ---- what is recorded ------------------------------------------------------

/// The examples of the document in both versions, tables whose chunks have one home,
/// seeks among more orders, refusals of make, then histories by turns of either
/// version: small ones for each γ and B, two long ones, and random ones until there are
/// enough.
fn record_all(recorder: &mut Recorder) {
    let mut generator = Xorshift::new(1);
    examples(recorder, 1);
    examples(recorder, 2);
    one_home(recorder, 1);
    one_home(recorder, 2);
    lowest_orders(recorder);
    refused_makes(recorder);
    // 3 does not divide 16, so each γ and B meets both versions.
    let mut versions = [1, 2, 2].into_iter().cycle();
    for ((gamma, nodes), version) in pairs().zip(&mut versions) {
        let orders = generator.pick(&[1, 2, 5, 12, 40]);
        let sizes = unbounded(version, gamma, nodes, orders);
        small_history(recorder, &mut generator, sizes);
    }
    for (version, gamma, nodes, orders, blocks) in [(1, 16, 16, 2000, 420), (2, 3, 2, 700, 900)] {
        let sizes = Sizes {
            blocks,
            ..unbounded(version, gamma, nodes, orders)
        };
        long_history(recorder, &mut generator, sizes);
    }
    while !recorder.done() {
        for ((gamma, nodes), version) in pairs().zip(&mut versions) {
            let orders = generator.pick(&[1, 3, 7, 20, 64, 65, 150, 400]);
            let sizes = unbounded(version, gamma, nodes, orders);
            small_history(recorder, &mut generator, sizes);
        }
    }
}

/// Every γ of 2, 3, 16, 64 with every B of 2, 3, 16, 32.
fn pairs() -> impl Iterator<Item = (u32, u32)> {
    [2, 3, 16, 64]
        .into_iter()
        .flat_map(|gamma| [2, 3, 16, 32].map(|nodes| (gamma, nodes)))
}

/// An order of this version: the price is 0 in version 1.
fn order(version: u32, total: u32, displayed: u32, price: u32) -> Order {
    Order {
        total,
        displayed,
        price: if version == 1 { 0 } else { price },
    }
}

/// The sizes of the document's run.
fn document(version: u32) -> Sizes {
    Sizes {
        version,
        gamma: 2,
        nodes: 2,
        orders: 2,
        blocks: 4,
    }
}

/// P3 to P8 and "Run only", what counts as reserve (document 02, A.2), the questions
/// of enter and amend (A.4), the price (A.6), and which label is smaller (A.7).
fn examples(recorder: &mut Recorder, version: u32) {
    let sizes = document(version);
    let seed = identity_seed().bytes();
    let length = sizes.length();
    let order = |total, displayed, price| order(version, total, displayed, price);
    recorder.room(length, 0xa5);
    recorder.check(length);
    recorder.make(&sizes, &seed, length);
    recorder.span(length, 1, P - 1, 0);
    descents(recorder, length, &[1, 3]);
    other_places(recorder, length, 4);
    for key in EDGE_KEYS {
        recorder.amend(length, key, order(1, 0, 1));
        recorder.enter(length, key, order(1, 0, 1));
        recorder.lookup(length, key);
        recorder.descent(length, key, 8);
        recorder.cancel(length, key);
    }
    for (key, total, displayed) in [(3, 100, 101), (3, 100, 100), (4, 10, 0), (3, 0, 0)] {
        recorder.enter(length, key, order(total, displayed, 700));
    }
    for room in [0, 11, 12, 13, 15, 16, 17, 24] {
        recorder.span(length, 1, P - 1, room);
    }
    recorder.enter(length, 6, order(50, 50, u32::MAX));
    recorder.amend(length, 3, order(100, 20, 0x0102_0304));
    recorder.enter(length, 4, order(10, 0, 1));
    for room in [23, 24, 31, 32, 33] {
        recorder.span(length, 1, P - 1, room);
    }
    recorder.span(length, 6, 3, 32);
    for lent in [HEADER, length - 1] {
        recorder.cancel(lent, 3);
        recorder.lookup(lent, 3);
        recorder.span(lent, 3, 3, 16);
        recorder.seek(lent, 3, 3, 0);
    }
    recorder.lookup(length, 4);
    recorder.span(length, 0, P - 1, 32);
    recorder.seek(length, 1, P, 0);
    seeks(recorder, length, version);
    descents(recorder, length, &[3, 4, 6, P - 1]);
    descents_refused(recorder, length);
    other_bytes(recorder, version);
    other_places(recorder, length, 4);
    both_calls(recorder, length, version);
    recorder.cancel(length, 3);
    both_calls(recorder, length, version);
    recorder.cancel(length, 3);
}

/// Tables whose chunks have one home, the last block but one: they stand round the end
/// by rising label, the lowest level first in version 1, the highest in version 2. The
/// keys are of one level after the other, so that each that opens a partition drives
/// chunks of other levels on, and without it they come back.
fn one_home(recorder: &mut Recorder, version: u32) {
    let tables: [(u32, u32, &[u32]); 4] = [
        (1, 2, &[]),
        (2, 4, &[]),
        (4, 16, &[1, 2, 4, 8]),
        (16, 32, &[1, 2, 4, 8, 16, 24]),
    ];
    for (orders, blocks, keys) in tables {
        let sizes = Sizes {
            orders,
            blocks,
            ..document(version)
        };
        let seed = Seed {
            b: constant_seed(0, blocks - 2).b,
            ..identity_seed()
        };
        let length = sizes.length();
        recorder.room(length, 0xc3);
        recorder.make(&sizes, &seed.bytes(), length);
        for &key in keys {
            recorder.enter(length, key, order(version, 9, 5, key));
            recorder.descent(length, key, 20);
        }
        recorder.check(length);
        recorder.descent(length, 5, 20);
        other_places(recorder, length, 1);
        for &key in keys {
            recorder.cancel(length, key);
        }
    }
}

/// The chunks where the other version's order puts them, then each two neighbours
/// exchanged that it has the other way round, so many pairs at most.
fn other_places(recorder: &mut Recorder, length: usize, most: usize) {
    let before = recorder.store.clone();
    let table = &before[..length];
    let (made, orders) = held(table).expect("an image");
    let mut changed = vec![arranged_by(3 - made.sizes.version, &made, &orders)];
    let neighbours = exchangeable(&made, table).into_iter().take(most);
    changed.extend(neighbours.map(|block| exchanged(&made, table, block)));
    for bytes in changed {
        let (place, width) = difference(table, &bytes);
        recorder.set(place, &bytes[place..place + width]);
        recorder.check(length);
        recorder.cancel(length, 3);
        recorder.descent(length, 3, 6);
        recorder.set(place, &before[place..place + width]);
    }
}

/// Where two tables differ: from the first byte to the last, as place and width.
fn difference(one: &[u8], two: &[u8]) -> (usize, usize) {
    let differs = |&place: &usize| one[place] != two[place];
    let first = (0..one.len()).find(differs).unwrap_or(0);
    let last = (0..one.len()).rfind(differs).unwrap_or(0);
    (first, last + 1 - first)
}

/// Every enter and amend of some keys with some orders, several questions answered
/// "no" at once; one that succeeds is asked again. Where 3 and 6 are held the table
/// has N orders and M chunks; beside 6 alone, 4 makes too many chunks.
fn both_calls(recorder: &mut Recorder, length: usize, version: u32) {
    // Total, displayed, price. The last two have a price that the version has not.
    let orders = match version {
        1 => [
            (10, 4, 0),
            (10, 5, 0),
            (11, 4, 0),
            (0, 0, 0),
            (10, 11, 0),
            (10, 4, 1),
            (0, 0, 7),
        ],
        _ => [
            (10, 4, 7),
            (10, 4, 8),
            (11, 5, 7),
            (0, 0, 7),
            (10, 11, 7),
            (10, 4, 0),
            (0, 0, 0),
        ],
    };
    let orders = orders.map(|(total, displayed, price)| Order {
        total,
        displayed,
        price,
    });
    let before = recorder.store.clone();
    for call in [Recorder::enter, Recorder::amend] {
        for key in [4, 3, 6, 0, P] {
            for new in orders {
                if call(recorder, length, key, new).number == 0 {
                    call(recorder, length, key, new);
                    recorder.lookup(length, key);
                }
            }
        }
        for lent in [0, HEADER, length - 1] {
            call(recorder, lent, 3, orders[0]);
            call(recorder, lent, 0, orders[6]);
        }
    }
    recorder.set(0, &before);
}

/// The orders as they are; then orders 3 and 6 with 10 in all, each of them hidden,
/// displayed in part and displayed whole; then order 3 with the greatest total.
/// Every r is at or beside 0, what an order has in reserve, or what it has in all.
fn seeks(recorder: &mut Recorder, length: usize, version: u32) {
    let order = |total, displayed, price| order(version, total, displayed, price);
    for r in [0, 1, 80, 81, u32::MAX] {
        recorder.seek(length, 1, P - 1, r);
    }
    recorder.seek(length, 6, 3, 0);
    let displayed = match version {
        1 => &[0, 4, 10][..],
        _ => &[4],
    };
    for &three in displayed {
        for &six in displayed {
            recorder.amend(length, 3, order(10, three, 3));
            recorder.amend(length, 6, order(10, six, 6));
            for r in [0, 1, 6, 7, 10, 11] {
                recorder.seek(length, 1, P - 1, r);
                recorder.seek(length, 3, 3, r);
            }
        }
    }
    for displayed in [0, 1] {
        recorder.amend(length, 3, order(u32::MAX, displayed, 1));
        for r in [0, 1, u32::MAX - 1, u32::MAX] {
            recorder.seek(length, 1, 5, r);
        }
    }
}

/// Key, total and displayed of orders in five chunks of level 1: 3, then 5 and 7,
/// then 9 and 11, all in the front's partition, then 12 and 13, then 15 in that of
/// 12. In reserve they have 0 (3 is hidden), 9, 12, 0, 10, 30, 0 (13 is hidden), 31.
const LOWEST: [(u32, u32, u32); 8] = [
    (3, 50, 0),
    (5, 50, 41),
    (7, 50, 38),
    (9, 50, 50),
    (11, 60, 50),
    (12, 50, 20),
    (13, 90, 0),
    (15, 50, 19),
];

/// Which order is given where several have the reserve, the lowest has not, or one
/// outside lo..hi has (document 02, A.5); each has another price, which tells them
/// apart too. Each seek is asked twice. Then seeks that 4, 5 and 10 turn down.
fn lowest_orders(recorder: &mut Recorder) {
    let sizes = Sizes {
        orders: 8,
        blocks: 16,
        ..document(2)
    };
    let length = sizes.length();
    recorder.room(length, 0x5a);
    recorder.make(&sizes, &identity_seed().bytes(), length);
    for (key, total, displayed) in LOWEST {
        recorder.enter(length, key, order(2, total, displayed, 1000 - key));
    }
    for (lo, hi) in [
        (1, P - 1),
        (3, 15),
        (3, 7),
        (4, 8),
        (5, 11),
        (6, 14),
        (8, 14),
        (9, 12),
        (11, 15),
        (12, 15),
        (7, 7),
        (13, 13),
    ] {
        for r in [0, 1, 9, 10, 11, 13, 30, 31, 32] {
            recorder.seek(length, lo, hi, r);
            recorder.seek(length, lo, hi, r);
        }
    }
    recorder.seek(length - 1, 0, 15, 0);
    for (lo, hi) in [(0, 15), (P, 3), (3, P), (15, 3)] {
        recorder.seek(length, lo, hi, 0);
    }
}

/// To each key with outputs from none to more than its path takes.
fn descents(recorder: &mut Recorder, length: usize, keys: &[u32]) {
    for &key in keys {
        for room in [0, 4, 5, 6, 7, 9] {
            recorder.descent(length, key, room);
        }
    }
}

/// Several questions of a descent answered "no", on a table that holds 3 and 6.
fn descents_refused(recorder: &mut Recorder, length: usize) {
    for lent in [0, 1, 52, 53, length - 1] {
        recorder.descent(lent, 0, 0);
        recorder.descent(lent, 3, 8);
    }
    for key in [0, P, u32::MAX] {
        recorder.descent(length, key, 0);
    }
    for place in [0, 4, 5, 6, 8, 10, 12, 13, 49] {
        recorder.xor(place, 0xff);
        recorder.descent(length, 0, 0);
        recorder.descent(length, 3, 8);
        recorder.xor(place, 0xff);
    }
}

/// Bytes changed in the document's run: another version, then what is other in the
/// blocks, which 4 does not see in a descent.
fn other_bytes(recorder: &mut Recorder, version: u32) {
    let sizes = document(version);
    let length = sizes.length();
    let at = |block, place| HEADER + block * sizes.block_length() + place;
    let mut changes: Vec<(usize, &[u8])> = vec![(0, &[0]), (0, &[1]), (0, &[2]), (0, &[3])];
    match version {
        1 => (0..4).for_each(|block| {
            changes.extend(OTHER_BYTES.map(|(place, bytes)| (at(block, place), bytes)))
        }),
        _ => changes.extend(OTHER_PRICES.map(|(block, place, bytes)| (at(block, place), bytes))),
    }
    let asked = [(3, 8), (0, 0), (4, 5), (6, 7), (P - 1, 9)];
    for ((place, bytes), (key, room)) in changes.into_iter().zip(asked.into_iter().cycle()) {
        let before = recorder.store[place..place + bytes.len()].to_vec();
        recorder.set(place, bytes);
        recorder.check(length);
        recorder.descent(length, key, room);
        recorder.set(place, &before);
    }
}

/// Places in a block of two nodes, and what is written there: other levels, other
/// counts, also greater than B, other chunk numbers, first keys and keys.
const OTHER_BYTES: [(usize, &[u8]); 13] = [
    (0, &[0]),
    (0, &[2]),
    (0, &[4]),
    (0, &[255]),
    (1, &[0]),
    (1, &[3]),
    (1, &[255]),
    (2, &[0, 1]),
    (2, &[255, 255]),
    (4, &[0, 0, 0, 3]),
    (4, &[255, 255, 255, 255]),
    (8, &[255, 255, 255, 255]),
    (20, &[0, 0, 0, 0]),
];

/// Blocks, places in them and what is written there, in version 2: a price of the
/// front, of a key above level 1 and of a node behind the count; another price of an
/// order, and 0.
const OTHER_PRICES: [(usize, usize, &[u8]); 12] = [
    (2, 20, &[0, 0, 0, 1]),
    (1, 20, &[1, 0, 0, 0]),
    (0, 20, &[0, 0, 0, 1]),
    (1, 36, &[0, 0, 0, 1]),
    (1, 36, &[255, 255, 255, 255]),
    (3, 24, &[0, 0, 0, 9]),
    (3, 36, &[0, 0, 0, 1]),
    (0, 39, &[1]),
    (2, 36, &[0, 0, 0, 0]),
    (2, 36, &[255, 255, 255, 255]),
    (3, 20, &[0, 0, 0, 0]),
    (3, 23, &[7]),
];

/// Each question of make answered "no", alone and with later ones.
fn refused_makes(recorder: &mut Recorder) {
    let both = [document(1), document(2)];
    let [first, second] = both;
    let seed = identity_seed().bytes();
    recorder.room(second.length() + 60, 0x3c);
    for seed_length in [0, 1, 39, 41, 44] {
        let seed: Vec<u8> = seed.iter().copied().cycle().take(seed_length).collect();
        recorder.make(&first, &seed, first.length());
    }
    for place in 0..10 {
        for number in [P - 1, P, u32::MAX] {
            let mut seed = seed.clone();
            seed[4 * place..4 * place + 4].copy_from_slice(&number.to_be_bytes());
            recorder.make(&second, &seed, second.length());
        }
    }
    let bad_seed = [0xff; 40];
    for sizes in wrong_sizes() {
        recorder.make(&sizes, &seed, first.length());
        recorder.make(&sizes, &bad_seed, second.length());
    }
    for sizes in both {
        let length = sizes.length();
        for length in [0, 1, 52, 53, 181, 213, length - 1, length + 1] {
            recorder.make(&sizes, &seed, length);
            recorder.check(length);
        }
        let three = Sizes { blocks: 3, ..sizes };
        recorder.make(&three, &seed, three.length());
    }
}

/// Versions and sizes each just outside what is allowed, or far.
fn wrong_sizes() -> Vec<Sizes> {
    let (first, second) = (document(1), document(2));
    let mut wrong = Vec::new();
    wrong.extend([0, 3, 256 + 1, u32::MAX].map(|version| Sizes { version, ..first }));
    wrong.extend([0, 1, 65, 256 + 2, u32::MAX].map(|gamma| Sizes { gamma, ..first }));
    wrong.extend([0, 1, 33, 256 + 2, u32::MAX].map(|nodes| Sizes { nodes, ..second }));
    wrong.extend([0, 65_536, 65_538, u32::MAX].map(|orders| Sizes { orders, ..first }));
    wrong.extend([0, 1, 2, 65_536, 65_540, u32::MAX].map(|blocks| Sizes { blocks, ..second }));
    wrong
}

/// Sizes with the most blocks.
fn unbounded(version: u32, gamma: u32, nodes: u32, orders: u32) -> Sizes {
    Sizes {
        version,
        gamma,
        nodes,
        orders,
        blocks: 65_535,
    }
}

/// A history with many orders.
fn long_history(recorder: &mut Recorder, generator: &mut Xorshift, sizes: Sizes) {
    let seed = random_seed(generator);
    let keys = pool(generator, sizes.orders);
    history(recorder, generator, &Made { sizes, seed }, keys, 300);
}

/// A history with some M in place of the most, from the least to more than is ever
/// needed.
fn small_history(recorder: &mut Recorder, generator: &mut Xorshift, unbounded: Sizes) {
    let Sizes {
        gamma,
        nodes,
        orders,
        ..
    } = unbounded;
    let keys = pool(generator, orders);
    let seed = match generator.below(8) {
        0 => zero_seed(),
        1 => constant_seed(gamma, 1),
        2 => identity_seed(),
        _ => some_seed(generator),
    };
    let mut made = Made {
        sizes: unbounded,
        seed,
    };
    let least = unbounded.beta();
    made.sizes.blocks = match generator.below(8) {
        0 => least,
        1 => least + 1 + orders / nodes,
        2 => least + 2 * orders / gamma + orders / nodes,
        3 => least + 2 * orders,
        4 => (least * (orders + 1)).min(1000),
        _ => chunks_of_first(&made, &keys),
    };
    history(recorder, generator, &made, keys, 60 + orders as usize);
}

/// How many chunks the first N different keys make: with so many blocks they
/// fill the table exactly.
fn chunks_of_first(made: &Made, keys: &[u32]) -> u32 {
    let mut orders = Orders::new();
    for &key in keys {
        if orders.len() < made.sizes.orders as usize {
            orders.insert(key, Order::default());
        }
    }
    chunks(made, &lists(made, &orders)).len() as u32
}

/// Makes a table, fills it, moves its chunks and takes random steps on it; damages it,
/// empties it and takes random steps again.
fn history(
    recorder: &mut Recorder,
    generator: &mut Xorshift,
    made: &Made,
    mut keys: Vec<u32>,
    steps: usize,
) {
    let sizes = &made.sizes;
    let length = sizes.length();
    recorder.room(length + generator.below(3) as usize, generator.draw() as u8);
    recorder.check(length);
    recorder.make(sizes, &made.seed.bytes(), length);
    fill(recorder, generator, length, &keys);
    for _ in 0..12 {
        a_seek(recorder, generator, length, (1, P - 1));
    }
    other_places(recorder, length, 1);
    for step in 0..steps {
        if recorder.done() {
            return;
        }
        random_step(recorder, generator, length, &keys);
        if step % 8 == 0 {
            damage(recorder, generator, sizes, &keys);
        }
    }
    generator.shuffle(&mut keys);
    empty(recorder, length, &keys);
    for _ in 0..steps / 4 {
        random_step(recorder, generator, length, &keys);
    }
}

/// Some more keys than N: neighbours or far apart, with both ends.
fn pool(generator: &mut Xorshift, orders: u32) -> Vec<u32> {
    let highest = if generator.one_in(2) {
        2 * orders + 8
    } else {
        P - 1
    };
    let mut keys = vec![1, P - 1];
    keys.extend((0..orders + orders / 4 + 4).map(|_| generator.within(1, highest)));
    generator.shuffle(&mut keys);
    keys
}

/// Enters every key of the pool. The last ones meet 7 or 8; one that stands there
/// twice meets 13.
fn fill(recorder: &mut Recorder, generator: &mut Xorshift, length: usize, keys: &[u32]) {
    let mut refusals = 0;
    for &key in keys {
        if recorder.done() || refusals > 12 {
            return;
        }
        let new = some_order(generator, recorder.version());
        let reply = recorder.enter(length, key, new);
        refusals += u32::from(reply.number != 0);
    }
}

/// Cancels all but a few of the held keys.
fn empty(recorder: &mut Recorder, length: usize, keys: &[u32]) {
    for &key in keys.iter().skip(3) {
        if recorder.done() {
            return;
        }
        let held = calls::lookup(&recorder.store[..length], key).number == 0;
        if held {
            recorder.cancel(length, key);
        }
    }
}

/// A key of the pool, or one at the edges, or any number.
fn some_key(generator: &mut Xorshift, keys: &[u32]) -> u32 {
    match generator.below(12) {
        0 => generator.pick(&EDGE_KEYS),
        1 => generator.draw(),
        _ => generator.pick(keys),
    }
}

/// The right length, or now and then another that the store can lend.
fn some_length(recorder: &Recorder, generator: &mut Xorshift, length: usize) -> usize {
    if generator.one_in(25) {
        let odd = [0, 1, 52, 53, length - 1, length + 1];
        generator.pick(&odd).min(recorder.store.len())
    } else {
        length
    }
}

/// One call, whatever it answers.
fn random_step(recorder: &mut Recorder, generator: &mut Xorshift, length: usize, keys: &[u32]) {
    let length = some_length(recorder, generator, length);
    let key = some_key(generator, keys);
    match generator.below(16) {
        0..=5 => {
            let mut new = some_order(generator, recorder.version());
            if generator.one_in(12) {
                (new.total, new.displayed) =
                    generator.pick(&[(0, 0), (0, 1), (100, 101), (1, u32::MAX)]);
            }
            if generator.one_in(12) {
                let price = some_price(generator);
                new.price = generator.pick(&[0, price]);
            }
            match generator.below(2) {
                0 => recorder.enter(length, key, new),
                _ => recorder.amend(length, key, new),
            };
        }
        6..=8 => {
            recorder.cancel(length, key);
        }
        9 => {
            recorder.check(length);
        }
        _ => reading(recorder, generator, length, keys),
    }
}

/// One lookup, descent, span or seek.
fn reading(recorder: &mut Recorder, generator: &mut Xorshift, length: usize, keys: &[u32]) {
    let (one, two) = (some_key(generator, keys), some_key(generator, keys));
    let (lo, hi) = if generator.one_in(8) {
        (one, two)
    } else {
        (one.min(two), one.max(two))
    };
    match generator.below(5) {
        0 => {
            recorder.lookup(length, one);
        }
        1 => {
            let found = count(&orders(&recorder.store[..length]), lo, hi);
            let width = row(recorder.version());
            let width = generator.pick(&[width, width, 12, 16]);
            let room = output_length(generator, width * found);
            recorder.span(length, lo, hi, room);
        }
        2 => a_seek(recorder, generator, length, (lo, hi)),
        _ => some_descent(recorder, generator, length, one),
    }
}

/// A seek in that range or a narrower one, for a reserve that orders there have or
/// just do not have.
fn a_seek(recorder: &mut Recorder, generator: &mut Xorshift, length: usize, range: (u32, u32)) {
    let orders = orders(&recorder.store[..length]);
    let (lo, hi, r) = some_seek(generator, &orders, range);
    recorder.seek(length, lo, hi, r);
}

/// A descent with an output of about the length that its path needs; where there
/// is no path, of some length.
fn some_descent(recorder: &mut Recorder, generator: &mut Xorshift, length: usize, key: u32) {
    let table = &recorder.store[..length];
    let needed = match held(table) {
        Some((made, orders)) => 2 * path(table, &made, &orders, key).len(),
        None => generator.below(40) as usize,
    };
    let room = output_length(generator, needed);
    recorder.descent(length, key, room);
}

/// About as long as is needed.
fn output_length(generator: &mut Xorshift, needed: usize) -> usize {
    match generator.below(6) {
        0 => 0,
        1 => needed.saturating_sub(1),
        2 => needed + 1,
        3 => needed + 30,
        _ => needed,
    }
}

fn orders(table: &[u8]) -> Orders {
    held(table).map(|(_, orders)| orders).unwrap_or_default()
}

fn count(orders: &Orders, lo: u32, hi: u32) -> usize {
    orders.keys().filter(|&&key| lo <= key && key <= hi).count()
}

// ---- damage ----------------------------------------------------------------

/// Changes some bytes, asks the table in that state, and sets them back.
fn damage(recorder: &mut Recorder, generator: &mut Xorshift, sizes: &Sizes, keys: &[u32]) {
    let length = sizes.length();
    let before = recorder.store.clone();
    let (place, width) = match generator.below(11) {
        0 | 1 => damaged_byte(recorder, generator, length),
        2 | 3 => damaged_byte(recorder, generator, HEADER),
        4 | 5 => damaged_node(recorder, generator, sizes),
        6 | 7 => moved_block(recorder, generator, sizes),
        8 | 9 => by_other_order(recorder, generator, length),
        _ => other_version(recorder, sizes),
    };
    let damaged = recorder.check(length).number == 4;
    if damaged {
        let key = generator.pick(keys);
        let new = order(sizes.version, 5, 2, 1);
        recorder.enter(length, key, new);
        recorder.amend(length, key, new);
        recorder.cancel(length, key);
        some_descent(recorder, generator, length, key);
        let edge = generator.pick(&EDGE_KEYS);
        some_descent(recorder, generator, length, edge);
    }
    reading(recorder, generator, length, keys);
    recorder.set(place, &before[place..place + width]);
    recorder.check(length);
}

/// One of the first `bound` bytes changed. Gives the place and width to restore,
/// as the others do.
fn damaged_byte(recorder: &mut Recorder, generator: &mut Xorshift, bound: usize) -> (usize, usize) {
    let place = generator.below(bound as u32) as usize;
    recorder.xor(place, generator.pick(&[1, 2, 3, 0x80, 0xff]));
    (place, 1)
}

/// Key, total, displayed or price of some node set to a number at an edge.
fn damaged_node(
    recorder: &mut Recorder,
    generator: &mut Xorshift,
    sizes: &Sizes,
) -> (usize, usize) {
    let block = generator.below(sizes.blocks) as usize;
    let numbers = row(sizes.version) as u32 / 4 * sizes.nodes.min(4);
    let number = generator.below(numbers) as usize;
    let place = HEADER + block * sizes.block_length() + BLOCK_HEAD + 4 * number;
    let value: u32 = generator.pick(&[0, 1, P, u32::MAX]);
    recorder.set(place, &value.to_be_bytes());
    (place, 4)
}

/// Two neighbouring blocks exchanged, or one copied over the other.
fn moved_block(recorder: &mut Recorder, generator: &mut Xorshift, sizes: &Sizes) -> (usize, usize) {
    let width = sizes.block_length();
    let place = HEADER + generator.below(sizes.blocks - 1) as usize * width;
    let one = recorder.store[place..place + width].to_vec();
    let two = recorder.store[place + width..place + 2 * width].to_vec();
    let second = if generator.one_in(3) { &two } else { &one };
    recorder.set(place, &[two.as_slice(), second].concat());
    (place, 2 * width)
}

/// All chunks, or only two neighbours, as the other version's order has them.
fn by_other_order(
    recorder: &mut Recorder,
    generator: &mut Xorshift,
    length: usize,
) -> (usize, usize) {
    let table = &recorder.store[..length];
    let (made, orders) = held(table).expect("damage is undone");
    let neighbours = exchangeable(&made, table);
    let bytes = match generator.below(2) {
        0 if !neighbours.is_empty() => exchanged(&made, table, generator.pick(&neighbours)),
        _ => arranged_by(3 - made.sizes.version, &made, &orders),
    };
    let (place, width) = difference(table, &bytes);
    recorder.set(place, &bytes[place..place + width]);
    (place, width)
}

/// The other version. Where some B leaves the blocks as long as they are, that B too,
/// and rule 1 holds.
fn other_version(recorder: &mut Recorder, sizes: &Sizes) -> (usize, usize) {
    let version = 3 - sizes.version;
    recorder.set(0, &[version as u8]);
    let bytes = row(sizes.version) as u32 * sizes.nodes;
    let nodes = bytes / row(version) as u32;
    if bytes % row(version) as u32 == 0 && nodes <= 32 {
        recorder.set(6, &[nodes as u8]);
    }
    (0, 7)
}
