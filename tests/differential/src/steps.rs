//! Steps taken on both sides, and their comparison after each.

use crate::archive::Calls;
use crate::tickets::{self, Found, Kind, Ticket, EITHER, FIRST, SECOND, TICKETS};
use reference::arrangements::{self, ORDERS};
use reference::calls::{self, stays_within, Reply};
use reference::lists::Order;
use reference::samples::{fnv_1a, largest_seed, power_seed};
use reference::seeks::{Sought, SEEKS};
use reference::sizes::{row, Made, Sizes};
use std::fmt::Write;
use std::time::{Duration, Instant};

/// A step on a store of bytes, as the reference's `vectors` describes them. A call is lent the first `length` bytes.
#[derive(Clone, Debug, PartialEq, Eq)]
pub enum Step {
    Room {
        size: usize,
        byte: u8,
    },
    Set {
        place: usize,
        bytes: Vec<u8>,
    },
    Make {
        sizes: Sizes,
        seed: Vec<u8>,
        length: usize,
    },
    Check {
        length: usize,
    },
    Ticket {
        length: usize,
        ticket: Ticket,
    },
    Cancel {
        length: usize,
        key: u32,
    },
    Lookup {
        length: usize,
        key: u32,
    },
    Descent {
        length: usize,
        key: u32,
        room: usize,
    },
    Span {
        length: usize,
        lo: u32,
        hi: u32,
        room: usize,
    },
    Seek {
        length: usize,
        lo: u32,
        hi: u32,
        r: u32,
    },
}

/// Names of the calls, in the order of the tally.
pub const CALLS: [&str; 9] = [
    "make", "check", "enter", "amend", "cancel", "lookup", "span", "seek", "descent",
];

/// The place of enter or amend among them.
fn place_of(kind: Kind) -> usize {
    match kind {
        Kind::Enter => 2,
        Kind::Amend => 3,
    }
}

/// The numbers that each call can answer.
pub const NUMBERS: [&[usize]; 9] = [
    &[0, 1, 2, 3],
    &[0, 4],
    &[0, 4, 5, 6, 7, 8, 13, 14],
    &[0, 4, 5, 6, 9, 14],
    &[0, 4, 5, 9],
    &[0, 4, 5, 9],
    &[0, 4, 5, 10, 11],
    &[0, 4, 5, 10, 12],
    &[0, 4, 5, 9, 11],
];

/// What is counted for each version; place 0 is for all others.
type Versions<T> = [T; 3];

/// How often each call answered each number, how many descents there were whose answer no definition decides, how often each kind of enter and
/// amend came, of span and of seek, and of calls that show which label is smaller, how many seeks were the call before again, and how many orders
/// of each level and with each kind of hash were entered into tables made for that.
#[derive(Clone, Default)]
pub struct Tally {
    answered: Versions<[[u64; 15]; 9]>,
    pub undecided: u64,
    tickets: Versions<[u64; TICKETS.len()]>,
    spans: Versions<[u64; SPANS.len()]>,
    orders: Versions<[u64; ORDERS.len()]>,
    seeks: [u64; SEEKS.len()],
    asked_again: u64,
    levels: [[[u64; 19]; GAMMAS.len()]; WAYS.len()],
    hashes: [u64; HASHES.len()],
}

/// Spans that find orders and tell one width of rows from another.
const SPANS: [(&str, &[usize]); 6] = [
    ("of rows with no byte to spare", EITHER),
    ("of rows with 16 bytes for each", FIRST),
    ("11 for one byte", EITHER),
    ("11 for one row", EITHER),
    ("11 to 12 bytes a row", SECOND),
    ("11 to one byte more than 12 bytes a row", SECOND),
];

/// Which of these kinds a span is that found so many orders of this version.
fn span_kinds(version: u32, orders: usize, room: usize, number: u32) -> [bool; SPANS.len()] {
    let needed = row(version) * orders;
    [
        number == 0 && room == needed,
        number == 0 && room == 16 * orders,
        number == 11 && room + 1 == needed,
        number == 11 && room + row(version) == needed,
        number == 11 && room == 12 * orders,
        number == 11 && room == 12 * orders + 1,
    ]
}

/// Each kind in each version that has it, with how often it came.
fn by_version<'t, const N: usize>(
    kinds: &'static [(&str, &[usize]); N],
    times: &'t Versions<[u64; N]>,
) -> impl Iterator<Item = (u64, String)> + 't {
    kinds
        .iter()
        .enumerate()
        .flat_map(move |(kind, (name, versions))| {
            let versions = versions.iter();
            versions
                .map(move |&version| (times[version][kind], format!("version {version}, {name}")))
        })
}

/// The γ of the tables with orders of every level, and the N of these tables, which makes β as large as it can be.
pub const GAMMAS: [u32; 5] = [2, 3, 16, 63, 64];
pub const MOST_ORDERS: u32 = 65_535;

/// In which ways each level must come.
const WAYS: [&str; 2] = ["h(x) = x", "no number of h is 0"];

/// Hashes that tell one power from another, the largest sums, and a sum that comes to 0 only by mod p.
const HASHES: [&str; 12] = [
    "h(x) = 1",
    "h(x) = x",
    "h(x) = x²",
    "h(x) = x³",
    "h(x) = x⁴",
    "g(x) = 1",
    "g(x) = x",
    "g(x) = x²",
    "g(x) = x³",
    "g(x) = x⁴",
    "all seed numbers p−1",
    "h(x) = 0 where no number of h is 0",
];

/// Whether all five numbers of h count.
fn none_is_0(made: &Made) -> bool {
    made.seed.a.iter().all(|&number| number > 0)
}

/// Which of these kinds the hashes of a key in a table are.
fn hash_kinds(made: &Made, key: u32) -> [bool; HASHES.len()] {
    let seed = &made.seed;
    let mut kinds = [false; HASHES.len()];
    for i in 0..5 {
        let power = power_seed(i, i);
        (kinds[i], kinds[5 + i]) = (seed.a == power.a, seed.b == power.b);
    }
    kinds[10] = *seed == largest_seed();
    kinds[11] = none_is_0(made) && seed.h(key) == 0;
    kinds
}

/// β of the tables with orders of every level.
pub fn most_levels(gamma: u32) -> u32 {
    let sizes = Sizes {
        version: 1,
        gamma,
        nodes: 2,
        orders: MOST_ORDERS,
        blocks: 0,
    };
    sizes.beta()
}

/// How the tally calls a seek that is the call before again.
const ASKED_AGAIN: &str = "a seek that was just asked, asked again";

impl Tally {
    pub fn calls(&self) -> u64 {
        self.answered.iter().flatten().flatten().sum::<u64>() + self.undecided
    }

    /// Versions, calls and numbers that were never met. There is no 14 in version 2.
    pub fn missing(&self) -> Vec<String> {
        let mut missing = Vec::new();
        for &version in EITHER {
            for (call, numbers) in NUMBERS.into_iter().enumerate() {
                for &number in numbers {
                    let times = self.answered[version][call][number];
                    if times == 0 && (version, number) != (2, 14) {
                        missing.push(format!("version {version}, {} {number}", CALLS[call]));
                    }
                }
            }
        }
        missing
    }

    fn count_ticket(&mut self, ticket: &Ticket, found: &Found, number: u32) {
        let kinds = tickets::kinds(ticket, found, number);
        count(&mut self.tickets[found.version() as usize], kinds);
    }

    /// Counts an order that was entered into a table with one of the γ above.
    pub fn count_hash(&mut self, made: &Made, key: u32) {
        let gamma = GAMMAS.iter().position(|&gamma| gamma == made.sizes.gamma);
        let gamma = gamma.expect("one of these");
        let ways = [made.seed.a == power_seed(1, 1).a, none_is_0(made)];
        for (levels, met) in self.levels.iter_mut().zip(ways) {
            levels[gamma][made.level(key) as usize] += u64::from(met);
        }
        count(&mut self.hashes, hash_kinds(made, key));
    }

    /// Each level in each way with each γ, and each kind of hash, and how often it came.
    pub fn hash_kinds(&self) -> impl Iterator<Item = (u64, String)> {
        let mut kinds = Vec::new();
        for (way, levels) in WAYS.iter().zip(&self.levels) {
            for (&gamma, levels) in GAMMAS.iter().zip(levels) {
                for level in 1..=most_levels(gamma) {
                    let kind = format!("level {level} with γ = {gamma} where {way}");
                    kinds.push((levels[level as usize], kind));
                }
            }
        }
        let hashes = HASHES.iter().map(|kind| kind.to_string());
        kinds.extend(self.hashes.iter().copied().zip(hashes));
        kinds.into_iter()
    }

    /// Each kind of enter and amend in each version, and how often it came.
    pub fn ticket_kinds(&self) -> impl Iterator<Item = (u64, String)> + '_ {
        by_version(&TICKETS, &self.tickets)
    }

    /// Each kind of span.
    pub fn span_kinds(&self) -> impl Iterator<Item = (u64, String)> + '_ {
        by_version(&SPANS, &self.spans)
    }

    /// Each kind of call that shows which label is smaller.
    pub fn order_kinds(&self) -> impl Iterator<Item = (u64, String)> + '_ {
        EITHER.iter().flat_map(move |&version| {
            let names = ORDERS.map(|kind| format!("version {version}, {kind}"));
            self.orders[version].into_iter().zip(names)
        })
    }

    /// Each kind of seek, and how often it came.
    pub fn seek_kinds(&self) -> impl Iterator<Item = (u64, String)> + '_ {
        let names = SEEKS.iter().map(|&(kind, _)| kind.to_string());
        let kinds = self.seeks.iter().copied().zip(names);
        kinds.chain([(self.asked_again, ASKED_AGAIN.to_string())])
    }
}

/// Counts the kinds that were met.
fn count<const N: usize>(times: &mut [u64; N], met: [bool; N]) {
    for (times, met) in times.iter_mut().zip(met) {
        *times += u64::from(met);
    }
}

/// The two sides differ after the last of these steps.
#[derive(Debug)]
pub struct Mismatch {
    pub what: String,
    pub steps: Vec<Step>,
}

pub type Outcome = Result<(), Box<Mismatch>>;

/// Bytes before and behind what is lent, which nobody may touch.
const MARGIN: usize = 64;
const UNTOUCHED: u8 = 0xc7;

/// A buffer with margins.
struct Fenced {
    bytes: Vec<u8>,
    front: usize,
}

impl Fenced {
    /// The margin before is between one and eight bytes longer, so that buffers start at every remainder of 8.
    fn new(content: &[u8], shift: usize) -> Fenced {
        let front = MARGIN + 1 + shift % 8;
        let mut bytes = vec![UNTOUCHED; front];
        bytes.extend(content);
        bytes.resize(bytes.len() + MARGIN, UNTOUCHED);
        Fenced { bytes, front }
    }

    fn content(&self) -> &[u8] {
        &self.bytes[self.front..self.bytes.len() - MARGIN]
    }

    fn lent(&mut self, length: usize) -> &mut [u8] {
        &mut self.bytes[self.front..self.front + length]
    }

    fn whole(&self) -> bool {
        let margins = self.bytes[..self.front]
            .iter()
            .chain(&self.bytes[self.bytes.len() - MARGIN..]);
        margins.into_iter().all(|&byte| byte == UNTOUCHED)
    }
}

/// Both sides: the tested one with its store, the reference with its own.
pub struct Pair<'a> {
    tested: &'a mut dyn Calls,
    store: Fenced,
    expected: Vec<u8>,
    steps: Vec<Step>,
    pub tally: Tally,
}

impl<'a> Pair<'a> {
    pub fn new(tested: &'a mut dyn Calls) -> Pair<'a> {
        Pair {
            tested,
            store: Fenced::new(&[], 0),
            expected: Vec::new(),
            steps: Vec::new(),
            tally: Tally::default(),
        }
    }

    /// The store, the same on both sides.
    pub fn bytes(&self) -> &[u8] {
        &self.expected
    }

    /// What the tested side has in its store.
    pub fn tested_bytes(&self) -> &[u8] {
        self.store.content()
    }

    pub fn room(&mut self, size: usize, byte: u8) {
        self.steps.clear();
        self.take(Step::Room { size, byte })
            .expect("nothing is called");
    }

    pub fn set(&mut self, place: usize, bytes: &[u8]) {
        let bytes = bytes.to_vec();
        self.take(Step::Set { place, bytes })
            .expect("nothing is called");
    }

    pub fn mismatch(&self, what: String) -> Box<Mismatch> {
        let steps = self.steps.clone();
        Box::new(Mismatch { what, steps })
    }

    /// Takes a step on both sides and compares every part of the answers and every byte.
    pub fn take(&mut self, step: Step) -> Result<Reply, Box<Mismatch>> {
        self.steps.push(step);
        let step = self.steps.last().expect("it was pushed");
        match self.compare(&step.clone()) {
            Ok(reply) => Ok(reply),
            Err(what) => Err(self.mismatch(what)),
        }
    }

    fn compare(&mut self, step: &Step) -> Result<Reply, String> {
        if self.prepares(step) {
            return Ok(Reply::done());
        }
        let ticket = self.ticket_and_found(step);
        let version = self.version_of(step);
        let before = self.before_edit(step);
        let (call, found, output) = self.on_tested(step)?;
        let (wanted, expected_output) = on_reference(&mut self.expected, step);
        let name = CALLS[call];
        match wanted {
            Some(wanted) if found != wanted => {
                return Err(format!("{name} answered {found:?}, not {wanted:?}"));
            }
            Some(_) => {
                self.tally.answered[version][call][found.number as usize] += 1;
                if let Some((ticket, before)) = ticket {
                    self.tally.count_ticket(&ticket, &before, found.number);
                }
                self.count_span(step, found);
                self.count_order(step, version, name, found.number, &before);
                self.count_seek(step, found);
            }
            None => self.tally.undecided += 1,
        }
        holds_exactly(&self.store, &self.expected)
            .map_err(|what| format!("{name} {what} the store"))?;
        match output {
            Some(lent) if wanted.is_none() => judge_undecided(&found, &expected_output, &lent),
            Some(lent) => holds_exactly(&lent, &expected_output)
                .map_err(|what| format!("{name} {what} the output")),
            None => Ok(()),
        }?;
        Ok(found)
    }

    /// Whether a step is no call. It is taken on both stores then.
    fn prepares(&mut self, step: &Step) -> bool {
        match *step {
            Step::Room { size, byte } => {
                self.tested.restart();
                self.store = Fenced::new(&vec![byte; size], usize::from(byte));
                self.expected = vec![byte; size];
                true
            }
            Step::Set { place, ref bytes } => {
                self.store.lent(place + bytes.len())[place..].copy_from_slice(bytes);
                self.expected[place..place + bytes.len()].copy_from_slice(bytes);
                true
            }
            _ => false,
        }
    }

    /// The version that a make is asked for, or that of the table that another call is lent; 0 if it is neither 1 nor 2.
    fn version_of(&self, step: &Step) -> usize {
        let version = match *step {
            Step::Make { ref sizes, .. } => sizes.version,
            _ => self.expected.first().copied().unwrap_or(0).into(),
        };
        if version <= 2 {
            version as usize
        } else {
            0
        }
    }

    /// An enter or amend and what it finds; None for another step, and where there is no table.
    fn ticket_and_found(&self, step: &Step) -> Option<(Ticket, Found)> {
        match *step {
            Step::Ticket { length, ticket } => {
                Found::in_table(&self.expected[..length]).map(|found| (ticket, found))
            }
            _ => None,
        }
    }

    /// Makes the call on the tested side: its place among the calls, its answer, and the output that it was lent.
    fn on_tested(&mut self, step: &Step) -> Result<(usize, Reply, Option<Fenced>), String> {
        let Pair { tested, store, .. } = self;
        Ok(match *step {
            Step::Room { .. } | Step::Set { .. } => unreachable!("no calls"),
            Step::Make {
                ref sizes,
                ref seed,
                length,
            } => (0, self.make_on_tested(sizes, seed, length)?, None),
            Step::Check { length } => (1, tested.check(store.lent(length)), None),
            Step::Ticket { length, ticket } => {
                let found = tested.enter_or_amend(store.lent(length), &ticket);
                (place_of(ticket.kind), found, None)
            }
            Step::Cancel { length, key } => (4, tested.cancel(store.lent(length), key), None),
            Step::Lookup { length, key } => (5, tested.lookup(store.lent(length), key), None),
            Step::Span {
                length,
                lo,
                hi,
                room,
            } => {
                let mut lent = Fenced::new(&before(room), room + length);
                let found = tested.span(store.lent(length), lo, hi, lent.lent(room));
                (6, found, Some(lent))
            }
            Step::Seek { length, lo, hi, r } => {
                (7, tested.seek(store.lent(length), lo, hi, r), None)
            }
            Step::Descent { length, key, room } => {
                let mut lent = Fenced::new(&before(room), room + length);
                let found = tested.descent(store.lent(length), key, lent.lent(room));
                (8, found, Some(lent))
            }
        })
    }

    /// A make, whose seed must stay.
    fn make_on_tested(
        &mut self,
        sizes: &Sizes,
        seed: &[u8],
        length: usize,
    ) -> Result<Reply, String> {
        let mut lent = Fenced::new(seed, length);
        let table = self.store.lent(length);
        let found = self.tested.make(table, sizes, lent.lent(seed.len()));
        if !lent.whole() || lent.content() != seed {
            return Err("make changed its seed or bytes around it".into());
        }
        Ok(found)
    }

    /// The table that an edit finds; nothing for another step.
    fn before_edit(&self, step: &Step) -> Vec<u8> {
        match *step {
            Step::Ticket { length, .. } | Step::Cancel { length, .. } => {
                self.expected[..length].to_vec()
            }
            _ => Vec::new(),
        }
    }

    /// Counts a call by the kinds that show which label is smaller.
    fn count_order(&mut self, step: &Step, version: usize, name: &str, number: u32, before: &[u8]) {
        let (length, key) = match *step {
            Step::Make { length, .. } | Step::Check { length } => (length, 0),
            Step::Ticket { length, ticket } => (length, ticket.key),
            Step::Cancel { length, key }
            | Step::Lookup { length, key }
            | Step::Descent { length, key, .. } => (length, key),
            _ => return,
        };
        let after = &self.expected[..length];
        let kinds = arrangements::kinds(name, number, key, before, after);
        count(&mut self.tally.orders[version], kinds);
    }

    /// Counts a span that finds orders by its kinds.
    fn count_span(&mut self, step: &Step, reply: Reply) {
        if let (
            &Step::Span {
                length,
                lo,
                hi,
                room,
            },
            0 | 11,
        ) = (step, reply.number)
        {
            let found = Found::in_table(&self.expected[..length]).expect("no 4");
            let (version, orders) = (found.version(), found.orders.range(lo..=hi).count());
            if orders > 0 {
                let kinds = span_kinds(version, orders, room, reply.number);
                count(&mut self.tally.spans[version as usize], kinds);
            }
        }
    }

    /// Counts a seek by its kinds; one that is the step before again, as that alone.
    fn count_seek(&mut self, step: &Step, reply: Reply) {
        if let Step::Seek { length, lo, hi, r } = *step {
            if self.steps.iter().rev().nth(1) == Some(step) {
                self.tally.asked_again += 1;
            } else if let Some(sought) = Sought::new(&self.expected[..length], (lo, hi, r), reply) {
                count(&mut self.tally.seeks, sought.kinds());
            }
        }
    }
}

/// Sees that a buffer has these bytes, and its margins theirs.
fn holds_exactly(lent: &Fenced, expected: &[u8]) -> Result<(), String> {
    if let Some(place) = first_difference(lent.content(), expected) {
        let (found, wanted) = (lent.content()[place], expected[place]);
        return Err(format!("left {found}, not {wanted}, in byte {place} of"));
    }
    if !lent.whole() {
        return Err("wrote outside".into());
    }
    Ok(())
}

/// What is claimed of a descent where no definition decides its answer, beside that the table stays.
fn judge_undecided(found: &Reply, before: &[u8], lent: &Fenced) -> Result<(), String> {
    if !stays_within(found, before, lent.content()) || !lent.whole() {
        return Err(format!(
            "descent on what is no table answered {found:?} and wrote more of the output, or has no room there"
        ));
    }
    Ok(())
}

fn first_difference(one: &[u8], two: &[u8]) -> Option<usize> {
    if one == two {
        return None;
    }
    let differs = one.iter().zip(two).position(|(a, b)| a != b);
    Some(differs.unwrap_or(one.len().min(two.len())))
}

/// An output before the call.
fn before(room: usize) -> Vec<u8> {
    (0..room).map(|i| (i % 251) as u8).collect()
}

/// The reference's answer, and the whole output of a span or descent. No answer where no definition decides; the output is then as before.
fn on_reference(store: &mut [u8], step: &Step) -> (Option<Reply>, Vec<u8>) {
    let reply = match *step {
        Step::Room { .. } | Step::Set { .. } => Reply::done(),
        Step::Make {
            ref sizes,
            ref seed,
            length,
        } => calls::make(sizes, seed, &mut store[..length]),
        Step::Check { length } => calls::check(&store[..length]),
        Step::Ticket { length, ticket } => ticket.on_reference(&mut store[..length]),
        Step::Cancel { length, key } => calls::cancel(&mut store[..length], key),
        Step::Lookup { length, key } => calls::lookup(&store[..length], key),
        Step::Span {
            length,
            lo,
            hi,
            room,
        } => {
            let mut output = before(room);
            let reply = calls::span(&store[..length], lo, hi, &mut output);
            return (Some(reply), output);
        }
        Step::Descent { length, key, room } => {
            let mut output = before(room);
            let reply = calls::descent(&store[..length], key, &mut output);
            return (reply, output);
        }
        Step::Seek { length, lo, hi, r } => calls::seek(&store[..length], lo, hi, r),
    };
    (Some(reply), Vec::new())
}

// ---- a script that replays a mismatch ----------------------------------------

/// Leaves out steps as long as the two sides still differ, for so long at most.
pub fn shorten(tested: &mut dyn Calls, mut steps: Vec<Step>, time: Duration) -> Vec<Step> {
    let end = Instant::now() + time;
    let mut width = steps.len() / 2;
    while width > 0 {
        let mut from = 1;
        while from + width < steps.len() && Instant::now() < end {
            let mut fewer = steps.clone();
            fewer.drain(from..from + width);
            match differs(tested, &fewer) {
                Some(last) => {
                    fewer.truncate(last + 1);
                    steps = fewer;
                }
                None => from += width,
            }
        }
        width /= 2;
    }
    steps
}

/// The number of the step after which the two sides differ.
pub fn differs(tested: &mut dyn Calls, steps: &[Step]) -> Option<usize> {
    let mut pair = Pair::new(tested);
    steps
        .iter()
        .position(|step| pair.take(step.clone()).is_err())
}

/// The steps with the reference's answers, in the form that tests/c/vectors.c reads.
pub fn script(steps: &[Step]) -> String {
    let mut text = String::new();
    let mut store = Vec::new();
    for step in steps {
        text.push_str(&line(step));
        match *step {
            Step::Room { size, byte } => store = vec![byte; size],
            Step::Set { place, ref bytes } => {
                store[place..place + bytes.len()].copy_from_slice(bytes)
            }
            _ => {
                let (reply, output) = on_reference(&mut store, step);
                text.push_str(&answer(reply, &store));
                if reply.is_some() && matches!(step, Step::Span { .. } | Step::Descent { .. }) {
                    write!(text, " {:016x}", fnv_1a(&output)).expect("a string");
                }
            }
        }
        text.push('\n');
    }
    text
}

/// A step without its answer.
fn line(step: &Step) -> String {
    match *step {
        Step::Room { size, byte } => format!("room {size} {byte}"),
        Step::Set { place, ref bytes } => format!("set {place} {}", hex(bytes)),
        Step::Make {
            ref sizes,
            ref seed,
            length,
        } => {
            let Sizes {
                version,
                gamma,
                nodes,
                orders,
                blocks,
            } = *sizes;
            let seed = hex(seed);
            format!("make {version} {gamma} {nodes} {orders} {blocks} {seed} {length}")
        }
        Step::Check { length } => format!("check {length}"),
        Step::Ticket { length, ticket } => {
            let (word, key) = (CALLS[place_of(ticket.kind)], ticket.key);
            let Order {
                total,
                displayed,
                price,
            } = ticket.new;
            format!("{word} {length} {key} {total} {displayed} {price}")
        }
        Step::Cancel { length, key } => format!("cancel {length} {key}"),
        Step::Lookup { length, key } => format!("lookup {length} {key}"),
        Step::Descent { length, key, room } => format!("descent {length} {key} {room}"),
        Step::Span {
            length,
            lo,
            hi,
            room,
        } => format!("span {length} {lo} {hi} {room}"),
        Step::Seek { length, lo, hi, r } => format!("seek {length} {lo} {hi} {r}"),
    }
}

fn answer(reply: Option<Reply>, store: &[u8]) -> String {
    let hash = fnv_1a(store);
    match reply {
        Some(Reply {
            number,
            key,
            total,
            displayed,
            price,
            count,
        }) => format!(" = {number} {key} {total} {displayed} {price} {count} {hash:016x}"),
        None => format!(" = ? {hash:016x}"),
    }
}

fn hex(bytes: &[u8]) -> String {
    if bytes.is_empty() {
        return "-".to_string();
    }
    bytes.iter().map(|byte| format!("{byte:02x}")).collect()
}
