//! Faults planted in the archive's answers: whoever compares must find each.

use crate::archive::{Archive, Calls};
use crate::labels::{self, Searching, Wrong as Labels};
use crate::prices::{self, Reading, Wrong as Price};
use crate::seeks::{self, Other, Wrong, WRONG};
use crate::slips::{self, Slip, SLIPS};
use crate::tickets::{Found, Kind, Ticket};
use reference::arrangements::rearranged;
use reference::calls::Reply;
use reference::image::{blocks, held, image, place, table, Block};
use reference::lists::{chunks, compare, home, lists, Chunk, Label, Order, Orders};
use reference::paths::{numbers, way, NUMBER};
use reference::sizes::{
    number_at, row, short_at, Made, Seed, Sizes, BLOCK_HEAD, FRONT, HEADER, P, SEED,
};
use std::cmp::Ordering;
use std::collections::BTreeSet;

#[derive(Clone, Copy, PartialEq, Eq)]
pub enum Fault {
    Once(Kind),
    Leaves(Kind),
    TouchedBehind(Kind),
    SixBeforeFive(Kind),
    GreatestTotalRefused(Kind),
    EnterOverwrites,
    SameEntered,
    SevenBeforeSix,
    ThirteenBeforeSix,
    SevenBeforeThirteen,
    EightBeforeThirteen,
    EightBeforeSeven,
    CancelledNotFree,
    AmendAdds,
    NineBeforeFive,
    NineBeforeSix,
    AmendSeven,
    AmendEight,
    OldTotal,
    OldDisplayed,
    HiddenUnamended,
    NextAmended,
    AmendMoves,
    CountedAgain,
    CancelLeaves,
    AlwaysEmpty,
    FirstCome,
    StaleTail,
    CountInvented,
    TwelveUnlooked,
    EightUnlooked,
    FourToAll,
    TailUnseen,
    PlacesUnseen,
    CountUnseen,
    LengthUnseen,
    TableTouched,
    TouchedBefore,
    OutputBehind,
    OutputOnRefusal,
    PartsOnRefusal,
    KeyNotRepeated,
    QuantitiesExchanged,
    SeekTouches,
    AnotherAgain,
    LastKeyRefused,
    ExactOutputRefused,
    LastByteKept,
    SeedTouched,
    ModBlocksFirst,
    DescentNineFirst,
    NineUnwritten,
    LookAheadOnPath,
    PathStrictlyBelow,
    DisplayedForTotal,
    NineUncounted,
    CountInTotal,
    PathBehind,
    PathLittleEndian,
    DescentJudgesAll,
    PathOnEleven,
    ExactPathRefused,
    DescentTouches,
    AstrayBehind,
    AstrayCount,
    KeyBeyondUnseen,
    PriceLeft,
    Labels(Labels),
    Prices(Price),
    Seeks(Wrong),
    EnterSlips(Slip),
    CheckSlips(Slip),
}

/// Each with its name: those that enter and amend can both have, others, labels compared otherwise, wrong prices, wrong seeks, the slips.
pub fn faults() -> Vec<(String, Fault)> {
    let tickets = TICKET_FAULTS.into_iter().flat_map(|(name, fault)| {
        [
            (format!("an enter that {name}"), fault(Kind::Enter)),
            (format!("an amend that {name}"), fault(Kind::Amend)),
        ]
    });
    let slips = SLIPS.into_iter().flat_map(|(name, slip)| {
        [
            (format!("an enter with {name}"), Fault::EnterSlips(slip)),
            (format!("a check with {name}"), Fault::CheckSlips(slip)),
        ]
    });
    let others = FAULTS
        .into_iter()
        .map(|(name, fault)| (name.to_string(), fault));
    let seeks = WRONG
        .into_iter()
        .map(|(name, wrong)| (format!("a seek that {name}"), Fault::Seeks(wrong)));
    let prices = prices::all()
        .into_iter()
        .map(|(name, wrong)| (name, Fault::Prices(wrong)));
    let labels = labels::all()
        .into_iter()
        .map(|(name, wrong)| (name, Fault::Labels(wrong)));
    let others = tickets.chain(others).chain(labels).chain(prices);
    others.chain(seeks).chain(slips).collect()
}

const TICKET_FAULTS: [(&str, fn(Kind) -> Fault); 5] = [
    ("edits once and later only answers", Fault::Once),
    ("answers and leaves the table", Fault::Leaves),
    ("writes the byte behind the table", Fault::TouchedBehind),
    ("asks 6 before 5", Fault::SixBeforeFive),
    ("turns down the greatest total", Fault::GreatestTotalRefused),
];

const FAULTS: [(&str, Fault); 62] = [
    (
        "an enter that overwrites a held key",
        Fault::EnterOverwrites,
    ),
    (
        "an enter that answers 0 to a held key with the same quantities",
        Fault::SameEntered,
    ),
    ("an enter that asks 7 before 6", Fault::SevenBeforeSix),
    ("an enter that asks 13 before 6", Fault::ThirteenBeforeSix),
    ("an enter that asks 7 before 13", Fault::SevenBeforeThirteen),
    ("an enter that asks 8 before 13", Fault::EightBeforeThirteen),
    ("an enter that asks 8 before 7", Fault::EightBeforeSeven),
    (
        "an enter that answers 13 to a key that was cancelled",
        Fault::CancelledNotFree,
    ),
    (
        "an amend that adds a key that is not held",
        Fault::AmendAdds,
    ),
    ("an amend that asks 9 before 5", Fault::NineBeforeFive),
    ("an amend that asks 9 before 6", Fault::NineBeforeSix),
    (
        "an amend that answers 7 on a table with N orders",
        Fault::AmendSeven,
    ),
    (
        "an amend that answers 8 on a table with M chunks",
        Fault::AmendEight,
    ),
    ("an amend that leaves the old total", Fault::OldTotal),
    (
        "an amend that leaves the old displayed quantity",
        Fault::OldDisplayed,
    ),
    (
        "an amend that leaves the old displayed quantity instead of 0",
        Fault::HiddenUnamended,
    ),
    (
        "an amend that gives the next order the quantities too",
        Fault::NextAmended,
    ),
    (
        "an amend that places the order's chunk last",
        Fault::AmendMoves,
    ),
    ("an amend that counts its order again", Fault::CountedAgain),
    (
        "a cancel that answers and leaves the table",
        Fault::CancelLeaves,
    ),
    (
        "a table that is always written as that of no orders",
        Fault::AlwaysEmpty,
    ),
    (
        "an enter that lets the chunk that came first stay",
        Fault::FirstCome,
    ),
    (
        "a cancel that leaves bytes behind a count",
        Fault::StaleTail,
    ),
    ("a span whose count is invented", Fault::CountInvented),
    ("a 12 given without looking", Fault::TwelveUnlooked),
    ("an 8 given without looking", Fault::EightUnlooked),
    ("a 4 given to all", Fault::FourToAll),
    ("a check that does not see tails", Fault::TailUnseen),
    (
        "a check that does not see in which block a chunk is",
        Fault::PlacesUnseen,
    ),
    ("a check that does not count the orders", Fault::CountUnseen),
    ("a check that accepts a longer buffer", Fault::LengthUnseen),
    (
        "a lookup that changes a byte of the table when it finds nothing",
        Fault::TableTouched,
    ),
    (
        "a cancel that writes the byte before the table",
        Fault::TouchedBefore,
    ),
    (
        "a span that writes the byte behind its orders",
        Fault::OutputBehind,
    ),
    (
        "a refused span that writes its output",
        Fault::OutputOnRefusal,
    ),
    (
        "a refused lookup that repeats the key",
        Fault::PartsOnRefusal,
    ),
    (
        "a lookup that does not repeat the key",
        Fault::KeyNotRepeated,
    ),
    (
        "a lookup with the two quantities exchanged",
        Fault::QuantitiesExchanged,
    ),
    (
        "a seek that changes a byte of the table",
        Fault::SeekTouches,
    ),
    (
        "a seek that gives the next order when it is asked again",
        Fault::AnotherAgain,
    ),
    (
        "a cancel that turns down the highest key",
        Fault::LastKeyRefused,
    ),
    (
        "a span that turns down an output of the exact length",
        Fault::ExactOutputRefused,
    ),
    ("a make that leaves the last byte", Fault::LastByteKept),
    ("a make that changes its seed", Fault::SeedTouched),
    (
        "an enter that takes mod M before mod p",
        Fault::ModBlocksFirst,
    ),
    ("a descent that asks 11 after 9", Fault::DescentNineFirst),
    (
        "a descent that does not write its path with 9",
        Fault::NineUnwritten,
    ),
    (
        "a descent with the chunk that it looked ahead at on its path",
        Fault::LookAheadOnPath,
    ),
    (
        "a descent along the keys strictly below its own",
        Fault::PathStrictlyBelow,
    ),
    (
        "a descent that gives displayed for total",
        Fault::DisplayedForTotal,
    ),
    (
        "a descent that counts no blocks with 9",
        Fault::NineUncounted,
    ),
    (
        "a span with its number of orders in total",
        Fault::CountInTotal,
    ),
    (
        "a descent that writes the byte behind its path",
        Fault::PathBehind,
    ),
    (
        "a descent that writes its numbers little-endian",
        Fault::PathLittleEndian,
    ),
    (
        "a descent that asks 4 of the whole image",
        Fault::DescentJudgesAll,
    ),
    ("a descent that writes with 11", Fault::PathOnEleven),
    (
        "a descent that turns down an output of the exact length",
        Fault::ExactPathRefused,
    ),
    (
        "a descent that changes a byte of the table",
        Fault::DescentTouches,
    ),
    (
        "a descent that writes more than it counts on what is no table",
        Fault::AstrayBehind,
    ),
    (
        "a descent that counts more than its output holds on what is no table",
        Fault::AstrayCount,
    ),
    (
        "a check that accepts a key of p or more",
        Fault::KeyBeyondUnseen,
    ),
    (
        "a cancel that leaves a price behind a count",
        Fault::PriceLeft,
    ),
];

/// The archive with one fault.
pub struct Faulty {
    archive: Archive,
    fault: Fault,
    /// Since the history started: how many enters or amends were done, which keys were cancelled, and what the last seek asked.
    done: u32,
    cancelled: BTreeSet<u32>,
    sought: Option<(u32, u32, u32)>,
}

impl Faulty {
    pub fn new(fault: Fault) -> Faulty {
        Faulty {
            archive: Archive::default(),
            fault,
            done: 0,
            cancelled: BTreeSet::new(),
            sought: None,
        }
    }

    fn is(&self, fault: Fault) -> bool {
        self.fault == fault
    }
}

impl Calls for Faulty {
    fn restart(&mut self) {
        self.done = 0;
        self.cancelled.clear();
        self.sought = None;
    }

    fn make(&mut self, table: &mut [u8], sizes: &Sizes, seed: &mut [u8]) -> Reply {
        if let Fault::Prices(Price::Make(wrong)) = self.fault {
            return prices::make(wrong, &mut self.archive, table, sizes, seed);
        }
        let last = table.last().copied();
        let reply = self.archive.make(table, sizes, seed);
        if let (Fault::Labels(Labels::Make(rule)), 0) = (self.fault, reply.number) {
            labels::arrange(rule, table);
        }
        if reply.number == 0 && self.is(Fault::LastByteKept) {
            table[table.len() - 1] = last.expect("a table has bytes");
        }
        if reply.number == 0 && self.is(Fault::SeedTouched) {
            seed[39] = 0;
        }
        reply
    }

    fn check(&mut self, table: &mut [u8]) -> Reply {
        let mut copy = table.to_vec();
        let width = row_of(table);
        match self.fault {
            Fault::FourToAll => return Reply::refused(4),
            Fault::Labels(Labels::Check(judge, rule)) => {
                return labels::check(judge, rule, &mut self.archive, table)
            }
            Fault::KeyBeyondUnseen if is_rebuilt(table) => return Reply::done(),
            Fault::CheckSlips(slip) => return self.check_slips(slip, table),
            Fault::Prices(Price::Check(unseen)) => match prices::as_seen(unseen, table) {
                Some(seen) => copy = seen,
                None => return Reply::refused(4),
            },
            Fault::TailUnseen => each_block(&mut copy, |block| {
                let counted = BLOCK_HEAD + width * usize::from(block[1]);
                if let Some(tail) = block.get_mut(counted..) {
                    tail.fill(0);
                }
            }),
            Fault::PlacesUnseen => arrange(&mut copy),
            Fault::CountUnseen => {
                let mut nodes = 0;
                each_block(&mut copy, |block| {
                    nodes += u16::from(block[1]) * u16::from(block[0] == 1)
                });
                if copy.len() >= HEADER {
                    copy[11..13].copy_from_slice(&nodes.saturating_sub(1).to_be_bytes());
                }
            }
            Fault::LengthUnseen if copy.len() >= HEADER => {
                copy.truncate(number_at(table, 1).max(HEADER as u32) as usize)
            }
            _ => return self.archive.check(table),
        }
        self.archive.check(&mut copy)
    }

    fn enter_or_amend(&mut self, table: &mut [u8], ticket: &Ticket) -> Reply {
        let before = table.to_vec();
        let reply = self.archive.enter_or_amend(table, ticket);
        if reply.number == 4 {
            return reply;
        }
        let found = Found::in_table(&before).expect("no 4");
        if let Fault::Labels(wrong) = self.fault {
            return labels::enter_or_amend(wrong, ticket, table, &before, reply);
        }
        if let Some(number) = self.other_number(ticket, &found, reply.number) {
            table.copy_from_slice(&before);
            return Reply::refused(number);
        }
        if let Fault::Prices(wrong) = self.fault {
            if let Some(reply) = prices::taken(wrong, &mut self.archive, table, ticket, &found) {
                return reply;
            }
        }
        let resulting = || found.with(ticket.key, ticket.new);
        match (self.fault, ticket.kind, reply.number) {
            (Fault::EnterSlips(slip), Kind::Enter, 0 | 8) => {
                return enter_slips(slip, table, &before, &resulting())
            }
            (Fault::EnterOverwrites, Kind::Enter, 13) => {
                write(table, &resulting());
                return Reply::done();
            }
            (Fault::AmendAdds, Kind::Amend, 9) => {
                let kind = Kind::Enter;
                return self
                    .archive
                    .enter_or_amend(table, &Ticket { kind, ..*ticket });
            }
            (Fault::TouchedBehind(kind), ..) if kind == ticket.kind => unsafe {
                *table.as_mut_ptr().add(table.len()) ^= 1
            },
            (.., 0) => self.done_otherwise(ticket, &found, table),
            _ => {}
        }
        reply
    }

    fn cancel(&mut self, table: &mut [u8], key: u32) -> Reply {
        let before = table.to_vec();
        let reply = self.archive.cancel(table, key);
        if reply.number != 0 {
            return reply;
        }
        self.cancelled.insert(key);
        match self.fault {
            Fault::Labels(wrong) => return labels::cancel(wrong, key, table, &before, reply),
            Fault::CancelLeaves => table.copy_from_slice(&before),
            Fault::TouchedBefore => unsafe { *table.as_mut_ptr().sub(1) ^= 1 },
            Fault::StaleTail | Fault::PriceLeft => {
                let width = row_of(table);
                let within = if self.is(Fault::StaleTail) { 0 } else { 12 };
                each_block(table, |block| {
                    let place = BLOCK_HEAD + width * usize::from(block[1]) + within;
                    if block[0] == 1 && within < width && place < block.len() {
                        block[place..place + 4].copy_from_slice(&key.to_be_bytes());
                    }
                })
            }
            Fault::LastKeyRefused if key == P - 1 => {
                table.copy_from_slice(&before);
                return Reply::refused(5);
            }
            _ => {}
        }
        reply
    }

    fn lookup(&mut self, table: &mut [u8], key: u32) -> Reply {
        let mut reply = self.archive.lookup(table, key);
        match (self.fault, reply.number) {
            (Fault::Labels(wrong), 0) => return labels::lookup(wrong, key, table, reply),
            (Fault::TableTouched, 9) => table[HEADER] ^= 1,
            (Fault::PartsOnRefusal, 9) => reply.key = key,
            (Fault::KeyNotRepeated, 0) => reply.key = 0,
            (Fault::QuantitiesExchanged, 0) => {
                std::mem::swap(&mut reply.total, &mut reply.displayed)
            }
            (Fault::Prices(Price::Reading(Reading::Lookup, given)), _) => {
                return prices::given(given, table, reply)
            }
            _ => {}
        }
        reply
    }

    fn descent(&mut self, table: &mut [u8], key: u32, output: &mut [u8]) -> Reply {
        let before = output.to_vec();
        let mut reply = self.archive.descent(table, key, output);
        let written = NUMBER * reply.count as usize;
        match (self.fault, reply.number) {
            (_, 4 | 5) if !self.is(Fault::DescentJudgesAll) => {}
            (Fault::Labels(Labels::Search(Searching::Descent, rule)), 0 | 9) => {
                return labels::descent(rule, key, table, output, &before, reply)
            }
            (Fault::DescentNineFirst, 11) if self.archive.lookup(table, key).number == 9 => {
                return Reply::refused(9)
            }
            (Fault::NineUnwritten, 9) => output.copy_from_slice(&before),
            (Fault::NineUncounted, 9) => reply.count = 0,
            (Fault::DisplayedForTotal, 0) => reply.total = reply.displayed,
            (Fault::PathBehind, 0 | 9) if self.archive.check(table).number == 0 => {
                if let Some(byte) = output.get_mut(written) {
                    *byte ^= 1;
                }
            }
            (Fault::PathLittleEndian, 0 | 9) => output[..written]
                .chunks_exact_mut(NUMBER)
                .for_each(<[u8]>::reverse),
            (Fault::PathOnEleven, 11) if !output.is_empty() => output[0] ^= 1,
            (Fault::DescentTouches, _) => table[HEADER] ^= 1,
            (Fault::Prices(Price::Reading(Reading::Descent, given)), _) => {
                return prices::given(given, table, reply)
            }
            (Fault::ExactPathRefused, 0 | 9) if written == output.len() => {
                output.copy_from_slice(&before);
                return Reply::refused(11);
            }
            (Fault::LookAheadOnPath | Fault::PathStrictlyBelow, _) => {
                output.copy_from_slice(&before);
                return self.along_another_path(table, key, output, reply);
            }
            _ => return self.astray(table, output, &before, reply),
        }
        reply
    }

    fn span(&mut self, table: &mut [u8], lo: u32, hi: u32, output: &mut [u8]) -> Reply {
        let before = output.to_vec();
        let mut reply = self.archive.span(table, lo, hi, output);
        let width = row_of(table);
        let written = width * reply.count as usize;
        match (self.fault, reply.number) {
            (Fault::Prices(Price::Span(rows)), 0 | 11) => {
                let found = Found::in_table(table).expect("no 4");
                let mut other = before.clone();
                if let Some(reply) = prices::span(rows, &found, lo, hi, &mut other) {
                    output.copy_from_slice(&other);
                    return reply;
                }
            }
            (Fault::CountInvented, 0) if reply.count == 7 => reply.count = 8,
            (Fault::CountInTotal, 0) => std::mem::swap(&mut reply.total, &mut reply.count),
            (Fault::OutputBehind, 0) if written < output.len() => output[written] = 0xee,
            (Fault::OutputOnRefusal, 11) if output.len() >= width => output[3] ^= 1,
            (Fault::ExactOutputRefused, 0) if written > 0 && written == output.len() => {
                output.copy_from_slice(&before);
                return Reply::refused(11);
            }
            _ => {}
        }
        reply
    }

    fn seek(&mut self, table: &mut [u8], lo: u32, hi: u32, r: u32) -> Reply {
        let reply = self.archive.seek(table, lo, hi, r);
        let asked = (lo, hi, r);
        let again = self.sought.replace(asked) == Some(asked);
        let wrong = match (self.fault, reply.number) {
            (Fault::TwelveUnlooked, 0) if r > 4_000_000_000 => return Reply::refused(12),
            (Fault::SeekTouches, 0 | 12) => {
                table[HEADER] ^= 1;
                return reply;
            }
            (Fault::Prices(Price::Reading(Reading::Seek, given)), _) => {
                return prices::given(given, table, reply)
            }
            (Fault::AnotherAgain, 0) if again => Wrong::Order(Other::Second),
            (Fault::Seeks(wrong), 0 | 12) => wrong,
            _ => return reply,
        };
        let found = Found::in_table(table).expect("no 4");
        seeks::answer(wrong, &found, asked, reply)
    }
}

impl Faulty {
    /// The number of somebody who asks an enter's or amend's questions in another order, or another question; nothing is written then.
    fn other_number(&self, ticket: &Ticket, found: &Found, number: u32) -> Option<u32> {
        let own = found.orders.get(&ticket.key);
        let n_orders = found.has_n_orders();
        let last = found.orders.len() + 1 == found.made.sizes.orders as usize;
        let is_own = |kind| kind == ticket.kind;
        let other = match (self.fault, ticket.kind, number) {
            (Fault::Prices(wrong), ..) => {
                return prices::other_number(wrong, ticket, found, number)
            }
            (Fault::SixBeforeFive(kind), _, 5) if is_own(kind) && ticket.is_bad() => 6,
            (Fault::NineBeforeFive, Kind::Amend, 5) => 9,
            (Fault::SevenBeforeSix, Kind::Enter, 6) if own.is_none() && n_orders => 7,
            (Fault::ThirteenBeforeSix, Kind::Enter, 6) if own.is_some() => 13,
            (Fault::NineBeforeSix, Kind::Amend, 6) if own.is_none() => 9,
            (Fault::SevenBeforeThirteen, Kind::Enter, 13) if n_orders => 7,
            (Fault::EightBeforeThirteen, Kind::Enter, 13) if found.has_m_chunks() => 8,
            (Fault::SameEntered, Kind::Enter, 13) if own == Some(&ticket.new) => 0,
            (Fault::EightBeforeSeven, Kind::Enter, 7) if !found.has_blocks_for(ticket) => 8,
            (Fault::EightUnlooked, Kind::Enter, 0) if last && found.orders.len() > 2 => 8,
            (Fault::CancelledNotFree, Kind::Enter, 0) if self.cancelled.contains(&ticket.key) => 13,
            (Fault::AmendSeven, Kind::Amend, 0) if n_orders => 7,
            (Fault::AmendEight, Kind::Amend, 0) if found.has_m_chunks() => 8,
            (Fault::GreatestTotalRefused(kind), _, 0)
                if is_own(kind) && ticket.new.total == u32::MAX =>
            {
                6
            }
            _ => return None,
        };
        Some(other)
    }

    /// What somebody leaves who answers 0 to an enter or amend and does not do it, or does it otherwise.
    fn done_otherwise(&mut self, ticket: &Ticket, found: &Found, table: &mut [u8]) {
        match (self.fault, ticket.kind) {
            (Fault::Prices(wrong), _) => prices::done_otherwise(wrong, ticket, found, table),
            (Fault::Once(kind), _) if kind == ticket.kind => {
                self.done += 1;
                if self.done > 1 {
                    write(table, &found.orders);
                }
            }
            (Fault::Leaves(kind), _) if kind == ticket.kind => write(table, &found.orders),
            (Fault::AlwaysEmpty, _) => write(table, &Orders::new()),
            (Fault::FirstCome, Kind::Enter) => keep_first_come(ticket, found, table),
            (Fault::ModBlocksFirst, Kind::Enter) => arrange_by(table, |made, label| {
                let blocks = u64::from(made.sizes.blocks);
                let sum = u64::from(made.seed.g(label.first_key))
                    + 65_536 * u64::from(label.level)
                    + u64::from(label.chunk_number);
                (sum % blocks) as usize
            }),
            (_, Kind::Amend) => self.amended_otherwise(ticket, found, table),
            _ => {}
        }
    }

    fn amended_otherwise(&self, ticket: &Ticket, found: &Found, table: &mut [u8]) {
        let (key, new) = (ticket.key, ticket.new);
        let Order {
            total, displayed, ..
        } = found.orders[&key];
        let old_displayed = Order { displayed, ..new };
        match self.fault {
            Fault::OldTotal => write(table, &found.with(key, Order { total, ..new })),
            Fault::OldDisplayed => write(table, &found.with(key, old_displayed)),
            Fault::HiddenUnamended if new.is_hidden() => {
                write(table, &found.with(key, old_displayed))
            }
            Fault::NextAmended => {
                let mut orders = found.with(key, new);
                if let Some((_, next)) = orders.range_mut(key + 1..).next() {
                    *next = new;
                }
                write(table, &orders);
            }
            Fault::AmendMoves => place_last(ticket, found, table),
            Fault::CountedAgain => {
                let count = found.orders.len() as u16 + 1;
                table[11..13].copy_from_slice(&count.to_be_bytes());
            }
            _ => {}
        }
    }

    /// A check that takes a table for none unless it is that of its orders by this slip too.
    fn check_slips(&mut self, slip: Slip, table: &mut [u8]) -> Reply {
        match held(table) {
            Some((made, orders))
                if slips::image(slip, &made, &orders).as_deref() != Some(table) =>
            {
                Reply::refused(4)
            }
            _ => self.archive.check(table),
        }
    }

    /// The faults of a descent that show on what is no table.
    fn astray(
        &mut self,
        table: &mut [u8],
        output: &mut [u8],
        before: &[u8],
        reply: Reply,
    ) -> Reply {
        let written = NUMBER * reply.count as usize;
        if self.archive.check(table).number == 0 {
            return reply;
        }
        match self.fault {
            Fault::DescentJudgesAll => {
                output.copy_from_slice(before);
                Reply::refused(4)
            }
            Fault::AstrayBehind => {
                if let Some(byte) = output.get_mut(written) {
                    *byte ^= 1;
                }
                reply
            }
            Fault::AstrayCount => Reply {
                count: (output.len() / NUMBER) as u32 + 1,
                ..reply
            },
            _ => reply,
        }
    }

    /// The answer of a descent that takes other blocks for its path.
    fn along_another_path(
        &mut self,
        table: &mut [u8],
        key: u32,
        output: &mut [u8],
        reply: Reply,
    ) -> Reply {
        let (made, orders) = match held(table) {
            Some(held) => held,
            None => return reply,
        };
        let lists = lists(&made, &orders);
        let chunks = chunks(&made, &lists);
        let labels = if self.is(Fault::LookAheadOnPath) {
            looked_at(&way(&lists, &chunks, key), &chunks, key)
        } else {
            way(&lists, &chunks, key - 1)
        };
        if output.len() < NUMBER * labels.len() {
            return Reply::refused(11);
        }
        let found = self.archive.lookup(table, key);
        for (number, place) in numbers(table, &labels)
            .iter()
            .zip(output.chunks_exact_mut(NUMBER))
        {
            place.copy_from_slice(&number.to_be_bytes());
        }
        let count = labels.len() as u32;
        Reply { count, ..found }
    }
}

/// An enter that went past 7, by somebody who slips.
fn enter_slips(slip: Slip, table: &mut [u8], before: &[u8], orders: &Orders) -> Reply {
    let made = made_of(before).expect("an enter went past 4");
    match slips::image(slip, &made, orders) {
        Some(after) => {
            table.copy_from_slice(&after);
            Reply::done()
        }
        None => {
            table.copy_from_slice(before);
            Reply::refused(8)
        }
    }
}

/// A way with the chunks behind it that a search looks at: those next to a chunk none of whose keys is above the one sought.
fn looked_at(way: &[Label], chunks: &[Chunk], key: u32) -> Vec<Label> {
    let mut looked = Vec::new();
    for (place, &label) in way.iter().enumerate() {
        looked.push(label);
        let next = Label {
            chunk_number: label.chunk_number + 1,
            ..label
        };
        let own = chunks.iter().find(|chunk| chunk.label == label);
        let passed = own.map_or(false, |chunk| {
            chunk.nodes.iter().all(|node| node.key <= key)
        });
        let is_there = chunks.iter().any(|chunk| chunk.label == next);
        if passed && is_there && way.get(place + 1) != Some(&next) {
            looked.push(next);
        }
    }
    looked
}

// ---- hands in the bytes --------------------------------------------------------

/// The header of bytes that are long enough for one, without asking whether it is allowed.
fn made_of(table: &[u8]) -> Option<Made> {
    if table.len() < HEADER {
        return None;
    }
    let sizes = Sizes {
        version: table[0].into(),
        gamma: table[5].into(),
        nodes: table[6].into(),
        orders: short_at(table, 7),
        blocks: short_at(table, 9),
    };
    let seed = Seed::from_bytes(&table[13..13 + SEED])?;
    (sizes.allowed() && sizes.length() == table.len()).then_some(Made { sizes, seed })
}

/// Bytes of a node by the version byte.
fn row_of(table: &[u8]) -> usize {
    row(table.first().copied().unwrap_or(1).into())
}

pub fn each_block(table: &mut [u8], change: impl FnMut(&mut [u8])) {
    if let Some(made) = made_of(table) {
        table[HEADER..]
            .chunks_exact_mut(made.sizes.block_length())
            .for_each(change);
    }
}

pub fn arrange(table: &mut [u8]) {
    arrange_by(table, home);
}

/// Whether a table is that of what its blocks of level 1 hold, whatever the keys are.
fn is_rebuilt(table: &[u8]) -> bool {
    let (made, blocks) = match (made_of(table), blocks(table)) {
        (Some(made), Some(blocks)) => (made, blocks),
        _ => return false,
    };
    let level_1 = blocks
        .iter()
        .flatten()
        .filter(|block| block.label.level == 1);
    let nodes = level_1.flat_map(Block::nodes);
    let mut orders: Orders = nodes.map(|node| (node.key, node.order)).collect();
    orders.remove(&FRONT);
    orders
        .values()
        .all(|order| order.is_allowed(made.sizes.version))
        && orders.len() <= made.sizes.orders as usize
        && image(&made, &orders).as_deref() == Some(table)
}

/// Places the blocks anew by rising label, from these homes.
pub fn arrange_by(table: &mut [u8], home: impl Fn(&Made, &Label) -> usize) {
    let order = |made: &Made, one: &Label, two: &Label| compare(made.sizes.version, one, two);
    arrange_in(table, order, home);
}

/// Places the blocks anew by some order of the labels, from these homes.
pub fn arrange_in(
    table: &mut [u8],
    order: impl Fn(&Made, &Label, &Label) -> Ordering,
    home: impl Fn(&Made, &Label) -> usize,
) {
    if let Some(made) = made_of(table) {
        let order = |one: &Label, two: &Label| order(&made, one, two);
        let placed = rearranged(&made, table, order, |label| home(&made, label));
        table.copy_from_slice(&placed);
    }
}

/// The table of these orders, whatever their quantities, which must have room in it.
pub fn write(bytes: &mut [u8], orders: &Orders) {
    let made = made_of(bytes).expect("an enter or amend went past 4");
    bytes.copy_from_slice(&image(&made, orders).expect("they fit"));
}

/// An enter that places those chunks first whose labels were there before.
fn keep_first_come(ticket: &Ticket, found: &Found, after: &mut [u8]) {
    let old_lists = lists(&found.made, &found.orders);
    let known: Vec<Label> = chunks(&found.made, &old_lists)
        .iter()
        .map(|chunk| chunk.label)
        .collect();
    place_first(ticket, found, after, |chunk| known.contains(&chunk.label));
}

/// An amend that takes the chunk of its order out and places it after all others.
fn place_last(ticket: &Ticket, found: &Found, after: &mut [u8]) {
    let has_key = |chunk: &Chunk| chunk.nodes.iter().any(|node| node.key == ticket.key);
    place_first(ticket, found, after, |chunk| {
        chunk.label.level > 1 || !has_key(chunk)
    });
}

/// The chunks that there are with the ticket's order, some of them placed before the others.
fn place_first(
    ticket: &Ticket,
    found: &Found,
    after: &mut [u8],
    is_first: impl Fn(&Chunk) -> bool,
) {
    let (made, orders) = (&found.made, found.with(ticket.key, ticket.new));
    let lists = lists(made, &orders);
    let (mut placed, last): (Vec<_>, Vec<_>) = chunks(made, &lists).into_iter().partition(is_first);
    placed.extend(last);
    after.copy_from_slice(&table(made, orders.len(), &place(made, &placed)));
}
