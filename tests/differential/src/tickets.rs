//! Enter and amend: what a dealer's ticket asks for, and what it meets.

use reference::calls::{self, Reply};
use reference::image::{held, image};
use reference::lists::{chunks, lists, Order, Orders};
use reference::sizes::{is_key, Made};

#[derive(Clone, Copy, Debug, PartialEq, Eq)]
pub enum Kind {
    Enter,
    Amend,
}

pub const BOTH: [Kind; 2] = [Kind::Enter, Kind::Amend];

/// One enter or amend.
#[derive(Clone, Copy, Debug, PartialEq, Eq)]
pub struct Ticket {
    pub kind: Kind,
    pub key: u32,
    pub new: Order,
}

impl Ticket {
    pub fn on_reference(&self, table: &mut [u8]) -> Reply {
        let call = match self.kind {
            Kind::Enter => calls::enter,
            Kind::Amend => calls::amend,
        };
        call(table, self.key, self.new)
    }

    /// Whether 6 turns it down in any version.
    pub fn is_bad(&self) -> bool {
        self.new.total == 0 || self.new.displayed > self.new.total
    }
}

/// The table as a ticket or seek finds it.
pub struct Found {
    pub made: Made,
    pub orders: Orders,
}

impl Found {
    /// None where the bytes are no image.
    pub fn in_table(table: &[u8]) -> Option<Found> {
        held(table).map(|(made, orders)| Found { made, orders })
    }

    pub fn has_n_orders(&self) -> bool {
        self.orders.len() == self.made.sizes.orders as usize
    }

    pub fn has_m_chunks(&self) -> bool {
        self.chunks(&self.orders) == self.made.sizes.blocks as usize
    }

    /// Whether there are blocks enough with the ticket's order too.
    pub fn has_blocks_for(&self, ticket: &Ticket) -> bool {
        self.chunks(&self.with(ticket.key, ticket.new)) <= self.made.sizes.blocks as usize
    }

    /// The orders with this one among them, in place of one with its key.
    pub fn with(&self, key: u32, order: Order) -> Orders {
        let mut orders = self.orders.clone();
        orders.insert(key, order);
        orders
    }

    /// The bytes.
    pub fn table(&self) -> Vec<u8> {
        image(&self.made, &self.orders).expect("they fit")
    }

    pub fn version(&self) -> u32 {
        self.made.sizes.version
    }

    fn chunks(&self, orders: &Orders) -> usize {
        chunks(&self.made, &lists(&self.made, orders)).len()
    }
}

/// The versions that have some kind of call.
pub const EITHER: &[usize] = &[1, 2];
pub const FIRST: &[usize] = &[1];
pub const SECOND: &[usize] = &[2];

/// Tickets where several questions have a "no", where the price decides, where the table is full, or where little changes: whoever asks in another
/// order, takes one call or version for the other, or keeps a quantity or price, answers or leaves some of them otherwise.
pub const TICKETS: [(&str, &[usize]); 31] = [
    ("14 to an enter of what is no key", FIRST),
    ("14 to an amend of what is no key", FIRST),
    ("14 to an enter with bad quantities", FIRST),
    ("14 to an amend with bad quantities", FIRST),
    ("14 to an enter of a held key", FIRST),
    ("14 to an amend of a free key", FIRST),
    ("14 to an enter where N orders are held", FIRST),
    ("14 to an enter that is right otherwise", FIRST),
    ("14 to an amend that is right otherwise", FIRST),
    ("5 to an enter with bad quantities", EITHER),
    ("5 to an amend with bad quantities", EITHER),
    ("5 to an enter with price 0", SECOND),
    ("5 to an amend with price 0", SECOND),
    ("6 to an enter of a held key", EITHER),
    (
        "6 to an enter of a free key where N orders are held",
        EITHER,
    ),
    ("6 to an amend of a free key", EITHER),
    ("6 to an enter that is right but for price 0", SECOND),
    ("6 to an amend that is right but for price 0", SECOND),
    ("13 where N orders are held", EITHER),
    ("13 where M blocks are used", EITHER),
    ("13 where there is room", EITHER),
    ("13 with the order that is there", EITHER),
    ("7 where 8 would come too", EITHER),
    ("9 to an amend of a key that could be entered", EITHER),
    ("an enter with the lowest or the highest price", SECOND),
    ("an amend where N orders are held", EITHER),
    ("an amend where M blocks are used", EITHER),
    ("an amend with the order that is there", EITHER),
    ("an amend of the total alone", EITHER),
    ("an amend of the displayed quantity alone", EITHER),
    ("an amend of the price alone", SECOND),
];

/// Which of these kinds a ticket is, by what it finds and the right answer.
pub fn kinds(ticket: &Ticket, found: &Found, number: u32) -> [bool; TICKETS.len()] {
    let (enter, amend) = (ticket.kind == Kind::Enter, ticket.kind == Kind::Amend);
    let own = found.orders.get(&ticket.key);
    let has = |same: fn(&Order) -> u32| own.map(same) == Some(same(&ticket.new));
    let same = [
        has(|order| order.total),
        has(|order| order.displayed),
        has(|order| order.price),
    ];
    let n_orders = found.has_n_orders();
    let (key, bad, price) = (is_key(ticket.key), ticket.is_bad(), ticket.new.price);
    let right = key && !bad;
    let fits = own.is_none() && !n_orders;
    let amended = amend && number == 0;
    [
        enter && number == 14 && !key,
        amend && number == 14 && !key,
        enter && number == 14 && bad,
        amend && number == 14 && bad,
        enter && number == 14 && own.is_some(),
        amend && number == 14 && right && own.is_none(),
        enter && number == 14 && n_orders,
        enter && number == 14 && right && fits && found.has_blocks_for(ticket),
        amend && number == 14 && right && own.is_some(),
        enter && number == 5 && bad,
        amend && number == 5 && bad,
        enter && number == 5 && price == 0,
        amend && number == 5 && price == 0,
        enter && number == 6 && own.is_some(),
        enter && number == 6 && own.is_none() && n_orders,
        amend && number == 6 && own.is_none(),
        enter && number == 6 && right && fits && found.has_blocks_for(ticket),
        amend && number == 6 && right && own.is_some(),
        number == 13 && n_orders,
        number == 13 && found.has_m_chunks(),
        number == 13 && !n_orders && !found.has_m_chunks(),
        number == 13 && same == [true; 3],
        number == 7 && !found.has_blocks_for(ticket),
        number == 9 && !n_orders && found.has_blocks_for(ticket),
        enter && number == 0 && [1, u32::MAX].contains(&price),
        amended && n_orders,
        amended && found.has_m_chunks(),
        amended && same == [true; 3],
        amended && same == [false, true, true],
        amended && same == [true, false, true],
        amended && same == [true, true, false],
    ]
}
