//! Made-up seeks, and the kinds of seeks that a test has to meet.

use crate::calls::Reply;
use crate::image::held;
use crate::lists::{chunks, lists, Chunk, Label, Order, Orders};
use crate::samples::Xorshift;
use crate::sizes::Made;

/// Where a seek looks and what for, as lo, hi and r: in the given range or, half
/// of the time, in one with one to three orders, so that it is often a hidden
/// order that decides the answer.
pub fn some_seek(generator: &mut Xorshift, orders: &Orders, range: (u32, u32)) -> (u32, u32, u32) {
    let (lo, hi) = if generator.one_in(2) {
        few_orders(generator, orders).unwrap_or(range)
    } else {
        range
    };
    let inside: Vec<Order> = orders
        .iter()
        .filter(|(&key, _)| lo <= key && key <= hi)
        .map(|(_, &order)| order)
        .collect();
    let r = if inside.is_empty() || generator.one_in(4) {
        any_reserve(generator)
    } else {
        let order = generator.pick(&inside);
        reserve_near(generator, &order)
    };
    (lo, hi, r)
}

/// From the key of a held order to its own or one of the next two.
fn few_orders(generator: &mut Xorshift, orders: &Orders) -> Option<(u32, u32)> {
    let keys: Vec<u32> = orders.keys().copied().collect();
    let last = keys.len().checked_sub(1)?;
    let first = generator.below(keys.len() as u32) as usize;
    let behind = first + generator.below(3) as usize;
    Some((keys[first], keys[behind.min(last)]))
}

/// Any r, the edges often.
fn any_reserve(generator: &mut Xorshift) -> u32 {
    let any = generator.draw();
    generator.pick(&[
        0,
        1,
        50,
        1_000_000_000,
        4_000_000_000,
        u32::MAX - 1,
        u32::MAX,
        any,
    ])
}

/// An r at and just beyond what an order has in reserve, and what it has in all.
fn reserve_near(generator: &mut Xorshift, order: &Order) -> u32 {
    let (reserve, total) = (order.reserve(), order.total);
    let up_to_total = generator.within(1, total);
    generator.pick(&[
        0,
        1,
        reserve,
        reserve + 1,
        up_to_total,
        total,
        total.saturating_add(1),
    ])
}

// ---- kinds -----------------------------------------------------------------

/// Seeks at the edges of what counts as reserve (request A.2), then seeks that tell
/// the lowest order that has it from others (request A.5). Whoever leaves a hidden
/// order out, takes its total for its reserve, is off by one, looks outside lo..hi
/// or in a part of it, or gives another order, answers some of them otherwise.
pub const SEEKS: [(&str, fn(&Sought) -> bool); 23] = [
    ("r = 0 where all orders are hidden", |s| {
        s.r == 0 && !s.is_12() && s.inside().all(|(_, order)| order.is_hidden())
    }),
    ("12 to r = 1 beside a hidden order", |s| {
        s.is_12() && s.r == 1 && s.any_hidden(|_, _| true)
    }),
    ("12 to r below a hidden order's total", |s| {
        s.is_12() && s.r > 1 && s.any_hidden(|_, total| s.r < total)
    }),
    ("12 to r = a hidden order's total", |s| {
        s.is_12() && s.r > 1 && s.any_hidden(|_, total| s.r == total)
    }),
    ("12 to r one above a hidden order's total", |s| {
        s.is_12() && s.any_hidden(|_, total| total.checked_add(1) == Some(s.r))
    }),
    (
        "an order behind a hidden one whose total is r or more",
        |s| s.r > 0 && !s.is_12() && s.any_hidden(|key, total| key < s.reply.key && s.r <= total),
    ),
    ("r = the reserve of the order given", |s| {
        s.r > 0 && s.given().map_or(false, |given| given.reserve() == s.r)
    }),
    ("12 to r one above a reserve", |s| {
        s.is_12() && s.any(|order| !order.is_hidden() && order.reserve() + 1 == s.r)
    }),
    ("several orders that have the reserve", |s| {
        s.r > 0 && s.having().count() > 1
    }),
    ("an order before one that has more", |s| {
        s.compares(|given, other| given.reserve() < other.reserve())
    }),
    ("an order before one that has less, but enough", |s| {
        s.compares(|given, other| given.reserve() > other.reserve())
    }),
    ("an order behind the lowest", |s| s.passed().is_some()),
    ("an order behind the lowest, which lacks one", |s| {
        let lacks_one = |order: &Order| order.reserve() > 0 && order.reserve() + 1 == s.r;
        s.passed().map_or(false, |(_, order)| lacks_one(order))
    }),
    (
        "r = 0 where the lowest order is hidden and another is not",
        |s| {
            let hidden_first = s.lowest().map_or(false, |(_, order)| order.is_hidden());
            s.r == 0 && hidden_first && s.any(|order| !order.is_hidden())
        },
    ),
    ("an order where one below lo has the reserve too", |s| {
        !s.is_12() && s.is_below()
    }),
    ("12 where an order below lo has the reserve", |s| {
        s.is_12() && s.is_below()
    }),
    ("12 where an order above hi has the reserve", |s| {
        s.is_12() && s.is_above()
    }),
    ("an order in a later chunk than the lowest", |s| {
        let later = |(lowest, given): (Label, Label)| {
            lowest.first_key == given.first_key && lowest.chunk_number < given.chunk_number
        };
        s.labels().map_or(false, later)
    }),
    ("an order in a later partition than the lowest", |s| {
        let later = |(lowest, given): (Label, Label)| lowest.first_key < given.first_key;
        s.labels().map_or(false, later)
    }),
    ("lo = hi, an order that has the reserve", |s| {
        s.lo == s.hi && s.r > 0 && !s.is_12()
    }),
    ("lo = hi, 12 to an order that has less", |s| {
        s.lo == s.hi && s.is_12() && s.lowest().is_some()
    }),
    ("an order with key lo, below hi", |s| {
        s.lo < s.hi && s.reply.key == s.lo
    }),
    ("an order with key hi, behind others", |s| {
        s.reply.key == s.hi && s.passed().is_some()
    }),
];

/// A seek that 4, 5 and 10 let pass, on a table that is made with this and holds
/// these orders, and the right answer.
pub struct Sought {
    made: Made,
    orders: Orders,
    lo: u32,
    hi: u32,
    r: u32,
    reply: Reply,
}

impl Sought {
    /// None where 4, 5 or 10 turned it down.
    pub fn new(table: &[u8], (lo, hi, r): (u32, u32, u32), reply: Reply) -> Option<Sought> {
        if ![0, 12].contains(&reply.number) {
            return None;
        }
        let (made, orders) = held(table)?;
        Some(Sought {
            made,
            orders,
            lo,
            hi,
            r,
            reply,
        })
    }

    /// Which of the kinds it is.
    pub fn kinds(&self) -> [bool; SEEKS.len()] {
        SEEKS.map(|(_, is)| is(self))
    }

    fn is_12(&self) -> bool {
        self.reply.number == 12
    }

    fn given(&self) -> Option<&Order> {
        self.orders.get(&self.reply.key)
    }

    /// The orders in lo..hi, rising.
    fn inside(&self) -> impl Iterator<Item = (u32, &Order)> {
        let range = self.orders.range(self.lo..=self.hi);
        range.map(|(&key, order)| (key, order))
    }

    /// Those that have the reserve.
    fn having(&self) -> impl Iterator<Item = &Order> {
        let orders = self.inside().map(|(_, order)| order);
        orders.filter(move |order| order.reserve() >= self.r)
    }

    fn any(&self, suits: impl Fn(&Order) -> bool) -> bool {
        self.inside().any(|(_, order)| suits(order))
    }

    /// Whether some hidden order in lo..hi suits, by its key and total.
    fn any_hidden(&self, suits: impl Fn(u32, u32) -> bool) -> bool {
        let suits = |(key, order): (u32, &Order)| order.is_hidden() && suits(key, order.total);
        self.inside().any(suits)
    }

    /// Whether the order given is so beside another that has the reserve, which is
    /// not 0.
    fn compares(&self, so: fn(&Order, &Order) -> bool) -> bool {
        let so_given = |given| self.having().any(|other| so(given, other));
        self.r > 0 && self.given().map_or(false, so_given)
    }

    /// The lowest order in lo..hi, whether or not it has the reserve.
    fn lowest(&self) -> Option<(u32, &Order)> {
        self.inside().next()
    }

    /// The lowest order in lo..hi where another is given.
    fn passed(&self) -> Option<(u32, &Order)> {
        let is_passed = |&(key, _): &(u32, &Order)| !self.is_12() && key != self.reply.key;
        self.lowest().filter(is_passed)
    }

    /// Where that one stands, and the order given.
    fn labels(&self) -> Option<(Label, Label)> {
        let label = |key| label(&self.made, &self.orders, key);
        let passed = self.passed();
        passed.map(|(key, _)| (label(key), label(self.reply.key)))
    }

    /// Whether an order below lo has the reserve.
    fn is_below(&self) -> bool {
        let mut below = self.orders.range(..self.lo);
        below.any(|(_, order)| order.reserve() >= self.r)
    }

    /// Whether an order above hi has it.
    fn is_above(&self) -> bool {
        let mut above = self.orders.range(self.hi + 1..);
        above.any(|(_, order)| order.reserve() >= self.r)
    }
}

/// The label of the chunk of level 1 in which a held key stands.
pub fn label(made: &Made, orders: &Orders, key: u32) -> Label {
    let has = |chunk: &&Chunk| chunk.nodes.iter().any(|node| node.key == key);
    let lists = lists(made, orders);
    let chunks = chunks(made, &lists);
    let mut lowest = chunks.iter().filter(|chunk| chunk.label.level == 1);
    lowest.find(has).expect("every held key is in L_1").label
}
