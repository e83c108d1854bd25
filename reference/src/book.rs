//! The plain book ("The plain book"), with enter and amend "in place of put [..],
//! each with its questions after 4" (document 02, request A.4).
//!
//! "It is given the sizes and seed of make and then each call in turn with its
//! arguments, but no reply and no byte of the table." The version is given too; "there
//! an order has its price, and amend replaces it along with the quantities" (request
//! A.6).

use crate::lists::{chunks, lists, Order, Orders};
use crate::sizes::{Made, P};

/// "Its state is a set of orders, empty at first."
pub struct Book {
    made: Made,
    orders: Orders,
}

impl Book {
    pub fn new(made: Made) -> Book {
        Book {
            made,
            orders: Orders::new(),
        }
    }

    /// "The sizes and seed of make".
    pub fn made(&self) -> &Made {
        &self.made
    }

    /// The set of orders now.
    pub fn orders(&self) -> &Orders {
        &self.orders
    }

    /// Questions 14, 5, 6, 13, 7 and 8. If none turns the enter down, "the order is
    /// added". Gives the number of the question that turns it down, or 0.
    pub fn enter(&mut self, key: u32, new: Order) -> u32 {
        let [fourteen, five, six] = self.first_questions(key, &new);
        let questions = [
            fourteen,
            five,
            six,
            (13, !self.orders.contains_key(&key)),
            (7, self.n() < self.made.sizes.orders),
        ];
        let refusal = first_no(&questions);
        if refusal != 0 {
            return refusal;
        }
        let mut resulting = self.orders.clone();
        resulting.insert(key, new);
        let chunks = chunks(&self.made, &lists(&self.made, &resulting)).len();
        if chunks > self.made.sizes.blocks as usize {
            return 8;
        }
        self.orders = resulting;
        0
    }

    /// Questions 14, 5, 6 and 9. If none turns the amend down, the order "replaces
    /// the one with its key".
    pub fn amend(&mut self, key: u32, new: Order) -> u32 {
        let [fourteen, five, six] = self.first_questions(key, &new);
        let nine = (9, self.orders.contains_key(&key));
        let refusal = first_no(&[fourteen, five, six, nine]);
        if refusal == 0 {
            self.orders.insert(key, new);
        }
        refusal
    }

    /// What both ask first.
    fn first_questions(&self, key: u32, new: &Order) -> [(u32, bool); 3] {
        let version = self.made.sizes.version;
        let quantities = new.total >= 1 && new.displayed <= new.total;
        [
            (14, version == 2 || new.price == 0),
            (5, (1..=P - 1).contains(&key)),
            (6, quantities && (version == 1 || new.price >= 1)),
        ]
    }

    /// "Questions 5 and 9 are asked of this set. If neither turns it down, that
    /// order goes."
    pub fn cancel(&mut self, key: u32) -> u32 {
        let questions = [
            (5, (1..=P - 1).contains(&key)),
            (9, self.orders.contains_key(&key)),
        ];
        let refusal = first_no(&questions);
        if refusal == 0 {
            self.orders.remove(&key);
        }
        refusal
    }

    /// n, "its number of orders".
    fn n(&self) -> u32 {
        self.orders.len() as u32
    }
}

/// The number of the first question answered "no", or 0.
fn first_no(questions: &[(u32, bool)]) -> u32 {
    let no = questions.iter().find(|(_, yes)| !yes);
    no.map_or(0, |(number, _)| *number)
}
