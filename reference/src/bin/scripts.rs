//! Prints a script for the text program: valid, refused and malformed lines, mixed.
//!
//!     scripts LINES SEED
//!
//! The same LINES and SEED give the same bytes every time. Some scripts lack the
//! last line's end.

use reference::samples::{Xorshift, EDGE_KEYS};
use reference::sizes::{Sizes, P};
use std::io::{self, BufWriter, Write};

fn main() -> io::Result<()> {
    let mut words = std::env::args().skip(1).map(|text| text.parse::<u64>());
    let (lines, seed) = match (words.next(), words.next(), words.next()) {
        (Some(Ok(lines)), Some(Ok(seed)), None) => (lines, seed),
        _ => panic!("usage: scripts LINES SEED"),
    };
    let mut writer = Writer {
        chance: Xorshift::new(seed + 1),
        keys: 8,
    };
    let mut output = BufWriter::new(io::stdout().lock());
    for number in 0..lines {
        let line = writer.line(number);
        output.write_all(&line)?;
        if number + 1 < lines || writer.chance.one_in(2) {
            output.write_all(b"\n")?;
        }
    }
    output.flush()
}

struct Writer {
    chance: Xorshift,
    /// Keys are drawn from 1..=keys most of the time, so that some are held.
    keys: u32,
}

impl Writer {
    fn line(&mut self, number: u64) -> Vec<u8> {
        // A script starts with calls on no table, then a make that mostly succeeds.
        if number == 3 {
            return self.good_make().into_bytes();
        }
        match self.chance.below(100) {
            0 => self.good_make().into_bytes(),
            1..=2 => self.any_make().into_bytes(),
            3..=12 => self.malformed(),
            _ => self.call().into_bytes(),
        }
    }

    fn key(&mut self) -> u32 {
        match self.chance.below(20) {
            0 => self.chance.pick(&EDGE_KEYS),
            1 => self.chance.draw(),
            _ => self.chance.within(1, self.keys),
        }
    }

    fn quantity(&mut self) -> u32 {
        match self.chance.below(12) {
            0 => 0,
            1 => u32::MAX,
            2 => self.chance.draw(),
            _ => self.chance.within(1, 9),
        }
    }

    /// Often 0, which hidden orders have in reserve, and 1, which they have not.
    fn reserve(&mut self) -> u32 {
        match self.chance.below(4) {
            0 => 0,
            1 => 1,
            _ => self.quantity(),
        }
    }

    /// The digits of a number, sometimes with zeros in front.
    fn field(&mut self, number: u32) -> String {
        match self.chance.below(60) {
            0 => format!("{}{number}", "0".repeat(self.chance.below(60) as usize)),
            1 => format!("0{number}"),
            _ => number.to_string(),
        }
    }

    fn written(&mut self, word: &str, numbers: &[u32]) -> String {
        let mut line = word.to_string();
        for &number in numbers {
            line.push(' ');
            line.push_str(&self.field(number));
        }
        line
    }

    fn call(&mut self) -> String {
        let (first, second) = (self.key(), self.key());
        let (low, high) = match self.chance.below(8) {
            0 => (first, second),
            _ => (first.min(second), first.max(second)),
        };
        match self.chance.below(16) {
            0..=5 => {
                let total = self.quantity();
                let shown = match self.chance.below(6) {
                    0 => self.quantity(),
                    1 => 0,
                    _ => self.chance.within(0, total),
                };
                self.written("put", &[first, total, shown])
            }
            6..=9 => self.written("cancel", &[first]),
            10..=11 => self.written("show", &[first]),
            12 => self.written("span", &[low, high]),
            13..=14 => {
                let few = low.saturating_add(self.chance.below(3));
                let high = self.chance.pick(&[high, high.min(few)]);
                let reserve = self.reserve();
                self.written("seek", &[low, high, reserve])
            }
            _ => "blocks".to_string(),
        }
    }

    fn seed_number(&mut self) -> u32 {
        match self.chance.below(40) {
            0 => self.chance.pick(&[P, P - 1, P + 1, u32::MAX]),
            1..=20 => self.chance.below(3),
            _ => self.chance.below(P),
        }
    }

    /// Sizes of a small table, now and then with few blocks, and a number of keys
    /// that suits it.
    fn good_make(&mut self) -> String {
        let gamma = self.chance.pick(&[2, 2, 3, 4, 16, 64]);
        let nodes = self.chance.pick(&[2, 2, 3, 4, 32]);
        let orders = self.chance.pick(&[1, 2, 5, 20, 60]);
        let least = Sizes {
            version: 1,
            gamma,
            nodes,
            orders,
            blocks: 0,
        }
        .beta();
        let blocks = match self.chance.below(4) {
            0 => self.chance.within(least, least + orders / 2),
            _ => self.chance.within(orders + 2, 2 * orders + 20),
        };
        self.keys = 2 * orders + 2;
        let mut numbers = vec![gamma, nodes, orders, blocks];
        for _ in 0..10 {
            numbers.push(self.chance.below(P));
        }
        self.written("make", &numbers)
    }

    /// Sizes at and past each end of their ranges, tables at and past 65,536 bytes.
    fn any_make(&mut self) -> String {
        let mut numbers = vec![
            self.chance.pick(&[0, 1, 2, 16, 64, 65, u32::MAX]),
            self.chance.pick(&[0, 1, 2, 16, 32, 33, u32::MAX]),
            self.chance.pick(&[0, 1, 9, 60, 65_535, 65_536]),
            self.chance
                .pick(&[0, 3, 18, 167, 168, 2_046, 2_047, 65_535, 65_536]),
        ];
        for _ in 0..10 {
            numbers.push(self.seed_number());
        }
        self.written("make", &numbers)
    }

    /// A line of another form; now and then it is one after all.
    fn malformed(&mut self) -> Vec<u8> {
        let mut line = self.call().into_bytes();
        let place = self.chance.below(line.len() as u32 + 1) as usize;
        match self.chance.below(14) {
            0 => line.clear(),
            1 => line.insert(place, b' '),
            2 => line.push(b' '),
            3 => line.insert(0, b' '),
            4 => line.insert(place, self.chance.pick(b"\t\r\0-+.,aZ/:\x7f\xff")),
            5 => line.make_ascii_uppercase(),
            6 => line.extend_from_slice(b" 1"),
            7 => line.extend_from_slice(b" 4294967296"),
            8 => line.extend_from_slice(b"4294967295"),
            9 => line.truncate(place),
            10 => line.push(b'\r'),
            11 => line = line.repeat(2),
            12 => line = vec![b'7'; self.chance.pick(&[20, 20, 20, 20, 20, 20, 300, 70_000])],
            _ => line = b"show 18446744073709551617".to_vec(),
        }
        line
    }
}
