//! Writes the image of made-up orders to standard output, for benchmarks.
//!
//!     sample γ B N ORDERS PERCENT [flat|tall|home] [priced]
//!
//! ORDERS random orders under a random seed, in as many blocks as make the chunks
//! PERCENT of them. `flat`: the hash of the levels is the constant 1, so that one
//! partition has every order. `tall`: it is 0, so that every order is in all lists.
//! `home`: the hash of the homes is constant. `priced`: of version 2.

use reference::samples::{sample, Shape};
use reference::sizes::Sizes;
use std::io::{self, Write};

fn main() -> io::Result<()> {
    let words: Vec<String> = std::env::args().skip(1).collect();
    let (mut shape, mut version) = (Shape::Random, 1);
    for word in words.iter().skip(5) {
        match word.as_str() {
            "flat" => shape = Shape::Flat,
            "tall" => shape = Shape::Tall,
            "home" => shape = Shape::OneHome,
            "priced" => version = 2,
            other => panic!("{other}: flat, tall, home or priced"),
        }
    }
    let numbers = words.iter().take(5);
    let numbers: Vec<u32> = numbers
        .map(|text| text.parse().expect("a number"))
        .collect();
    let table = match numbers[..] {
        [gamma, nodes, orders, held, percent] => {
            let sizes = Sizes {
                version,
                gamma,
                nodes,
                orders,
                blocks: 0,
            };
            sample(&sizes, held, percent, shape)
        }
        _ => panic!("sample γ B N ORDERS PERCENT [flat|tall|home] [priced]"),
    };
    io::stdout().write_all(&table)
}
