//! Tables as files, for the lesson and the tests of docs/format.md.
//!
//!     bytes of < RUN            the table that a run of the text program leaves
//!     bytes swap I J < TABLE    the table with the bytes of blocks I and J exchanged
//!     bytes set PLACE VALUE ..  < TABLE    the table with bytes set, from PLACE on
//!     bytes blocks < TABLE      its blocks, as the text program prints them
//!     bytes orders < TABLE      0 and the orders, one line each, in version 2 with
//!                               their prices; or 4
//!     bytes priced PRICE .. < TABLE    the version 2 table of the same sizes, seed and
//!                               orders with these prices, by rising key

use reference::image::{held, image};
use reference::program::{show_blocks, table_after};
use reference::sizes::{row, BLOCK_HEAD, HEADER};
use std::io::{self, Read, Write};

fn main() -> io::Result<()> {
    let words: Vec<String> = std::env::args().skip(1).collect();
    let numbers: Vec<usize> = words
        .iter()
        .skip(1)
        .map(|text| text.parse().expect("a number"))
        .collect();
    let mut output = io::stdout().lock();
    let mut table = Vec::new();
    io::stdin().lock().read_to_end(&mut table)?;
    match (words.first().map_or("", String::as_str), &numbers[..]) {
        ("of", []) => output.write_all(&table_after(&table[..])?),
        ("swap", &[one, two]) => {
            for offset in 0..block_length(&table) {
                let place = |block| HEADER + block * block_length(&table) + offset;
                let (one, two) = (place(one), place(two));
                table.swap(one, two);
            }
            output.write_all(&table)
        }
        ("set", &[place, ref values @ ..]) => {
            for (offset, &value) in values.iter().enumerate() {
                table[place + offset] = value.try_into().expect("a byte");
            }
            output.write_all(&table)
        }
        ("blocks", []) => show_blocks(&table, &mut output),
        ("orders", []) => show_orders(&table, &mut output),
        ("priced", prices) => output.write_all(&priced(&table, prices)),
        _ => panic!("bytes of | swap I J | set PLACE VALUE .. | blocks | orders | priced PRICE .."),
    }
}

/// As the header's bytes 0 and 6, version and B, say.
fn block_length(table: &[u8]) -> usize {
    BLOCK_HEAD + row(table[0].into()) * usize::from(table[6])
}

fn priced(table: &[u8], prices: &[usize]) -> Vec<u8> {
    let (mut made, mut orders) = held(table).expect("a table");
    assert_eq!(prices.len(), orders.len(), "a price for each order");
    made.sizes.version = 2;
    for (order, &price) in orders.values_mut().zip(prices) {
        order.price = price.try_into().expect("a price");
    }
    image(&made, &orders).expect("as many chunks as before")
}

fn show_orders(table: &[u8], output: &mut impl Write) -> io::Result<()> {
    let (version, orders) = match held(table) {
        Some((made, orders)) => (made.sizes.version, orders),
        None => return writeln!(output, "4"),
    };
    let mut text = String::from("0\n");
    for (key, order) in &orders {
        text.push_str(&format!("{key} {} {}", order.total, order.displayed));
        if version == 2 {
            text.push_str(&format!(" {}", order.price));
        }
        text.push('\n');
    }
    output.write_all(text.as_bytes())
}
