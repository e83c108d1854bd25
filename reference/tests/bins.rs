//! The programs as they are run.

mod common;

use common::{is_full, priced};
use reference::arrangements::{self, ORDERS};
use reference::calls::{self, Reply};
use reference::program::program;
use reference::samples::fnv_1a;
use reference::seeks::{Sought, SEEKS};
use reference::sizes::Sizes;
use std::collections::{BTreeMap, BTreeSet};
use std::io::Write;
use std::process::{Command, Stdio};

/// What the text program writes to standard output.
fn console(input: &[u8]) -> Vec<u8> {
    let mut child = Command::new(env!("CARGO_BIN_EXE_console"))
        .stdin(Stdio::piped())
        .stdout(Stdio::piped())
        .spawn()
        .expect("the program starts");
    let mut to = child.stdin.take().unwrap();
    let input = input.to_vec();
    let writer = std::thread::spawn(move || to.write_all(&input));
    let output = child.wait_with_output().unwrap();
    writer.join().unwrap().unwrap();
    assert!(output.status.success());
    output.stdout
}

#[test]
fn the_console_is_the_program() {
    let run = b"make 2 2 2 4 0 1 0 0 0 0 1 0 0 0\nput 6 50 50\nput 3 100 20\nput 4 10 0\nblocks";
    let expected = "0\n0\n0\n7\n0\n0 1 0 0 2 0 3\n1 2 0 0 2 0 6\n2 1 0 6 1 6\n3 3 0 0 1 0\n";
    assert_eq!(String::from_utf8(console(run)).unwrap(), expected);
    assert_eq!(console(b""), b"");
    assert_eq!(console(b"\xff\0\n\nblocks\n"), b"?\n?\n4\n");
}

/// Many lines, more than any buffer between holds.
#[test]
fn the_console_on_many_lines() {
    let mut input = b"make 3 4 50 60 5 4 3 2 1 1 2 3 4 5\n".to_vec();
    for i in 0..20_000u32 {
        let key = i.wrapping_mul(2_654_435_761) % 97 + 1;
        let line = match i % 7 {
            0..=2 => format!("put {key} {} {}\n", i + 1, i / 2),
            3 => format!("cancel {key}\n"),
            4 => format!("show {key}\n"),
            5 => format!("span {key} {}\n", key + 10),
            _ => format!("seek {key} 100 {}\n", i / 3),
        };
        input.extend(line.bytes());
    }
    let output = console(&input);
    assert!(output.len() > 65_536);
    assert_eq!(output, program(&input));
}

// ---- vectors ---------------------------------------------------------------

fn vectors(lines: usize) -> String {
    let output = Command::new(env!("CARGO_BIN_EXE_vectors"))
        .arg(lines.to_string())
        .output();
    let output = output.expect("the program starts");
    assert!(output.status.success());
    String::from_utf8(output.stdout).unwrap()
}

#[test]
fn vectors_are_the_same_every_time() {
    let long = vectors(1200);
    assert_eq!(long.lines().count(), 1200);
    assert_eq!(long, vectors(1200));
    assert!(long.starts_with(&vectors(300)));
}

/// Reads the lines as their format says, with nothing else to go by.
#[derive(Default)]
struct Reader {
    store: Vec<u8>,
    /// How often each word, each number, and each number of each call in each version
    /// came.
    words: BTreeMap<String, u32>,
    numbers: BTreeMap<u32, u32>,
    pairs: BTreeMap<(String, u32, u32), u32>,
    /// Descents whose answer no definition decides.
    undecided: u32,
    full: u32,
    odd_seeds: u32,
    tickets: [u32; TICKETS.len()],
    /// In each version, calls that show which label is smaller.
    orders: [[u32; ORDERS.len()]; 3],
    /// Seeks of each kind, and those that the line before asked too.
    seeks: [u32; SEEKS.len()],
    asked_again: u32,
    last: String,
}

/// Enters and amends where a later question has a "no" too, where the price decides, or
/// where a table is full.
const TICKETS: [&str; 11] = [
    "13 on a table with N orders",
    "13 on a table with M chunks",
    "an amend on a table with N orders",
    "an amend on a table with M chunks",
    "6 to an enter of a held key",
    "6 to an amend of a free key",
    "14 with a bad key",
    "14 with bad quantities",
    "5 with price 0 in version 2",
    "6 by the price alone",
    "an amend of the price alone",
];

fn number(field: &str) -> u32 {
    field.parse().unwrap()
}

fn place(field: &str) -> usize {
    field.parse().unwrap()
}

fn unhex(field: &str) -> Vec<u8> {
    if field == "-" {
        return vec![];
    }
    assert_eq!(field.len() % 2, 0);
    let pair = |i| u8::from_str_radix(&field[i..i + 2], 16).unwrap();
    (0..field.len()).step_by(2).map(pair).collect()
}

impl Reader {
    fn line(&mut self, line: &str) {
        let fields: Vec<&str> = line.split(' ').collect();
        *self.words.entry(fields[0].to_string()).or_default() += 1;
        match fields[..] {
            ["room", size, byte] => self.store = vec![byte.parse().unwrap(); place(size)],
            ["xor", at, byte] => self.store[place(at)] ^= byte.parse::<u8>().unwrap(),
            ["set", at, bytes] => {
                let bytes = unhex(bytes);
                self.store[place(at)..][..bytes.len()].copy_from_slice(&bytes);
            }
            _ => self.call(line),
        }
        self.last = line.to_string();
    }

    fn call(&mut self, line: &str) {
        let (asked, answer) = line.split_once(" = ").expect("a call has an answer");
        let asked: Vec<&str> = asked.split(' ').collect();
        let before = self.store.clone();
        let (reply, output) = self.ask(&asked);
        let store = fnv_1a(&self.store);
        let reply = match reply {
            Some(reply) => reply,
            None => {
                assert_eq!(answer, format!("? {store:016x}"), "{line}");
                self.undecided += 1;
                return;
            }
        };
        let Reply {
            number,
            key,
            total,
            displayed,
            price,
            count,
        } = reply;
        let mut found = format!("{number} {key} {total} {displayed} {price} {count} {store:016x}");
        if ["span", "descent"].contains(&asked[0]) {
            found += &format!(" {:016x}", fnv_1a(&output));
        }
        assert_eq!(found, answer, "{line}");
        *self.numbers.entry(number).or_default() += 1;
        let version = match asked[0] {
            "make" => asked[1].parse().unwrap(),
            _ => before[0].into(),
        };
        let pair = (asked[0].to_string(), version, number);
        *self.pairs.entry(pair).or_default() += 1;
        self.count_orders(&asked, number, &before);
        if ["enter", "amend"].contains(&asked[0]) && number != 4 {
            self.full += u32::from(number == 0 && is_full(&self.store[..place(asked[1])]).1);
            self.count_ticket(&asked, number, &before);
        }
        if asked[0] == "seek" && line == self.last {
            self.asked_again += 1;
        } else if asked[0] == "seek" {
            self.count_seek(&asked, reply);
        }
    }

    fn count_ticket(&mut self, asked: &[&str], answer: u32, before: &[u8]) {
        let table = &before[..place(asked[1])];
        let own = calls::lookup(table, number(asked[2]));
        let held = own.number == 0;
        let (n_orders, m_chunks) = is_full(table);
        let amend = asked[0] == "amend";
        let [total, displayed, price] = [3, 4, 5].map(|field| number(asked[field]));
        let bad = total == 0 || displayed > total;
        let same = (total, displayed) == (own.total, own.displayed);
        let kinds = [
            answer == 13 && n_orders,
            answer == 13 && m_chunks,
            answer == 0 && amend && n_orders,
            answer == 0 && amend && m_chunks,
            answer == 6 && !amend && held,
            answer == 6 && amend && !held,
            answer == 14 && own.number == 5,
            answer == 14 && bad,
            answer == 5 && price == 0 && table[0] == 2,
            answer == 6 && !bad,
            answer == 0 && amend && same && price != own.price,
        ];
        for (count, met) in self.tickets.iter_mut().zip(kinds) {
            *count += u32::from(met);
        }
    }

    fn count_orders(&mut self, asked: &[&str], answer: u32, before: &[u8]) {
        let (length, key) = match asked[0] {
            "make" => (place(asked[7]), 0),
            "check" => (place(asked[1]), 0),
            _ => (place(asked[1]), number(asked[2])),
        };
        let (before, after) = (&before[..length], &self.store[..length]);
        let version = match after.first() {
            Some(&version @ 1..=2) => usize::from(version),
            _ => return,
        };
        let met = arrangements::kinds(asked[0], answer, key, before, after);
        for (count, met) in self.orders[version].iter_mut().zip(met) {
            *count += u32::from(met);
        }
    }

    fn count_seek(&mut self, asked: &[&str], reply: Reply) {
        let table = &self.store[..place(asked[1])];
        let [lo, hi, r] = [2, 3, 4].map(|field| number(asked[field]));
        if let Some(sought) = Sought::new(table, (lo, hi, r), reply) {
            for (count, met) in self.seeks.iter_mut().zip(sought.kinds()) {
                *count += u32::from(met);
            }
        }
    }

    /// The reply, None where no definition decides it, and the output.
    fn ask(&mut self, asked: &[&str]) -> (Option<Reply>, Vec<u8>) {
        let mut output = Vec::new();
        let store = &mut self.store;
        let reply = match *asked {
            ["make", version, gamma, nodes, orders, blocks, seed, length] => {
                let sizes = Sizes {
                    version: number(version),
                    gamma: number(gamma),
                    nodes: number(nodes),
                    orders: number(orders),
                    blocks: number(blocks),
                };
                let seed = unhex(seed);
                self.odd_seeds += u32::from(seed.len() != 40);
                calls::make(&sizes, &seed, &mut store[..place(length)])
            }
            ["check", length] => calls::check(&store[..place(length)]),
            [word @ ("enter" | "amend"), length, key, total, displayed, price] => {
                let table = &mut store[..place(length)];
                let call = match word {
                    "enter" => calls::enter,
                    _ => calls::amend,
                };
                let [total, displayed, price] = [total, displayed, price].map(number);
                call(table, number(key), priced(total, displayed, price))
            }
            ["cancel", length, key] => calls::cancel(&mut store[..place(length)], number(key)),
            ["lookup", length, key] => calls::lookup(&store[..place(length)], number(key)),
            ["descent", length, key, room] => {
                output = (0..place(room)).map(|i| (i % 251) as u8).collect();
                let reply = calls::descent(&store[..place(length)], number(key), &mut output);
                return (reply, output);
            }
            ["span", length, lo, hi, room] => {
                output = (0..place(room)).map(|i| (i % 251) as u8).collect();
                calls::span(&store[..place(length)], number(lo), number(hi), &mut output)
            }
            ["seek", length, lo, hi, r] => {
                calls::seek(&store[..place(length)], number(lo), number(hi), number(r))
            }
            _ => panic!("a line of another form: {asked:?}"),
        };
        (Some(reply), output)
    }
}

/// The calls and all numbers that each can answer.
const CALLS: [(&str, &[u32]); 9] = [
    ("make", &[0, 1, 2, 3]),
    ("check", &[0, 4]),
    ("enter", &[0, 4, 5, 6, 7, 8, 13, 14]),
    ("amend", &[0, 4, 5, 6, 9, 14]),
    ("cancel", &[0, 4, 5, 9]),
    ("lookup", &[0, 4, 5, 9]),
    ("descent", &[0, 4, 5, 9, 11]),
    ("span", &[0, 4, 5, 10, 11]),
    ("seek", &[0, 4, 5, 10, 12]),
];

/// Reads a run and sees that every call gave all its numbers in either version, and
/// that every kind of seek is there, and in either version every kind of call that
/// shows which label is smaller.
fn read(text: &str) -> Reader {
    let mut reader = Reader::default();
    text.lines().for_each(|line| reader.line(line));
    for version in [1, 2] {
        for (call, numbers) in CALLS {
            for &number in numbers {
                let times = reader.pairs.get(&(call.to_string(), version, number));
                let can = (version, number) != (2, 14);
                assert_eq!(
                    times.is_some(),
                    can,
                    "{call} answered {number} in {version}"
                );
            }
        }
        for (kind, times) in ORDERS.iter().zip(reader.orders[version as usize]) {
            assert!(times >= 5, "{kind} in {version}: {times}");
        }
    }
    for ((kind, _), times) in SEEKS.iter().zip(reader.seeks) {
        assert!(times >= 5, "{kind}: {times}");
    }
    assert!(reader.asked_again >= 50, "{}", reader.asked_again);
    reader
}

/// As many lines as are read again with each buffer watched.
#[test]
fn a_short_run_has_every_number_and_kind() {
    read(&vectors(2100));
}

#[test]
fn vectors_can_be_read() {
    let text = vectors(4000);
    let reader = read(&text);
    let calls = CALLS.into_iter().map(|(call, _)| call);
    for word in calls.chain(["room", "xor", "set"]) {
        let times = reader.words.get(word).copied().unwrap_or(0);
        assert!(times >= 15, "{word}: {times}");
    }
    for number in 0..=14 {
        let times = reader.numbers.get(&number).copied().unwrap_or(0);
        assert!(times >= 7, "{number}: {times}");
    }
    assert!(reader.undecided >= 50, "{} undecided", reader.undecided);
    assert!(reader.full >= 50, "{} full tables", reader.full);
    assert!(reader.odd_seeds >= 5);
    for (kind, times) in TICKETS.iter().zip(reader.tickets) {
        assert!(times >= 5, "{kind}: {times}");
    }
    for word in ["enter", "amend"] {
        for key in ["0", "1", "2147483646", "2147483647", "4294967295"] {
            let has = |line: &&str| line.starts_with(word) && line.split(' ').nth(2) == Some(key);
            assert!(text.lines().filter(has).count() >= 3, "{word} {key}");
        }
    }
}

// ---- scripts ---------------------------------------------------------------

/// The lines of a script that change the table or make one, each answered by one
/// line.
fn changes(seed: u32) -> Vec<u8> {
    let output = Command::new(env!("CARGO_BIN_EXE_scripts"))
        .args(["400", &seed.to_string()])
        .output();
    let script = output.expect("the program starts").stdout;
    let is_change = |line: &&[u8]| {
        let words: [&[u8]; 3] = [b"make ", b"put ", b"cancel "];
        words.iter().any(|word| line.starts_with(word))
    };
    let lines = script.split(|&byte| byte == b'\n').filter(is_change);
    lines.collect::<Vec<_>>().join(&b'\n')
}

/// A script's puts give document 01's numbers and no other, and many are of held
/// keys.
#[test]
fn scripts_put_held_keys_and_free_ones() {
    let mut numbers = BTreeMap::<String, u32>::new();
    let mut amends = 0;
    for seed in 1..=20 {
        let input = changes(seed);
        let output = String::from_utf8(program(&input)).unwrap();
        let mut held = BTreeSet::new();
        for (line, answer) in input.split(|&byte| byte == b'\n').zip(output.lines()) {
            let fields: Vec<&[u8]> = line.split(|&byte| byte == b' ').collect();
            let key = String::from_utf8_lossy(fields[1]).parse::<u32>();
            match (fields[0], answer, key) {
                (b"make", "0", _) => held.clear(),
                (b"cancel", "0", Ok(key)) => assert!(held.remove(&key)),
                (b"put", "0", Ok(key)) => amends += u32::from(!held.insert(key)),
                _ => {}
            }
            if fields[0] == b"put" {
                *numbers.entry(answer.to_string()).or_default() += 1;
            }
        }
    }
    let met: Vec<&str> = numbers.keys().map(String::as_str).collect();
    assert_eq!(met, ["0", "4", "5", "6", "7", "8", "?"]);
    assert!(numbers.values().all(|&times| times > 10), "{numbers:?}");
    assert!(amends > 200, "{amends}");
}
