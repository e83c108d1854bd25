//! The text program ("The program and one full run").

use crate::calls::{self, Reply};
use crate::image::{self, Block};
use crate::lists::Order;
use crate::sizes::{number_at, row, Sizes};
use std::io::{self, BufRead, Write};

/// "a table over 65,536 bytes" is not made, so no span is longer either.
pub const BUFFER: usize = 65_536;

/// "The program keeps to version 1" (document 02, request A.6).
const VERSION: u32 = 1;

/// The whole output for a whole input.
pub fn program(input: &[u8]) -> Vec<u8> {
    let mut output = Vec::new();
    run(input, &mut output).expect("memory takes every write");
    output
}

/// Reads lines until the input ends and answers each.
pub fn run(input: impl BufRead, output: impl Write) -> io::Result<()> {
    answer_all(&mut Console::new(), input, output)
}

/// The bytes of the table that a run leaves, of length 0 if it makes none.
pub fn table_after(input: impl BufRead) -> io::Result<Vec<u8>> {
    let mut console = Console::new();
    answer_all(&mut console, input, io::sink())?;
    Ok(console.table)
}

/// "The last line may lack its line end"; the end of input straight after a line
/// end is no line.
fn answer_all(
    console: &mut Console,
    mut input: impl BufRead,
    mut output: impl Write,
) -> io::Result<()> {
    let mut line = Vec::new();
    while input.read_until(b'\n', &mut line)? != 0 {
        if line.last() == Some(&b'\n') {
            line.pop();
        }
        match read_line(&line) {
            Some(line) => console.answer(&line, &mut output)?,
            None => writeln!(output, "?")?,
        }
        line.clear();
    }
    output.flush()
}

// ---- lines -----------------------------------------------------------------

/// A line that asks for something.
enum Line {
    Make {
        sizes: Sizes,
        seed: Vec<u8>,
    },
    Put {
        key: u32,
        total: u32,
        displayed: u32,
    },
    Cancel {
        key: u32,
    },
    Show {
        key: u32,
    },
    Span {
        lo: u32,
        hi: u32,
    },
    Seek {
        lo: u32,
        hi: u32,
        r: u32,
    },
    Blocks,
}

/// None for "a line of another form, a field above 4,294,967,295, or a table over
/// 65,536 bytes whose sizes are allowed".
fn read_line(line: &[u8]) -> Option<Line> {
    let mut parts = line.split(|&byte| byte == b' ');
    let word = parts.next()?;
    let fields = parts.map(field).collect::<Option<Vec<u32>>>()?;
    match (word, fields.as_slice()) {
        (b"make", &[gamma, nodes, orders, blocks, ref seed @ ..]) if seed.len() == 10 => {
            let sizes = Sizes {
                version: VERSION,
                gamma,
                nodes,
                orders,
                blocks,
            };
            let seed = seed
                .iter()
                .flat_map(|number| number.to_be_bytes())
                .collect();
            let too_long = sizes.allowed() && sizes.length() > BUFFER;
            (!too_long).then_some(Line::Make { sizes, seed })
        }
        (b"put", &[key, total, displayed]) => Some(Line::Put {
            key,
            total,
            displayed,
        }),
        (b"cancel", &[key]) => Some(Line::Cancel { key }),
        (b"show", &[key]) => Some(Line::Show { key }),
        (b"span", &[lo, hi]) => Some(Line::Span { lo, hi }),
        (b"seek", &[lo, hi, r]) => Some(Line::Seek { lo, hi, r }),
        (b"blocks", &[]) => Some(Line::Blocks),
        _ => None,
    }
}

/// "decimal fields of one or more digits". Leading zeros count for nothing.
fn field(digits: &[u8]) -> Option<u32> {
    if digits.is_empty() {
        return None;
    }
    digits.iter().try_fold(0u32, |value, &digit| {
        let digit = digit.is_ascii_digit().then(|| u32::from(digit - b'0'))?;
        value.checked_mul(10)?.checked_add(digit)
    })
}

// ---- answers ---------------------------------------------------------------

/// The table and the output lent to span.
struct Console {
    table: Vec<u8>,
    found: Vec<u8>,
}

impl Console {
    /// "Before a successful make the table has length 0".
    fn new() -> Console {
        Console {
            table: Vec::new(),
            found: vec![0; BUFFER],
        }
    }

    fn answer(&mut self, line: &Line, output: &mut impl Write) -> io::Result<()> {
        match *line {
            Line::Make { sizes, ref seed } => {
                let number = self.make(&sizes, seed);
                writeln!(output, "{number}")
            }
            Line::Put {
                key,
                total,
                displayed,
            } => {
                let reply = put(&mut self.table, key, total, displayed);
                writeln!(output, "{}", reply.number)
            }
            Line::Cancel { key } => {
                let reply = calls::cancel(&mut self.table, key);
                writeln!(output, "{}", reply.number)
            }
            Line::Show { key } => {
                let Reply {
                    number,
                    total,
                    displayed,
                    ..
                } = calls::lookup(&self.table, key);
                match number {
                    0 => writeln!(output, "0 {total} {displayed}"),
                    _ => writeln!(output, "{number}"),
                }
            }
            Line::Span { lo, hi } => self.span(lo, hi, output),
            Line::Seek { lo, hi, r } => {
                let Reply {
                    number,
                    key,
                    total,
                    displayed,
                    ..
                } = calls::seek(&self.table, lo, hi, r);
                match number {
                    0 => writeln!(output, "0 {key} {total} {displayed}"),
                    _ => writeln!(output, "{number}"),
                }
            }
            Line::Blocks => show_blocks(&self.table, output),
        }
    }

    /// "A failed make keeps the older table."
    fn make(&mut self, sizes: &Sizes, seed: &[u8]) -> u32 {
        let length = if sizes.allowed() { sizes.length() } else { 0 };
        let mut table = vec![0; length];
        let reply = calls::make(sizes, seed, &mut table);
        if reply.number == 0 {
            self.table = table;
        }
        reply.number
    }

    /// "`span` the number found; then `span` prints its orders, one line each."
    fn span(&mut self, lo: u32, hi: u32, output: &mut impl Write) -> io::Result<()> {
        let reply = calls::span(&self.table, lo, hi, &mut self.found);
        if reply.number != 0 {
            return writeln!(output, "{}", reply.number);
        }
        writeln!(output, "0 {}", reply.count)?;
        let rows = self.found.chunks_exact(row(VERSION));
        for order in rows.take(reply.count as usize) {
            let [key, total, displayed] = [0, 4, 8].map(|place| number_at(order, place));
            writeln!(output, "{key} {total} {displayed}")?;
        }
        Ok(())
    }
}

/// "The program's `put` amends a held key and enters any other, so its runs print
/// the same" (document 02, request A.4): the numbers of document 01's put, never 9
/// or 13.
pub fn put(table: &mut [u8], key: u32, total: u32, displayed: u32) -> Reply {
    let is_held = calls::lookup(table, key).number == 0;
    let call = if is_held { calls::amend } else { calls::enter };
    let new = Order {
        total,
        displayed,
        price: 0,
    };
    call(table, key, new)
}

/// "`blocks` prints 0, then for each block its number and either `-` or level,
/// chunk number, first key, count, and the keys."
pub fn show_blocks(table: &[u8], output: &mut impl Write) -> io::Result<()> {
    let blocks = match image::blocks(table) {
        Some(blocks) => blocks,
        None => return writeln!(output, "4"),
    };
    writeln!(output, "0")?;
    for (number, block) in blocks.iter().enumerate() {
        match block {
            Some(block) => writeln!(output, "{number} {}", shown(block))?,
            None => writeln!(output, "{number} -")?,
        }
    }
    Ok(())
}

/// Level, chunk number, first key, count, and the keys.
fn shown(block: &Block) -> String {
    let label = &block.label;
    let head = [
        label.level,
        label.chunk_number,
        label.first_key,
        block.count,
    ];
    let keys = block.nodes().map(|node| node.key);
    let fields: Vec<String> = head
        .into_iter()
        .chain(keys)
        .map(|n| n.to_string())
        .collect();
    fields.join(" ")
}
