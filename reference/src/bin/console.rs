//! The text program, from standard input to standard output.

use std::io::{self, BufWriter};

fn main() -> io::Result<()> {
    let output = BufWriter::new(io::stdout().lock());
    reference::program::run(io::stdin().lock(), output)
}
