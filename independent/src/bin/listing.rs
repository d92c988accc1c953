//! The independent listing program: standard input to standard output.

use std::io;

fn main() -> io::Result<()> {
    independent::listing::run(io::stdin().lock(), io::BufWriter::new(io::stdout().lock()))
}
