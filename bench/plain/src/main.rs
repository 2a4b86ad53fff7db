//! The whole program: a snapshot from standard input, its printed forecast to standard output.

use plain::{page, Lent, LONGEST};
use std::io::{self, BufWriter, Read, Write};

fn main() -> io::Result<()> {
    let mut input = Vec::with_capacity(LONGEST + 1);
    io::stdin().lock().take(LONGEST as u64 + 1).read_to_end(&mut input)?;
    let mut lent = Lent::filled(0);
    let mut out = BufWriter::new(io::stdout().lock());
    page(&input, &mut lent.tables(), &mut out)?;
    out.flush()
}
