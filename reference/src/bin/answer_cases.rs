//! Reads cases on standard input and prints one answer line for each.

use std::io::{self, BufReader, BufWriter, Write};

use lvs_reference::cases::{Broken, Case};

fn main() -> io::Result<()> {
    let mut input = BufReader::with_capacity(1 << 16, io::stdin().lock());
    let mut out = BufWriter::with_capacity(1 << 16, io::stdout().lock());
    loop {
        match Case::read(&mut input) {
            Ok(Some(case)) => case.answer(&mut out)?,
            Ok(None) => break,
            Err(Broken) => {
                writeln!(out, "broken")?;
                break;
            }
        }
    }
    out.flush()
}
