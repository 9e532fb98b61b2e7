//! Audits the bundle on standard input, as document 01's program does.

use std::io::{self, Read, Write};

fn main() -> io::Result<()> {
    let mut input = Vec::new();
    let one_more = peer::program::LONGEST_INPUT as u64 + 1;
    io::stdin().take(one_more).read_to_end(&mut input)?;
    io::stdout().write_all(peer::program::text(&input).as_bytes())
}
