//! Reads a trace on standard input, and writes its order lines and, after a fault, a stop line.

mod board;
mod heap;
mod instant;
mod list;
mod page;
mod trace;

use page::Page;
use std::io::{self, Read, Write};
use trace::replay;

/// How many bytes of the input are looked at.
const TRACE: u64 = 32_768;

fn main() -> io::Result<()> {
    let mut bytes = Vec::with_capacity(TRACE as usize);
    io::stdin().lock().take(TRACE).read_to_end(&mut bytes)?;
    let mut page = Page::new();
    let stop = replay(&bytes, &mut page).err();
    let mut output = io::stdout().lock();
    output.write_all(page.as_bytes())?;
    if let Some(stop) = stop {
        writeln!(output, "stop {} at {}", stop.fault as u8, stop.place)?;
    }
    output.flush()
}
