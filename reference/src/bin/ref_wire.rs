//! Reads one message a line, `KIND n m HEX`, and prints what it says or its fault.

use std::io::{self, Read, Write};

fn main() -> io::Result<()> {
    let mut input = Vec::new();
    io::stdin().lock().read_to_end(&mut input)?;
    let mut output = io::stdout().lock();
    output.write_all(&reference::wire::read_lines(&input))?;
    output.flush()
}
