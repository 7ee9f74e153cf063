//! The reference `harbour`: standard input to standard output.

use reference::harbour::Harbour;
use std::io::{self, Read, Write};

fn main() -> io::Result<()> {
    let mut input = io::stdin().lock();
    let mut output = io::stdout().lock();
    let mut harbour = Harbour::new();
    let mut chunk = vec![0; 1 << 16];
    let mut out = Vec::new();
    loop {
        let length = input.read(&mut chunk)?;
        if length == 0 {
            break;
        }
        harbour.feed(&chunk[..length], &mut out);
        output.write_all(&out)?;
        out.clear();
    }
    harbour.finish(&mut out);
    output.write_all(&out)?;
    output.flush()
}
