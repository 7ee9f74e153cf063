//! The reference `lamphouse`: standard input to standard output.

use reference::lamphouse::Lamphouse;
use std::io::{self, Read, Write};

fn main() -> io::Result<()> {
    let mut input = io::stdin().lock();
    let mut output = io::stdout().lock();
    let mut lamphouse = Lamphouse::new();
    let mut chunk = vec![0; 1 << 16];
    let mut out = Vec::new();
    loop {
        let length = input.read(&mut chunk)?;
        if length == 0 {
            break;
        }
        lamphouse.feed(&chunk[..length], &mut out);
        output.write_all(&out)?;
        out.clear();
    }
    lamphouse.finish(&mut out);
    output.write_all(&out)?;
    output.flush()
}
