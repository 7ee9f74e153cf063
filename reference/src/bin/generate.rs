//! `generate harbour|wire|lamphouse SEED`: writes one hostile input.

use reference::compare::What;
use std::io::{self, Write};
use std::process::ExitCode;

fn main() -> io::Result<ExitCode> {
    let arguments: Vec<String> = std::env::args().skip(1).collect();
    let asked = match &arguments[..] {
        [what, seed] => What::named(what).zip(seed.parse().ok()),
        _ => None,
    };
    let Some((what, seed)) = asked else {
        eprintln!("usage: generate harbour|wire|lamphouse SEED");
        return Ok(ExitCode::from(2));
    };
    let mut output = io::stdout().lock();
    output.write_all(&what.generate(seed))?;
    output.flush()?;
    Ok(ExitCode::SUCCESS)
}
