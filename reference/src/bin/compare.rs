//! `compare harbour|wire|lamphouse PATH COUNT [SEED]`: a program against the reference.
//!
//! The exit status is 0 for no difference, 1 for a difference, 2 if nothing could be compared.

use reference::compare::{compare, Compared, What};
use std::path::PathBuf;
use std::process::ExitCode;

fn asked() -> Option<(What, PathBuf, u64, u64)> {
    let arguments: Vec<String> = std::env::args().skip(1).collect();
    let (what, path, count, seed) = match &arguments[..] {
        [what, path, count] => (what, path, count, "1"),
        [what, path, count, seed] => (what, path, count, seed.as_str()),
        _ => return None,
    };
    Some((
        What::named(what)?,
        path.into(),
        count.parse().ok()?,
        seed.parse().ok()?,
    ))
}

fn main() -> ExitCode {
    let Some((what, path, count, seed)) = asked() else {
        eprintln!("usage: compare harbour|wire|lamphouse PATH COUNT [SEED]");
        return ExitCode::from(2);
    };
    match compare(what, &path, count, seed) {
        Ok(Compared::Same { lines }) => {
            println!("{count} scripts, {lines} lines, no difference");
            ExitCode::SUCCESS
        }
        Ok(Compared::Differ(difference)) => {
            println!("seed {}: {}", difference.seed, difference.script.display());
            println!("{}", difference.seen);
            ExitCode::from(1)
        }
        Err(error) => {
            eprintln!("{}: {error}", path.display());
            ExitCode::from(2)
        }
    }
}
