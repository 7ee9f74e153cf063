//! Runs a program and the reference on the same generated inputs.

use crate::{generate, harbour, lamphouse, wire};
use std::fs::{self, File};
use std::io;
use std::path::{Path, PathBuf};
use std::process::{self, Command, Stdio};

#[derive(Clone, Copy, Debug, PartialEq, Eq)]
pub enum What {
    Harbour,
    Lamphouse,
    Wire,
}

impl What {
    pub fn named(name: &str) -> Option<What> {
        match name {
            "harbour" => Some(What::Harbour),
            "lamphouse" => Some(What::Lamphouse),
            "wire" => Some(What::Wire),
            _ => None,
        }
    }

    pub fn name(self) -> &'static str {
        match self {
            What::Harbour => "harbour",
            What::Lamphouse => "lamphouse",
            What::Wire => "wire",
        }
    }

    pub fn generate(self, seed: u64) -> Vec<u8> {
        match self {
            What::Harbour => generate::harbour(seed),
            What::Lamphouse => generate::lamphouse(seed),
            What::Wire => generate::wire(seed),
        }
    }

    /// What the reference prints.
    pub fn answer(self, input: &[u8]) -> Vec<u8> {
        match self {
            What::Harbour => harbour::harbour(input),
            What::Lamphouse => lamphouse::lamphouse(input),
            What::Wire => wire::read_lines(input),
        }
    }
}

/// How many lines an input or output has.
pub fn line_count(octets: &[u8]) -> usize {
    let ends = octets.iter().filter(|&&octet| octet == b'\n').count();
    ends + usize::from(octets.last().is_some_and(|&octet| octet != b'\n'))
}

/// The first line in which two outputs differ: its number, and both forms of it.
pub fn first_difference(one: &[u8], other: &[u8]) -> Option<(usize, String, String)> {
    if one == other {
        return None;
    }
    let mut ones = one.split_inclusive(|&octet| octet == b'\n');
    let mut others = other.split_inclusive(|&octet| octet == b'\n');
    let mut number = 1;
    loop {
        let (one, other) = (ones.next(), others.next());
        if one != other || one.is_none() {
            return Some((number, shown(one), shown(other)));
        }
        number += 1;
    }
}

fn shown(line: Option<&[u8]>) -> String {
    line.map_or("(no line)".into(), |line| line.escape_ascii().to_string())
}

/// A difference: the number it was made from, where the script was written, and what was seen.
#[derive(Debug)]
pub struct Difference {
    pub seed: u64,
    pub script: PathBuf,
    pub seen: String,
}

/// What a comparison of many inputs gives.
#[derive(Debug)]
pub enum Compared {
    Same { lines: usize },
    Differ(Difference),
}

/// Compares a program with the reference on so many inputs.
pub fn compare(what: What, program: &Path, count: u64, first_seed: u64) -> io::Result<Compared> {
    let directory = std::env::temp_dir();
    let input_path = directory.join(format!("compare-{}-{}.txt", what.name(), process::id()));
    let mut lines = 0;
    for seed in (0..count).map(|index| first_seed.wrapping_add(index)) {
        let input = what.generate(seed);
        lines += line_count(&input);
        fs::write(&input_path, &input)?;
        let output = Command::new(program)
            .stdin(File::open(&input_path)?)
            .stderr(Stdio::inherit())
            .output()?;
        let expected = what.answer(&input);
        let seen = match first_difference(&expected, &output.stdout) {
            Some((number, reference, program)) => {
                format!("output line {number}\nreference: {reference}\nprogram:   {program}")
            }
            None if !output.status.success() => format!("program: {}", output.status),
            None => continue,
        };
        let script = directory.join(format!("difference-{}-{seed}.txt", what.name()));
        fs::rename(&input_path, &script)?;
        return Ok(Compared::Differ(Difference { seed, script, seen }));
    }
    fs::remove_file(&input_path).or_else(|error| match error.kind() {
        io::ErrorKind::NotFound => Ok(()),
        _ => Err(error),
    })?;
    Ok(Compared::Same { lines })
}
