//! Prints a plan as the program `plan` does: print [FILE], without a file from standard input.
//! The input is a query as a record of kind 20, and then the sheet.
//! Input that cannot be read, and output that cannot be written, end it with a message and status 1. Both go through files of
//! the descriptors, since std's own streams take a bad descriptor for an empty input and a written output.

use std::env;
use std::ffi::{OsStr, OsString};
use std::fs::File;
use std::io::{self, BufWriter, Read, Write};
use std::os::fd::AsFd;
use std::process::ExitCode;

use ribaltzen::{Buffers, Finder, Query, WorldBBox};

/// The query, its hidden layers and the sheet, if the first record is a whole query.
fn split(input: &[u8]) -> Option<(Query<'static>, Vec<u32>, &[u8])> {
    let u32_at = |at: usize| Some(u32::from_le_bytes(input.get(at..at + 4)?.try_into().ok()?));
    let f64_at = |at: usize| Some(f64::from_le_bytes(input.get(at..at + 8)?.try_into().ok()?));
    let length = u32_at(0)? as usize;
    if length < 54 || (length - 54) % 4 != 0 || input.get(4..6)? != [20, 0] {
        return None;
    }
    let (record, sheet) = input.split_at_checked(length)?;
    let view = WorldBBox::new(f64_at(14)?, f64_at(22)?, f64_at(30)?, f64_at(38)?);
    let query = Query::new(u32_at(6)?, u32_at(10)?, view, f64_at(46)?);
    let hidden = record[54..]
        .chunks_exact(4)
        .map(|bytes| u32::from_le_bytes(bytes.try_into().expect("four bytes")));
    Some((query, hidden.collect(), sheet))
}

fn answer(input: &[u8], mut to: impl Write) -> io::Result<()> {
    let Some((query, hidden, sheet)) = split(input) else {
        return writeln!(to, "no query");
    };
    let query = Query {
        hidden: &hidden,
        ..query
    };
    // A viewer keeps finder and buffers, and plans each view with them.
    let mut buffers = Buffers::new();
    let planned =
        Finder::open(sheet).and_then(|finder| buffers.plan_with_finder(sheet, &finder, &query));
    match planned {
        Ok(plan) => plan
            .records()
            .try_for_each(|record| writeln!(to, "{record}")),
        Err(refusal) => writeln!(to, "refused {} {}", refusal.number, refusal.offset),
    }
}

/// The bytes of a file, or of standard input.
fn read(file: Option<&OsStr>) -> io::Result<Vec<u8>> {
    let mut input = Vec::new();
    let mut from = match file {
        Some(file) => File::open(file)?,
        None => File::from(io::stdin().as_fd().try_clone_to_owned()?),
    };
    from.read_to_end(&mut input)?;
    Ok(input)
}

fn write(input: &[u8]) -> io::Result<()> {
    let mut to = BufWriter::new(File::from(io::stdout().as_fd().try_clone_to_owned()?));
    answer(input, &mut to)?;
    to.flush()
}

fn run() -> Result<(), String> {
    let arguments: Vec<OsString> = env::args_os().skip(1).collect();
    let file = match &arguments[..] {
        [] => None,
        [file] => Some(file.as_os_str()),
        _ => return Err("name at most one file".to_string()),
    };
    let input = read(file).map_err(|error| format!("cannot read: {error}"))?;
    write(&input).map_err(|error| format!("cannot write: {error}"))
}

fn main() -> ExitCode {
    match run() {
        Ok(()) => ExitCode::SUCCESS,
        Err(message) => {
            eprintln!("print: {message}");
            ExitCode::FAILURE
        }
    }
}
