//! Prints the listing of a table and the script behind it, as ./run does, by the parts of the library.
//!
//!     cargo run --example listing casino.txt
//!
//! Without a file standard input is read. The exit status is 0 where all was accepted, and 1 where something was refused.

use std::error::Error as AnyError;
use std::io::{self, Read, Write};
use std::process::ExitCode;

use peashuttle::{Error, Event, Refusal, Run, Status, Table, Work, INPUT_ROOM, SAVED_ROOM, SCRIPT_ROOM};

fn main() -> Result<ExitCode, Box<dyn AnyError>> {
    let mut input = match std::env::args_os().nth(1) {
        Some(file) => std::fs::read(file)?,
        None => {
            let mut all = Vec::new();
            io::stdin().read_to_end(&mut all)?;
            all
        }
    };
    input.truncate(INPUT_ROOM);
    let mut listing = Vec::new();
    let refused = list(&input, &mut listing)?;
    io::stdout().write_all(&listing)?;
    if let Some(refusal) = refused {
        eprintln!("{refusal}");
    }
    Ok(ExitCode::from(u8::from(refused.is_some())))
}

/// Puts the listing of an input; gives the first refusal.
fn list(input: &[u8], listing: &mut Vec<u8>) -> Result<Option<Refusal>, Box<dyn AnyError>> {
    let mut table = Box::new(Table::new());
    let (text, script) = input.split_at(table_end(input));
    if let Err(error) = table.check(text) {
        return put_refusal(refusal_of(error)?, listing);
    }
    if script.len() > SCRIPT_ROOM {
        return put_refusal(Refusal { number: 6, line: 0 }, listing);
    }
    list_run(&table, script, listing)
}

/// Plays a script, and puts each event, the status, the refusal if there is one, and the track.
fn list_run(table: &Table, script: &[u8], listing: &mut Vec<u8>) -> Result<Option<Refusal>, Box<dyn AnyError>> {
    let mut run = Box::new(Run::new());
    let mut work = Box::new(Work::new());
    let (mut cursor, mut refused) = (0, None);
    run.start();
    loop {
        match run.play(table, script, &mut cursor) {
            Ok(Some(event)) => put_event(event, listing)?,
            Ok(None) => break,
            Err(error) => {
                refused = Some(refusal_of(error)?);
                break;
            }
        }
    }
    put_status(run.status(table)?, listing)?;
    if let Some(refusal) = refused {
        put_refusal(refusal, listing)?;
    }
    let mut saved = vec![0; SAVED_ROOM];
    match run.save(table, &mut work, &mut saved) {
        Ok(length) => listing.extend_from_slice(&saved[..length]),
        Err(error) => refused = refused.or(put_refusal(refusal_of(error)?, listing)?),
    }
    Ok(refused)
}

/// Where the table ends: behind the first line that begins with 1f or 1F.
fn table_end(input: &[u8]) -> usize {
    let mut end = 0;
    for line in input.split_inclusive(|&byte| byte == b'\n') {
        end += line.len();
        if line.starts_with(b"1f") || line.starts_with(b"1F") {
            break;
        }
    }
    end
}

/// The refusal of an error, or the error where it is none.
fn refusal_of(error: Error) -> Result<Refusal, Error> {
    error.refusal().ok_or(error)
}

fn put_event(event: Event, listing: &mut Vec<u8>) -> io::Result<()> {
    match event {
        Event::Tau => writeln!(listing, "4000"),
        Event::Tick => writeln!(listing, "4001"),
        Event::Visible(event) => writeln!(listing, "4002{event:02x}"),
    }
}

fn put_status(status: Status, listing: &mut Vec<u8>) -> io::Result<()> {
    let number = match status {
        Status::Live => 0,
        Status::Ended => 1,
        Status::Stuck => 2,
    };
    writeln!(listing, "41{number:02x}")
}

fn put_refusal(refusal: Refusal, listing: &mut Vec<u8>) -> Result<Option<Refusal>, Box<dyn AnyError>> {
    writeln!(listing, "4e{:02x}{:04x}", refusal.number, refusal.line)?;
    Ok(Some(refusal))
}
