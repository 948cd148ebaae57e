//! Reads an input from standard input and prints its listing, as the tracking program does.
//!
//! With `--reread` the input is a table with a saved track behind it, which is printed as it was read. With `--many`
//! standard input is many inputs, each behind its length in four bytes, high byte first; every listing is printed
//! behind its own length in the same way, as soon as it is made.

use std::io::{self, Read, Write};
use std::process::ExitCode;

use opponent::{list, reread, Desk, LISTING_ROOM, REREAD_TEXT_ROOM};

type Listing = fn(&[u8], &mut Desk, &mut [u8]) -> usize;

fn main() -> ExitCode {
    let options: Vec<String> = std::env::args().skip(1).collect();
    let known = options.iter().all(|option| option == "--many" || option == "--reread");
    if !known {
        eprintln!("usage: opponent [--reread] [--many] < input");
        return ExitCode::from(2);
    }
    let has = |name: &str| options.iter().any(|option| option == name);
    let listing: Listing = if has("--reread") { reread } else { list };
    let done = if has("--many") { answer_many(listing) } else { answer_one(listing) };
    match done {
        Ok(()) => ExitCode::SUCCESS,
        Err(error) => {
            eprintln!("opponent: {error}");
            ExitCode::FAILURE
        }
    }
}

fn room() -> Vec<u8> {
    vec![0; LISTING_ROOM.max(REREAD_TEXT_ROOM)]
}

fn answer_one(listing: Listing) -> io::Result<()> {
    let mut input = Vec::new();
    io::stdin().lock().read_to_end(&mut input)?;
    let mut out = room();
    let length = listing(&input, &mut Desk::new(), &mut out);
    io::stdout().lock().write_all(&out[..length])
}

fn answer_many(listing: Listing) -> io::Result<()> {
    let (mut inputs, mut answers) = (io::stdin().lock(), io::stdout().lock());
    let (mut desk, mut out) = (Desk::new(), room());
    let mut length = [0; 4];
    while inputs.read_exact(&mut length).is_ok() {
        let mut input = vec![0; u32::from_be_bytes(length) as usize];
        inputs.read_exact(&mut input)?;
        let told = listing(&input, &mut desk, &mut out);
        answers.write_all(&(told as u32).to_be_bytes())?;
        answers.write_all(&out[..told])?;
        answers.flush()?;
    }
    Ok(())
}
