//! Listings by the parts of the library, and folders of cases.

use std::path::{Path, PathBuf};

use peashuttle::{Error, Event, Refusal, Run, Status, Table, Track, Work, SAVED_ROOM, SCRIPT_ROOM};

pub const GUARD: u8 = 0xa5;

/// The blocks of one listing.
pub struct Blocks {
    pub table: Box<Table>,
    pub run: Box<Run>,
    pub track: Box<Track>,
    pub work: Box<Work>,
}

impl Blocks {
    pub fn new() -> Blocks {
        Blocks {
            table: Box::new(Table::new()),
            run: Box::new(Run::new()),
            track: Box::new(Track::new()),
            work: Box::new(Work::new()),
        }
    }
}

/// The table of a text that is accepted.
pub fn table_of(text: &str) -> Box<Table> {
    let mut table = Box::new(Table::new());
    assert_eq!(table.check(text.as_bytes()), Ok(()));
    table
}

/// The table's text, through the first line that begins with 1f or 1F, and what stands behind it.
pub fn cut(input: &[u8]) -> (&[u8], &[u8]) {
    let mut end = 0;
    for line in input.split_inclusive(|&byte| byte == b'\n') {
        end += line.len();
        if line.starts_with(b"1f") || line.starts_with(b"1F") {
            break;
        }
    }
    input.split_at(end)
}

fn refusal_line(error: Error) -> String {
    let Refusal { number, line } = error.refusal().expect("a refusal");
    format!("4e{number:02x}{line:04x}\n")
}

fn event_line(event: Event) -> String {
    match event {
        Event::Tau => "4000\n".into(),
        Event::Tick => "4001\n".into(),
        Event::Visible(event) => format!("4002{event:02x}\n"),
    }
}

fn status_line(status: Status) -> &'static str {
    match status {
        Status::Live => "4100\n",
        Status::Ended => "4101\n",
        Status::Stuck => "4102\n",
    }
}

/// What is written: into a slice that is a byte short, into one that fits, and into one that is longer.
pub fn text_of(write: &mut dyn FnMut(&mut [u8]) -> Result<usize, Error>) -> Vec<u8> {
    let Err(Error::Short(length)) = write(&mut []) else {
        panic!("no text has no byte");
    };
    let mut slice = vec![GUARD; length + 1];
    assert_eq!(write(&mut slice[..length - 1]), Err(Error::Short(length)));
    assert!(slice.iter().all(|&byte| byte == GUARD), "refusal 12 writes nothing");
    assert_eq!(write(&mut slice), Ok(length));
    assert_eq!(slice[length], GUARD);
    let mut fits = vec![0; length];
    assert_eq!(write(&mut fits), Ok(length));
    assert_eq!(fits, slice[..length]);
    fits
}

/// Plays a script, and tells its steps; gives the error that ended it.
fn play(b: &mut Blocks, script: &[u8], out: &mut String) -> Option<Error> {
    let mut cursor = 0;
    loop {
        let stood = cursor;
        match b.run.play(&b.table, script, &mut cursor) {
            Ok(Some(event)) => out.push_str(&event_line(event)),
            Ok(None) => return None,
            Err(error) => {
                let before = b.run.clone();
                assert_eq!(cursor, stood);
                assert_eq!(b.run.play(&b.table, script, &mut cursor), Err(error));
                assert!(b.run == before, "a refusal changes the run");
                return Some(error);
            }
        }
    }
}

/// The listing of the tracking program.
pub fn listing_by_parts(input: &[u8]) -> Vec<u8> {
    let mut b = Blocks::new();
    let (text, script) = cut(input);
    let before = b.table.clone();
    if let Err(error) = b.table.check(text) {
        assert!(b.table == before, "a refusal changes the table");
        return refusal_line(error).into();
    }
    if script.len() > SCRIPT_ROOM {
        return refusal_line(Error::Refused(Refusal { number: 6, line: 0 })).into();
    }
    let mut out = String::new();
    b.run.start();
    let refused = play(&mut b, script, &mut out);
    out.push_str(status_line(b.run.status(&b.table).expect("a status")));
    out.extend(refused.map(refusal_line));
    let saved = text_of(&mut |slice| b.run.save(&b.table, &mut b.work, slice));
    if saved.len() > SAVED_ROOM {
        out.push_str(&refusal_line(Error::Short(saved.len())));
        return out.into();
    }
    [out.as_bytes(), &saved].concat()
}

/// The listing of the rereading program.
pub fn reread_by_parts(input: &[u8]) -> Vec<u8> {
    let mut b = Blocks::new();
    let (text, saved) = cut(input);
    if let Err(error) = b.table.check(text) {
        return refusal_line(error).into();
    }
    let before = b.track.clone();
    if let Err(error) = b.track.read(&b.table, &mut b.work, saved) {
        assert!(b.track == before, "a refusal changes the track");
        return refusal_line(error).into();
    }
    text_of(&mut |slice| b.track.write(&b.table, slice))
}

/// The folders that a variable names, between colons; else those that are given.
pub fn folders(variable: &str, otherwise: &[&str]) -> Vec<PathBuf> {
    match std::env::var_os(variable) {
        Some(named) => std::env::split_paths(&named).collect(),
        None => otherwise.iter().map(|folder| Path::new(env!("CARGO_MANIFEST_DIR")).join(folder)).collect(),
    }
}

/// The cases of folders, NAME.in with NAME.out: name, input and output.
pub fn cases(folders: &[PathBuf]) -> Vec<(PathBuf, Vec<u8>, Vec<u8>)> {
    let mut found = Vec::new();
    for folder in folders {
        for entry in std::fs::read_dir(folder).expect("a folder of cases") {
            let path = entry.expect("a case").path();
            if path.extension().is_some_and(|ending| ending == "in") {
                let input = std::fs::read(&path).expect("an input");
                let output = std::fs::read(path.with_extension("out")).expect("an output");
                found.push((path, input, output));
            }
        }
    }
    found
}
