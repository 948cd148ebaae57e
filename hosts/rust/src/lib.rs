//! Peashuttle: check a table of CSP terms, step it by addresses or by the lines of a script, tell events, offers and status,
//! save the track, read a saved one and write it again. All of that is done by libpeashuttle.a, a proved library for
//! x86-64 Linux; this crate hands it what it works on.
//!
//! # Blocks
//!
//! The library keeps nothing of its own and takes no memory. Whoever calls it owns four kinds of block:
//!
//! | block | holds | filled by |
//! |---|---|---|
//! | [`Table`] | a checked table | [`Table::check`] |
//! | [`Run`] | a run: its control and its track | [`Run::start`] |
//! | [`Track`] | a saved track that was read | [`Track::read`] |
//! | [`Work`] | room to save and read in, of which nothing is kept | nobody |
//!
//! They are large, 20 to 230 kilobytes. Each has a `const` function `new`, so that it can be a static, and `in_words`, which
//! makes one of memory that the caller has. With an allocator a box is a good place:
//!
//! ```
//! use peashuttle::{Event, Run, Table};
//!
//! let mut table = Box::new(Table::new());
//! let mut run = Box::new(Run::new());
//!
//! table.check(b"10010101\n1100\n120200\n1207\n1f0002\n")?; // SHOW = a -> SKIP
//! run.start();
//! assert_eq!(run.step(&table, &[])?, Event::Tau); // the call of SHOW
//! assert!(run.offers(&table)?.has(0));
//! assert_eq!(run.step(&table, &[])?, Event::Visible(0)); // a
//! # Ok::<(), peashuttle::Error>(())
//! ```
//!
//! A block that was never filled is told by an [`Error`], and a refusal leaves table, run and track as they were. A run
//! belongs to the table of its steps: by another one, what is answered means nothing. The same holds of a block in words that
//! were filled, and then written by something else; such a block, too, is answered within milliseconds.
//!
//! # Stack
//!
//! The most that a call takes in the library, in bytes, its return address included, whatever it is lent:
//!
//! | call | bytes |
//! |---|---|
//! | [`list`] | 2,143,632 |
//! | [`Run::play`] | 1,639,616 |
//! | [`Run::step`] | 1,639,536 |
//! | [`Run::offers`], [`Run::status`] | 186,784 |
//! | [`Table::check`] | 12,744 |
//! | [`Run::save`] | 480 |
//! | [`Track::write`] | 352 |
//! | [`Track::read`] | 328 |
//! | [`Run::start`] | 24 |
//!
//! Runs that the library started and stepped take far less: about 1 MiB in [`list`], and half of that in [`Run::step`]. What
//! [`list`] steps is always such a run, so a thread of [`STACK`] bytes, which is what `std::thread` gives, has enough for each
//! of them.

#![no_std]
#![deny(missing_docs)]

use core::fmt;

mod proved;

// ---- rooms

/// Bytes of a table's text.
pub const TABLE_ROOM: usize = 32768;
/// Bytes of a script's text. [`Run::play`] takes any, so whoever plays holds a script to this.
pub const SCRIPT_ROOM: usize = 65536;
/// Bytes that a listing has for a saved track.
pub const SAVED_ROOM: usize = 65536;
/// Bytes of an input of [`list`]: more than these change nothing.
pub const INPUT_ROOM: usize = 98305;
/// No listing is longer.
pub const LISTING_ROOM: usize = 131086;
/// Definitions of a table.
pub const DEFINITIONS: usize = 64;
/// Events of a table.
pub const EVENTS: usize = 64;
/// Terms of a table.
pub const TERMS: usize = 1024;
/// Digits of an address.
pub const DIGITS: usize = 1024;
/// Cells of a run's control.
pub const CELLS: usize = 1024;
/// Nodes of a run's track that have a place.
pub const NODES: usize = 4096;
/// Arcs of a run's track.
pub const ARCS: usize = 8192;
/// Meetings of a run's track.
pub const MEETINGS: usize = 4096;
/// Bytes of a thread's stack that are enough for every call.
pub const STACK: usize = 2097152;

const HEAD_WORDS: usize = 4;
const PLAN_WORDS: usize = 4096;
const NODE_WORDS: usize = 65544;
const TRACK_WORDS: usize = 28672;
const COUNTER_WORDS: usize = 8;
const COLUMN_WORDS: usize = 8193;
const SIDE_WORDS: usize = 16388;

// ---- numbers of the library

const DONE: u32 = 0x00000;
const REFUSED: u32 = 0x10000;
const END: u32 = 0x20000;
const NO_TABLE: u32 = 0x30001;
const NO_RUN: u32 = 0x30002;
const NO_TRACK: u32 = 0x30003;

const TABLE_STAMP: usize = 0x5045415441423031;
const TRACK_STAMP: usize = 0x50454154524b3031;

// ---- answers

/// What an accepted step shows.
#[derive(Clone, Copy, Debug, PartialEq, Eq, Hash)]
pub enum Event {
    /// A silent step, τ.
    Tau,
    /// The successful end, ✓.
    Tick,
    /// An event of the table, 0 to 63.
    Visible(u8),
}

impl Event {
    fn of(number: u32) -> Event {
        match number {
            0 => Event::Tau,
            1 => Event::Tick,
            _ => Event::Visible((number - 2) as u8),
        }
    }
}

/// How a run stands.
#[derive(Clone, Copy, Debug, PartialEq, Eq, Hash)]
pub enum Status {
    /// A step is possible, a STOP's own apart.
    Live,
    /// It came to its successful end.
    Ended,
    /// No step is possible but a STOP's own, and it has not ended.
    Stuck,
}

/// What a run offers: the steps that its control has.
#[derive(Clone, Copy, Debug, PartialEq, Eq, Hash)]
pub struct Offers {
    /// Whether a silent step is offered.
    pub tau: bool,
    /// Whether the successful end is offered.
    pub tick: bool,
    /// The events that are offered: event k is bit k.
    pub events: u64,
}

impl Offers {
    /// Whether an event is offered.
    pub fn has(&self, event: u8) -> bool {
        usize::from(event) < EVENTS && self.events >> event & 1 == 1
    }
}

/// A refusal, by the paper's number, with the line that it is about.
#[derive(Clone, Copy, Debug, PartialEq, Eq, Hash)]
pub struct Refusal {
    /// The paper's number, 1 to 13.
    pub number: u8,
    /// The line of the text, counted from 1; 0 is the text as a whole, or no text.
    pub line: usize,
}

impl Refusal {
    /// What the number means.
    pub fn meaning(&self) -> &'static str {
        match self.number {
            1 => "it is not a line of hexadecimal",
            2 => "it is not a line that can stand there, or the text ends too early",
            3 => "a number in it is outside its range",
            4 => "a definition is not complete there, or has a term too many",
            5 => "there are more than 1,024 terms, or a literal's path has more than 64 digits",
            6 => "the text is longer than its room",
            7 => "no step has this address",
            8 => "the step would leave more than 1,024 cells of control",
            9 => "the step would make more than 4,096 nodes",
            10 => "the step would make more than 8,192 arcs",
            11 => "the step would make more than 4,096 meetings",
            12 => "the saved text is longer than the slice for it",
            13 => "the saved text does not have the shape of a track of this table",
            _ => "it is no refusal",
        }
    }
}

impl fmt::Display for Refusal {
    fn fmt(&self, f: &mut fmt::Formatter<'_>) -> fmt::Result {
        write!(f, "refused, number {}", self.number)?;
        if self.line != 0 {
            write!(f, ", line {}", self.line)?;
        }
        write!(f, ": {}", self.meaning())
    }
}

/// Why something was not done. Table, run, track and slice are as they were.
#[derive(Clone, Copy, Debug, PartialEq, Eq, Hash)]
pub enum Error {
    /// It was refused, by a number other than 12.
    Refused(Refusal),
    /// Refusal 12: the slice is shorter than the text, which has this length.
    Short(usize),
    /// The table's block was never filled by [`Table::check`].
    NotChecked,
    /// The run's block was never filled by [`Run::start`].
    NotStarted,
    /// The track's block was never filled by [`Track::read`].
    NotRead,
}

impl Error {
    /// The refusal, where it is one.
    pub fn refusal(&self) -> Option<Refusal> {
        match *self {
            Error::Refused(refusal) => Some(refusal),
            Error::Short(_) => Some(Refusal { number: 12, line: 0 }),
            _ => None,
        }
    }

    /// The error that a number of the library tells, with a refusal's line.
    fn of(number: u32, line: usize) -> Error {
        match number {
            NO_TABLE => Error::NotChecked,
            NO_RUN => Error::NotStarted,
            NO_TRACK => Error::NotRead,
            _ => Error::Refused(Refusal { number: (number - REFUSED) as u8, line }),
        }
    }
}

impl fmt::Display for Error {
    fn fmt(&self, f: &mut fmt::Formatter<'_>) -> fmt::Result {
        match self {
            Error::Refused(refusal) => refusal.fmt(f),
            Error::Short(length) => {
                write!(f, "refused, number 12: the saved text has {length} bytes, more than the slice")
            }
            Error::NotChecked => f.write_str("the table was never checked"),
            Error::NotStarted => f.write_str("the run was never started"),
            Error::NotRead => f.write_str("the track was never read"),
        }
    }
}

impl core::error::Error for Error {}

/// Memory has fewer words than a block.
#[derive(Clone, Copy, Debug, PartialEq, Eq, Hash)]
pub struct TooShort {
    /// The words of 64 bits that the block needs.
    pub needed: usize,
}

impl fmt::Display for TooShort {
    fn fmt(&self, f: &mut fmt::Formatter<'_>) -> fmt::Result {
        write!(f, "the block needs {} words", self.needed)
    }
}

impl core::error::Error for TooShort {}

/// Gives what was done, or the error that a number tells.
fn done(number: u32, line: usize) -> Result<(), Error> {
    if number == DONE {
        Ok(())
    } else {
        Err(Error::of(number, line))
    }
}

/// The length of a text that was written, or the error that a number tells.
fn written(number: u32, length: usize) -> Result<usize, Error> {
    if number == REFUSED + 12 {
        return Err(Error::Short(length));
    }
    done(number, 0).map(|()| length)
}

// ---- blocks

/// A checked table.
#[derive(Clone, PartialEq, Eq)]
#[repr(C)]
pub struct Table {
    head: [usize; HEAD_WORDS], // stamp, definitions, events, terms
    kinds: [u8; TERMS],
    payloads: [u64; TERMS],
    owners: [u8; TERMS],
    after: [u16; TERMS],
    roots: [u16; DEFINITIONS],
    plan: [u16; PLAN_WORDS],
}

/// A run: its control and its track. Its block has room for an address, too, which is no part of the run.
#[derive(Clone)]
#[repr(C)]
pub struct Run {
    stamp: usize,
    digits: [u8; DIGITS],
    counters: [u16; COUNTER_WORDS],
    nodes: [u16; NODE_WORDS],
    track: [u16; TRACK_WORDS],
}

/// A saved track that was read.
#[derive(Clone, PartialEq, Eq)]
#[repr(C)]
pub struct Track {
    head: [usize; HEAD_WORDS], // stamp, nodes, arcs, meetings
    labels: [u16; COLUMN_WORDS],
    graph: [u16; TRACK_WORDS],
}

/// Room to save and read in, of which nothing is kept from one call to the next.
#[derive(Clone, PartialEq, Eq)]
#[repr(C)]
pub struct Work {
    labels: [u16; COLUMN_WORDS],
    graph: [u16; TRACK_WORDS],
    marks: [u16; COLUMN_WORDS],
    sides: [u16; SIDE_WORDS],
    pending: [u16; SIDE_WORDS],
    numbers: [u16; COLUMN_WORDS],
    spare: [u16; TRACK_WORDS],
}

/// What every block has.
macro_rules! block {
    ($name:ident, $($field:ident: $empty:expr),+) => {
        impl $name {
            /// The words of 64 bits that `in_words` needs.
            pub const WORDS: usize = core::mem::size_of::<$name>().div_ceil(8);

            /// A block that was never filled.
            pub const fn new() -> $name {
                $name { $($field: $empty),+ }
            }

            /// A block at the front of memory that the caller has, whatever stands there.
            pub fn in_words(words: &mut [u64]) -> Result<&mut $name, TooShort> {
                if words.len() < $name::WORDS {
                    return Err(TooShort { needed: $name::WORDS });
                }
                // SAFETY: the words have all the bytes of the block, are aligned as it has to be, and are borrowed for as long
                // as it is. Its fields are numbers alone, so that any bytes are a block, and any block leaves words.
                Ok(unsafe { &mut *words.as_mut_ptr().cast::<$name>() })
            }
        }

        const _: () = assert!(core::mem::align_of::<$name>() <= core::mem::align_of::<u64>());

        impl Default for $name {
            fn default() -> $name {
                $name::new()
            }
        }
    };
}

block!(
    Table,
    head: [0; HEAD_WORDS],
    kinds: [0; TERMS],
    payloads: [0; TERMS],
    owners: [0; TERMS],
    after: [0; TERMS],
    roots: [0; DEFINITIONS],
    plan: [0; PLAN_WORDS]
);
block!(
    Run,
    stamp: 0,
    digits: [0; DIGITS],
    counters: [0; COUNTER_WORDS],
    nodes: [0; NODE_WORDS],
    track: [0; TRACK_WORDS]
);
block!(
    Track,
    head: [0; HEAD_WORDS],
    labels: [0; COLUMN_WORDS],
    graph: [0; TRACK_WORDS]
);
block!(
    Work,
    labels: [0; COLUMN_WORDS],
    graph: [0; TRACK_WORDS],
    marks: [0; COLUMN_WORDS],
    sides: [0; SIDE_WORDS],
    pending: [0; SIDE_WORDS],
    numbers: [0; COLUMN_WORDS],
    spare: [0; TRACK_WORDS]
);

impl PartialEq for Run {
    fn eq(&self, other: &Run) -> bool {
        self.stamp == other.stamp
            && self.counters == other.counters
            && self.nodes == other.nodes
            && self.track == other.track
    }
}

impl Eq for Run {}

/// A word of a block's head, 0 where the block was never filled.
fn count(head: &[usize; HEAD_WORDS], stamp: usize, word: usize) -> usize {
    if head[0] == stamp {
        head[word]
    } else {
        0
    }
}

impl fmt::Debug for Table {
    fn fmt(&self, f: &mut fmt::Formatter<'_>) -> fmt::Result {
        write!(f, "Table of {} definitions, {} events, {} terms", self.definitions(), self.events(), self.terms())
    }
}

impl fmt::Debug for Run {
    fn fmt(&self, f: &mut fmt::Formatter<'_>) -> fmt::Result {
        f.write_str("Run")
    }
}

impl fmt::Debug for Track {
    fn fmt(&self, f: &mut fmt::Formatter<'_>) -> fmt::Result {
        write!(f, "Track of {} nodes, {} arcs, {} meetings", self.nodes(), self.arcs(), self.meetings())
    }
}

impl fmt::Debug for Work {
    fn fmt(&self, f: &mut fmt::Formatter<'_>) -> fmt::Result {
        f.write_str("Work")
    }
}

// ---- what is done with them

/// Writes the listing of an input, a table and the script behind it, to the front of a slice, as far as that goes, and tells
/// how long the listing is. [`LISTING_ROOM`] bytes are enough for any.
pub fn list(input: &[u8], out: &mut [u8]) -> usize {
    // SAFETY: both pointers are those of slices of these lengths.
    unsafe { proved::peashuttle_proved_list(input.as_ptr(), input.len(), out.as_mut_ptr(), out.len()) }
}

impl Table {
    /// Checks a table's text, and fills the block with it. Refusals are 1 to 6.
    pub fn check(&mut self, text: &[u8]) -> Result<(), Error> {
        let mut line = 0;
        // SAFETY: the pointer is that of a slice of this length.
        let number = unsafe { proved::peashuttle_proved_check(text.as_ptr(), text.len(), &mut line, self) };
        done(number, line)
    }

    /// How many definitions a checked table has; 0 where it was never checked.
    pub fn definitions(&self) -> usize {
        count(&self.head, TABLE_STAMP, 1)
    }

    /// How many events a checked table has; 0 where it was never checked.
    pub fn events(&self) -> usize {
        count(&self.head, TABLE_STAMP, 2)
    }

    /// How many terms a checked table has; 0 where it was never checked.
    pub fn terms(&self) -> usize {
        count(&self.head, TABLE_STAMP, 3)
    }
}

impl Run {
    /// Starts a run, whatever the block held.
    pub fn start(&mut self) {
        // SAFETY: it takes nothing but a reference.
        unsafe { proved::peashuttle_proved_start(self) }
    }

    /// Steps the run by an address, its digits a byte each, 1 to 4. Refusals are 7 to 11.
    pub fn step(&mut self, table: &Table, address: &[u8]) -> Result<Event, Error> {
        // SAFETY: the pointer is that of a slice of this length.
        let number = unsafe { proved::peashuttle_proved_step(address.as_ptr(), address.len(), table, self) };
        if number < REFUSED {
            Ok(Event::of(number))
        } else {
            Err(Error::of(number, 0))
        }
    }

    /// Plays the script's line that begins at the cursor, which goes behind an accepted line, and else stays; `None` where
    /// there is no further line. Refusals are 1, 2, 3 and 7 to 11, with the line counted from the script's front on.
    pub fn play(&mut self, table: &Table, script: &[u8], cursor: &mut usize) -> Result<Option<Event>, Error> {
        // SAFETY: the pointer is that of a slice of this length.
        let number = unsafe { proved::peashuttle_proved_play(script.as_ptr(), script.len(), cursor, table, self) };
        if number < REFUSED {
            return Ok(Some(Event::of(number)));
        }
        if number == END {
            return Ok(None);
        }
        let before = &script[..script.len().min(*cursor)];
        let lines = before.iter().filter(|&&byte| byte == b'\n').count();
        Err(Error::of(number, lines + 1))
    }

    /// What the run offers.
    pub fn offers(&self, table: &Table) -> Result<Offers, Error> {
        let mut events = 0;
        // SAFETY: it takes nothing but references.
        let number = unsafe { proved::peashuttle_proved_offers(&mut events, table, self) };
        if number < REFUSED {
            Ok(Offers { tau: number & 1 != 0, tick: number & 2 != 0, events })
        } else {
            Err(Error::of(number, 0))
        }
    }

    /// How the run stands.
    pub fn status(&self, table: &Table) -> Result<Status, Error> {
        // SAFETY: it takes nothing but references.
        let number = unsafe { proved::peashuttle_proved_status(table, self) };
        match number {
            0 => Ok(Status::Live),
            1 => Ok(Status::Ended),
            2 => Ok(Status::Stuck),
            _ => Err(Error::of(number, 0)),
        }
    }

    /// Saves the run's track as its text, to the front of a slice, and tells how long it is.
    pub fn save(&self, table: &Table, work: &mut Work, text: &mut [u8]) -> Result<usize, Error> {
        let mut length = 0;
        // SAFETY: the pointer is that of a slice of this length.
        let number =
            unsafe { proved::peashuttle_proved_save(text.as_mut_ptr(), text.len(), &mut length, table, self, work) };
        written(number, length)
    }
}

impl Track {
    /// Reads a saved text against a table, and fills the block with it. Refusals are 1, 2, 3 and 13.
    pub fn read(&mut self, table: &Table, work: &mut Work, text: &[u8]) -> Result<(), Error> {
        let mut line = 0;
        // SAFETY: the pointer is that of a slice of this length.
        let number = unsafe { proved::peashuttle_proved_read(text.as_ptr(), text.len(), &mut line, table, self, work) };
        done(number, line)
    }

    /// Writes the track as its text, by the table that it was read against, to the front of a slice, and tells how long it is.
    pub fn write(&self, table: &Table, text: &mut [u8]) -> Result<usize, Error> {
        let mut length = 0;
        // SAFETY: the pointer is that of a slice of this length.
        let number =
            unsafe { proved::peashuttle_proved_write(text.as_mut_ptr(), text.len(), &mut length, table, self) };
        written(number, length)
    }

    /// How many nodes a track that was read has; 0 where none was.
    pub fn nodes(&self) -> usize {
        count(&self.head, TRACK_STAMP, 1)
    }

    /// How many arcs a track that was read has; 0 where none was.
    pub fn arcs(&self) -> usize {
        count(&self.head, TRACK_STAMP, 2)
    }

    /// How many meetings a track that was read has; 0 where none was.
    pub fn meetings(&self) -> usize {
        count(&self.head, TRACK_STAMP, 3)
    }
}
