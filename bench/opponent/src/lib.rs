//! A fast interpreter of tracked CSP: it checks tables, steps runs by addresses, tells events and status, and saves
//! and reads tracks. It is written from the documents alone and for speed alone, so that the proved implementation
//! has something to be measured against.
//!
//! How it is laid out for speed:
//!
//! - Control is a binary tree of slots: a parallel or external choice that was entered owns two neighbouring slots.
//!   The sequences that wait at a slot are a list beside it, so a step in a deep sequence does not descend at all.
//! - The way of the last long address is remembered, and one that begins alike goes on from where they part.
//! - A step is found first and written after that. Nothing has to be taken back where it is refused.
//! - No list of arcs is kept: every node has the places of its own arcs, and an ended side knows how many nodes lead
//!   to its end. The event nodes of a joint step are kept as a group, all of whose pairs meet.
//! - A path has digits 1 and 2 only, so it is a length and 64 bits, and its text is made four digits at a time.
//! - A count of the parts that can take a silent step or end tells most states to be live without a look at them.

#![forbid(unsafe_code)]

mod control;
mod graph;
mod hex;
mod lines;
mod listing;
mod offers;
mod run;
mod save;
mod script;
mod search;
mod steps;
mod table;
mod text;
mod track;
mod trail;

pub use graph::Graph;
pub use listing::{list, reread, Desk, LISTING_ROOM, REREAD_TEXT_ROOM};
pub use run::Run;
pub use save::Scratch;
pub use table::Table;

pub(crate) const TABLE_ROOM: usize = 32_768;
pub(crate) const SCRIPT_ROOM: usize = 65_536;
pub(crate) const SAVE_ROOM: usize = 65_536;
pub(crate) const REREAD_ROOM: usize = 262_144;
pub(crate) const TERM_ROOM: usize = 1_024;
pub(crate) const PATH_ROOM: usize = 64;
pub(crate) const ADDRESS_ROOM: usize = 1_024;
pub(crate) const CELL_ROOM: usize = 1_024;
pub(crate) const NODE_ROOM: usize = 4_096;
pub(crate) const ARC_ROOM: usize = 8_192;
pub(crate) const MEETING_ROOM: usize = 4_096;
pub(crate) const MOST_DEFINITIONS: usize = 64;
pub(crate) const MOST_EVENTS: usize = 64;

pub(crate) const NOT_A_LINE: u8 = 1;
pub(crate) const WRONG_FRAME: u8 = 2;
pub(crate) const OUT_OF_RANGE: u8 = 3;
pub(crate) const WRONG_TERM_COUNT: u8 = 4;
pub(crate) const TABLE_OVER_ROOM: u8 = 5;
pub(crate) const TEXT_OVER_ROOM: u8 = 6;
pub(crate) const NO_DERIVATION: u8 = 7;
pub(crate) const CELLS_OVER_ROOM: u8 = 8;
pub(crate) const NODES_OVER_ROOM: u8 = 9;
pub(crate) const ARCS_OVER_ROOM: u8 = 10;
pub(crate) const MEETINGS_OVER_ROOM: u8 = 11;
pub(crate) const SAVED_OVER_ROOM: u8 = 12;
pub(crate) const WRONG_SHAPE: u8 = 13;

/// A number of refusal, with the line where it was met, or line 0 where it has none.
#[derive(Clone, Copy, Debug, PartialEq, Eq)]
pub struct Refusal {
    pub number: u8,
    pub line: usize,
}

/// What an accepted step shows.
#[derive(Clone, Copy, Debug, PartialEq, Eq)]
pub enum Event {
    Tau,
    Tick,
    Visible(u8),
}

/// Whether a run can go on.
#[derive(Clone, Copy, Debug, PartialEq, Eq)]
pub enum Status {
    Live,
    Ended,
    Stuck,
}

/// The events that control has derivations for: bit k of `events` is event k.
#[derive(Clone, Copy, Debug, Default, PartialEq, Eq)]
pub struct Offers {
    pub events: u64,
    pub tau: bool,
    pub tick: bool,
}

/// What came of one line of a script; `next` is where the line behind it begins.
#[derive(Clone, Copy, Debug, PartialEq, Eq)]
pub enum Played {
    Stepped { event: Event, next: usize },
    Refused(u8),
    End,
}
