//! The listings: of an input, as the tracking program prints it, and of a saved track that is read and written again.

use crate::hex::PAIRS;
use crate::table::table_end;
use crate::{
    Event, Graph, Played, Refusal, Run, Scratch, Status, Table, REREAD_ROOM, SAVED_OVER_ROOM, SAVE_ROOM,
    SCRIPT_ROOM, TEXT_OVER_ROOM,
};

/// Bytes that hold any listing of an input.
pub const LISTING_ROOM: usize = 2 * SCRIPT_ROOM + SAVE_ROOM;

/// Bytes that hold any saved text.
pub const REREAD_TEXT_ROOM: usize = 1_048_576;

/// All that a listing works with. What it holds between listings does not matter.
pub struct Desk {
    table: Box<Table>,
    run: Box<Run>,
    scratch: Box<Scratch>,
    graph: Box<Graph>,
}

impl Desk {
    pub fn new() -> Box<Desk> {
        Box::new(Desk { table: Table::new(), run: Run::new(), scratch: Scratch::new(), graph: Graph::new() })
    }
}

/// Lines at the end of a lent slice. What does not fit is left out.
struct Lines<'a> {
    out: &'a mut [u8],
    length: usize,
}

impl Lines<'_> {
    #[inline(always)]
    fn add<const LENGTH: usize>(&mut self, line: [u8; LENGTH]) {
        if let Some(place) = self.out.get_mut(self.length..self.length + LENGTH) {
            place.copy_from_slice(&line);
            self.length += LENGTH;
        }
    }

    #[inline(always)]
    fn add_event(&mut self, event: Event) {
        match event {
            Event::Tau => self.add(*b"4000\n"),
            Event::Tick => self.add(*b"4001\n"),
            Event::Visible(number) => {
                let [high, low] = PAIRS[number as usize].to_le_bytes();
                self.add([b'4', b'0', b'0', b'2', high, low, b'\n']);
            }
        }
    }

    fn add_refusal(&mut self, refusal: Refusal) {
        let [line_high, line_low] = (refusal.line as u16).to_be_bytes();
        let [number, high, low] =
            [refusal.number, line_high, line_low].map(|byte| PAIRS[byte as usize].to_le_bytes());
        self.add(*b"4e");
        self.add(number);
        self.add(high);
        self.add(low);
        self.add(*b"\n");
    }
}

/// Writes the whole listing of an input, and gives its length. A listing that does not fit is cut.
pub fn list(input: &[u8], state: &mut Desk, out: &mut [u8]) -> usize {
    let mut lines = Lines { out, length: 0 };
    let script = match state.table.check_start(input) {
        Ok(end) if input.len() - end <= SCRIPT_ROOM => &input[end..],
        Ok(_) => {
            lines.add_refusal(Refusal { number: TEXT_OVER_ROOM, line: 0 });
            return lines.length;
        }
        Err(refusal) => {
            lines.add_refusal(refusal);
            return lines.length;
        }
    };
    let refusal = play_all(script, state, &mut lines);
    lines.add(match state.run.status(&state.table) {
        Status::Live => *b"4100\n",
        Status::Ended => *b"4101\n",
        Status::Stuck => *b"4102\n",
    });
    if let Some(refusal) = refusal {
        lines.add_refusal(refusal);
    }
    add_track(state, &mut lines);
    lines.length
}

/// Plays a script from the start up to its first refused line, if there is one.
fn play_all(script: &[u8], state: &mut Desk, lines: &mut Lines) -> Option<Refusal> {
    state.run.start();
    let (mut at, mut line) = (0, 1);
    loop {
        match state.run.play(&state.table, script, at) {
            Played::Stepped { event, next } => {
                lines.add_event(event);
                at = next;
                line += 1;
            }
            Played::Refused(number) => return Some(Refusal { number, line }),
            Played::End => return None,
        }
    }
}

fn add_track(state: &mut Desk, lines: &mut Lines) {
    let left = &mut lines.out[lines.length..];
    let room = left.len().min(SAVE_ROOM);
    match state.run.save(&state.table, &mut state.scratch, &mut left[..room]) {
        Ok(length) => lines.length += length,
        Err(_) => lines.add_refusal(Refusal { number: SAVED_OVER_ROOM, line: 0 }),
    }
}

/// Reads the saved track behind an input's table and writes it again, or writes the refusal of either; gives the
/// length of what is written.
pub fn reread(input: &[u8], state: &mut Desk, out: &mut [u8]) -> usize {
    let mut lines = Lines { out, length: 0 };
    match read_again(input, state) {
        Err(refusal) => lines.add_refusal(refusal),
        Ok(()) => match state.graph.write(&state.table, lines.out) {
            Ok(length) => lines.length = length,
            Err(_) => lines.add_refusal(Refusal { number: SAVED_OVER_ROOM, line: 0 }),
        },
    }
    lines.length
}

fn read_again(input: &[u8], state: &mut Desk) -> Result<(), Refusal> {
    if input.len() > REREAD_ROOM {
        return Err(Refusal { number: TEXT_OVER_ROOM, line: 0 });
    }
    let (table, saved) = input.split_at(table_end(input));
    state.table.check(table)?;
    state.graph.read(&state.table, saved, &mut state.scratch)
}
