//! Runs: what a caller can do with one. How a step is taken stands in `steps`, and how a script's line is read in
//! `script`.

use crate::script::{line_fault, read_address};
use crate::steps::State;
use crate::table::Table;
use crate::{Event, Played, ADDRESS_ROOM};

pub struct Run {
    pub(crate) state: State,
    /// The digits of the script line that is being played.
    address: [u8; ADDRESS_ROOM],
}

impl Run {
    pub fn new() -> Box<Run> {
        Box::new(Run { state: State::new(), address: [0; ADDRESS_ROOM] })
    }

    /// Goes back to the start.
    pub fn start(&mut self) {
        self.state.start();
    }

    /// Takes the step that an address names, or gives the number of its refusal and leaves all as it was. Digits
    /// outside 1 to 4, and more than 1,024 of them, are no address.
    pub fn step(&mut self, table: &Table, digits: &[u8]) -> Result<Event, u8> {
        self.state.step(table, digits)
    }

    /// Plays the line of a script that begins at a place.
    pub fn play(&mut self, table: &Table, script: &[u8], at: usize) -> Played {
        if at >= script.len() {
            return Played::End;
        }
        let Some((count, next)) = read_address(script, at, &mut self.address) else {
            return Played::Refused(line_fault(script, at));
        };
        match self.state.step(table, &self.address[..count]) {
            Ok(event) => Played::Stepped { event, next },
            Err(number) => Played::Refused(number),
        }
    }
}
