//! Control: a binary tree of slots. An entered parallel or external choice owns two neighbouring slots, for its
//! sides; slot 0 is the root. What stands at a slot is told by its head, a number:
//!
//! - below `CHOICES`: an entered parallel, by its first side's slot;
//! - below `TERMS`: an entered external choice, by its first side's slot plus `CHOICES`;
//! - else an untouched term, Ω or ⊥, by its record in the table plus `TERMS`.
//!
//! Sequences that were entered at a slot and wait for what stands there are a list, the innermost first.

use crate::table::{Table, BOTTOM, MAIN, OMEGA};
use crate::track::NO_REFERENCE;
use crate::CELL_ROOM;

const SLOTS: usize = 1_024;
const OPERATORS: usize = SLOTS / 2;
pub(crate) const CHOICES: u16 = SLOTS as u16;
pub(crate) const TERMS: u16 = 2 * SLOTS as u16;
pub(crate) const ROOT: usize = 0;
pub(crate) const OMEGA_HEAD: u16 = TERMS + OMEGA as u16;
pub(crate) const BOTTOM_HEAD: u16 = TERMS + BOTTOM as u16;
const MAIN_HEAD: u16 = TERMS + MAIN as u16;
pub(crate) const NO_SEQUENCE: u16 = u16::MAX;

pub(crate) struct Control {
    pub heads: [u16; SLOTS],
    /// The reference that a slot's untouched term, Ω or ⊥ is to label, or the node of its operator.
    pub references: [u16; SLOTS],
    /// The first and the last of the sequences that wait at a slot.
    pub waiting: [u16; SLOTS],
    last_waiting: [u16; SLOTS],
    /// The set of each parallel, by half its first side's slot.
    pub sets: [u64; OPERATORS],
    operators_made: usize,
    free_operators: [u16; OPERATORS],
    free_operator_count: usize,
    sequence_terms: [u16; CELL_ROOM],
    next_sequences: [u16; CELL_ROOM],
    sequences_made: usize,
    free_sequence: u16,
    /// How many operators were ever taken from control.
    pub removals: u64,
    pub cells: usize,
    /// How many untouched terms are active, and how many parallels have ended on both sides.
    pub active: usize,
}

impl Control {
    pub fn new() -> Control {
        let mut control = Control {
            heads: [BOTTOM_HEAD; SLOTS],
            references: [NO_REFERENCE; SLOTS],
            waiting: [NO_SEQUENCE; SLOTS],
            last_waiting: [NO_SEQUENCE; SLOTS],
            sets: [0; OPERATORS],
            operators_made: 1,
            free_operators: [0; OPERATORS],
            free_operator_count: 0,
            sequence_terms: [0; CELL_ROOM],
            next_sequences: [NO_SEQUENCE; CELL_ROOM],
            sequences_made: 0,
            free_sequence: NO_SEQUENCE,
            removals: 0,
            cells: 1,
            active: 1,
        };
        control.start();
        control
    }

    /// A call of definition 00. The root's neighbour is no slot and stays as it is.
    pub fn start(&mut self) {
        self.heads[ROOT] = MAIN_HEAD;
        self.references[ROOT] = 0;
        self.waiting[ROOT] = NO_SEQUENCE;
        self.operators_made = 1;
        self.free_operator_count = 0;
        self.sequences_made = 0;
        self.free_sequence = NO_SEQUENCE;
        self.removals += 1;
        self.cells = 1;
        self.active = 1;
    }

    /// The slot of a side of the operator that a head tells, by digit 1 or 2.
    #[inline(always)]
    pub fn side(head: u16, digit: u8) -> usize {
        (head & (CHOICES - 1)) as usize + (digit - 1) as usize
    }

    // ---- entering

    /// Enters an operator at a slot, and gives the slot of its first side. Its sides are for the caller to fill.
    #[inline(always)]
    pub fn enter_operator(&mut self, slot: usize, is_choice: bool, set: u64) -> usize {
        let operator = if self.free_operator_count > 0 {
            self.free_operator_count -= 1;
            self.free_operators[self.free_operator_count] as usize
        } else {
            self.operators_made += 1;
            self.operators_made - 1
        };
        let first = 2 * operator;
        self.sets[operator] = set;
        self.heads[slot] = first as u16 + if is_choice { CHOICES } else { 0 };
        self.cells += 2;
        first
    }

    /// Fills the slot of a side that has just been made.
    #[inline(always)]
    pub fn fill_side(&mut self, slot: usize, term: usize, reference: u16) {
        self.heads[slot] = TERMS + term as u16;
        self.references[slot] = reference;
        self.waiting[slot] = NO_SEQUENCE;
    }

    /// Enters a sequence at a slot.
    #[inline(always)]
    pub fn enter_sequence(&mut self, slot: usize, term: usize) {
        let sequence = self.free_sequence as usize;
        let sequence = match self.next_sequences.get(sequence) {
            Some(&next) => {
                self.free_sequence = next;
                sequence
            }
            None => {
                self.sequences_made += 1;
                self.sequences_made - 1
            }
        };
        self.sequence_terms[sequence] = term as u16;
        self.next_sequences[sequence] = self.waiting[slot];
        if self.waiting[slot] == NO_SEQUENCE {
            self.last_waiting[slot] = sequence as u16;
        }
        self.waiting[slot] = sequence as u16;
        self.cells += 1;
    }

    // ---- leaving

    /// Takes the innermost sequence from a slot at which one waits, and gives its term.
    #[inline(always)]
    pub fn leave_sequence(&mut self, slot: usize) -> usize {
        let sequence = self.waiting[slot];
        self.waiting[slot] = self.next_sequences[sequence as usize];
        self.next_sequences[sequence as usize] = self.free_sequence;
        self.free_sequence = sequence;
        self.cells -= 1;
        self.sequence_terms[sequence as usize] as usize
    }

    /// Takes the operator from a slot, its sides having been taken care of; the slot's head is left behind.
    #[inline(always)]
    fn leave_operator(&mut self, slot: usize) {
        self.free_operators[self.free_operator_count] = (self.heads[slot] & (CHOICES - 1)) >> 1;
        self.free_operator_count += 1;
        self.removals += 1;
    }

    /// Drops a choice for the outcome of one of its sides, of which nothing but one cell is left.
    pub fn drop_choice(&mut self, table: &Table, slot: usize, side: usize) {
        self.discard(table, side ^ 1);
        self.leave_operator(slot);
        self.cells -= 1;
    }

    /// Drops a choice for one of its sides, which moves to the choice's slot with the sequences that wait there.
    pub fn hoist(&mut self, table: &Table, slot: usize, side: usize) {
        self.drop_choice(table, slot, side);
        self.heads[slot] = self.heads[side];
        self.references[slot] = self.references[side];
        if self.waiting[side] == NO_SEQUENCE {
            return;
        }
        let last = self.last_waiting[side];
        if self.waiting[slot] == NO_SEQUENCE {
            self.last_waiting[slot] = last;
        } else {
            self.next_sequences[last as usize] = self.waiting[slot];
        }
        self.waiting[slot] = self.waiting[side];
    }

    /// Takes a parallel that has ended on both sides from a slot; it is still counted among the active ones.
    pub fn leave_ended_parallel(&mut self, slot: usize) {
        self.leave_operator(slot);
        self.cells -= 2;
    }

    /// Puts Ω at a slot. What stood there counted so much among the active ones.
    #[inline(always)]
    pub fn end(&mut self, slot: usize, reference: u16, active_before: usize) {
        self.heads[slot] = OMEGA_HEAD;
        self.references[slot] = reference;
        let active = (self.heads[slot ^ 1] == OMEGA_HEAD) as usize;
        self.active = self.active + active - active_before;
    }

    /// Gives back all cells of what stands at a slot.
    #[inline(always)]
    fn discard(&mut self, table: &Table, slot: usize) {
        let first = self.free_operator_count;
        self.discard_slot(table, slot);
        let mut next = first;
        while next < self.free_operator_count {
            let side = 2 * self.free_operators[next] as usize;
            self.discard_slot(table, side);
            self.discard_slot(table, side + 1);
            self.active -= self.has_ended(side) as usize;
            next += 1;
        }
    }

    /// Gives back the cells at a slot; an operator's sides remain to be discarded.
    #[inline(always)]
    fn discard_slot(&mut self, table: &Table, slot: usize) {
        while self.waiting[slot] != NO_SEQUENCE {
            self.leave_sequence(slot);
        }
        self.cells -= 1;
        let head = self.heads[slot];
        if head >= TERMS {
            self.active -= table.term((head - TERMS) as usize).active();
        } else {
            self.leave_operator(slot);
        }
    }

    /// Whether both sides of a parallel, the first at a slot, are at their end.
    #[inline(always)]
    pub fn has_ended(&self, side: usize) -> bool {
        self.heads[side] == OMEGA_HEAD && self.heads[side + 1] == OMEGA_HEAD
    }

    /// How many cells stand at a slot.
    pub fn weigh(&self, slot: usize) -> usize {
        let mut cells = 1;
        let mut sequence = self.waiting[slot];
        while sequence != NO_SEQUENCE {
            cells += 1;
            sequence = self.next_sequences[sequence as usize];
        }
        let head = self.heads[slot];
        if head < TERMS {
            cells += self.weigh(Control::side(head, 1)) + self.weigh(Control::side(head, 2));
        }
        cells
    }
}
