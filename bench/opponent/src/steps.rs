//! Steps: one is searched for, weighed against the room, and then written; a refused one writes nothing.

use crate::control::{Control, BOTTOM_HEAD, NO_SEQUENCE, ROOT, TERMS};
use crate::search::{Joint, Leaf, Lists, Search, Tail, Taker, Tip, END, JOINT_END, NO_TAIL, SILENT};
use crate::table::{Table, CALL, EXTERNAL_CHOICE, INTERNAL_CHOICE, PARALLEL, PREFIX, SEQUENCE, SKIP, STOP};
use crate::track::{Additions, Track, NO_REFERENCE};
use crate::{
    Event, ADDRESS_ROOM, ARCS_OVER_ROOM, ARC_ROOM, CELLS_OVER_ROOM, CELL_ROOM, MEETINGS_OVER_ROOM,
    MEETING_ROOM, NODES_OVER_ROOM, NODE_ROOM, NO_DERIVATION,
};

/// A run's control and track, and the lists of the search for a step.
pub(crate) struct State {
    pub control: Control,
    pub track: Track,
    lists: Lists,
}

/// What a search for a step of one leaf has found.
struct Found<'a> {
    table: &'a Table,
    digits: &'a [u8],
    leaf: &'a Leaf,
    tail: &'a Tail,
    /// How many choices of the entered part lie on the way.
    taken: usize,
    event: u8,
}

impl State {
    pub fn new() -> State {
        State { control: Control::new(), track: Track::new(), lists: Lists::new() }
    }

    pub fn start(&mut self) {
        self.control.start();
        self.track.start();
    }

    #[inline(never)]
    pub fn step(&mut self, table: &Table, digits: &[u8]) -> Result<Event, u8> {
        if digits.len() > ADDRESS_ROOM {
            return Err(NO_DERIVATION);
        }
        let mut search = Search::<false>::new(&self.control, table, &mut self.lists, digits);
        let Some(leaf) = search.first() else {
            let is_joint = search.is_joint;
            return self.step_jointly_or_refuse(table, digits, is_joint);
        };
        let (blocked, taken) = (search.blocked, search.taken);
        let found = |event| Found { table, digits, leaf: &leaf, tail: &NO_TAIL, taken, event };
        let digits_left = digits.len() - leaf.at;
        if leaf.head < TERMS {
            return if digits_left == 0 {
                self.step_to_an_end(&found(JOINT_END))
            } else {
                Err(NO_DERIVATION)
            };
        }
        let term = table.term((leaf.head - TERMS) as usize);
        match (term.kind, digits_left) {
            (CALL | STOP, 0) => self.step_silently(&found(SILENT)),
            (PREFIX, 0) if !is_blocked(blocked, term.payload) => self.step_visibly(&found(term.payload)),
            (SKIP, 0) => self.step_to_an_end(&found(END)),
            (INTERNAL_CHOICE, 1) if is_side(digits[leaf.at]) => self.step_silently(&found(SILENT)),
            (SEQUENCE | EXTERNAL_CHOICE | PARALLEL, _) => {
                let lent = Leaf { ..leaf }; // a copy, so that the leaf itself need not lie in memory
                self.step_behind(table, digits, &lent, blocked, taken)
            }
            _ => Err(NO_DERIVATION),
        }
    }

    #[inline(never)]
    fn step_jointly_or_refuse(&mut self, table: &Table, digits: &[u8], is_joint: bool) -> Result<Event, u8> {
        if is_joint {
            self.step_jointly(table, digits)
        } else {
            Err(NO_DERIVATION)
        }
    }

    /// A step of a leaf with a tail.
    #[inline(never)]
    fn step_behind(
        &mut self,
        table: &Table,
        digits: &[u8],
        leaf: &Leaf,
        blocked: u64,
        taken: usize,
    ) -> Result<Event, u8> {
        let search = Search::<false>::new(&self.control, table, &mut self.lists, digits);
        let mut search = search.behind(leaf, blocked);
        let Some(event) = search.follow(leaf.head) else {
            let is_joint = search.is_joint;
            return self.step_jointly_or_refuse(table, digits, is_joint);
        };
        if !search.is_done() || is_blocked(search.blocked, event) {
            return Err(NO_DERIVATION);
        }
        let tail = search.tail;
        let found = Found { table, digits, leaf, tail: &tail, taken, event };
        match event {
            SILENT => self.step_silently(&found),
            END => self.step_to_an_end(&found),
            _ => self.step_visibly(&found),
        }
    }

    // ---- steps of one leaf

    #[inline(always)]
    fn step_silently(&mut self, found: &Found) -> Result<Event, u8> {
        let Found { table, digits, leaf, tail, .. } = *found;
        let entered = tail.choices + tail.parallels;
        let arcs = 1 + entered + leaf.is_unentered();
        let additions = Additions { nodes: 1 + entered, arcs, meetings: 0 };
        self.make_room(2 * entered + tail.sequences, additions)?;
        let reference = self.enter(leaf);
        let tip = self.grow(found, leaf.slot, reference, tail.choices);
        let term = table.term(tip.term);
        let after = self.track.label(tip.reference, tip.term as u16);
        let head = match term.kind {
            CALL => TERMS + term.right,
            INTERNAL_CHOICE => TERMS + table.subterm(tip.term, digits[tip.at]) as u16,
            _ => BOTTOM_HEAD,
        };
        self.arrive(table, tip.slot, head, after, active_before(table, leaf));
        Ok(Event::Tau)
    }

    #[inline(always)]
    fn step_visibly(&mut self, found: &Found) -> Result<Event, u8> {
        let Found { table, leaf, tail, taken, .. } = *found;
        let entered = tail.choices + tail.parallels;
        let arcs = 2 + entered + leaf.is_unentered();
        let added = 2 * tail.parallels + tail.sequences;
        let cells = added.saturating_sub(self.dropped_cells(added, taken));
        self.make_room(cells, Additions { nodes: 2 + entered, arcs, meetings: 0 })?;
        let reference = self.enter(leaf);
        self.drop_choices(table, taken);
        let tip = self.grow(found, leaf.base, reference, 0);
        self.step_prefix(table, &tip, active_before(table, leaf));
        Ok(Event::Visible(found.event))
    }

    /// A step by which a SKIP or an ended parallel ends, up to the sequence or parallel that takes it in.
    #[inline(always)]
    fn step_to_an_end(&mut self, found: &Found) -> Result<Event, u8> {
        let Found { table, leaf, tail, taken, .. } = *found;
        let (kept, slot) = match tail.taker {
            Taker::Nothing => self.taker_of_an_end(leaf.slot, taken),
            _ => (taken, leaf.slot),
        };
        let in_sequence = match tail.taker {
            Taker::Nothing => self.control.waiting[slot] != NO_SEQUENCE,
            taker => taker == Taker::Sequence,
        };
        self.make_room_for_an_end(found, in_sequence as usize)?;
        let slot = if found.event == END {
            let reference = self.enter(leaf);
            self.abandon_choices(table, kept, taken);
            let tip = self.grow(found, slot, reference, tail.choices - tail.loose_choices);
            let end = self.track.label(tip.reference, tip.term as u16);
            self.end_at(table, tip.slot, end, active_before(table, leaf));
            tip.slot
        } else {
            let end = self.join_ends(leaf);
            self.abandon_choices(table, kept, taken);
            self.end_at(table, slot, end, 1);
            slot
        };
        let passes = tail.taker == Taker::Nothing && slot == ROOT && !in_sequence;
        Ok(if passes { Event::Tick } else { Event::Tau })
    }

    #[inline(always)]
    fn make_room_for_an_end(&mut self, found: &Found, in_sequence: usize) -> Result<(), u8> {
        let Found { leaf, tail, .. } = *found;
        let entered = tail.choices + tail.parallels;
        let cells = 2 * (entered - tail.loose_choices) + tail.sequences;
        let cells = cells - (tail.taker == Taker::Sequence) as usize;
        let (nodes, arcs) = match found.event {
            END => (1 + entered, 1 + entered + leaf.is_unentered()),
            _ => (0, self.parents_of_ends(leaf.head as usize)),
        };
        let (nodes, arcs) = (nodes + in_sequence, arcs + in_sequence);
        self.make_room(cells, Additions { nodes, arcs, meetings: 0 })
    }

    /// Going up from a slot through choices at whose sides no sequence waits: how many choices are left above, and
    /// the slot that is come to.
    fn taker_of_an_end(&self, slot: usize, taken: usize) -> (usize, usize) {
        let (mut kept, mut slot) = (taken, slot);
        while kept > 0 && self.control.waiting[slot] == NO_SEQUENCE {
            let choice = self.lists.taken[kept - 1];
            if choice.side as usize != slot {
                break;
            }
            slot = choice.slot as usize;
            kept -= 1;
        }
        (kept, slot)
    }

    fn parents_of_ends(&self, first_side: usize) -> usize {
        let references = &self.control.references;
        self.track.parents(references[first_side], references[first_side + 1])
    }

    fn join_ends(&mut self, leaf: &Leaf) -> u16 {
        let first_side = leaf.head as usize;
        let references = &self.control.references;
        let end = self.track.join(references[first_side], references[first_side + 1]);
        self.control.leave_ended_parallel(leaf.slot);
        end
    }

    /// Takes an end in at a slot: its innermost sequence starts its right, or the slot is at Ω.
    #[inline(always)]
    fn end_at(&mut self, table: &Table, slot: usize, end: u16, active_before: usize) {
        if self.control.waiting[slot] == NO_SEQUENCE {
            return self.control.end(slot, end, active_before);
        }
        let sequence = self.control.leave_sequence(slot);
        let after = self.track.label_sequence(end, sequence as u16);
        let head = TERMS + table.term(sequence).right;
        self.arrive(table, slot, head, after, active_before);
    }

    // ---- joint steps

    #[inline(never)]
    fn step_jointly(&mut self, table: &Table, digits: &[u8]) -> Result<Event, u8> {
        let mut search = Search::<true>::new(&self.control, table, &mut self.lists, digits);
        let joint = search.all().ok_or(NO_DERIVATION)?;
        self.make_room_for_joint(&joint)?;
        if joint.unentered > 0 {
            self.enter_leaves(joint.leaves);
        }
        self.drop_choices(table, joint.taken);
        for leaf in 0..joint.leaves {
            let leaf = self.lists.leaves[leaf];
            let term = (leaf.head - TERMS) as usize;
            let tip = Tip { slot: leaf.base, term, reference: leaf.reference, at: leaf.at };
            self.step_together(table, digits, tip, active_before(table, &leaf));
        }
        self.track.close_group();
        Ok(Event::Visible(joint.event))
    }

    fn enter_leaves(&mut self, leaves: usize) {
        for number in 0..leaves {
            let leaf = self.lists.leaves[number];
            self.lists.leaves[number].reference = self.enter(&leaf);
        }
    }

    fn make_room_for_joint(&mut self, joint: &Joint) -> Result<(), u8> {
        let Joint { steps, unentered, tail, taken, .. } = *joint;
        let entered = tail.choices + tail.parallels;
        let added = 2 * tail.parallels + tail.sequences;
        let cells = added.saturating_sub(self.dropped_cells(added, taken));
        let additions = Additions {
            nodes: 2 * steps + entered,
            arcs: 2 * steps + entered + tail.joints + unentered,
            meetings: steps * (steps - 1) / 2,
        };
        self.make_room(cells, additions)
    }

    /// Takes the steps of all prefixes behind one leaf of a joint step.
    #[inline(always)]
    fn step_together(&mut self, table: &Table, digits: &[u8], tip: Tip, active_before: usize) {
        let (mut tip, mut active_before) = (tip, active_before);
        let mut put_off = 0;
        loop {
            let kind = table.term(tip.term).kind;
            if kind != PREFIX {
                if kind == PARALLEL && digits[tip.at] == 3 {
                    let (left, right) = self.enter_both(table, &tip);
                    self.lists.sides[put_off] = right;
                    put_off += 1;
                    tip = left;
                } else {
                    tip = self.enter_tail_operator(table, digits, &tip, false);
                }
                continue;
            }
            self.track.add_member(tip.reference);
            self.step_prefix(table, &tip, active_before);
            if put_off == 0 {
                return;
            }
            put_off -= 1;
            tip = Tip { at: tip.at, ..self.lists.sides[put_off] };
            active_before = 0;
        }
    }

    /// Enters both sides of an untouched parallel.
    #[inline(always)]
    fn enter_both(&mut self, table: &Table, tip: &Tip) -> (Tip, Tip) {
        let term = table.term(tip.term);
        let (left, right) = (tip.term + 1, term.right as usize);
        let [left_reference, right_reference] = self.track.label_parallel(tip.reference, tip.term as u16);
        self.control.references[tip.slot] = tip.reference;
        let slot = self.control.enter_operator(tip.slot, false, term.set);
        self.control.fill_side(slot, left, left_reference);
        self.control.fill_side(slot + 1, right, right_reference);
        let at = tip.at + 1;
        let left = Tip { slot, term: left, reference: left_reference, at };
        (left, Tip { slot: slot + 1, term: right, reference: right_reference, at })
    }

    // ---- room

    /// Counts what a step adds, or refuses it.
    #[inline(always)]
    fn make_room(&mut self, cells: usize, additions: Additions) -> Result<(), u8> {
        if cells > 0 && self.control.cells + cells > CELL_ROOM {
            return Err(CELLS_OVER_ROOM);
        }
        if self.track.nodes + additions.nodes > NODE_ROOM {
            return Err(NODES_OVER_ROOM);
        }
        if self.track.arcs + additions.arcs > ARC_ROOM {
            return Err(ARCS_OVER_ROOM);
        }
        if additions.meetings > 0 && self.track.meetings + additions.meetings > MEETING_ROOM {
            return Err(MEETINGS_OVER_ROOM);
        }
        self.track.count(additions);
        Ok(())
    }

    /// How many cells go with the choices that a visible event drops. That is not counted where what is added fits
    /// anyway.
    #[inline(always)]
    fn dropped_cells(&self, added: usize, taken: usize) -> usize {
        if self.control.cells + added <= CELL_ROOM {
            return 0;
        }
        let choices = &self.lists.taken[..taken];
        choices.iter().map(|choice| 1 + self.control.weigh(choice.side as usize ^ 1)).sum()
    }

    // ---- writing a step

    /// A leaf's reference, drawn where its side has not stepped before.
    #[inline(always)]
    fn enter(&mut self, leaf: &Leaf) -> u16 {
        if leaf.reference != NO_REFERENCE {
            return leaf.reference;
        }
        let operator = self.control.references[leaf.above];
        self.track.enter_side(operator, leaf.slot & 1)
    }

    /// Drops all choices on the way, the innermost first, for the sides taken.
    #[inline(always)]
    fn drop_choices(&mut self, table: &Table, taken: usize) {
        for choice in self.lists.taken[..taken].iter().rev() {
            self.control.hoist(table, choice.slot as usize, choice.side as usize);
        }
    }

    /// Drops the inner choices on the way, of whose sides an end is all that is left.
    #[inline(always)]
    fn abandon_choices(&mut self, table: &Table, kept: usize, taken: usize) {
        for choice in self.lists.taken[kept..taken].iter().rev() {
            self.control.drop_choice(table, choice.slot as usize, choice.side as usize);
        }
    }

    /// Enters the operators of a tail that has no joint step, of its choices so many as the step does not drop.
    #[inline(always)]
    fn grow(&mut self, found: &Found, slot: usize, reference: u16, choices: usize) -> Tip {
        let Found { table, leaf, tail, .. } = *found;
        let term = (leaf.head - TERMS) as usize;
        let mut tip = Tip { slot, term, reference, at: leaf.at };
        let mut choices = choices;
        for _ in 0..tail.choices + tail.parallels + tail.sequences {
            let stays = choices > 0;
            choices -= (stays && table.term(tip.term).kind == EXTERNAL_CHOICE) as usize;
            tip = self.enter_tail_operator(table, found.digits, &tip, stays);
        }
        tip
    }

    /// Enters a sequence, or one side of a choice or parallel, not entered before.
    #[inline(always)]
    fn enter_tail_operator(&mut self, table: &Table, digits: &[u8], tip: &Tip, choice_stays: bool) -> Tip {
        let Tip { slot, term: number, reference, at } = *tip;
        let term = table.term(number);
        if term.kind == SEQUENCE {
            self.control.enter_sequence(slot, number);
            return Tip { slot, term: number + 1, reference, at };
        }
        let digit = digits[at];
        let side = (digit == 2) as usize;
        let drawn = self.track.label_operator(reference, number as u16, side);
        let subterm = table.subterm(number, digit);
        let is_choice = term.kind == EXTERNAL_CHOICE;
        if is_choice && !choice_stays {
            return Tip { slot, term: subterm, reference: drawn, at: at + 1 };
        }
        self.control.references[slot] = reference;
        let first = self.control.enter_operator(slot, is_choice, term.set);
        let other = table.subterm(number, 3 - digit);
        self.control.fill_side(first + side, subterm, drawn);
        self.control.fill_side(first + 1 - side, other, NO_REFERENCE);
        self.control.active += table.term(other).active();
        Tip { slot: first + side, term: subterm, reference: drawn, at: at + 1 }
    }

    #[inline(always)]
    fn step_prefix(&mut self, table: &Table, tip: &Tip, active_before: usize) {
        let after = self.track.label_prefix(tip.reference, tip.term as u16);
        self.arrive(table, tip.slot, TERMS + tip.term as u16 + 1, after, active_before);
    }

    /// Puts an untouched term or a mark at a slot, with the reference that it is to label. What stood there counted
    /// so much among the active ones.
    #[inline(always)]
    fn arrive(&mut self, table: &Table, slot: usize, head: u16, reference: u16, active_before: usize) {
        self.control.heads[slot] = head;
        self.control.references[slot] = reference;
        let active = table.term((head - TERMS) as usize).active();
        self.control.active = self.control.active + active - active_before;
    }
}

/// What a leaf's term counts among the active ones.
#[inline(always)]
fn active_before(table: &Table, leaf: &Leaf) -> usize {
    table.term((leaf.head - TERMS) as usize).active()
}

/// Whether an event is visible and among the blocked ones.
#[inline(always)]
fn is_blocked(blocked: u64, event: u8) -> bool {
    event < SILENT && blocked >> event & 1 == 1
}

#[inline(always)]
fn is_side(digit: u8) -> bool {
    digit == 1 || digit == 2
}
