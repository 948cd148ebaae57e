//! A run's track: its references with the arcs that lead on from them, and the groups of events that met.
//!
//! A reference is one word. Labelled, it has its literal, the references to which its arcs lead, and, where a SKIP
//! ended a side of a parallel, the next SKIP that leads to the same end. Not labelled, it has the first and the last
//! of the nodes with an arc to it, and how many these are.

use crate::{ARC_ROOM, MEETING_ROOM};

/// A literal is a term's number, with this bit where it is the prefix's event.
pub(crate) const EVENT_LITERAL: u16 = 0x0800;

pub(crate) const NO_REFERENCE: u16 = u16::MAX;
const UNLABELLED: u16 = u16::MAX;
const REFERENCES: usize = ARC_ROOM + 2;
const MEMBERS: usize = 2 * MEETING_ROOM;

/// What a word of the track holds, field by field.
#[derive(Clone, Copy)]
pub(crate) struct Word(u64);

impl Word {
    #[inline(always)]
    fn labelled(literal: u16, first: u16, second: u16) -> Word {
        Word(literal as u64 | (first as u64) << 16 | (second as u64) << 32)
    }

    #[inline(always)]
    fn unlabelled(first_parent: u16, last_parent: u16, parents: u16) -> Word {
        let parents_word = (first_parent as u64) << 16 | (last_parent as u64) << 32;
        Word(UNLABELLED as u64 | parents_word | (parents as u64) << 48)
    }

    #[inline(always)]
    pub fn literal(self) -> u16 {
        self.0 as u16
    }

    #[inline(always)]
    pub fn is_labelled(self) -> bool {
        self.literal() != UNLABELLED
    }

    /// Where the only arc leads, or the arc to the .1 side; the first parent of a reference that is not labelled.
    #[inline(always)]
    pub fn first(self) -> u16 {
        (self.0 >> 16) as u16
    }

    /// Where the arc to the .2 side leads; the last parent of a reference that is not labelled.
    #[inline(always)]
    pub fn second(self) -> u16 {
        (self.0 >> 32) as u16
    }

    /// The next SKIP, or how many nodes have an arc to a reference that is not labelled.
    #[inline(always)]
    fn last(self) -> u16 {
        (self.0 >> 48) as u16
    }

    #[inline(always)]
    fn with_field(self, field: u32, value: u16) -> Word {
        let shift = 16 * field;
        Word(self.0 & !(0xffff << shift) | (value as u64) << shift)
    }
}

/// What a step adds to the counters of a run.
#[derive(Clone, Copy)]
pub(crate) struct Additions {
    pub nodes: usize,
    pub arcs: usize,
    pub meetings: usize,
}

pub(crate) struct Track {
    words: [Word; REFERENCES],
    fresh: usize,
    pub nodes: usize,
    pub arcs: usize,
    pub meetings: usize,
    /// The event nodes of joint steps, group behind group, and where each group ends.
    members: [u16; MEMBERS],
    member_count: usize,
    group_ends: [u16; MEETING_ROOM],
    group_count: usize,
}

impl Track {
    pub fn new() -> Track {
        let mut track = Track {
            words: [Word::unlabelled(0, 0, 0); REFERENCES],
            fresh: 1,
            nodes: 0,
            arcs: 0,
            meetings: 0,
            members: [0; MEMBERS],
            member_count: 0,
            group_ends: [0; MEETING_ROOM],
            group_count: 0,
        };
        track.start();
        track
    }

    pub fn start(&mut self) {
        self.words[0] = Word::unlabelled(0, 0, 0);
        self.fresh = 1;
        self.nodes = 0;
        self.arcs = 0;
        self.meetings = 0;
        self.member_count = 0;
        self.group_count = 0;
    }

    #[inline(always)]
    pub fn count(&mut self, additions: Additions) {
        self.nodes += additions.nodes;
        self.arcs += additions.arcs;
        self.meetings += additions.meetings;
    }

    #[inline(always)]
    pub fn word(&self, reference: u16) -> Word {
        self.words[reference as usize]
    }

    /// How many references there are.
    pub fn references(&self) -> usize {
        self.fresh
    }

    /// A fresh reference with an arc from its parent, which the parent does not know yet.
    #[inline(always)]
    fn draw(&mut self, parent: u16) -> u16 {
        let drawn = self.fresh as u16;
        self.fresh += 1;
        self.words[drawn as usize] = Word::unlabelled(parent, parent, 1);
        drawn
    }

    /// Labels a reference and makes an arc from it to a fresh one.
    #[inline(always)]
    pub fn label(&mut self, reference: u16, literal: u16) -> u16 {
        let drawn = self.draw(reference);
        self.words[reference as usize] = Word::labelled(literal, drawn, NO_REFERENCE);
        drawn
    }

    /// Labels a prefix's event and arrow.
    #[inline(always)]
    pub fn label_prefix(&mut self, reference: u16, term: u16) -> u16 {
        let arrow = self.fresh as u16;
        let after = arrow + 1;
        self.fresh += 2;
        let event = Word::labelled(term | EVENT_LITERAL, arrow, NO_REFERENCE);
        self.words[reference as usize] = event;
        self.words[arrow as usize] = Word::labelled(term, after, NO_REFERENCE);
        self.words[after as usize] = Word::unlabelled(arrow, arrow, 1);
        after
    }

    /// Labels an operator, and makes an arc from it to a fresh reference for one side, 0 or 1.
    #[inline(always)]
    pub fn label_operator(&mut self, reference: u16, literal: u16, side: usize) -> u16 {
        let drawn = self.draw(reference);
        let (first, second) = if side == 0 { (drawn, NO_REFERENCE) } else { (NO_REFERENCE, drawn) };
        self.words[reference as usize] = Word::labelled(literal, first, second);
        drawn
    }

    /// Labels a parallel, and makes arcs from it to fresh references for both sides.
    #[inline(always)]
    pub fn label_parallel(&mut self, reference: u16, literal: u16) -> [u16; 2] {
        let drawn = [self.draw(reference), self.draw(reference)];
        self.words[reference as usize] = Word::labelled(literal, drawn[0], drawn[1]);
        drawn
    }

    /// An arc from an operator's node to a fresh reference for its other side, 0 or 1.
    #[inline(always)]
    pub fn enter_side(&mut self, operator: u16, side: usize) -> u16 {
        let drawn = self.draw(operator);
        let word = self.words[operator as usize];
        self.words[operator as usize] = word.with_field(1 + side as u32, drawn);
        drawn
    }

    /// How many nodes have an arc to either of two references.
    #[inline(always)]
    pub fn parents(&self, left: u16, right: u16) -> usize {
        self.word(left).last() as usize + self.word(right).last() as usize
    }

    /// A fresh reference with arcs from every node that has one to either of two ends.
    pub fn join(&mut self, left: u16, right: u16) -> u16 {
        let (one, other) = (self.word(left), self.word(right));
        let last_of_left = self.word(one.second());
        self.words[one.second() as usize] = last_of_left.with_field(3, other.first());
        let drawn = self.fresh as u16;
        self.fresh += 1;
        let parents = one.last() + other.last();
        self.words[drawn as usize] = Word::unlabelled(one.first(), other.second(), parents);
        drawn
    }

    /// Labels the end of a sequence's left part with the sequence, to which every node that ended there leads.
    #[inline(always)]
    pub fn label_sequence(&mut self, end: u16, literal: u16) -> u16 {
        let word = self.word(end);
        if word.last() > 1 {
            self.lead_parents_to(end, word);
        }
        self.label(end, literal)
    }

    fn lead_parents_to(&mut self, end: u16, word: Word) {
        let mut parent = word.first();
        for _ in 0..word.last() {
            let parent_word = self.word(parent);
            self.words[parent as usize] = parent_word.with_field(1, end);
            parent = parent_word.last();
        }
    }

    /// Adds an event node to the group that is open.
    #[inline(always)]
    pub fn add_member(&mut self, reference: u16) {
        self.members[self.member_count] = reference;
        self.member_count += 1;
    }

    pub fn close_group(&mut self) {
        self.group_ends[self.group_count] = self.member_count as u16;
        self.group_count += 1;
    }

    /// The groups of event nodes that met, in the order made.
    pub fn groups(&self) -> impl Iterator<Item = &[u16]> {
        let mut start = 0;
        self.group_ends[..self.group_count].iter().map(move |&end| {
            let group = &self.members[start..end as usize];
            start = end as usize;
            group
        })
    }
}
