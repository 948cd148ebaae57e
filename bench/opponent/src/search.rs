//! The search for the derivation that an address names. It changes nothing but lists of its own: the choices on the
//! way, the sides that a joint step has still to visit, and the leaves, where an address leaves the entered part of
//! control. What lies behind a leaf is followed in the table, and is called its tail.

use crate::control::{Control, CHOICES, ROOT, TERMS};
use crate::table::{Table, CALL, EXTERNAL_CHOICE, INTERNAL_CHOICE, PARALLEL, PREFIX, SEQUENCE, SKIP, STOP};
use crate::track::NO_REFERENCE;
use crate::trail::{Trail, LONG_ADDRESS};
use crate::{ADDRESS_ROOM, PATH_ROOM};

/// What a leaf does, beside a visible event, told by its number.
pub(crate) const SILENT: u8 = 64;
pub(crate) const END: u8 = 65;
pub(crate) const JOINT_END: u8 = 66;

/// A place where an address leaves the entered part of control.
#[derive(Clone, Copy)]
pub(crate) struct Leaf {
    pub slot: usize,
    /// The slot that this one's content comes to where the choices above it are dropped.
    pub base: usize,
    /// The slot of the operator above.
    pub above: usize,
    pub head: u16,
    /// How many digits lead here.
    pub at: usize,
    /// The reference that its term is to label, once it is entered.
    pub reference: u16,
}

const NO_LEAF: Leaf = Leaf { slot: 0, base: 0, above: 0, head: 0, at: 0, reference: 0 };

impl Leaf {
    /// Whether the side has not stepped before, as a number.
    #[inline(always)]
    pub fn is_unentered(&self) -> usize {
        (self.reference == NO_REFERENCE) as usize
    }
}

/// Where a step goes on behind a leaf: the slot and reference of a term, and how many digits lead there.
#[derive(Clone, Copy)]
pub(crate) struct Tip {
    pub slot: usize,
    pub term: usize,
    pub reference: u16,
    pub at: usize,
}

/// A choice on the way to a leaf, and the side taken, each by its slot.
#[derive(Clone, Copy)]
pub(crate) struct Taken {
    pub slot: u16,
    pub side: u16,
}

/// A side that a joint step has still to visit: a slot below an operator's, or a term where `above` is none.
#[derive(Clone, Copy)]
struct Fork {
    at: u16,
    above: u16,
}

const IN_THE_TABLE: u16 = u16::MAX;

/// What takes in an end in the tail.
#[derive(Clone, Copy, PartialEq, Eq)]
pub(crate) enum Taker {
    Nothing,
    Sequence,
    Parallel,
}

/// What a tail enters.
#[derive(Clone, Copy)]
pub(crate) struct Tail {
    pub choices: usize,
    pub parallels: usize,
    pub sequences: usize,
    /// Parallels of which both sides are entered.
    pub joints: usize,
    /// Choices behind the last sequence or parallel.
    pub loose_choices: usize,
    pub taker: Taker,
}

/// The tail of a leaf that steps itself.
pub(crate) const NO_TAIL: Tail =
    Tail { choices: 0, parallels: 0, sequences: 0, joints: 0, loose_choices: 0, taker: Taker::Nothing };

/// What a search for a joint step has found.
pub(crate) struct Joint {
    pub event: u8,
    /// How many prefixes step.
    pub steps: usize,
    /// How many leaves are listed: a parallel in a tail lets more than one prefix step behind one leaf.
    pub leaves: usize,
    /// How many of the leaves are sides that have not stepped before.
    pub unentered: usize,
    pub tail: Tail,
    pub taken: usize,
}

/// Lists that a search fills.
pub(crate) struct Lists {
    pub taken: [Taken; ADDRESS_ROOM],
    pub leaves: [Leaf; ADDRESS_ROOM],
    forks: [Fork; ADDRESS_ROOM],
    /// Sides that a joint step has entered and not yet stepped in.
    pub sides: [Tip; PATH_ROOM + 1],
    trail: Trail,
}

impl Lists {
    pub fn new() -> Lists {
        Lists {
            taken: [Taken { slot: 0, side: 0 }; ADDRESS_ROOM],
            leaves: [NO_LEAF; ADDRESS_ROOM],
            forks: [Fork { at: 0, above: 0 }; ADDRESS_ROOM],
            sides: [Tip { slot: 0, term: 0, reference: 0, at: 0 }; PATH_ROOM + 1],
            trail: Trail::new(),
        }
    }
}

/// A search for one leaf, or for all leaves of a joint step.
pub(crate) struct Search<'a, const JOINT: bool> {
    control: &'a Control,
    table: &'a Table,
    lists: &'a mut Lists,
    digits: &'a [u8],
    at: usize,
    /// Events of the sets of parallels that one side alone takes.
    pub blocked: u64,
    /// Events of the sets of all parallels that both sides take.
    joint: u64,
    pub taken: usize,
    forks: usize,
    /// That a search for one leaf has come to a joint step.
    pub is_joint: bool,
    pub tail: Tail,
}

impl<'a, const JOINT: bool> Search<'a, JOINT> {
    #[inline(always)]
    pub fn new(control: &'a Control, table: &'a Table, lists: &'a mut Lists, digits: &'a [u8]) -> Self {
        Search {
            control,
            table,
            lists,
            digits,
            at: 0,
            blocked: 0,
            joint: !0,
            taken: 0,
            forks: 0,
            is_joint: false,
            tail: NO_TAIL,
        }
    }

    /// Goes on behind a leaf that was found already.
    pub fn behind(self, leaf: &Leaf, blocked: u64) -> Self {
        Search { at: leaf.at, blocked, ..self }
    }

    /// The first leaf.
    #[inline(always)]
    pub fn first(&mut self) -> Option<Leaf> {
        if self.digits.len() < LONG_ADDRESS {
            return self.descend(ROOT, ROOT);
        }
        let reached = self.lists.trail.follow(self.control, self.digits);
        self.at = reached.digits;
        self.blocked = reached.blocked;
        self.descend(reached.slot, reached.above)
    }

    /// Whether all digits are used.
    #[inline(always)]
    pub fn is_done(&self) -> bool {
        self.at == self.digits.len()
    }

    /// Finds all leaves of a joint step, which have to do the same visible event.
    pub fn all(&mut self) -> Option<Joint> {
        let leaf = self.first()?;
        self.lists.leaves[0] = leaf;
        let event = self.follow(leaf.head).filter(|&event| event < SILENT)?;
        let (mut steps, mut leaves, mut unentered) = (1, 1, leaf.is_unentered());
        while self.forks > 0 {
            self.forks -= 1;
            let fork = self.lists.forks[self.forks];
            let mut head = fork.at;
            if fork.above != IN_THE_TABLE {
                let leaf = self.descend(fork.at as usize, fork.above as usize)?;
                self.lists.leaves[leaves] = leaf;
                leaves += 1;
                unentered += leaf.is_unentered();
                head = leaf.head;
            }
            if self.follow(head)? != event {
                return None;
            }
            steps += 1;
        }
        let may_happen = (self.joint & !self.blocked) >> event & 1 == 1;
        let joint = Joint { event, steps, leaves, unentered, tail: self.tail, taken: self.taken };
        (self.is_done() && may_happen).then_some(joint)
    }

    #[inline(always)]
    fn digit(&mut self) -> Option<u8> {
        let digit = *self.digits.get(self.at)?;
        self.at += 1;
        Some(digit)
    }

    #[inline(always)]
    fn side_digit(&mut self) -> Option<u8> {
        self.digit().filter(|&digit| digit == 1 || digit == 2)
    }

    /// Follows the digits down from a slot through all that is entered.
    #[inline(always)]
    fn descend(&mut self, slot: usize, above: usize) -> Option<Leaf> {
        let (mut slot, mut base, mut above) = (slot, slot, above);
        let mut head = self.control.heads[slot];
        loop {
            while head < CHOICES {
                let set = self.control.sets[head as usize >> 1];
                let digit = self.digit()?;
                let side = digit.wrapping_sub(1); // bit 0 is clear for 3 too, which begins with the left
                if side > 1 {
                    if digit == 4 && self.control.has_ended(head as usize) {
                        return self.leaf(slot, base, above, head);
                    }
                    if digit != 3 {
                        return None;
                    }
                    self.fork(head + 1, slot as u16, set)?;
                } else {
                    self.blocked |= set;
                }
                above = slot;
                slot = head as usize + (side & 1) as usize;
                base = slot;
                head = self.control.heads[slot];
            }
            if head >= TERMS {
                return self.leaf(slot, base, above, head);
            }
            let digit = self.side_digit()?;
            above = slot;
            slot = Control::side(head, digit);
            self.lists.taken[self.taken] = Taken { slot: above as u16, side: slot as u16 };
            self.taken += 1;
            head = self.control.heads[slot];
        }
    }

    #[inline(always)]
    fn leaf(&self, slot: usize, base: usize, above: usize, head: u16) -> Option<Leaf> {
        let reference = self.control.references[slot];
        Some(Leaf { slot, base, above, head, at: self.at, reference })
    }

    /// Puts off the right side of a parallel; a search for one leaf ends here.
    #[inline(always)]
    fn fork(&mut self, at: u16, above: u16, set: u64) -> Option<()> {
        if !JOINT {
            self.is_joint = true;
            return None;
        }
        self.joint &= set;
        self.lists.forks[self.forks] = Fork { at, above };
        self.forks += 1;
        Some(())
    }

    /// Follows the digits down in the table from an untouched term, and gives what its leaf does.
    #[inline(always)]
    pub fn follow(&mut self, head: u16) -> Option<u8> {
        if head < TERMS {
            return Some(JOINT_END);
        }
        let mut number = (head - TERMS) as usize;
        loop {
            let term = self.table.term(number);
            if term.kind == PREFIX {
                return Some(term.payload);
            }
            match term.kind {
                CALL | STOP => return Some(SILENT),
                SKIP => return Some(END),
                INTERNAL_CHOICE => return self.side_digit().map(|_| SILENT),
                SEQUENCE | EXTERNAL_CHOICE | PARALLEL => number = self.follow_operator(number)?,
                _ => return None,
            }
        }
    }

    /// Enters an operator of a tail, and gives the subterm to go on with.
    #[inline(always)]
    fn follow_operator(&mut self, number: usize) -> Option<usize> {
        let term = self.table.term(number);
        if term.kind == EXTERNAL_CHOICE {
            self.tail.choices += 1;
            self.tail.loose_choices += 1;
            return Some(self.table.subterm(number, self.side_digit()?));
        }
        self.tail.loose_choices = 0;
        if term.kind == SEQUENCE {
            self.tail.sequences += 1;
            self.tail.taker = Taker::Sequence;
            return Some(number + 1);
        }
        self.tail.parallels += 1;
        self.tail.taker = Taker::Parallel;
        let digit = self.digit()?;
        match digit {
            1 | 2 => self.blocked |= term.set,
            3 => {
                self.tail.joints += 1;
                self.fork(TERMS + term.right, IN_THE_TABLE, term.set)?;
            }
            _ => return None,
        }
        Some(self.table.subterm(number, if digit == 2 { 2 } else { 1 }))
    }
}
