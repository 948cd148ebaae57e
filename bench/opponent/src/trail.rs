//! The trail: the way that the last long address took through parallels. A long address often begins as the one
//! before it, and then the search need not descend there again. It holds as long as no operator is taken from control.

use crate::control::{Control, CHOICES, ROOT};
use crate::ADDRESS_ROOM;

/// Addresses shorter than this are not worth a trail.
pub(crate) const LONG_ADDRESS: usize = 40;

pub(crate) struct Trail {
    /// The control's count of taken operators to which this belongs.
    removals: u64,
    length: usize,
    digits: [u8; ADDRESS_ROOM],
    /// The slot to which so many digits lead, and the events that are blocked there.
    slots: [u16; ADDRESS_ROOM + 1],
    blocked: [u64; ADDRESS_ROOM + 1],
}

/// How far a trail leads: so many digits, to a slot below another one, with the events that are blocked there.
pub(crate) struct Reached {
    pub digits: usize,
    pub slot: usize,
    pub above: usize,
    pub blocked: u64,
}

impl Trail {
    pub fn new() -> Trail {
        Trail {
            removals: 0,
            length: 0,
            digits: [0; ADDRESS_ROOM],
            slots: [ROOT as u16; ADDRESS_ROOM + 1],
            blocked: [0; ADDRESS_ROOM + 1],
        }
    }

    /// Follows an address along the trail, and goes on with it through parallels of which it takes one side.
    pub fn follow(&mut self, control: &Control, digits: &[u8]) -> Reached {
        if self.removals != control.removals {
            self.removals = control.removals;
            self.length = 0;
        }
        let mut at = common_start(&self.digits[..self.length], digits);
        let mut slot = self.slots[at] as usize;
        let mut blocked = self.blocked[at];
        for &digit in &digits[at..] {
            let head = control.heads[slot];
            if head >= CHOICES || digit.wrapping_sub(1) > 1 {
                break;
            }
            blocked |= control.sets[head as usize >> 1];
            slot = Control::side(head, digit);
            self.digits[at] = digit;
            at += 1;
            self.slots[at] = slot as u16;
            self.blocked[at] = blocked;
            self.length = at;
        }
        let above = self.slots[at.saturating_sub(1)] as usize;
        Reached { digits: at, slot, above, blocked }
    }
}

/// How many digits two addresses have in common at their start.
fn common_start(one: &[u8], other: &[u8]) -> usize {
    let mut common = 0;
    for (left, right) in one.chunks_exact(8).zip(other.chunks_exact(8)) {
        if left != right {
            break;
        }
        common += 8;
    }
    let rest = one[common..].iter().zip(&other[common..]);
    common + rest.take_while(|(left, right)| left == right).count()
}
