//! Offers and status, worked out from control.

use crate::control::{Control, CHOICES, NO_SEQUENCE, OMEGA_HEAD, ROOT, TERMS};
use crate::table::{Table, OFFERS_TAU, OFFERS_TICK};
use crate::{Offers, Run, Status};

impl Run {
    /// The events that control has derivations for, a STOP's own silent step included.
    pub fn offers(&self, table: &Table) -> Offers {
        offers_at(&self.state.control, table, ROOT)
    }

    /// Ended at Ω, and stuck where no step is left but that of a STOP.
    pub fn status(&self, table: &Table) -> Status {
        let control = &self.state.control;
        if control.active > 0 {
            return Status::Live;
        }
        if control.heads[ROOT] == OMEGA_HEAD {
            return Status::Ended;
        }
        match events_at(control, table, ROOT, !0) {
            Ok(0) => Status::Stuck,
            _ => Status::Live,
        }
    }
}

fn offers_at(control: &Control, table: &Table, slot: usize) -> Offers {
    let head = control.heads[slot];
    let mut offers = if head >= TERMS {
        let term = table.term((head - TERMS) as usize);
        let (tau, tick) = (term.offers & OFFERS_TAU != 0, term.offers & OFFERS_TICK != 0);
        Offers { events: term.events, tau, tick }
    } else {
        offers_of_sides(control, table, head)
    };
    if control.waiting[slot] != NO_SEQUENCE {
        offers.tau |= offers.tick;
        offers.tick = false;
    }
    offers
}

fn offers_of_sides(control: &Control, table: &Table, head: u16) -> Offers {
    let first = Control::side(head, 1);
    let left = offers_at(control, table, first);
    let right = offers_at(control, table, first + 1);
    let (events, tau) = (left.events | right.events, left.tau | right.tau);
    let tick = left.tick | right.tick;
    if head >= CHOICES {
        return Offers { events, tau, tick };
    }
    let set = control.sets[first >> 1];
    let events = events & !set | left.events & right.events & set;
    Offers { events, tau: tau | tick, tick: control.has_ended(first) }
}

/// That a visible event was found which nothing above blocks.
struct Passes;

/// The visible events that are offered at a slot, as long as none of them is open: one that passes all above.
fn events_at(control: &Control, table: &Table, slot: usize, open: u64) -> Result<u64, Passes> {
    let head = control.heads[slot];
    let events = if head >= TERMS {
        table.term((head - TERMS) as usize).events
    } else {
        let first = Control::side(head, 1);
        let set = if head < CHOICES { control.sets[first >> 1] } else { 0 };
        let left = events_at(control, table, first, open & !set)?;
        let right = events_at(control, table, first + 1, open & !set)?;
        (left | right) & !set | left & right & set
    };
    if events & open == 0 {
        Ok(events)
    } else {
        Err(Passes)
    }
}
