//! Shows: tables with the steps of a rehearsal, each made to weigh on one part of a library. A run has room for
//! 1,024 cells, 4,096 nodes, 8,192 arcs and 4,096 meetings, and a show goes about as far as the first of these that
//! it meets.

use crate::terms::{
    call, external, internal, parallel, prefix, prefixes, sequence, table, tree, way_to, Addresses, Term,
};

const NODE_ROOM: usize = 4_096;
const CELL_ROOM: usize = 1_024;
const ARC_ROOM: usize = 8_192;
const MEETING_ROOM: usize = 4_096;
const PATH_ROOM: usize = 64;
const NO_EVENT: u64 = 0;
const EVENT_0: u64 = 1;

/// A table and the steps of a run of it.
#[derive(Clone, Debug)]
pub struct Show {
    pub table: Vec<u8>,
    pub terms: usize,
    pub steps: Addresses,
    /// The steps that bring the run to where it is looked at.
    pub lead: usize,
    /// The steps behind these that are counted; what the others take is shared among them.
    pub counted: usize,
}

impl Show {
    fn new(events: u8, definitions: &[Term], steps: Addresses) -> Show {
        let terms = definitions.iter().map(Term::count).sum();
        let counted = steps.len();
        Show { table: table(events, definitions), terms, steps, lead: 0, counted }
    }

    /// The same, with so many of its steps as a lead.
    fn led_by(self, lead: usize) -> Show {
        Show { lead, counted: self.steps.len() - lead, ..self }
    }
}

/// N = N.
pub fn call_loop(steps: usize) -> Show {
    Show::new(0, &[call(0)], vec![[]; steps].into_iter().collect())
}

/// Which side of a parallel takes the next step.
#[derive(Clone, Copy)]
pub enum Order {
    InTurn,
    Scattered,
}

impl Order {
    /// So many sides, in this order.
    fn take(self, count: usize, sides: usize) -> Vec<usize> {
        let mut lot = 1u64;
        let scattered = |_| {
            lot = lot.wrapping_mul(6_364_136_223_846_793_005).wrapping_add(1_442_695_040_888_963_407);
            (lot >> 33) as usize % sides
        };
        match self {
            Order::InTurn => (0..count).map(|step| step % sides).collect(),
            Order::Scattered => (0..count).map(scattered).collect(),
        }
    }
}

/// Sides that share no event, each of them P = P.
pub fn call_sides(sides: usize, order: Order) -> Show {
    let taken = order.take(NODE_ROOM - sides, sides);
    beside_each_other(sides, call(1), &taken)
}

/// The same, with as many steps as a listing has room for.
pub fn listed_sides(sides: usize, steps: usize) -> Show {
    beside_each_other(sides, call(1), &Order::Scattered.take(steps, sides))
}

/// The same, looked at from where every side has taken a step.
pub fn entered_sides(sides: usize) -> Show {
    let mut taken = Order::InTurn.take(sides, sides);
    taken.extend(Order::Scattered.take(NODE_ROOM - 2 * sides, sides));
    beside_each_other(sides, call(1), &taken).led_by(1 + sides)
}

/// Sides that share no event, each of them P = e0 → P.
pub fn prefix_sides(sides: usize) -> Show {
    let rounds = (NODE_ROOM - sides) / (3 * sides); // all call, and all do their event
    beside_each_other(sides, prefix(0, call(1)), &Order::InTurn.take(2 * rounds * sides, sides))
}

/// Sides that call definition 01, and the steps of the sides that are given.
fn beside_each_other(sides: usize, side: Term, taken: &[usize]) -> Show {
    let show = tree(&vec![call(1); sides], &|left, right| parallel(NO_EVENT, left, right));
    let ways = taken.iter().map(|&side| way_to(side, sides));
    Show::new(1, &[show, side], std::iter::once(vec![]).chain(ways).collect())
}

/// Sides that wait for each other on e0, and behind them the one that keeps them waiting, Q = e1 → Q.
pub fn blocked_sides(sides: usize) -> Show {
    let mut waiting = vec![prefix(0, Term::Stop); sides - 1];
    waiting.push(call(1));
    let show = tree(&waiting, &|left, right| parallel(EVENT_0, left, right));
    let last = way_to(sides - 1, sides);
    let steps = (NODE_ROOM - sides) / 3 * 2;
    let all = std::iter::once(vec![]).chain(vec![last; steps]);
    Show::new(2, &[show, prefix(1, call(1))], all.collect())
}

/// Two sides that do e0 together, over and over; every 60 steps each calls itself again.
pub fn joint_pair() -> Show {
    const TOGETHER: usize = 60;
    let show = parallel(EVENT_0, call(1), call(1));
    let mut steps = Addresses::default();
    steps.push(&[]);
    let rounds = (NODE_ROOM - 2) / (2 + 4 * TOGETHER);
    for _ in 0..rounds {
        steps.push(&[1]);
        steps.push(&[2]);
        (0..TOGETHER).for_each(|_| steps.push(&[3]));
    }
    let counted = rounds * TOGETHER;
    Show { counted, ..Show::new(1, &[show, prefixes(0, TOGETHER, call(1))], steps) }
}

/// Sides that all do e0 together, as often as there is room for their meetings.
pub fn joint_sides(sides: usize) -> Show {
    let together = MEETING_ROOM / (sides * (sides - 1) / 2);
    let side = prefixes(0, together, Term::Stop);
    let show = tree(&vec![side; sides], &|left, right| parallel(EVENT_0, left, right));
    let joint = vec![3; sides - 1];
    let steps = std::iter::once(vec![]).chain(vec![joint; together]).collect();
    Show { counted: together, ..Show::new(1, &[show], steps) }
}

/// Case J, N = N ; SKIP: each step goes one sequence deeper.
pub fn case_j() -> Show {
    Show::new(0, &[sequence(call(0), Term::Skip)], vec![[]; CELL_ROOM].into_iter().collect())
}

/// N = (N ; SKIP) ⊓ SKIP: so many sequences deep, and out of all of them again.
pub fn sequences_unwound(depth: usize) -> Show {
    let show = internal(sequence(call(0), Term::Skip), Term::Skip);
    let mut steps = Addresses::default();
    for _ in 0..depth {
        steps.push(&[]);
        steps.push(&[1]);
    }
    steps.push(&[]);
    steps.push(&[2]);
    (0..=depth).for_each(|_| steps.push(&[]));
    Show::new(0, &[show], steps)
}

/// Steps of L = L, looked at from where it stands inside so many sequences.
pub fn inside_sequences(depth: usize) -> Show {
    let show = internal(sequence(call(0), Term::Skip), call(1));
    let way = |_| vec![];
    inside(show, depth, 2, way)
}

/// The same, inside the left sides of so many parallels.
pub fn inside_parallels(depth: usize) -> Show {
    let show = internal(parallel(NO_EVENT, call(0), Term::Skip), call(1));
    inside(show, depth, 3, |level| vec![1; level])
}

/// N goes into the left of its first choice, up to a depth; there it takes its second, and goes on with L = L.
fn inside(show: Term, depth: usize, nodes: usize, way: impl Fn(usize) -> Vec<u8>) -> Show {
    let choose = |level, side| [way(level), vec![side]].concat();
    let mut steps = Addresses::default();
    for level in 0..depth {
        steps.push(&way(level));
        steps.push(&choose(level, 1));
    }
    steps.push(&way(depth));
    steps.push(&choose(depth, 2));
    let lead = steps.len();
    let left = NODE_ROOM - nodes * depth - 2;
    (0..left).for_each(|_| steps.push(&way(depth)));
    Show::new(0, &[show, call(1)], steps).led_by(lead)
}

/// SKIPs beside each other that end, all of them and then every parallel, over and over.
pub fn skips_joined(sides: usize) -> Show {
    let ended = tree(&vec![Term::Skip; sides], &|left, right| parallel(NO_EVENT, left, right));
    let levels = sides.ilog2() as usize;
    let arcs = 1 + 2 * (sides - 1) + sides + sides * levels + 1;
    let mut steps = Addresses::default();
    for _ in 0..((ARC_ROOM / arcs).min(NODE_ROOM / (2 * sides + 1))) {
        steps.push(&[]);
        (0..sides).for_each(|side| steps.push(&way_to(side, sides)));
        for level in (0..levels).rev() {
            let joins = 1 << level;
            (0..joins).for_each(|join| steps.push(&[way_to(join, joins), vec![4]].concat()));
        }
    }
    Show::new(0, &[sequence(ended, call(0))], steps)
}

/// Eight choices in a tree: two of them call A = e0 → SHOW, and the event of one drops all others.
pub fn choices_dropped() -> Show {
    const CHOICES: usize = 8;
    const NODES: usize = 10; // of a round, at most
    let show = tree(&vec![call(1); CHOICES], &external);
    let mut steps = Addresses::default();
    for round in 0..NODE_ROOM / NODES {
        let (one, other) = (way_to(round % CHOICES, CHOICES), way_to((3 * round + 5) % CHOICES, CHOICES));
        steps.push(&[]);
        steps.push(&one);
        steps.push(&other);
        steps.push(&one);
    }
    Show::new(1, &[show, prefix(0, call(0))], steps)
}

/// N = N ||| SKIP: each step goes into the left side of one parallel more.
pub fn left_comb(depth: usize) -> Show {
    let show = parallel(NO_EVENT, call(0), Term::Skip);
    Show::new(0, &[show], (0..=depth).map(|level| vec![1; level]).collect())
}

/// N = N ||| L, with L = L on the right of each parallel: looked at from where it is so deep, these take steps.
pub fn scattered_comb(depth: usize) -> Show {
    let show = parallel(NO_EVENT, call(0), call(1));
    let grown = (0..=depth).map(|level| vec![1; level]);
    let right_of = |level| [vec![1; level], vec![2]].concat();
    let scattered = Order::Scattered.take(NODE_ROOM - 2 * depth - 1, depth).into_iter().map(right_of);
    Show::new(0, &[show, call(1)], grown.chain(scattered).collect()).led_by(depth + 1)
}

/// Prefixes in front of 256 sides that do one event each and end, so that most paths are so long.
pub fn long_paths(digits: usize) -> Show {
    const SIDES: usize = 256;
    let before = digits.min(PATH_ROOM) - SIDES.ilog2() as usize - 1;
    let sides = vec![prefix(0, Term::Skip); SIDES];
    let show = prefixes(0, before, tree(&sides, &|left, right| parallel(NO_EVENT, left, right)));
    let twice = (0..2 * SIDES).map(|step| way_to(step % SIDES, SIDES));
    Show::new(1, &[show], vec![vec![]; 1 + before].into_iter().chain(twice).collect())
}

/// A table of every kind of term, of up to 64 definitions of 16 terms each; its run is one step.
pub fn of_every_kind(definitions: usize) -> Show {
    let of = |number: u8| {
        let next = (number + 1) % definitions as u8;
        let chosen = external(prefix(number, call(next)), prefix(1, prefix(2, Term::Skip)));
        let behind = prefixes(number, 2, internal(prefix(3, Term::Stop), call(next)));
        parallel(u64::from(number) << 20 | 5, chosen, sequence(prefix(4, Term::Skip), behind))
    };
    let all: Vec<Term> = (0..definitions as u8).map(of).collect();
    Show::new(64, &all, [[]].into_iter().collect())
}

/// A table of 1,024 terms, half of them parallels, whose lines are the longest.
pub fn of_parallels() -> Show {
    let sides = vec![Term::Skip; 512];
    let show = tree(&sides, &|left, right| parallel(0x0123_4567_89ab_cdef, left, right));
    Show::new(64, &[show, Term::Stop], [[]].into_iter().collect())
}

/// Case A, four steps.
pub fn case_a() -> Show {
    let show = parallel(EVENT_0, prefix(0, Term::Skip), prefix(0, Term::Stop));
    Show::new(1, &[show], [&[][..], &[3], &[1], &[2]].into_iter().collect())
}
