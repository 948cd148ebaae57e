//! Workloads: what is done with a show, and what its time is divided by.

use crate::shows::{
    blocked_sides, call_loop, call_sides, case_a, case_j, choices_dropped, entered_sides, inside_parallels,
    inside_sequences, joint_pair, joint_sides, left_comb, listed_sides, long_paths, of_every_kind,
    of_parallels, prefix_sides, scattered_comb, sequences_unwound, skips_joined, Order, Show,
};

/// What is timed.
#[derive(Clone, Copy, PartialEq, Eq)]
pub enum Action {
    Start,
    Check,
    Step,
    Play,
    Status,
    Offers,
    Save,
    Read,
    Write,
    List,
}

impl Action {
    fn name(self) -> &'static str {
        match self {
            Action::Start => "start",
            Action::Check => "check",
            Action::Step => "step",
            Action::Play => "play",
            Action::Status => "status",
            Action::Offers => "offers",
            Action::Save => "save",
            Action::Read => "read",
            Action::Write => "write",
            Action::List => "list",
        }
    }

    pub fn unit(self) -> &'static str {
        match self {
            Action::Start => "ns/start",
            Action::Check => "ns/term",
            Action::Step | Action::Play | Action::Status | Action::Offers => "ns/step",
            Action::Save | Action::Read | Action::Write => "ns/node",
            Action::List => "us/listing",
        }
    }

    /// Nanoseconds of its unit of time.
    pub fn nanoseconds(self) -> f64 {
        if self == Action::List {
            1_000.0
        } else {
            1.0
        }
    }

    /// Whether each round is a run from its start, whose start and lead are not timed.
    pub fn is_of_runs(self) -> bool {
        matches!(self, Action::Step | Action::Play | Action::Status | Action::Offers)
    }
}

/// A show, and what is done with it.
pub struct Workload {
    pub name: String,
    pub action: Action,
    pub show: Show,
    pub script: Vec<u8>,
    /// The table and the script behind it.
    pub input: Vec<u8>,
}

/// A workload by its name, which is made where it is needed.
pub struct Named {
    pub name: String,
    /// Whether it is a point of the second table, which tells how costs grow.
    pub is_growth: bool,
    pub action: Action,
    show: Box<dyn Fn() -> Show>,
}

impl Named {
    pub fn make(&self) -> Workload {
        let show = (self.show)();
        let script = show.steps.script();
        let input = [&show.table[..], &script].concat();
        Workload { name: self.name.clone(), action: self.action, show, script, input }
    }
}

fn named(action: Action, subject: &str, show: impl Fn() -> Show + 'static) -> Named {
    Named { name: format!("{}/{subject}", action.name()), is_growth: false, action, show: Box::new(show) }
}

/// Points of the second table: what grows, how far, and what is done there.
fn grown(
    what: &str,
    sizes: &[usize],
    actions: &[Action],
    show: impl Fn(usize) -> Show + Copy + 'static,
) -> Vec<Named> {
    let point = |action: Action, size: usize| {
        let name = format!("{what}/{}-{size}", action.name());
        Named { name, is_growth: true, action, show: Box::new(move || show(size)) }
    };
    actions.iter().flat_map(|&action| sizes.iter().map(move |&size| point(action, size))).collect()
}

pub fn all() -> Vec<Named> {
    let parts = [steps(), lines(), answers(), tables(), tracks(), listings(), growth()];
    parts.into_iter().flatten().collect()
}

const CALL_LOOP: usize = 4_096; // as many as there is room for

fn steps() -> Vec<Named> {
    let mut all = vec![
        named(Action::Start, "alone", || call_loop(1)),
        named(Action::Step, "call-loop", || call_loop(CALL_LOOP)),
    ];
    for sides in [4, 32, 256, 512] {
        let in_turn = format!("sides-{sides}-in-turn");
        all.extend([
            named(Action::Step, &format!("sides-{sides}"), move || call_sides(sides, Order::Scattered)),
            named(Action::Step, &in_turn, move || call_sides(sides, Order::InTurn)),
        ]);
    }
    all.extend([
        named(Action::Step, "prefixes-32", || prefix_sides(32)),
        named(Action::Step, "prefixes-256", || prefix_sides(256)),
        named(Action::Step, "joint-2", joint_pair),
        named(Action::Step, "joint-16", || joint_sides(16)),
        named(Action::Step, "joint-64", || joint_sides(64)),
        named(Action::Step, "case-j", case_j),
        named(Action::Step, "sequences-1000-unwound", || sequences_unwound(1_000)),
        named(Action::Step, "skips-32-joined", || skips_joined(32)),
        named(Action::Step, "choices-dropped", choices_dropped),
        named(Action::Step, "comb-511", || left_comb(511)),
        named(Action::Step, "comb-511-scattered", || scattered_comb(511)),
    ]);
    all
}

/// The same steps, by the lines of scripts.
fn lines() -> Vec<Named> {
    vec![
        named(Action::Play, "call-loop", || call_loop(CALL_LOOP)),
        named(Action::Play, "sides-4", || call_sides(4, Order::Scattered)),
        named(Action::Play, "sides-32", || call_sides(32, Order::Scattered)),
        named(Action::Play, "sides-256", || call_sides(256, Order::Scattered)),
        named(Action::Play, "sides-512", || call_sides(512, Order::Scattered)),
        named(Action::Play, "joint-16", || joint_sides(16)),
        named(Action::Play, "sequences-1000-unwound", || sequences_unwound(1_000)),
        named(Action::Play, "skips-32-joined", || skips_joined(32)),
        named(Action::Play, "choices-dropped", choices_dropped),
        named(Action::Play, "comb-511", || left_comb(511)),
    ]
}

/// A step, and status or offers behind it.
fn answers() -> Vec<Named> {
    let each = |action| {
        [
            named(action, "call-loop", || call_loop(CALL_LOOP)),
            named(action, "case-j", case_j),
            named(action, "sequences-1000-unwound", || sequences_unwound(1_000)),
            named(action, "sides-256", || call_sides(256, Order::Scattered)),
            named(action, "sides-512", || call_sides(512, Order::Scattered)),
            named(action, "blocked-256", || blocked_sides(256)),
        ]
    };
    [Action::Status, Action::Offers].into_iter().flat_map(each).collect()
}

fn tables() -> Vec<Named> {
    vec![
        named(Action::Check, "every-kind-1024", || of_every_kind(64)),
        named(Action::Check, "parallels-1024", of_parallels),
    ]
}

fn tracks() -> Vec<Named> {
    let each = |action| {
        [
            named(action, "call-loop", || call_loop(CALL_LOOP)),
            named(action, "sides-256", || call_sides(256, Order::Scattered)),
            named(action, "joint-16", || joint_sides(16)),
            named(action, "paths-64", || long_paths(64)),
            named(action, "skips-32-joined", || skips_joined(32)),
            named(action, "case-j", case_j),
        ]
    };
    [Action::Save, Action::Read, Action::Write].into_iter().flat_map(each).collect()
}

const LISTED_SIDES: usize = 2_048; // steps whose track has room in a listing
const LISTED_LOOP: usize = 2_900;

fn listings() -> Vec<Named> {
    vec![
        named(Action::List, "case-a", case_a),
        named(Action::List, "call-loop", || call_loop(LISTED_LOOP)),
        named(Action::List, "sides-256", || listed_sides(256, LISTED_SIDES)),
    ]
}

/// A few sizes of each thing that can grow. Steps are looked at from where the run has grown so far.
fn growth() -> Vec<Named> {
    use Action::{Check, List, Offers, Read, Save, Step};
    let all = [
        grown("sides", &[2, 8, 32, 128, 512], &[Step, Offers], entered_sides),
        grown("parallels-deep", &[1, 8, 64, 511], &[Step], inside_parallels),
        grown("sequences-deep", &[1, 10, 100, 1_000], &[Step], inside_sequences),
        grown("run-length", &[16, 256, CALL_LOOP], &[Step, Save, Read], call_loop),
        grown("arcs-of-ends", &[2, 8, 32, 128], &[Step, Save], skips_joined),
        grown("path-length", &[9, 32, 64], &[Save, Read], long_paths),
        grown("definitions", &[1, 8, 64], &[Check], of_every_kind),
        grown("script-length", &[16, 256, LISTED_LOOP], &[List], call_loop),
    ];
    all.into_iter().flatten().collect()
}

#[cfg(test)]
mod tests {
    use super::*;

    const CASE_A: &[u8] = include_bytes!("../../../tests/checks/cases/a.in");
    const CASE_J: &[u8] = include_bytes!("../../../tests/checks/cases/j.in");

    fn input_of(name: &str) -> Vec<u8> {
        all().iter().find(|named| named.name == name).expect("a workload").make().input
    }

    /// A text without its first line, which tells how many events there are, used or not.
    fn without_first_line(text: &[u8]) -> &[u8] {
        text.splitn(2, |&byte| byte == b'\n').nth(1).expect("a line")
    }

    #[test]
    fn kept_cases_of_document_01_are_made_as_they_are_kept() {
        assert_eq!(input_of("list/case-a"), CASE_A);
        assert!(without_first_line(CASE_J).starts_with(without_first_line(&input_of("step/case-j"))));
    }

    #[test]
    fn tables_to_check_are_as_large_as_their_names_say() {
        assert_eq!((of_every_kind(64).terms, of_parallels().terms), (1_024, 1_024));
        assert_eq!(of_every_kind(1).terms, 16);
    }
}
