//! The time that a workload takes: batches of rounds by one library and then by the other, in turn, so that whatever
//! else the machine does falls on both; and some more of them later, in case it was busy all the while. Where runs
//! are timed one by one, the time that the clock itself takes is left out.

use std::hint::black_box;
use std::time::{Duration, Instant};

use crate::libraries::{Answer, Library, Ours, Theirs};
use crate::rows::Row;
use crate::workloads::{Action, Named, Workload};
use crate::TEXT_ROOM;

/// How often all workloads are gone through, and the batches of each that are timed then.
#[derive(Clone, Copy)]
pub struct Effort {
    pub passes: usize,
    pub batches: usize,
    pub batch: Duration,
}

pub const FULL: Effort = Effort { passes: 5, batches: 12, batch: Duration::from_micros(1_250) };
pub const QUICK: Effort = Effort { passes: 1, batches: 5, batch: Duration::from_micros(1_000) };

/// What each batch of a workload took, by its unit.
#[derive(Default)]
pub struct Times {
    ours: Vec<f64>,
    theirs: Vec<f64>,
}

/// Times both libraries on all workloads; gives a row for each.
pub fn rows(all: &[&Named], effort: Effort) -> Vec<Row> {
    let mut times: Vec<Times> = all.iter().map(|_| Times::default()).collect();
    for pass in 1..=effort.passes {
        eprintln!("timing, pass {pass} of {}", effort.passes);
        for (named, times) in all.iter().zip(&mut times) {
            times.add(&named.make(), effort);
        }
    }
    all.iter().zip(times).map(|(named, times)| times.row(named)).collect()
}

impl Times {
    /// Adds batches of both libraries, in turn.
    fn add(&mut self, workload: &Workload, effort: Effort) {
        let (mut ours, mut theirs) = (Bench::<Ours>::new(workload), Bench::<Theirs>::new(workload));
        let (our_rounds, their_rounds) = (ours.rounds_in(effort.batch), theirs.rounds_in(effort.batch));
        for _ in 0..effort.batches {
            self.ours.push(ours.batch(our_rounds));
            self.theirs.push(theirs.batch(their_rounds));
        }
    }

    fn row(self, named: &Named) -> Row {
        let ((ours, our_median), (theirs, their_median)) =
            (least_and_median(self.ours), least_and_median(self.theirs));
        let (name, unit) = (named.name.clone(), named.action.unit().into());
        Row { name, unit, ours, theirs, medians: Some((our_median, their_median)) }
    }
}

fn least_and_median(mut all: Vec<f64>) -> (f64, f64) {
    all.sort_by(f64::total_cmp);
    (all[0], all[all.len() / 2])
}

/// A library that is ready for a workload.
pub struct Bench<'a, L> {
    library: L,
    workload: &'a Workload,
    saved: Vec<u8>,
    text: Vec<u8>,
    cursor: usize,
    units: usize,
    clock: Duration,
}

impl<'a, L: Library> Bench<'a, L> {
    pub fn new(workload: &'a Workload) -> Self {
        let (library, text) = (L::new(), vec![0; TEXT_ROOM]);
        let mut bench =
            Bench { library, workload, saved: Vec::new(), text, cursor: 0, units: 1, clock: clock() };
        bench.prepare();
        bench.units = match workload.action {
            Action::Start => STARTS,
            Action::List => 1,
            Action::Check => workload.show.terms,
            Action::Save | Action::Read | Action::Write => nodes_of(&bench.saved),
            Action::Step | Action::Play | Action::Status | Action::Offers => workload.show.counted,
        };
        bench
    }

    /// Checks the table, and where tracks are looked at, goes through the run up to its saved track.
    fn prepare(&mut self) {
        let _ = self.library.check(&self.workload.show.table);
        self.library.start();
        if !matches!(self.workload.action, Action::Save | Action::Read | Action::Write) {
            return;
        }
        for address in self.workload.show.steps.iter() {
            let _ = self.library.step(address);
        }
        if let Answer::Length(length) = self.library.save(&mut self.text).into() {
            self.saved = self.text[..length].to_vec();
        }
        let _ = self.library.read(&self.saved);
    }

    /// What each thing that is counted takes, over so many rounds.
    fn batch(&mut self, rounds: usize) -> f64 {
        let taken = if self.workload.action.is_of_runs() {
            (0..rounds).map(|_| self.timed_run()).sum()
        } else {
            let start = Instant::now();
            (0..rounds).for_each(|_| self.work());
            start.elapsed()
        };
        taken.as_secs_f64() * 1e9 / self.workload.action.nanoseconds() / (rounds * self.units) as f64
    }

    fn timed_run(&mut self) -> Duration {
        self.begin();
        let start = Instant::now();
        self.work();
        start.elapsed().saturating_sub(self.clock)
    }

    /// The rounds that a batch of some length has.
    fn rounds_in(&mut self, length: Duration) -> usize {
        let mut rounds = 1;
        loop {
            let start = Instant::now();
            self.batch(rounds);
            let taken = start.elapsed();
            if taken * 2 >= length {
                return (rounds as f64 * length.as_secs_f64() / taken.as_secs_f64()).ceil() as usize;
            }
            rounds *= 2;
        }
    }

    /// So many rounds, or as many without what is timed.
    pub fn go_through(&mut self, rounds: usize, is_idle: bool) {
        for _ in 0..rounds {
            self.begin();
            if !is_idle {
                self.work();
            }
        }
    }

    pub fn units(&self) -> usize {
        self.units
    }

    /// Brings a run to where it is looked at.
    fn begin(&mut self) {
        if !self.workload.action.is_of_runs() {
            return;
        }
        self.library.start();
        self.cursor = 0;
        for address in self.workload.show.steps.iter().take(self.workload.show.lead) {
            let _ = self.library.step(address);
            self.cursor += LINE_WITHOUT_DIGITS + 2 * address.len();
        }
    }

    /// What is timed.
    #[inline(never)]
    fn work(&mut self) {
        let steps = self.workload.show.steps.from(self.workload.show.lead);
        let library = &mut self.library;
        match self.workload.action {
            Action::Start => (0..STARTS).for_each(|_| black_box(&mut *library).start()),
            Action::Check => drop(black_box(library.check(&self.workload.show.table))),
            Action::Step => steps.for_each(|address| drop(black_box(library.step(address)))),
            Action::Play => {
                while self.cursor < self.workload.script.len() {
                    black_box(library.play(&self.workload.script, &mut self.cursor));
                }
            }
            Action::Status => steps.for_each(|address| {
                black_box(library.step(address));
                black_box(library.status());
            }),
            Action::Offers => steps.for_each(|address| {
                black_box(library.step(address));
                black_box(library.offers());
            }),
            Action::Save => drop(black_box(library.save(&mut self.text))),
            Action::Read => drop(black_box(library.read(&self.saved))),
            Action::Write => drop(black_box(library.write(&mut self.text))),
            Action::List => drop(black_box(library.list(&self.workload.input, &mut self.text))),
        }
    }
}

/// The least time that the clock tells where nothing is done.
fn clock() -> Duration {
    (0..1_000).map(|_| Instant::now().elapsed()).min().unwrap_or_default()
}

const STARTS: usize = 64; // of a round
const LINE_WITHOUT_DIGITS: usize = 7; // 20, the count and LF

/// The count of nodes in the first line of a saved track.
fn nodes_of(saved: &[u8]) -> usize {
    let digits = saved.get(4..8).and_then(|digits| std::str::from_utf8(digits).ok());
    digits.and_then(|digits| usize::from_str_radix(digits, 16).ok()).unwrap_or(1)
}

#[cfg(test)]
mod tests {
    use super::*;

    #[test]
    fn nodes_are_those_of_the_first_line() {
        assert_eq!(nodes_of(b"3001000800070001\n"), 8);
        assert_eq!(nodes_of(b"3001100000000000\n"), 4_096);
    }

    #[test]
    fn the_median_is_in_the_middle() {
        assert_eq!(least_and_median(vec![5.0, 1.0, 9.0, 2.0, 3.0]), (1.0, 3.0));
    }
}
