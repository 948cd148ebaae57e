//! Instructions instead of times: the harness calls itself under valgrind, with one library and one workload at a
//! time, for some rounds and for as many without what is timed. The difference is what the rounds take, whatever
//! else the machine does. Where memory is cleared by one repeated instruction, each byte of it counts as one.

use std::process::Command;

use crate::libraries::{Library, Ours, Theirs};
use crate::rows::Row;
use crate::timing::Bench;
use crate::workloads::{Action, Named, Workload};

pub const OPTION: &str = "--rounds-of";
const ROUNDS: usize = 2; // each has as many instructions as any other

/// Rounds of one workload by one library.
#[derive(Debug, PartialEq, Eq)]
pub struct Counted {
    is_ours: bool,
    is_idle: bool,
    name: String,
}

impl Counted {
    /// What a word such as `ours:idle:step/call-loop` asks for.
    pub fn of(word: &str) -> Option<Counted> {
        let (library, rest) = word.split_once(':')?;
        let (manner, name) = rest.split_once(':')?;
        Some(Counted { is_ours: library == "ours", is_idle: manner == "idle", name: name.into() })
    }

    fn word(&self) -> String {
        let library = if self.is_ours { "ours" } else { "theirs" };
        let manner = if self.is_idle { "idle" } else { "working" };
        format!("{library}:{manner}:{}", self.name)
    }

    pub fn go_through(&self, all: &[Named]) -> Result<(), String> {
        let workload = all.iter().find(|named| named.name == self.name).ok_or("no such workload")?.make();
        if self.is_ours {
            Bench::<Ours>::new(&workload).go_through(ROUNDS, self.is_idle);
        } else {
            Bench::<Theirs>::new(&workload).go_through(ROUNDS, self.is_idle);
        }
        Ok(())
    }

    /// The instructions of the harness that goes through these rounds.
    fn instructions(&self) -> Result<f64, String> {
        let harness = std::env::current_exe().map_err(|error| error.to_string())?;
        let ended = Command::new("valgrind")
            .args(["--tool=cachegrind", "--cache-sim=no", "--cachegrind-out-file=/dev/null"])
            .arg(harness)
            .args([OPTION, &self.word()])
            .output()
            .map_err(|error| error.to_string())?;
        let told = String::from_utf8_lossy(&ended.stderr).into_owned();
        read_count(&told).ok_or(format!("valgrind tells no count of instructions:\n{told}"))
    }
}

pub fn need_valgrind() -> Result<(), String> {
    match Command::new("valgrind").arg("--version").output() {
        Ok(_) => Ok(()),
        Err(_) => Err("instructions are counted by valgrind, and there is none on the PATH".into()),
    }
}

pub fn count(workload: &Workload) -> Result<Row, String> {
    Ok(Row {
        name: workload.name.clone(),
        unit: unit(workload.action),
        ours: by_one::<Ours>(workload, true)?,
        theirs: by_one::<Theirs>(workload, false)?,
        medians: None,
    })
}

/// `instructions/step` for `ns/step`.
fn unit(action: Action) -> String {
    action.unit().split_once('/').map_or(String::new(), |(_, what)| format!("instructions/{what}"))
}

fn by_one<L: Library>(workload: &Workload, is_ours: bool) -> Result<f64, String> {
    let of = |is_idle| Counted { is_ours, is_idle, name: workload.name.clone() }.instructions();
    let units = Bench::<L>::new(workload).units();
    Ok((of(false)? - of(true)?) / (ROUNDS * units) as f64)
}

/// The count in what cachegrind tells, in the line `I refs:`.
fn read_count(told: &str) -> Option<f64> {
    let (_, behind) = told.split_once("refs:")?;
    let digits: String = behind.lines().next()?.chars().filter(char::is_ascii_digit).collect();
    digits.parse().ok()
}

#[cfg(test)]
mod tests {
    use super::*;

    #[test]
    fn the_count_is_read() {
        assert_eq!(read_count("==12== \n==12== I   refs:      1,234,567\n==12== \n"), Some(1_234_567.0));
        assert_eq!(read_count("==12== killed\n"), None);
    }

    #[test]
    fn a_word_tells_what_is_counted() {
        let counted = Counted { is_ours: false, is_idle: true, name: "step/call-loop".into() };
        assert_eq!(counted.word(), "theirs:idle:step/call-loop");
        assert_eq!(Counted::of(&counted.word()), Some(counted));
        assert_eq!(Counted::of("ours"), None);
    }

    #[test]
    fn units_are_of_instructions() {
        assert_eq!(unit(Action::List), "instructions/listing");
    }
}
