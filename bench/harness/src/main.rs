//! The proved library beside an opponent written to win, in one process, as ratios.
//!
//!     harness [--quick] [--instructions] [--list] [--only NAME]
//!
//! Each workload is answered by both libraries first, and the answers are compared; a difference ends with status 1.
//! Then batches of rounds are timed in turn, and a row tells the least time of each library, their ratio, and the
//! medians. A round of steps is a run from its start, which is timed apart, as start/alone.

mod agreeing;
mod instructions;
mod libraries;
mod rows;
mod shows;
mod terms;
mod timing;
mod workloads;

use std::collections::HashSet;
use std::process::ExitCode;

use workloads::Named;

/// Bytes for any saved track and any listing.
const TEXT_ROOM: usize = 1 << 20;
/// Bytes of stack that both libraries have enough of.
const STACK: usize = 1 << 26;

const USAGE: &str = "\
usage: harness [--quick] [--instructions] [--list] [--only NAME]
  --quick         a few short batches
  --instructions  instructions instead of times, by valgrind, for machines that are busy
  --list          the names of workloads
  --only NAME     this workload, or all whose names begin so";

/// What is asked for.
#[derive(Debug, Default, PartialEq, Eq)]
struct Asked {
    quick: bool,
    instructions: bool,
    list: bool,
    only: String,
    /// What a run under valgrind does: rounds of one workload by one library.
    counted: Option<instructions::Counted>,
}

fn main() -> ExitCode {
    let words: Vec<String> = std::env::args().skip(1).collect();
    let Some(asked) = asked_for(&words) else {
        eprintln!("{USAGE}");
        return ExitCode::from(2);
    };
    let answer = std::thread::Builder::new().stack_size(STACK).spawn(move || answer(&asked));
    match answer.expect("a thread").join().expect("no panic") {
        Ok(()) => ExitCode::SUCCESS,
        Err(trouble) => {
            eprintln!("harness: {trouble}");
            ExitCode::FAILURE
        }
    }
}

fn asked_for(words: &[String]) -> Option<Asked> {
    let mut asked = Asked::default();
    let mut words = words.iter();
    while let Some(word) = words.next() {
        match word.as_str() {
            "--quick" => asked.quick = true,
            "--instructions" => asked.instructions = true,
            "--list" => asked.list = true,
            "--only" => asked.only = words.next()?.clone(),
            instructions::OPTION => asked.counted = Some(instructions::Counted::of(words.next()?)?),
            _ => return None,
        }
    }
    Some(asked)
}

fn answer(asked: &Asked) -> Result<(), String> {
    let all = workloads::all();
    if let Some(counted) = &asked.counted {
        return counted.go_through(&all);
    }
    let chosen = chosen(&all, &asked.only);
    if chosen.is_empty() {
        return Err(format!("no workload begins with {}; --list tells them", asked.only));
    }
    if asked.list {
        chosen.iter().for_each(|named| println!("{}", named.name));
        return Ok(());
    }
    if asked.instructions {
        instructions::need_valgrind()?;
    }
    compare(&chosen)?;
    if asked.instructions {
        return rows::tell(&chosen, chosen.iter().map(|named| instructions::count(&named.make())));
    }
    let effort = if asked.quick { timing::QUICK } else { timing::FULL };
    rows::tell(&chosen, timing::rows(&chosen, effort).into_iter().map(Ok))
}

/// The workload of a name, or else all whose names begin so.
fn chosen<'a>(all: &'a [Named], name: &str) -> Vec<&'a Named> {
    match all.iter().find(|named| named.name == name) {
        Some(named) => vec![named],
        None => all.iter().filter(|named| named.name.starts_with(name)).collect(),
    }
}

/// Holds the answers of both libraries against each other, once for each input.
fn compare(chosen: &[&Named]) -> Result<(), String> {
    let mut compared = HashSet::new();
    for workload in chosen.iter().map(|named| named.make()) {
        if !compared.contains(&workload.input) {
            agreeing::compare(&workload)?;
            compared.insert(workload.input);
        }
    }
    eprintln!("both libraries give the same answers on {} inputs", compared.len());
    Ok(())
}

#[cfg(test)]
mod tests {
    use super::*;

    fn asked(words: &str) -> Option<Asked> {
        asked_for(&words.split_whitespace().map(String::from).collect::<Vec<_>>())
    }

    #[test]
    fn options() {
        assert_eq!(asked(""), Some(Asked::default()));
        let only = Asked { quick: true, only: "step/".into(), ..Asked::default() };
        assert_eq!(asked("--quick --only step/"), Some(only));
        assert_eq!((asked("--only"), asked("--other"), asked("step/")), (None, None, None));
    }

    #[test]
    fn names_are_told_apart() {
        let all = workloads::all();
        let names: HashSet<_> = all.iter().map(|named| &named.name).collect();
        assert_eq!(names.len(), all.len());
        assert!(names.iter().all(|name| !name.contains(char::is_whitespace)));
    }

    #[test]
    fn a_name_chooses_itself_or_what_begins_so() {
        let all = workloads::all();
        assert_eq!(chosen(&all, "step/sides-4").len(), 1);
        assert_eq!(chosen(&all, "step/sides-").len(), 8);
        assert_eq!((chosen(&all, "").len(), chosen(&all, "none").len()), (all.len(), 0));
    }

    #[test]
    fn both_libraries_give_the_same_answers() {
        compare(&chosen(&workloads::all(), "")).unwrap();
    }
}
