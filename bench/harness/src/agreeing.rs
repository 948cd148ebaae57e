//! Whether both libraries give the same answers on a workload: each tells a transcript of all that it answers, and
//! the two are compared item by item.

use crate::libraries::{Answer, Library, Ours, Theirs};
use crate::workloads::Workload;
use crate::TEXT_ROOM;

/// Addresses that are tried where the run has come to its end; some of them may be accepted.
const FURTHER: [&[u8]; 8] = [&[], &[1], &[2], &[3], &[4], &[1, 1], &[3, 3, 3], &[2, 2, 2, 2, 2, 2, 2, 2]];

/// An answer, and what was asked.
struct Told {
    asked: &'static str,
    step: usize,
    answer: Answer,
}

/// A library that is asked, and all that it has answered.
struct Transcript<L> {
    library: L,
    told: Vec<Told>,
    step: usize,
}

/// Tells the first answer in which the libraries differ, or a step of the show that they refuse.
pub fn compare(workload: &Workload) -> Result<(), String> {
    let (ours, theirs) = (transcript::<Ours>(workload), transcript::<Theirs>(workload));
    first_difference(&ours, &theirs).map_err(|difference| format!("{}, {difference}", workload.name))
}

const STEP: &str = "a step of the show";

fn first_difference(ours: &[Told], theirs: &[Told]) -> Result<(), String> {
    for (our, their) in ours.iter().zip(theirs) {
        let place = format!("{} at step {}", our.asked, our.step);
        if our.answer != their.answer {
            let (ours, theirs) = told_apart(&our.answer, &their.answer);
            return Err(format!("{place}:\n  ours   {ours}\n  theirs {theirs}"));
        }
        if our.asked == STEP && matches!(our.answer, Answer::Refused { .. } | Answer::Misused) {
            return Err(format!("{place}: both refuse it, {:?}", our.answer));
        }
    }
    if ours.len() != theirs.len() {
        return Err(format!("{} answers by ours, and {} by theirs", ours.len(), theirs.len()));
    }
    Ok(())
}

fn transcript<L: Library>(workload: &Workload) -> Vec<Told> {
    let mut transcript = Transcript { library: L::new(), told: Vec::new(), step: 0 };
    transcript.check(&workload.show.table);
    transcript.run(workload);
    transcript.track();
    transcript.play(&workload.script);
    transcript.list(&workload.input);
    transcript.told
}

impl<L: Library> Transcript<L> {
    fn tell(&mut self, asked: &'static str, answer: impl Into<Answer>) {
        self.told.push(Told { asked, step: self.step, answer: answer.into() });
    }

    /// Tells what a table's text comes to, cut short and whole.
    fn check(&mut self, text: &[u8]) {
        for length in [0, text.len() / 3, text.len() / 2, text.len() - 1, text.len()] {
            let answer = self.library.check(&text[..length]).into();
            self.tell("check", answer);
        }
    }

    fn look(&mut self) {
        let (status, offers) = (self.library.status().into(), self.library.offers().into());
        self.tell("status", status);
        self.tell("offers", offers);
    }

    /// Tells every step of a run, with status and offers, and some steps that it may refuse.
    fn run(&mut self, workload: &Workload) {
        self.library.start();
        self.look();
        for address in workload.show.steps.iter() {
            self.step += 1;
            let answer = self.library.step(address).into();
            self.tell(STEP, answer);
            self.look();
        }
        for address in FURTHER {
            self.step += 1;
            let answer = self.library.step(address).into();
            self.tell("a further step", answer);
            self.look();
        }
    }

    /// Tells the run's track: saved, into a slice that is too short too; read, cut short too; and written again.
    fn track(&mut self) {
        let mut text = vec![b'.'; TEXT_ROOM];
        let answer = self.library.save(&mut text[..10]).into();
        self.tell("save into a short slice", answer);
        let answer = self.library.save(&mut text).into();
        let Answer::Length(length) = answer else {
            return self.tell("save", answer);
        };
        let saved = text[..length].to_vec();
        self.tell("save", Answer::Text(text));
        for length in [0, saved.len() / 3, saved.len() / 2, saved.len() - 1, saved.len()] {
            let answer = self.library.read(&saved[..length]).into();
            self.tell("read", answer);
        }
        let mut text = vec![b'.'; TEXT_ROOM];
        let answer = self.library.write(&mut text).into();
        self.tell("write", answer);
        self.tell("write", Answer::Text(text));
    }

    /// Tells every line of a script, up to one behind its end.
    fn play(&mut self, script: &[u8]) {
        self.library.start();
        let (mut cursor, mut before) = (0, usize::MAX);
        self.step = 0;
        while before != cursor {
            before = cursor;
            self.step += 1;
            let answer = match self.library.play(script, &mut cursor).into() {
                Answer::Refused { number, .. } => Answer::Refused { number, line: 0 },
                answer => answer,
            };
            self.tell("a line of the script", answer);
            self.tell("the cursor behind a line", cursor);
        }
        self.look();
    }

    /// Tells the listing of an input, and of one that is cut short.
    fn list(&mut self, input: &[u8]) {
        for length in [input.len() - 1, input.len()] {
            let mut listing = vec![b'.'; TEXT_ROOM];
            let written = self.library.list(&input[..length], &mut listing);
            listing.truncate(written);
            self.tell("list", Answer::Text(listing));
        }
    }
}

/// Two answers in words; of texts, the first line in which they differ.
fn told_apart(ours: &Answer, theirs: &Answer) -> (String, String) {
    let (Answer::Text(our), Answer::Text(their)) = (ours, theirs) else {
        return (format!("{ours:?}"), format!("{theirs:?}"));
    };
    let is_end = |byte: &u8| *byte == b'\n';
    let (mut our_lines, mut their_lines) = (our.split(is_end), their.split(is_end));
    for line in 1.. {
        let (our, their) = (our_lines.next(), their_lines.next());
        if our != their || our.is_none() {
            let told = |text: Option<&[u8]>| {
                text.map_or("nothing".into(), |text| {
                    String::from_utf8_lossy(&text[..text.len().min(80)]).into_owned()
                })
            };
            return (format!("line {line}: {}", told(our)), format!("line {line}: {}", told(their)));
        }
    }
    unreachable!("lines end")
}

#[cfg(test)]
mod tests {
    use super::*;
    use crate::workloads::Named;

    #[test]
    fn texts_are_told_by_the_line_in_which_they_differ() {
        let text = |text: &str| Answer::Text(text.into());
        let told = told_apart(&text("40\n41\n42\n"), &text("40\n41\n43\n"));
        assert_eq!(told, ("line 3: 42".into(), "line 3: 43".into()));
        let told = told_apart(&text("40\n"), &text("40\n41\n"));
        assert_eq!(told, ("line 2: ".into(), "line 2: 41".into()));
    }

    #[test]
    fn other_answers_are_told_as_they_are() {
        let told = told_apart(&Answer::Tau, &Answer::Refused { number: 7, line: 0 });
        assert_eq!(told, ("Tau".into(), "Refused { number: 7, line: 0 }".into()));
    }

    fn told(asked: &'static str, step: usize, answer: Answer) -> Told {
        Told { asked, step, answer }
    }

    #[test]
    fn the_first_difference_is_told() {
        let ours =
            [told(STEP, 1, Answer::Tau), told("status", 1, Answer::Live), told("status", 2, Answer::Live)];
        let theirs =
            [told(STEP, 1, Answer::Tau), told("status", 1, Answer::Stuck), told("status", 2, Answer::Ended)];
        let difference = "status at step 1:\n  ours   Live\n  theirs Stuck".into();
        assert_eq!(first_difference(&ours, &theirs), Err(difference));
        assert_eq!(first_difference(&ours, &ours), Ok(()));
        assert_eq!(first_difference(&ours, &ours[..2]), Err("3 answers by ours, and 2 by theirs".into()));
    }

    #[test]
    fn a_show_that_both_refuse_is_told() {
        let refusal = Answer::Refused { number: 7, line: 0 };
        let further = [told("a further step", 9, refusal.clone())];
        assert_eq!(first_difference(&further, &further), Ok(()));
        let refused = [told(STEP, 3, refusal)];
        let told = "a step of the show at step 3: both refuse it, Refused { number: 7, line: 0 }";
        assert_eq!(first_difference(&refused, &refused), Err(told.into()));
    }

    #[test]
    fn the_libraries_agree_on_small_shows() {
        for workload in crate::workloads::all().iter().map(Named::make) {
            if workload.show.steps.len() < 100 {
                assert_eq!(compare(&workload), Ok(()));
            }
        }
    }
}
