//! The two libraries behind one interface. Each call gives what the library itself gives, so that nothing is timed
//! but the library; an [`Answer`] is made of it where the two are compared.

/// What a library answers, in words that both share.
#[derive(Clone, Debug, PartialEq, Eq)]
pub enum Answer {
    Done,
    Tau,
    Tick,
    Event(u8),
    EndOfScript,
    Refused { number: u8, line: usize },
    Live,
    Ended,
    Stuck,
    Offers { events: u64, tau: bool, tick: bool },
    Length(usize),
    TooLong(usize),
    Misused,
    Text(Vec<u8>),
}

/// A library with a table, a run and a track of its own.
pub trait Library {
    fn new() -> Self;
    fn check(&mut self, text: &[u8]) -> impl Into<Answer>;
    fn start(&mut self);
    fn step(&mut self, address: &[u8]) -> impl Into<Answer>;
    /// Plays the line at the cursor, which goes behind it where it is accepted.
    fn play(&mut self, script: &[u8], cursor: &mut usize) -> impl Into<Answer>;
    fn status(&self) -> impl Into<Answer>;
    fn offers(&self) -> impl Into<Answer>;
    fn save(&mut self, text: &mut [u8]) -> impl Into<Answer>;
    fn read(&mut self, text: &[u8]) -> impl Into<Answer>;
    fn write(&self, text: &mut [u8]) -> impl Into<Answer>;
    /// Lists an input, and gives the length of the listing.
    fn list(&mut self, input: &[u8], listing: &mut [u8]) -> usize;
}

impl From<()> for Answer {
    fn from((): ()) -> Answer {
        Answer::Done
    }
}

impl From<usize> for Answer {
    fn from(length: usize) -> Answer {
        Answer::Length(length)
    }
}

/// The proved library.
pub struct Ours {
    table: Box<peashuttle::Table>,
    run: Box<peashuttle::Run>,
    track: Box<peashuttle::Track>,
    work: Box<peashuttle::Work>,
}

impl Library for Ours {
    fn new() -> Ours {
        Ours { table: Box::default(), run: Box::default(), track: Box::default(), work: Box::default() }
    }

    #[inline(always)]
    fn check(&mut self, text: &[u8]) -> impl Into<Answer> {
        self.table.check(text)
    }

    #[inline(always)]
    fn start(&mut self) {
        self.run.start();
    }

    #[inline(always)]
    fn step(&mut self, address: &[u8]) -> impl Into<Answer> {
        self.run.step(&self.table, address)
    }

    #[inline(always)]
    fn play(&mut self, script: &[u8], cursor: &mut usize) -> impl Into<Answer> {
        self.run.play(&self.table, script, cursor)
    }

    #[inline(always)]
    fn status(&self) -> impl Into<Answer> {
        self.run.status(&self.table)
    }

    #[inline(always)]
    fn offers(&self) -> impl Into<Answer> {
        self.run.offers(&self.table)
    }

    #[inline(always)]
    fn save(&mut self, text: &mut [u8]) -> impl Into<Answer> {
        self.run.save(&self.table, &mut self.work, text)
    }

    #[inline(always)]
    fn read(&mut self, text: &[u8]) -> impl Into<Answer> {
        self.track.read(&self.table, &mut self.work, text)
    }

    #[inline(always)]
    fn write(&self, text: &mut [u8]) -> impl Into<Answer> {
        self.track.write(&self.table, text)
    }

    #[inline(always)]
    fn list(&mut self, input: &[u8], listing: &mut [u8]) -> usize {
        peashuttle::list(input, listing)
    }
}

impl<T: Into<Answer>> From<Result<T, peashuttle::Error>> for Answer {
    fn from(answer: Result<T, peashuttle::Error>) -> Answer {
        match answer {
            Ok(good) => good.into(),
            Err(peashuttle::Error::Refused(refusal)) => {
                Answer::Refused { number: refusal.number, line: refusal.line }
            }
            Err(peashuttle::Error::Short(length)) => Answer::TooLong(length),
            Err(_) => Answer::Misused,
        }
    }
}

impl From<peashuttle::Event> for Answer {
    fn from(event: peashuttle::Event) -> Answer {
        match event {
            peashuttle::Event::Tau => Answer::Tau,
            peashuttle::Event::Tick => Answer::Tick,
            peashuttle::Event::Visible(number) => Answer::Event(number),
        }
    }
}

impl From<Option<peashuttle::Event>> for Answer {
    fn from(event: Option<peashuttle::Event>) -> Answer {
        event.map_or(Answer::EndOfScript, Answer::from)
    }
}

impl From<peashuttle::Status> for Answer {
    fn from(status: peashuttle::Status) -> Answer {
        match status {
            peashuttle::Status::Live => Answer::Live,
            peashuttle::Status::Ended => Answer::Ended,
            peashuttle::Status::Stuck => Answer::Stuck,
        }
    }
}

impl From<peashuttle::Offers> for Answer {
    fn from(offers: peashuttle::Offers) -> Answer {
        Answer::Offers { events: offers.events, tau: offers.tau, tick: offers.tick }
    }
}

/// The opponent.
pub struct Theirs {
    table: Box<opponent::Table>,
    run: Box<opponent::Run>,
    scratch: Box<opponent::Scratch>,
    graph: Box<opponent::Graph>,
    desk: Box<opponent::Desk>,
}

impl Library for Theirs {
    fn new() -> Theirs {
        Theirs {
            table: opponent::Table::new(),
            run: opponent::Run::new(),
            scratch: opponent::Scratch::new(),
            graph: opponent::Graph::new(),
            desk: opponent::Desk::new(),
        }
    }

    #[inline(always)]
    fn check(&mut self, text: &[u8]) -> impl Into<Answer> {
        self.table.check(text)
    }

    #[inline(always)]
    fn start(&mut self) {
        self.run.start();
    }

    #[inline(always)]
    fn step(&mut self, address: &[u8]) -> impl Into<Answer> {
        self.run.step(&self.table, address)
    }

    #[inline(always)]
    fn play(&mut self, script: &[u8], cursor: &mut usize) -> impl Into<Answer> {
        let played = self.run.play(&self.table, script, *cursor);
        if let opponent::Played::Stepped { next, .. } = played {
            *cursor = next;
        }
        played
    }

    #[inline(always)]
    fn status(&self) -> impl Into<Answer> {
        self.run.status(&self.table)
    }

    #[inline(always)]
    fn offers(&self) -> impl Into<Answer> {
        self.run.offers(&self.table)
    }

    #[inline(always)]
    fn save(&mut self, text: &mut [u8]) -> impl Into<Answer> {
        self.run.save(&self.table, &mut self.scratch, text)
    }

    #[inline(always)]
    fn read(&mut self, text: &[u8]) -> impl Into<Answer> {
        self.graph.read(&self.table, text, &mut self.scratch)
    }

    #[inline(always)]
    fn write(&self, text: &mut [u8]) -> impl Into<Answer> {
        self.graph.write(&self.table, text)
    }

    #[inline(always)]
    fn list(&mut self, input: &[u8], listing: &mut [u8]) -> usize {
        opponent::list(input, &mut self.desk, listing)
    }
}

impl<T: Into<Answer>> From<Result<T, opponent::Refusal>> for Answer {
    fn from(answer: Result<T, opponent::Refusal>) -> Answer {
        match answer {
            Ok(good) => good.into(),
            Err(refusal) => Answer::Refused { number: refusal.number, line: refusal.line },
        }
    }
}

impl<T: Into<Answer>> From<Result<T, u8>> for Answer {
    fn from(answer: Result<T, u8>) -> Answer {
        match answer {
            Ok(good) => good.into(),
            Err(number) => Answer::Refused { number, line: 0 },
        }
    }
}

impl<T: Into<Answer>> From<Result<T, usize>> for Answer {
    fn from(answer: Result<T, usize>) -> Answer {
        match answer {
            Ok(good) => good.into(),
            Err(length) => Answer::TooLong(length),
        }
    }
}

impl From<opponent::Event> for Answer {
    fn from(event: opponent::Event) -> Answer {
        match event {
            opponent::Event::Tau => Answer::Tau,
            opponent::Event::Tick => Answer::Tick,
            opponent::Event::Visible(number) => Answer::Event(number),
        }
    }
}

impl From<opponent::Played> for Answer {
    fn from(played: opponent::Played) -> Answer {
        match played {
            opponent::Played::Stepped { event, .. } => event.into(),
            opponent::Played::Refused(number) => Answer::Refused { number, line: 0 },
            opponent::Played::End => Answer::EndOfScript,
        }
    }
}

impl From<opponent::Status> for Answer {
    fn from(status: opponent::Status) -> Answer {
        match status {
            opponent::Status::Live => Answer::Live,
            opponent::Status::Ended => Answer::Ended,
            opponent::Status::Stuck => Answer::Stuck,
        }
    }
}

impl From<opponent::Offers> for Answer {
    fn from(offers: opponent::Offers) -> Answer {
        Answer::Offers { events: offers.events, tau: offers.tau, tick: offers.tick }
    }
}
