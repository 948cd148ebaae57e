//! Blocks that were never filled, refusals, memory of the caller's own, and blocks with anything in them.

use crate::common::{table_of, text_of, Blocks};
use peashuttle::{Error, Event, Offers, Refusal, Run, Status, Table, TooShort, Track, Work, DIGITS};

/// SHOW = a -> SKIP [| {a} |] a -> STOP.
const TABLE: &str = "10010101\n1100\n12060000000000000001\n120200\n1207\n120200\n1208\n1f0005\n";
const SCRIPT: &[u8] = b"200000\n20000103\n20000101\n20000102\n";
/// N = N ; SKIP, whose control grows by a cell each step.
const GROWING: &str = "10010100\n1100\n1205\n120100\n1207\n1f0003\n";
const RUN_STAMP: u64 = 0x50454152554e3031;
const TRACK_STAMP: u64 = 0x50454154524b3031;
const TABLE_STAMP: u64 = 0x5045415441423031;
const GUARD: u64 = 0xa5a5_a5a5_a5a5_a5a5;

fn refused<T>(number: u8, line: usize) -> Result<T, Error> {
    Err(Error::Refused(Refusal { number, line }))
}

#[test]
fn a_table_that_was_never_checked() {
    let mut b = Blocks::new();
    let mut slice = [9; 4];
    let mut cursor = 7;
    b.run.start();
    let before = b.run.clone();
    assert_eq!(b.run.step(&b.table, &[]), Err(Error::NotChecked));
    assert_eq!(b.run.play(&b.table, SCRIPT, &mut cursor), Err(Error::NotChecked));
    assert_eq!(b.run.offers(&b.table), Err(Error::NotChecked));
    assert_eq!(b.run.status(&b.table), Err(Error::NotChecked));
    assert_eq!(b.run.save(&b.table, &mut b.work, &mut slice), Err(Error::NotChecked));
    assert_eq!(b.track.read(&b.table, &mut b.work, b"3001000000000000\n3f\n"), Err(Error::NotChecked));
    assert_eq!(b.track.write(&b.table, &mut slice), Err(Error::NotChecked));
    assert_eq!((b.table.definitions(), b.table.events(), b.table.terms()), (0, 0, 0));
    assert_eq!((slice, cursor), ([9; 4], 7));
    assert!(*b.work == Work::new() && b.run == before && *b.track == Track::new() && *b.table == Table::new());
}

#[test]
fn a_run_that_was_never_started_and_a_track_that_was_never_read() {
    let mut b = Blocks::new();
    let mut slice = [9; 4];
    b.table = table_of(TABLE);
    assert_eq!(b.run.step(&b.table, &[]), Err(Error::NotStarted));
    assert_eq!(b.run.play(&b.table, SCRIPT, &mut 0), Err(Error::NotStarted));
    assert_eq!(b.run.offers(&b.table), Err(Error::NotStarted));
    assert_eq!(b.run.status(&b.table), Err(Error::NotStarted));
    assert_eq!(b.run.save(&b.table, &mut b.work, &mut slice), Err(Error::NotStarted));
    assert_eq!(b.track.write(&b.table, &mut slice), Err(Error::NotRead));
    assert_eq!((b.track.nodes(), b.track.arcs(), b.track.meetings()), (0, 0, 0));
    assert_eq!(slice, [9; 4]);
    assert!(*b.work == Work::new() && *b.run == Run::new());
}

#[test]
fn case_a_by_steps() {
    let mut b = Blocks::new();
    b.table = table_of(TABLE);
    assert_eq!((b.table.definitions(), b.table.events(), b.table.terms()), (1, 1, 5));
    b.run.start();
    assert_eq!(b.run.offers(&b.table), Ok(Offers { tau: true, tick: false, events: 0 }));
    assert_eq!(b.run.step(&b.table, &[]), Ok(Event::Tau));
    let offers = b.run.offers(&b.table).unwrap();
    assert_eq!(offers, Offers { tau: false, tick: false, events: 1 });
    assert!(offers.has(0) && !offers.has(1) && !offers.has(63) && !offers.has(64) && !offers.has(255));
    assert_eq!(b.run.status(&b.table), Ok(Status::Live));
    assert_eq!(b.run.step(&b.table, &[3]), Ok(Event::Visible(0)));
    assert_eq!(b.run.step(&b.table, &[1]), Ok(Event::Tau));
    assert_eq!(b.run.status(&b.table), Ok(Status::Stuck));
    assert_eq!(b.run.step(&b.table, &[2]), Ok(Event::Tau));
    let saved = text_of(&mut |slice| b.run.save(&b.table, &mut b.work, slice));
    assert_eq!(b.track.read(&b.table, &mut b.work, &saved), Ok(()));
    assert_eq!((b.track.nodes(), b.track.arcs(), b.track.meetings()), (8, 7, 1));
    assert_eq!(text_of(&mut |slice| b.track.write(&b.table, slice)), saved);
}

#[test]
fn refusals_leave_blocks_as_they_were() {
    let mut b = Blocks::new();
    b.table = table_of(TABLE);
    let table = b.table.clone();
    let many = vec![b'0'; 32769];
    let texts: [(&[u8], u8, usize); 6] = [
        (b"10010100\n1100\n1207\n1f0001", 1, 4),
        (b"10010100\n1100\n1207\n", 2, 4),
        (b"10010100\n1100\n1207\n1f0002\n", 3, 4),
        (b"10010100\n1100\n1205\n1207\n1f0002\n", 4, 5),
        (&[b"10010101\n1100\n".as_slice(), &b"120200\n".repeat(65)].concat(), 5, 67),
        (&many, 6, 0),
    ];
    for (text, number, line) in texts {
        assert_eq!(b.table.check(text), refused(number, line));
        assert!(b.table == table);
    }
    b.run.start();
    let run = b.run.clone();
    for address in [[1; DIGITS + 1].as_slice(), &[1; DIGITS], &[4], &[0], &[255]] {
        assert_eq!(b.run.step(&b.table, address), refused(7, 0));
        assert!(b.run == run);
    }
    for (script, number) in [(b"2000 00\n".as_slice(), 1), (b"20000201\n", 2), (b"20000105\n", 3), (b"20000101\n", 7)] {
        assert_eq!(b.run.play(&b.table, script, &mut 0), refused(number, 1));
        assert!(b.run == run);
    }
    let track = b.track.clone();
    for (text, number, line) in
        [(b"3F\n".as_slice(), 1, 1), (b"", 2, 1), (b"3001000100000000\n3100000000\n3f\n", 13, 0)]
    {
        assert_eq!(b.track.read(&b.table, &mut b.work, text), refused(number, line));
        assert!(b.track == track);
    }
}

#[test]
fn the_room_for_cells() {
    let mut b = Blocks::new();
    b.table = table_of(GROWING);
    b.run.start();
    for _ in 0..peashuttle::CELLS {
        assert_eq!(b.run.step(&b.table, &[]), Ok(Event::Tau));
    }
    let run = b.run.clone();
    assert_eq!(b.run.step(&b.table, &[]), refused(8, 0));
    assert!(b.run == run);
}

#[test]
fn the_room_for_an_address_is_no_part_of_a_run() {
    let table = table_of(TABLE);
    let (mut zeros, mut ones) = (vec![0; Run::WORDS], vec![u64::MAX; Run::WORDS]);
    let (run, other) = (Run::in_words(&mut zeros).unwrap(), Run::in_words(&mut ones).unwrap());
    assert!(run != other);
    run.start();
    other.start();
    assert!(run == other);
    for address in [[].as_slice(), &[4], &[3], &[1]] {
        assert_eq!(run.step(&table, address), other.step(&table, address));
        assert!(run == other);
    }
    run.start();
    assert!(run != other);
}

#[test]
fn a_refused_line_is_counted_and_a_cursor_may_be_anywhere() {
    let mut b = Blocks::new();
    let mut cursor = 0;
    b.table = table_of(TABLE);
    b.run.start();
    let script = b"200000\r\n20000103\n20000103\n";
    assert_eq!(b.run.play(&b.table, script, &mut cursor), Ok(Some(Event::Tau)));
    assert_eq!(cursor, 8);
    assert_eq!(b.run.play(&b.table, script, &mut cursor), Ok(Some(Event::Visible(0))));
    assert_eq!(b.run.play(&b.table, script, &mut cursor), refused(7, 3));
    assert_eq!(cursor, 17);
    for cursor in [script.len(), script.len() + 1, usize::MAX] {
        let mut anywhere = cursor;
        assert_eq!(b.run.play(&b.table, script, &mut anywhere), Ok(None));
        assert_eq!(anywhere, cursor);
    }
    assert_eq!(b.run.play(&b.table, &[], &mut 0), Ok(None));
}

#[test]
fn words_of_errors() {
    let told = |error: Error| error.to_string();
    assert_eq!(told(Error::Refused(Refusal { number: 7, line: 0 })), "refused, number 7: no step has this address");
    assert_eq!(
        told(Error::Refused(Refusal { number: 1, line: 4 })),
        "refused, number 1, line 4: it is not a line of hexadecimal"
    );
    assert_eq!(told(Error::Short(20)), "refused, number 12: the saved text has 20 bytes, more than the slice");
    assert_eq!(told(Error::NotChecked), "the table was never checked");
    let meanings: std::collections::HashSet<_> = (0..=13).map(|number| Refusal { number, line: 0 }.meaning()).collect();
    assert_eq!(meanings.len(), 14);
    assert_eq!(TooShort { needed: 3 }.to_string(), "the block needs 3 words");
}

// ---- memory of the caller's own

#[test]
fn memory_that_is_too_short() {
    assert_eq!(Table::in_words(&mut [0; 8]).unwrap_err(), TooShort { needed: Table::WORDS });
    assert!(Run::in_words(&mut vec![0; Run::WORDS - 1]).is_err());
    assert!(Track::in_words(&mut vec![0; Track::WORDS - 1]).is_err());
    assert!(Work::in_words(&mut vec![0; Work::WORDS - 1]).is_err());
    assert!(Work::in_words(&mut vec![0; Work::WORDS]).is_ok());
}

/// Numbers by lot, always the same ones.
struct Lots(u64);

impl Lots {
    fn next(&mut self) -> u64 {
        self.0 ^= self.0 << 13;
        self.0 ^= self.0 >> 7;
        self.0 ^= self.0 << 17;
        self.0
    }
}

/// Words between guards, filled by a function and with a stamp in front.
struct Guarded(Vec<u64>);

impl Guarded {
    fn new(words: usize, stamp: u64, fill: &mut dyn FnMut() -> u64) -> Guarded {
        let mut all = vec![GUARD; words + 16];
        all[8..8 + words].fill_with(fill);
        all[8] = stamp;
        Guarded(all)
    }

    fn words(&mut self) -> &mut [u64] {
        let end = self.0.len() - 8;
        &mut self.0[8..end]
    }

    fn is_whole(&self) -> bool {
        self.0[..8].iter().chain(&self.0[self.0.len() - 8..]).all(|&word| word == GUARD)
    }
}

/// Every call on blocks with anything in them is answered, and nothing beside them is touched.
fn answered(fill: &mut dyn FnMut() -> u64, is_checked: bool) {
    let mut lent = [
        Guarded::new(Table::WORDS, TABLE_STAMP, fill),
        Guarded::new(Run::WORDS, RUN_STAMP, fill),
        Guarded::new(Track::WORDS, TRACK_STAMP, fill),
        Guarded::new(Work::WORDS, 0, fill),
    ];
    let [table, run, track, work] = &mut lent;
    let table = Table::in_words(table.words()).unwrap();
    let run = Run::in_words(run.words()).unwrap();
    let track = Track::in_words(track.words()).unwrap();
    let work = Work::in_words(work.words()).unwrap();
    if is_checked {
        assert_eq!(table.check(TABLE.as_bytes()), Ok(()));
    }
    let (kept_table, kept_run, kept_track) = (table.clone(), run.clone(), track.clone());
    let mut slice = vec![0; 100_000];
    assert!(run.offers(table).is_ok() && run.status(table).is_ok());
    for told in [run.save(table, work, &mut slice), track.write(table, &mut slice)] {
        assert!(match told {
            Ok(length) => length <= slice.len(),
            Err(Error::Short(length)) => length > slice.len(),
            _ => false,
        });
    }
    assert!(*table == kept_table && *run == kept_run && *track == kept_track);
    for length in [0, 1, 2, 30, DIGITS] {
        let address: Vec<u8> = (0..length).map(|at| 1 + (at % 3) as u8).collect();
        let stepped = run.step(table, &address);
        assert!(stepped.is_ok() || stepped.is_err_and(|error| error.refusal().is_some()));
    }
    assert!(track.read(table, work, SCRIPT).is_err_and(|error| error.refusal().is_some()));
    assert!(*table == kept_table && *track == kept_track);
    assert!(lent.iter().all(Guarded::is_whole));
}

/// Words by which every reference has sides that lead to one reference, and by which every second subterm is one term:
/// whoever goes down both sides, or both subterms, as far as they lead comes to no end.
const LEADING_BACK: [u64; 2] = [0x0001_0001_0001_0001, 0x0006_0006_0000_0006];

#[test]
fn blocks_with_anything_in_them() {
    let mut lots = Lots(2010);
    for is_checked in [true, false] {
        for same in [0, u64::MAX, 0x0202_0202_0202_0202, 0x7f7f_7f7f_7f7f_7f7f] {
            answered(&mut || same, is_checked);
        }
        for leading in LEADING_BACK {
            answered(&mut || leading, is_checked);
        }
        for _ in 0..3 {
            answered(&mut || lots.next(), is_checked);
            answered(&mut || lots.next() & 0x03ff_0001_03ff_0003, is_checked);
        }
    }
}

// ---- statics

static EMPTY: Table = Table::new();

#[test]
fn a_block_may_be_a_static() {
    let run = Box::<Run>::default();
    assert_eq!(run.status(&EMPTY), Err(Error::NotChecked));
    assert_eq!(format!("{:?}", EMPTY), "Table of 0 definitions, 0 events, 0 terms");
}
