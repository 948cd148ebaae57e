//! Tables: the check of a table's text, and the terms that it leaves. A check writes into a draft, and only an
//! accepted draft becomes the table.

use crate::hex::{byte_of, liberal_number, word_at};
use crate::lines::{liberal_frame, liberal_line_end, Frame};
use crate::{
    Refusal, MOST_DEFINITIONS, MOST_EVENTS, NOT_A_LINE, OUT_OF_RANGE, PATH_ROOM, TABLE_OVER_ROOM, TABLE_ROOM,
    TERM_ROOM, TEXT_OVER_ROOM, WRONG_FRAME, WRONG_TERM_COUNT,
};

pub(crate) const CALL: u8 = 1;
pub(crate) const PREFIX: u8 = 2;
pub(crate) const INTERNAL_CHOICE: u8 = 3;
pub(crate) const EXTERNAL_CHOICE: u8 = 4;
pub(crate) const SEQUENCE: u8 = 5;
pub(crate) const PARALLEL: u8 = 6;
pub(crate) const SKIP: u8 = 7;
pub(crate) const STOP: u8 = 8;
const NO_TERM: u8 = 9;
const KINDS: usize = 9;

/// Characters behind each kind's own, and subterms.
const PAYLOAD_CHARACTERS: [u8; KINDS] = [0, 2, 2, 0, 0, 0, 16, 0, 0];
const SUBTERMS: [u8; KINDS] = [0, 0, 1, 2, 2, 2, 2, 0, 0];

/// Records behind those of the terms: the call that a run starts with, and the two marks that have no step.
pub(crate) const MAIN: usize = TERM_ROOM;
pub(crate) const OMEGA: usize = TERM_ROOM + 1;
pub(crate) const BOTTOM: usize = TERM_ROOM + 2;
const RECORDS: usize = TERM_ROOM + 3;

/// What an untouched term offers beside events. A term is active where it has a silent step or end that counts for
/// status: any but a STOP's own.
pub(crate) const OFFERS_TAU: u8 = 1;
pub(crate) const OFFERS_TICK: u8 = 2;
pub(crate) const ACTIVE: u8 = 4;

/// A term with its place. Its first subterm is the next term. Bit k of its path is set where digit k is 2.
#[derive(Clone, Copy)]
pub(crate) struct Term {
    /// A parallel's set; of any other term it tells nothing.
    pub set: u64,
    pub path: u64,
    /// The events that it offers untouched.
    pub events: u64,
    /// The second subterm, or where a call leads; of any other term it tells nothing.
    pub right: u16,
    pub kind: u8,
    /// A call's definition or a prefix's event; of any other term it tells nothing.
    pub payload: u8,
    pub definition: u8,
    pub digits: u8,
    pub offers: u8,
}

const BLANK: Term = Term {
    set: 0,
    path: 0,
    events: 0,
    right: 0,
    kind: NO_TERM,
    payload: 0,
    definition: 0,
    digits: 0,
    offers: 0,
};

impl Term {
    #[inline(always)]
    pub fn active(&self) -> usize {
        (self.offers / ACTIVE) as usize
    }
}

pub struct Table {
    terms: Box<[Term; RECORDS]>,
    roots: [u16; MOST_DEFINITIONS],
    definitions: usize,
    events: usize,
    term_count: usize,
    draft: Draft,
}

impl Table {
    /// The table without a definition; a run over it does not get far.
    pub fn new() -> Box<Table> {
        Box::new(Table {
            terms: no_terms(),
            definitions: 0,
            events: 0,
            term_count: 0,
            roots: [0; MOST_DEFINITIONS],
            draft: Draft::new(),
        })
    }

    /// Makes this the table of a text. A refused text leaves it as it was.
    pub fn check(&mut self, text: &[u8]) -> Result<(), Refusal> {
        if text.len() > TABLE_ROOM {
            return Err(Refusal { number: TEXT_OVER_ROOM, line: 0 });
        }
        let end = self.draft.read(text)?;
        if end < text.len() {
            let is_line = liberal_frame(text, end).is_some();
            let number = if is_line { WRONG_FRAME } else { NOT_A_LINE };
            return Err(Refusal { number, line: self.draft.cursor.line + 1 });
        }
        self.take_draft();
        Ok(())
    }

    /// Makes this the table that an input begins with, and tells where it ends.
    pub(crate) fn check_start(&mut self, input: &[u8]) -> Result<usize, Refusal> {
        match self.draft.read(input) {
            Ok(end) if end <= TABLE_ROOM => {
                self.take_draft();
                Ok(end)
            }
            Err(refusal) if table_end(input) <= TABLE_ROOM => Err(refusal),
            _ => Err(Refusal { number: TEXT_OVER_ROOM, line: 0 }),
        }
    }

    pub fn definitions(&self) -> usize {
        self.definitions
    }

    pub fn events(&self) -> usize {
        self.events
    }

    pub fn terms(&self) -> usize {
        self.term_count
    }

    #[inline(always)]
    pub(crate) fn term(&self, number: usize) -> &Term {
        &self.terms[number]
    }

    pub(crate) fn root(&self, definition: usize) -> usize {
        self.roots[definition] as usize
    }

    /// The number of a term's subterm: digit 1 or 2, of a term with two.
    #[inline(always)]
    pub(crate) fn subterm(&self, number: usize, digit: u8) -> usize {
        if digit == 1 {
            number + 1
        } else {
            self.terms[number].right as usize
        }
    }

    /// Makes the accepted draft the table.
    fn take_draft(&mut self) {
        self.draft.tell_offers();
        self.definitions = self.draft.definitions;
        self.events = self.draft.events;
        self.term_count = self.draft.cursor.terms;
        self.roots = self.draft.roots;
        std::mem::swap(&mut self.terms, &mut self.draft.terms);
    }
}

/// The records of a table without terms.
fn no_terms() -> Box<[Term; RECORDS]> {
    let mut terms = Box::new([BLANK; RECORDS]);
    terms[MAIN].kind = CALL;
    terms[MAIN].offers = OFFERS_TAU | ACTIVE;
    terms
}

/// Offers behind a sequence or a parallel, which show an end as a silent step.
#[inline(always)]
fn ticks_hidden(offers: u8) -> u8 {
    let ends = (offers & OFFERS_TICK) / OFFERS_TICK;
    (offers & !OFFERS_TICK) | (ends * OFFERS_TAU)
}

/// Where an input's table ends: behind its first line that begins with `1f` or `1F`, or at the end.
pub(crate) fn table_end(input: &[u8]) -> usize {
    let mut end = 0;
    for line in input.split_inclusive(|&character| character == b'\n') {
        end += line.len();
        if line.starts_with(b"1f") || line.starts_with(b"1F") {
            break;
        }
    }
    end
}

/// A place that a definition still needs a term for, and the term whose second subterm that is.
#[derive(Clone, Copy)]
struct Awaited {
    path: u64,
    digits: u8,
    owner: u16,
}

const NO_OWNER: u16 = u16::MAX;
const NOTHING_AWAITED: Awaited = Awaited { path: 0, digits: u8::MAX, owner: NO_OWNER };

/// The second place below a path of so many digits.
#[inline(always)]
fn second_below(path: u64, digits: u8, owner: u16) -> Awaited {
    let digit = 1_u64.checked_shl(digits as u32).unwrap_or(0);
    Awaited { path: path | digit, digits: digits + 1, owner }
}

/// Where the reading of a table is.
#[derive(Clone, Copy)]
struct Cursor {
    line: usize,
    terms: usize,
    /// The place that the next term takes.
    next: Awaited,
    /// How many places are awaited behind that one, and one more.
    later: usize,
}

const AT_THE_START: Cursor = Cursor { line: 1, terms: 0, next: NOTHING_AWAITED, later: 1 };

/// What the lines of a table have told so far.
struct Draft {
    terms: Box<[Term; RECORDS]>,
    roots: [u16; MOST_DEFINITIONS],
    definitions: usize,
    events: usize,
    definitions_begun: usize,
    cursor: Cursor,
    /// The terms whose second subterms are awaited behind the next term, the last of them first; at the bottom there
    /// is none.
    later: [u16; PATH_ROOM + 2],
}

impl Draft {
    fn new() -> Draft {
        Draft {
            terms: no_terms(),
            roots: [0; MOST_DEFINITIONS],
            definitions: 0,
            events: 0,
            definitions_begun: 0,
            cursor: AT_THE_START,
            later: [NO_OWNER; PATH_ROOM + 2],
        }
    }

    /// Reads a table through its last line, and tells where that ends.
    fn read(&mut self, text: &[u8]) -> Result<usize, Refusal> {
        self.cursor = AT_THE_START;
        self.definitions_begun = 0;
        self.read_lines(text).map_err(|number| Refusal { number, line: self.cursor.line })
    }

    fn read_lines(&mut self, text: &[u8]) -> Result<usize, u8> {
        let mut at = self.take_head(frame_at(text, 0)?)?;
        loop {
            self.cursor.line += 1;
            at = self.take_terms(text, at)?;
            let frame = frame_at(text, at)?;
            at = frame.next;
            match (frame.tag, frame.length) {
                (0x11, 2) => self.take_definition(frame.second as usize)?,
                (0x12, _) => self.take_term_frame(&frame)?,
                (0x1f, 3) => return self.take_end(&frame),
                _ => return Err(WRONG_FRAME),
            }
        }
    }

    fn take_head(&mut self, frame: Frame) -> Result<usize, u8> {
        if frame.tag != 0x10 || frame.length != 4 {
            return Err(WRONG_FRAME);
        }
        self.definitions = (frame.rest >> 8) as usize;
        self.events = (frame.rest & 0xff) as usize;
        let in_range = (1..=MOST_DEFINITIONS).contains(&self.definitions);
        if frame.second != 1 || !in_range || self.events > MOST_EVENTS {
            return Err(OUT_OF_RANGE);
        }
        Ok(frame.next)
    }

    fn take_definition(&mut self, definition: usize) -> Result<(), u8> {
        if definition != self.definitions_begun || definition >= self.definitions {
            return Err(OUT_OF_RANGE);
        }
        if self.cursor.awaits() {
            return Err(WRONG_TERM_COUNT);
        }
        self.roots[definition] = self.cursor.terms as u16;
        self.definitions_begun += 1;
        self.cursor.next = Awaited { path: 0, digits: 0, owner: NO_OWNER };
        self.cursor.later = 1;
        Ok(())
    }

    /// Takes good lines of terms as long as they come, and gives where the first other line begins.
    #[inline(always)]
    fn take_terms(&mut self, text: &[u8], at: usize) -> Result<usize, u8> {
        let (mut at, mut cursor) = (at, self.cursor);
        let taken = loop {
            let Some((kind, payload, next)) = term_at(text, at) else {
                break Ok(at);
            };
            if let Err(number) = self.take_term(&mut cursor, kind, payload) {
                break Err(number);
            }
            at = next;
            cursor.line += 1;
        };
        self.cursor = cursor;
        taken
    }

    /// Takes a term's line in a spelling that `term_at` has not taken, or refuses it.
    fn take_term_frame(&mut self, frame: &Frame) -> Result<(), u8> {
        let kind = frame.second;
        let is_known = frame.length >= 2 && (1..KINDS as u8).contains(&kind);
        if !is_known || frame.length != 2 + PAYLOAD_CHARACTERS[kind as usize] as usize / 2 {
            return Err(WRONG_FRAME);
        }
        let mut cursor = self.cursor;
        self.take_term(&mut cursor, kind, frame.rest)?;
        self.cursor = cursor;
        Ok(())
    }

    #[inline(always)]
    fn take_term(&mut self, cursor: &mut Cursor, kind: u8, payload: u64) -> Result<(), u8> {
        if self.definitions_begun == 0 {
            return Err(WRONG_FRAME);
        }
        if !self.is_in_range(kind, payload) {
            return Err(OUT_OF_RANGE);
        }
        if !cursor.awaits() {
            return Err(WRONG_TERM_COUNT);
        }
        let longest = cursor.next.digits as usize + (kind == PREFIX) as usize;
        if cursor.terms >= TERM_ROOM || longest > PATH_ROOM {
            return Err(TABLE_OVER_ROOM);
        }
        self.add_term(cursor, kind, payload);
        self.await_next(cursor, kind);
        Ok(())
    }

    #[inline(always)]
    fn is_in_range(&self, kind: u8, payload: u64) -> bool {
        match kind {
            CALL => payload < self.definitions as u64,
            PREFIX => payload < self.events as u64,
            PARALLEL => self.events == MOST_EVENTS || payload >> self.events == 0,
            _ => true,
        }
    }

    /// Adds a term that was found good.
    #[inline(always)]
    fn add_term(&mut self, cursor: &Cursor, kind: u8, payload: u64) {
        let Awaited { path, digits, owner } = cursor.next;
        if let Some(operator) = self.terms.get_mut(owner as usize) {
            operator.right = cursor.terms as u16;
        }
        let term = &mut self.terms[cursor.terms];
        term.set = payload;
        term.path = path;
        term.kind = kind;
        term.payload = payload as u8;
        term.definition = (self.definitions_begun - 1) as u8;
        term.digits = digits;
    }

    /// Goes on from a term that was added to the place of the one behind it.
    #[inline(always)]
    fn await_next(&mut self, cursor: &mut Cursor, kind: u8) {
        let Awaited { path, digits, .. } = cursor.next;
        let number = cursor.terms as u16;
        cursor.terms += 1;
        cursor.next.owner = NO_OWNER;
        match SUBTERMS[kind as usize] {
            0 => {
                cursor.later -= 1;
                cursor.next = self.second_of(self.later[cursor.later]);
                cursor.later += (cursor.later == 0) as usize;
            }
            1 => cursor.next = second_below(path, digits, NO_OWNER),
            _ => {
                self.later[cursor.later] = number;
                cursor.later += 1;
                cursor.next.digits += 1;
            }
        }
    }

    /// The place of a term's second subterm, or that nothing is awaited.
    #[inline(always)]
    fn second_of(&self, owner: u16) -> Awaited {
        match self.terms.get(owner as usize) {
            Some(term) => second_below(term.path, term.digits, owner),
            None => NOTHING_AWAITED,
        }
    }

    fn take_end(&self, frame: &Frame) -> Result<usize, u8> {
        let count = (frame.second as usize) << 8 | frame.rest as usize;
        if count != self.cursor.terms {
            return Err(OUT_OF_RANGE);
        }
        if self.cursor.awaits() || self.definitions_begun < self.definitions {
            return Err(WRONG_TERM_COUNT);
        }
        Ok(frame.next)
    }

    /// Works out what the terms offer untouched, subterms before the terms that have them, and where calls lead.
    fn tell_offers(&mut self) {
        for number in (0..self.cursor.terms).rev() {
            let term = self.terms[number];
            let left = self.terms[number + 1];
            let (events, offers) = match term.kind {
                CALL => {
                    self.terms[number].right = self.roots[term.payload as usize % MOST_DEFINITIONS];
                    (0, OFFERS_TAU | ACTIVE)
                }
                PREFIX => (1 << (term.payload % 64), 0),
                INTERNAL_CHOICE => (0, OFFERS_TAU | ACTIVE),
                SEQUENCE => (left.events, ticks_hidden(left.offers)),
                EXTERNAL_CHOICE | PARALLEL => offers_of_sides(&term, &left, &self.terms[term.right as usize]),
                SKIP => (0, OFFERS_TICK | ACTIVE),
                _ => (0, OFFERS_TAU),
            };
            self.terms[number].events = events;
            self.terms[number].offers = offers;
        }
    }
}

/// What an untouched choice or parallel offers.
#[inline(always)]
fn offers_of_sides(term: &Term, left: &Term, right: &Term) -> (u64, u8) {
    let (any, both) = (left.events | right.events, left.events & right.events);
    let offers = left.offers | right.offers;
    if term.kind == EXTERNAL_CHOICE {
        return (any, offers);
    }
    (any & !term.set | both & term.set, ticks_hidden(offers))
}

impl Cursor {
    #[inline(always)]
    fn awaits(&self) -> bool {
        self.next.digits != u8::MAX
    }
}

/// The frame of the line at a place of a table; where the text has ended, that is too early.
fn frame_at(text: &[u8], at: usize) -> Result<Frame, u8> {
    if at >= text.len() {
        return Err(WRONG_FRAME);
    }
    liberal_frame(text, at).ok_or(NOT_A_LINE)
}

/// A good `12` line's kind and payload, and where the next line begins. Behind such a line others follow, so that
/// it may be looked at beyond its end.
#[inline(always)]
fn term_at(text: &[u8], at: usize) -> Option<(u8, u64, usize)> {
    let &[tag, tag_low, zero, kind, high, low, _] = text.get(at..)?.first_chunk()?;
    let start = u32::from_le_bytes([tag, tag_low, zero, kind]);
    let kind = kind.wrapping_sub(b'0');
    if start & 0xff_ffff != u32::from_le_bytes(*b"120\0") || kind == 0 || kind >= KINDS as u8 {
        return None;
    }
    let characters = PAYLOAD_CHARACTERS[kind as usize] as usize;
    let payload = match characters {
        0 => 0,
        2 => u8::try_from(byte_of(high, low)).ok()? as u64,
        _ => {
            let (upper, lower) = (word_at(text, at + 4)?, word_at(text, at + 12)?);
            (half_set(upper)? as u64) << 32 | half_set(lower)? as u64
        }
    };
    Some((kind, payload, liberal_line_end(text, at + 4 + characters)?))
}

/// The number of eight characters of a set, most of which are zeros.
#[inline(always)]
fn half_set(characters: u64) -> Option<u32> {
    if characters == u64::from_le_bytes(*b"00000000") {
        return Some(0);
    }
    liberal_number(characters)
}
