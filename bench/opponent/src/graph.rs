//! Saved tracks: the reader, which judges lines and then shape, and the writer of what was read.

use crate::hex::{byte_of, path_bits, strict_number, word_at};
use crate::lines::{strict_frame, Frame};
use crate::save::Scratch;
use crate::table::{Table, EXTERNAL_CHOICE, INTERNAL_CHOICE, PARALLEL, PREFIX, SEQUENCE};
use crate::text::{
    digits_of, write_closing, write_nodes, write_pairs, Counts, ARC_TAG, MEETING_TAG, PAIR_LINE, START,
};
use crate::track::EVENT_LITERAL;
use crate::{
    Refusal, ARC_ROOM, MEETING_ROOM, NODE_ROOM, NOT_A_LINE, OUT_OF_RANGE, PATH_ROOM, WRONG_FRAME, WRONG_SHAPE,
};

const NODE: u8 = 0x31;
const ARC: u8 = 0x32;
const MEETING: u8 = 0x33;
const LAST: u8 = 0x3f;
const NO_NODE: u16 = u16::MAX;

/// The content of a saved track: the literals by number, and the arcs and meetings, two numbers in one.
pub(crate) struct Saved {
    counts: Counts,
    literals: [u16; NODE_ROOM],
    arcs: [u32; ARC_ROOM],
    meetings: [u32; MEETING_ROOM],
}

impl Saved {
    pub fn new() -> Saved {
        Saved {
            counts: Counts::default(),
            literals: [0; NODE_ROOM],
            arcs: [0; ARC_ROOM],
            meetings: [0; MEETING_ROOM],
        }
    }
}

/// A track that was read.
pub struct Graph {
    saved: Box<Saved>,
}

impl Graph {
    /// The empty track.
    pub fn new() -> Box<Graph> {
        Box::new(Graph { saved: Box::new(Saved::new()) })
    }

    /// Makes this the track of a saved text. A refused text leaves it as it was.
    pub fn read(&mut self, table: &Table, text: &[u8], scratch: &mut Scratch) -> Result<(), Refusal> {
        let mut reader = Reader { table, text, at: 0, line: 1, has_shape: true, scratch };
        match reader.read() {
            Err(number) => Err(Refusal { number, line: reader.line }),
            Ok(()) if !reader.has_shape => Err(Refusal { number: WRONG_SHAPE, line: 0 }),
            Ok(()) => {
                std::mem::swap(&mut self.saved, &mut scratch.draft);
                Ok(())
            }
        }
    }

    /// Writes the saved text, and gives its length; where it is longer than the slice, nothing is written. The table
    /// is the one that the track was read against.
    pub fn write(&self, table: &Table, out: &mut [u8]) -> Result<usize, usize> {
        let saved = &*self.saved;
        let literals = &saved.literals[..saved.counts.nodes];
        let digits = literals.iter().map(|&literal| digits_of(table, literal)).sum();
        let length = Counts { digits, ..saved.counts }.length();
        let Some(out) = out.get_mut(..length) else {
            return Err(length);
        };
        let at = write_nodes(table, &saved.counts, literals, out);
        let at = write_pairs(ARC_TAG, &saved.arcs[..saved.counts.arcs], out, at);
        let at = write_pairs(MEETING_TAG, &saved.meetings[..saved.counts.meetings], out, at);
        Ok(write_closing(out, at))
    }
}

/// A reader at a line of a saved text. What it reads goes to the scratch memory's draft.
struct Reader<'a> {
    table: &'a Table,
    text: &'a [u8],
    at: usize,
    line: usize,
    /// Whether no rule of shape has been broken so far.
    has_shape: bool,
    scratch: &'a mut Scratch,
}

impl Reader<'_> {
    fn read(&mut self) -> Result<(), u8> {
        self.read_opening()?;
        self.read_nodes()?;
        self.read_arcs()?;
        self.has_shape = self.has_shape && self.walk_gives_numbers();
        self.read_meetings()?;
        self.read_end()
    }

    // ---- lines

    fn next_line(&mut self, next: usize) {
        self.at = next;
        self.line += 1;
    }

    fn read_opening(&mut self) -> Result<(), u8> {
        if self.text.is_empty() {
            return Err(WRONG_FRAME);
        }
        let frame = strict_frame(self.text, 0).ok_or(NOT_A_LINE)?;
        if frame.tag != 0x30 || frame.length != 8 {
            return Err(WRONG_FRAME);
        }
        let [nodes, arcs, meetings] = [32, 16, 0].map(|shift| (frame.rest >> shift & 0xffff) as usize);
        if frame.second != 1 || nodes > NODE_ROOM || arcs > ARC_ROOM || meetings > MEETING_ROOM {
            return Err(OUT_OF_RANGE);
        }
        self.scratch.draft.counts = Counts { nodes, arcs, meetings, digits: 0 };
        self.next_line(frame.next);
        Ok(())
    }

    fn read_nodes(&mut self) -> Result<(), u8> {
        let mut before = 0;
        for number in 0..self.scratch.draft.counts.nodes {
            let literal = match self.node_at(number, before) {
                Some((literal, next)) => {
                    self.next_line(next);
                    literal
                }
                None => {
                    self.misshapen_line(NODE)?;
                    START
                }
            };
            self.scratch.draft.literals[number] = literal;
            before = (literal & !EVENT_LITERAL) as usize;
        }
        Ok(())
    }

    /// A line that is not as it should be: its refusal, or else it breaks a rule of shape.
    fn misshapen_line(&mut self, due: u8) -> Result<(), u8> {
        if self.at >= self.text.len() {
            return Err(WRONG_FRAME);
        }
        let frame = strict_frame(self.text, self.at).ok_or(NOT_A_LINE)?;
        self.judge_frame(&frame, due)?;
        self.has_shape = false;
        self.next_line(frame.next);
        Ok(())
    }

    fn judge_frame(&self, frame: &Frame, due: u8) -> Result<(), u8> {
        let line = &self.text[self.at..];
        let byte = |place: usize| byte_of(line[2 * place], line[2 * place + 1]) as usize;
        if frame.tag != due {
            return Err(WRONG_FRAME);
        }
        let (has_length, is_in_range) = match due {
            NODE if frame.length < 5 => (false, false),
            NODE => {
                let is_in_range = byte(4) <= PATH_ROOM && byte(3) < self.table.definitions();
                (byte(4) == frame.length - 5, is_in_range)
            }
            LAST => (frame.length == 1, true),
            _ if frame.length != 5 => (false, false),
            _ => {
                let highest = (byte(1) << 8 | byte(2)).max(byte(3) << 8 | byte(4));
                (true, highest < self.scratch.draft.counts.nodes)
            }
        };
        match (has_length, is_in_range) {
            (false, _) => Err(WRONG_FRAME),
            (true, false) => Err(OUT_OF_RANGE),
            (true, true) => Ok(()),
        }
    }

    fn read_end(&mut self) -> Result<(), u8> {
        if self.text[self.at..].starts_with(b"3f\n") {
            self.next_line(self.at + 3);
        } else {
            self.misshapen_line(LAST)?;
        }
        if self.at == self.text.len() {
            return Ok(());
        }
        let is_line = strict_frame(self.text, self.at).is_some();
        Err(if is_line { WRONG_FRAME } else { NOT_A_LINE })
    }

    // ---- nodes

    /// The literal of a good node's line, and where the next line begins. `before` is the term of the node before.
    #[inline(always)]
    fn node_at(&self, number: usize, before: usize) -> Option<(u16, usize)> {
        let line = self.text.get(self.at..)?;
        if number == 0 {
            return line.starts_with(b"310000000100\n").then_some((START, self.at + 13));
        }
        if line.get(..2)? != b"31" {
            return None;
        }
        let numbers = strict_number(word_at(line, 2)?)?;
        let definition = (numbers >> 8 & 0xff) as usize;
        let digits = (numbers & 0xff) as usize;
        let in_turn = numbers >> 16 == number as u32;
        let end = 10 + 2 * digits;
        if !in_turn
            || definition >= self.table.definitions()
            || digits > PATH_ROOM
            || *line.get(end)? != b'\n'
        {
            return None;
        }
        let path = path_of(line, digits)?;
        let literal = self.literal_at(definition, path, digits, before)?;
        Some((literal, self.at + end + 1))
    }

    /// The literal at a place, if there is one. The search begins at the term before, where that lies above.
    #[inline(always)]
    fn literal_at(&self, definition: usize, path: u64, digits: usize, before: usize) -> Option<u16> {
        let mut number = self.table.root(definition);
        let mut at = 0;
        let above = self.table.term(before);
        let above_digits = above.digits as usize;
        let is_above = above_digits <= digits && (above.path ^ path) & low_bits(above_digits) == 0;
        if is_above && above.definition as usize == definition && before < self.table.terms() {
            (number, at) = (before, above_digits);
        }
        while at < digits {
            let is_second = path >> at & 1 == 1;
            let term = self.table.term(number);
            at += 1;
            number = match (term.kind, is_second) {
                (PREFIX, false) => return (at == digits).then_some(number as u16 | EVENT_LITERAL),
                (PREFIX, true) => number + 1,
                (INTERNAL_CHOICE | EXTERNAL_CHOICE | SEQUENCE | PARALLEL, false) => number + 1,
                (INTERNAL_CHOICE | EXTERNAL_CHOICE | SEQUENCE | PARALLEL, true) => term.right as usize,
                _ => return None,
            };
        }
        Some(number as u16)
    }

    // ---- arcs

    fn read_arcs(&mut self) -> Result<(), u8> {
        let Counts { nodes, arcs, .. } = self.scratch.draft.counts;
        self.scratch.targets[..nodes].fill([NO_NODE; 2]);
        let mut before = None;
        for number in 0..arcs {
            let Some(arc) = self.pair_at(b"32", nodes) else {
                self.misshapen_line(ARC)?;
                continue;
            };
            self.next_line(self.at + PAIR_LINE);
            self.scratch.draft.arcs[number] = arc;
            self.has_shape = self.has_shape && before < Some(arc) && self.lead(arc);
            before = Some(arc);
        }
        Ok(())
    }

    /// The two numbers of a good arc's or meeting's line.
    #[inline(always)]
    fn pair_at(&self, tag: &[u8; 2], nodes: usize) -> Option<u32> {
        let line: &[u8; PAIR_LINE] = self.text.get(self.at..self.at + PAIR_LINE)?.try_into().ok()?;
        if line[..2] != *tag || line[PAIR_LINE - 1] != b'\n' {
            return None;
        }
        let pair = strict_number(word_at(line, 2)?)?;
        let (first, second) = (pair >> 16, pair & 0xffff);
        (first.max(second) < nodes as u32).then_some(pair)
    }

    /// Adds an arc to those of its node; tells whether the node may have it.
    #[inline(always)]
    fn lead(&mut self, arc: u32) -> bool {
        let (from, to) = ((arc >> 16) as usize, (arc & 0xffff) as usize);
        let literals = &self.scratch.draft.literals;
        let Some(side) = self.side_of(literals[from], literals[to]) else {
            return false;
        };
        let target = &mut self.scratch.targets[from][side];
        let is_first = *target == NO_NODE;
        *target = to as u16;
        is_first
    }

    /// The side of an operator into which an arc leads; another node has one side only.
    #[inline(always)]
    fn side_of(&self, from: u16, to: u16) -> Option<usize> {
        let operator = self.table.term((from & !EVENT_LITERAL) as usize);
        let is_operator = matches!(operator.kind, EXTERNAL_CHOICE | PARALLEL);
        if !is_operator {
            return Some(0);
        }
        let target = self.table.term((to & !EVENT_LITERAL) as usize);
        let digits = operator.digits as usize;
        let is_below = digits_of(self.table, to) > digits && to != START;
        let is_on_its_path = (operator.path ^ target.path) & low_bits(digits) == 0;
        let is_under = is_below && is_on_its_path && operator.definition == target.definition;
        is_under.then_some((target.path >> digits & 1) as usize)
    }

    /// Whether the walk from node 0 meets the nodes in the order of their numbers, and all of them.
    fn walk_gives_numbers(&mut self) -> bool {
        let nodes = self.scratch.draft.counts.nodes;
        let Scratch { targets, put_off, .. } = &mut *self.scratch;
        let (mut numbered, mut put_off_count) = (0, 0);
        let mut next = 0;
        loop {
            if next < nodes && next >= numbered {
                if next > numbered {
                    return false;
                }
                let [first, second] = targets[next];
                numbered += 1;
                if second != NO_NODE {
                    put_off[put_off_count] = (second, 0);
                    put_off_count += 1;
                }
                if first != NO_NODE {
                    next = first as usize;
                    continue;
                }
            }
            if put_off_count == 0 {
                return numbered == nodes;
            }
            put_off_count -= 1;
            next = put_off[put_off_count].0 as usize;
        }
    }

    // ---- meetings

    fn read_meetings(&mut self) -> Result<(), u8> {
        let Counts { nodes, meetings, .. } = self.scratch.draft.counts;
        let mut before = None;
        for number in 0..meetings {
            let Some(meeting) = self.pair_at(b"33", nodes) else {
                self.misshapen_line(MEETING)?;
                continue;
            };
            self.next_line(self.at + PAIR_LINE);
            self.scratch.draft.meetings[number] = meeting;
            self.has_shape = self.has_shape && before < Some(meeting) && self.may_meet(meeting);
            before = Some(meeting);
        }
        Ok(())
    }

    #[inline(always)]
    fn may_meet(&self, meeting: u32) -> bool {
        let (first, second) = ((meeting >> 16) as usize, (meeting & 0xffff) as usize);
        let literals = &self.scratch.draft.literals;
        let (one, other) = (literals[first], literals[second]);
        let event = |literal: u16| self.table.term((literal & !EVENT_LITERAL) as usize).payload;
        first < second && one & other & EVENT_LITERAL != 0 && event(one) == event(other)
    }
}

/// The lowest bits of a word, fewer than all.
#[inline(always)]
fn low_bits(count: usize) -> u64 {
    1_u64.checked_shl(count as u32).unwrap_or(0).wrapping_sub(1)
}

/// The path at the end of a node's line, where all its digits are 1 or 2.
#[inline(always)]
fn path_of(line: &[u8], digits: usize) -> Option<u64> {
    let mut path = 0;
    let mut read = 0;
    while read + 4 <= digits {
        path |= path_bits(word_at(line, 10 + 2 * read)?)? << read;
        read += 4;
    }
    while read < digits {
        match line.get(10 + 2 * read..12 + 2 * read)? {
            b"01" => (),
            b"02" => path |= 1 << read,
            _ => return None,
        }
        read += 1;
    }
    Some(path)
}
