//! The text of a saved track, written line behind line. Lines are written eight bytes at a time and may pass their
//! end, where a later line follows in any case; the text as a whole has exactly its length.

use crate::hex::{four_characters, path_characters, PAIRS};
use crate::table::{Table, MAIN};
use crate::track::EVENT_LITERAL;

pub(crate) const PAIR_LINE: usize = "32iiiijjjj\n".len();
const NODE_LINE: usize = "31iiiiddll\n".len();
const OPENING: usize = "3001nnnnaaaassss\n".len();
const CLOSING: &[u8; 3] = b"3f\n";
const START_LINE: &[u8; 13] = b"310000000100\n";
pub(crate) const ARC_TAG: &[u8; 2] = b"32";
pub(crate) const MEETING_TAG: &[u8; 2] = b"33";

/// How many digits the path of a literal has.
#[inline(always)]
pub(crate) fn digits_of(table: &Table, literal: u16) -> usize {
    let term = table.term((literal & !EVENT_LITERAL) as usize);
    term.digits as usize + (literal & EVENT_LITERAL != 0) as usize
}

/// What the length of a saved text follows from. `digits` are those of all nodes' paths but the start's.
#[derive(Clone, Copy, Default)]
pub(crate) struct Counts {
    pub nodes: usize,
    pub arcs: usize,
    pub meetings: usize,
    pub digits: usize,
}

impl Counts {
    pub fn length(&self) -> usize {
        let pairs = PAIR_LINE * (self.arcs + self.meetings);
        let nodes = match self.nodes {
            0 => 0,
            nodes => START_LINE.len() + NODE_LINE * (nodes - 1) + 2 * self.digits,
        };
        OPENING + nodes + pairs + CLOSING.len()
    }
}

/// Two numbers in one, the first in the high half.
#[inline(always)]
pub(crate) fn pair(first: u16, second: u16) -> u32 {
    (first as u32) << 16 | second as u32
}

/// Writes the opening and the nodes, and gives where the arcs begin. All but the first node, which is the start,
/// stand in right-hand sides; where there are such, an arc's line follows.
pub(crate) fn write_nodes(table: &Table, counts: &Counts, literals: &[u16], out: &mut [u8]) -> usize {
    let mut at = write_opening(counts, out);
    if counts.nodes == 0 {
        return at;
    }
    out[at..at + START_LINE.len()].copy_from_slice(START_LINE);
    at += START_LINE.len();
    for (number, &literal) in literals.iter().enumerate().skip(1) {
        at = write_node(table, number as u16, literal, out, at);
    }
    at
}

fn write_opening(counts: &Counts, out: &mut [u8]) -> usize {
    out[..4].copy_from_slice(b"3001");
    for (place, count) in [counts.nodes, counts.arcs, counts.meetings].into_iter().enumerate() {
        let characters = four_characters(count as u16).to_le_bytes();
        out[4 + 4 * place..8 + 4 * place].copy_from_slice(&characters);
    }
    out[OPENING - 1] = b'\n';
    OPENING
}

#[inline(always)]
fn write_node(table: &Table, number: u16, literal: u16, out: &mut [u8], at: usize) -> usize {
    let term = table.term((literal & !EVENT_LITERAL) as usize);
    let digits = term.digits as usize + (literal & EVENT_LITERAL != 0) as usize;
    let numbers = (four_characters(number) as u64) << 16;
    let definition = (PAIRS[term.definition as usize] as u64) << 48;
    let tag = u16::from_le_bytes(*b"31") as u64;
    write_word(out, at, tag | numbers | definition);
    write_word(out, at + 8, PAIRS[digits] as u64 | path_characters(term.path) << 16);
    let end = at + NODE_LINE + 2 * digits;
    let mut written = 3;
    while written < digits {
        write_word(out, at + 10 + 2 * written, path_characters(term.path >> written));
        written += 4;
    }
    out[end - 1] = b'\n';
    end
}

#[inline(always)]
fn write_word(out: &mut [u8], at: usize, word: u64) {
    out[at..at + 8].copy_from_slice(&word.to_le_bytes());
}

/// Writes one line for each pair, and gives where they end.
pub(crate) fn write_pairs(tag: &[u8; 2], pairs: &[u32], out: &mut [u8], at: usize) -> usize {
    let end = at + PAIR_LINE * pairs.len();
    for (line, &pair) in out[at..end].chunks_exact_mut(PAIR_LINE).zip(pairs) {
        write_pair(tag, pair, line);
    }
    end
}

/// Writes a pair's line, whose length the slice has.
#[inline(always)]
pub(crate) fn write_pair(tag: &[u8; 2], pair: u32, line: &mut [u8]) {
    let first = four_characters((pair >> 16) as u16) as u64;
    let second = four_characters(pair as u16) as u64;
    let start = u16::from_le_bytes(*tag) as u64 | first << 16 | second << 48;
    let end = (second >> 8) as u32 | (b'\n' as u32) << 24;
    line[..8].copy_from_slice(&start.to_le_bytes());
    line[7..11].copy_from_slice(&end.to_le_bytes());
}

pub(crate) fn write_closing(out: &mut [u8], at: usize) -> usize {
    out[at..at + CLOSING.len()].copy_from_slice(CLOSING);
    at + CLOSING.len()
}

/// The literal of the start, which only the first node has.
pub(crate) const START: u16 = MAIN as u16;
