//! Lines of a script: the digits of a good one, and the number of any other.

use crate::hex::{address_digits, byte_of, word_at};
use crate::lines::{liberal_frame, liberal_line_end};
use crate::{ADDRESS_ROOM, NOT_A_LINE, OUT_OF_RANGE, WRONG_FRAME};

/// The characters of four digits 1.
const ONES: u64 = 0x3130_3130_3130_3130;

/// The digits of a good script line: how many, and where the next line begins.
#[inline(always)]
pub(crate) fn read_address(
    script: &[u8],
    at: usize,
    address: &mut [u8; ADDRESS_ROOM],
) -> Option<(usize, usize)> {
    let line = script.get(at..)?;
    let count = digit_count(line)?;
    let next = liberal_line_end(script, at + 6 + 2 * count)?;
    let characters = &line[6..];
    if count >= 4 {
        let mut read = 0;
        while read < count {
            let start = read.min(count - 4);
            let four = address_digits(word_at(characters, 2 * start)?)?;
            address[start..start + 4].copy_from_slice(&four.to_le_bytes());
            read = start + 4;
        }
    } else if count > 0 {
        let behind = !0 << (16 * count);
        let word = last_word(characters, count) & !behind | ONES & behind;
        address[..4].copy_from_slice(&address_digits(word)?.to_le_bytes());
    }
    Some((count, next))
}

/// How many digits a script line says that it has, where there is room for so many.
#[inline(always)]
fn digit_count(line: &[u8]) -> Option<usize> {
    if let Some(start) = word_at(line, 0) {
        let few = (start >> 40) as u8 ^ b'0';
        if start & 0xff_ffff_ffff == u64::from_le_bytes(*b"20000\0\0\0") && few < 10 {
            return Some(few as usize);
        }
    }
    let [b'2', b'0', first, second, third, fourth, ..] = *line else {
        return None;
    };
    let (high, low) = (byte_of(first, second) as usize, byte_of(third, fourth) as usize);
    let count = high << 8 | low;
    (high | low <= 0xff && count <= ADDRESS_ROOM).then_some(count)
}

/// The characters of fewer than four digits, in the low bytes of a word; others may stand above them.
#[inline(always)]
fn last_word(characters: &[u8], count: usize) -> u64 {
    word_at(characters, 0).unwrap_or_else(|| {
        let mut word = [0; 8];
        word[..2 * count].copy_from_slice(&characters[..2 * count]);
        u64::from_le_bytes(word)
    })
}

/// The number of a script line that is not a good one.
pub(crate) fn line_fault(script: &[u8], at: usize) -> u8 {
    let Some(frame) = liberal_frame(script, at) else {
        return NOT_A_LINE;
    };
    let count = script.get(at + 2..at + 6).map_or(usize::MAX, |length| {
        (byte_of(length[0], length[1]) as usize) << 8 | byte_of(length[2], length[3]) as usize
    });
    if frame.tag != 0x20 || frame.length < 3 || frame.length - 3 != count {
        return WRONG_FRAME;
    }
    OUT_OF_RANGE
}
