//! Lines, one frame each, of any spelling. The readers of tables, scripts and saved tracks take good lines by shorter
//! ways of their own, and come here for what those do not take.

use crate::hex::byte_of;

/// A line's frame: its first two bytes, the bytes behind these as a number, and how many bytes it has in all.
pub(crate) struct Frame {
    pub tag: u8,
    pub second: u8,
    pub rest: u64,
    pub length: usize,
    /// Where the next line begins.
    pub next: usize,
}

/// The frame of a table's or script's line, or None where it is no line: any letters, and LF or CR LF.
pub(crate) fn liberal_frame(text: &[u8], at: usize) -> Option<Frame> {
    let (characters, next) = line_at(text, at)?;
    frame_of(characters.strip_suffix(b"\r").unwrap_or(characters), next)
}

/// The frame of a saved track's line, or None where it is no line: small letters, and LF alone.
pub(crate) fn strict_frame(text: &[u8], at: usize) -> Option<Frame> {
    let (characters, next) = line_at(text, at)?;
    if characters.iter().any(u8::is_ascii_uppercase) {
        return None;
    }
    frame_of(characters, next)
}

/// The characters of a line before its LF, and where the next line begins.
pub(crate) fn line_at(text: &[u8], at: usize) -> Option<(&[u8], usize)> {
    let behind = text.get(at..)?;
    let length = behind.iter().position(|&character| character == b'\n')?;
    Some((&behind[..length], at + length + 1))
}

fn frame_of(characters: &[u8], next: usize) -> Option<Frame> {
    if characters.is_empty() || characters.len() % 2 == 1 {
        return None;
    }
    let mut frame = Frame { tag: 0, second: 0, rest: 0, length: 0, next };
    for pair in characters.chunks_exact(2) {
        let byte = u8::try_from(byte_of(pair[0], pair[1])).ok()?;
        match frame.length {
            0 => frame.tag = byte,
            1 => frame.second = byte,
            _ => frame.rest = frame.rest << 8 | byte as u64,
        }
        frame.length += 1;
    }
    Some(frame)
}

/// Where the line end at a place ends: LF or CR LF.
#[inline(always)]
pub(crate) fn liberal_line_end(text: &[u8], at: usize) -> Option<usize> {
    match text.get(at)? {
        b'\n' => Some(at + 1),
        b'\r' if text.get(at + 1) == Some(&b'\n') => Some(at + 2),
        _ => None,
    }
}
