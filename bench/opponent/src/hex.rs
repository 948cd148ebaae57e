//! Hexadecimal characters, eight at a time where that is possible. A word of eight characters has the first of them
//! in its lowest byte.

const EVERY_BYTE: u64 = 0x0101_0101_0101_0101;
const NO_NIBBLE: u8 = 0x80;

/// The value of each hexadecimal character, small or capital; every other one has a value over 15.
pub(crate) static NIBBLES: [u8; 256] = nibbles();

/// The two characters of each byte, the first one in the low half.
pub(crate) static PAIRS: [u16; 256] = pairs();

const fn nibbles() -> [u8; 256] {
    let mut values = [NO_NIBBLE; 256];
    let mut nibble = 0;
    while nibble < 16 {
        values[b"0123456789abcdef"[nibble] as usize] = nibble as u8;
        values[b"0123456789ABCDEF"[nibble] as usize] = nibble as u8;
        nibble += 1;
    }
    values
}

const fn pairs() -> [u16; 256] {
    let digits = b"0123456789abcdef";
    let mut pairs = [0; 256];
    let mut byte = 0;
    while byte < 256 {
        pairs[byte] = digits[byte >> 4] as u16 | (digits[byte & 15] as u16) << 8;
        byte += 1;
    }
    pairs
}

/// The byte that two characters spell, or a number over 255.
#[inline(always)]
pub(crate) fn byte_of(high: u8, low: u8) -> u16 {
    (NIBBLES[high as usize] as u16) << 4
        | NIBBLES[low as usize] as u16
        | (NIBBLES[low as usize] as u16 & 0x80) << 4
}

/// Eight characters of a text.
#[inline(always)]
pub(crate) fn word_at(text: &[u8], at: usize) -> Option<u64> {
    let characters = text.get(at..at.checked_add(8)?)?;
    characters.try_into().ok().map(u64::from_le_bytes)
}

/// The number that eight characters spell, letters small.
#[inline(always)]
pub(crate) fn strict_number(characters: u64) -> Option<u32> {
    let letters = characters >> 6 & EVERY_BYTE;
    let nibbles = (characters & (0x0f * EVERY_BYTE)) + 9 * letters;
    let wrong_row = (characters & (0xf0 * EVERY_BYTE)) ^ (0x30 * EVERY_BYTE + 0x30 * letters);
    let wrong_letter = ((nibbles + 6 * EVERY_BYTE) ^ letters << 4) & (0x10 * EVERY_BYTE);
    let beyond = nibbles & (0x10 * EVERY_BYTE);
    (wrong_row | wrong_letter | beyond == 0).then(|| packed(nibbles))
}

/// The number that eight characters spell, letters small or capital.
#[inline(always)]
pub(crate) fn liberal_number(characters: u64) -> Option<u32> {
    strict_number(characters | (characters & (0x40 * EVERY_BYTE)) >> 1)
}

/// Eight values below 16, a byte each and the first one lowest, as a number with the first one highest.
#[inline(always)]
fn packed(nibbles: u64) -> u32 {
    let bytes = (nibbles << 4 | nibbles >> 8) & 0x00ff_00ff_00ff_00ff;
    let pairs = (bytes | bytes >> 8) & 0x0000_ffff_0000_ffff;
    ((pairs | pairs >> 16) as u32).swap_bytes()
}

/// The four characters of a number of two bytes.
#[inline(always)]
pub(crate) fn four_characters(number: u16) -> u32 {
    let [high, low] = number.to_be_bytes();
    PAIRS[high as usize] as u32 | (PAIRS[low as usize] as u32) << 16
}

/// The characters of four path digits, `01` for a bit that is clear and `02` for one that is set.
#[inline(always)]
pub(crate) fn path_characters(bits: u64) -> u64 {
    let spread = ((bits & 15) * 0x0000_2000_4000_8001) & 0x0001_0001_0001_0001;
    0x3130_3130_3130_3130 + (spread << 8)
}

/// The four path digits that eight characters spell, a bit each, where all of them are `01` or `02`.
#[inline(always)]
pub(crate) fn path_bits(characters: u64) -> Option<u64> {
    let digits = (characters ^ (0x30 * EVERY_BYTE)).wrapping_sub(0x0100_0100_0100_0100);
    if digits & !0x0100_0100_0100_0100 != 0 {
        return None;
    }
    Some((digits >> 8).wrapping_mul(1 << 48 | 1 << 33 | 1 << 18 | 1 << 3) >> 48 & 15)
}

/// The four address digits, 1 to 4, that eight characters spell, a byte each and the first one lowest.
#[inline(always)]
pub(crate) fn address_digits(characters: u64) -> Option<u32> {
    let digits = characters ^ (0x30 * EVERY_BYTE);
    if digits.wrapping_sub(0x0100_0100_0100_0100) & !0x0300_0300_0300_0300 != 0 {
        return None;
    }
    let pairs = (digits >> 8 | digits >> 16) & 0x0000_ffff_0000_ffff;
    Some((pairs | pairs >> 16) as u32)
}

#[cfg(test)]
mod tests {
    use super::*;

    fn word(characters: &str) -> u64 {
        word_at(characters.as_bytes(), 0).unwrap()
    }

    #[test]
    fn numbers_are_read() {
        assert_eq!(strict_number(word("0123abef")), Some(0x0123_abef));
        assert_eq!(strict_number(word("98765432")), Some(0x9876_5432));
        assert_eq!(strict_number(word("0123aBef")), None);
        assert_eq!(liberal_number(word("0123aBEF")), Some(0x0123_abef));
    }

    #[test]
    fn every_other_character_is_refused() {
        for byte in 0..=255_u8 {
            for place in 0..8 {
                let mut characters = *b"01290afc";
                characters[place] = byte;
                let characters = u64::from_le_bytes(characters);
                let strict = matches!(byte, b'0'..=b'9' | b'a'..=b'f');
                assert_eq!(strict_number(characters).is_some(), strict);
                assert_eq!(liberal_number(characters).is_some(), byte.is_ascii_hexdigit());
            }
            assert_eq!(byte_of(byte, b'0') < 256, byte.is_ascii_hexdigit());
            assert_eq!(byte_of(b'0', byte) < 256, byte.is_ascii_hexdigit());
        }
        assert_eq!(byte_of(b'a', b'7'), 0xa7);
    }

    #[test]
    fn digits_are_read_and_written() {
        assert_eq!(path_bits(word("01020201")), Some(0b0110));
        assert_eq!(path_bits(word("01020001")), None);
        assert_eq!(path_characters(0b0110), word("01020201"));
        assert_eq!(address_digits(word("01020304")), Some(0x0403_0201));
        assert_eq!(address_digits(word("01020305")), None);
        assert_eq!(address_digits(word("01000304")), None);
        assert_eq!(address_digits(word("01120304")), None);
    }

    #[test]
    fn numbers_are_written() {
        assert_eq!(four_characters(0x0fa3).to_le_bytes(), *b"0fa3");
    }
}
