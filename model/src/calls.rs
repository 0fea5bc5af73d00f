//! The calls of one cipher as a caller makes them, with the checks of document 01's "Turned away"
//! that apply, and 14 to 16 of document 02: by rising number, but 14 and 15 before 7; the first fault
//! found is the answer.

use crate::cipher::{decrypt, encrypt, registers_at, Variant, ROUNDS};
use crate::origin::{origin, Origin};
use crate::smudged::{key_bytes, numbers, run, Sheet};
use crate::stream::{blocks_of, keystream};

/// A refusal's number.
#[derive(Clone, Copy, Debug, PartialEq, Eq)]
pub struct Refusal(pub u8);

/// 1: the variant is not 1 to 6.
fn checked_variant(number: u8) -> Result<Variant, Refusal> {
    Variant::from_number(number).ok_or(Refusal(1))
}

/// 2: a key is not 10 bytes.
fn checked_key(key: &[u8]) -> Result<&[u8; 10], Refusal> {
    key.try_into().map_err(|_| Refusal(2))
}

/// 6: a position is over 254.
fn checked_position(position: u64) -> Result<u8, Refusal> {
    if position <= ROUNDS as u64 {
        Ok(position as u8)
    } else {
        Err(Refusal(6))
    }
}

/// 7: a block is 2^n or more.
fn checked_block(variant: Variant, block: u64) -> Result<u64, Refusal> {
    if variant.is_block(block) {
        Ok(block)
    } else {
        Err(Refusal(7))
    }
}

/// The longest data of a keystream, in bytes.
pub const LONGEST_DATA: usize = 4096;

/// 14: the start plus the number of blocks exceeds 2^n, or the data is over 4,096 bytes.
fn checked_end(variant: Variant, start: u64, length: usize) -> Result<(), Refusal> {
    let end = start as u128 + blocks_of(variant, length) as u128;
    if end > 1 << variant.width() || length > LONGEST_DATA {
        Err(Refusal(14))
    } else {
        Ok(())
    }
}

/// The last clock whose bits are followed.
pub const LAST_CLOCK: u64 = 23;

/// 15: a clock number is over 23.
fn checked_clock(clock: u64) -> Result<usize, Refusal> {
    if clock <= LAST_CLOCK {
        Ok(clock as usize)
    } else {
        Err(Refusal(15))
    }
}

pub fn call_encrypt(variant: u8, key: &[u8], block: u64) -> Result<u64, Refusal> {
    let variant = checked_variant(variant)?;
    let key = checked_key(key)?;
    let block = checked_block(variant, block)?;
    Ok(encrypt(variant, key, block))
}

pub fn call_decrypt(variant: u8, key: &[u8], block: u64) -> Result<u64, Refusal> {
    let variant = checked_variant(variant)?;
    let key = checked_key(key)?;
    let block = checked_block(variant, block)?;
    Ok(decrypt(variant, key, block))
}

#[derive(Clone, Copy, Debug, PartialEq, Eq)]
pub enum Direction {
    Encrypt,
    Decrypt,
}

/// Many blocks: the results into `out`, or the first fault in the order 1, 2, 7.
pub fn call_many(
    direction: Direction,
    variant: u8,
    keys: &[u8],
    blocks: &[u64],
    out: &mut [u64],
) -> Result<(), Refusal> {
    let variant = checked_variant(variant)?;
    let n = blocks.len();
    if n == 0 || n > 64 || keys.len() != 10 * n || out.len() != n {
        return Err(Refusal(2));
    }
    for block in blocks {
        checked_block(variant, *block)?;
    }
    for (i, block) in blocks.iter().enumerate() {
        let key = checked_key(&keys[10 * i..10 * i + 10])?;
        out[i] = match direction {
            Direction::Encrypt => encrypt(variant, key, *block),
            Direction::Decrypt => decrypt(variant, key, *block),
        };
    }
    Ok(())
}

/// The data combined with the keystream into `out`, or the first fault in the order 1, 2, 14, 7.
pub fn call_keystream(
    variant: u8,
    key: &[u8],
    start: u64,
    data: &[u8],
    out: &mut [u8],
) -> Result<(), Refusal> {
    let variant = checked_variant(variant)?;
    let key = checked_key(key)?;
    if out.len() != data.len() {
        return Err(Refusal(2));
    }
    checked_end(variant, start, data.len())?;
    let start = checked_block(variant, start)?;
    out.copy_from_slice(&keystream(variant, key, start, data));
    Ok(())
}

/// The bits of a clock followed back to the block: fa, fb and the count of block bits looked up into
/// `out`, or the first fault in the order 1, 2, 15, 7.
pub fn call_origin(
    variant: u8,
    key: &[u8],
    block: u64,
    clock: u64,
    out: &mut [u64],
) -> Result<(), Refusal> {
    let variant = checked_variant(variant)?;
    let key = checked_key(key)?;
    if out.len() != 3 {
        return Err(Refusal(2));
    }
    let clock = checked_clock(clock)?;
    let block = checked_block(variant, block)?;
    let Origin { fa, fb, looked_up } = origin(variant, key, block, clock);
    out.copy_from_slice(&[fa as u64, fb as u64, looked_up]);
    Ok(())
}

/// A sheet as a call is handed it: the bits known as 1 and those known as 0, of the block and of the key.
#[derive(Clone, Copy, Debug)]
pub struct Parts<'a> {
    pub ones: u64,
    pub zeros: u64,
    pub key_ones: &'a [u8],
    pub key_zeros: &'a [u8],
}

impl Parts<'_> {
    /// 2, of either part of the key.
    fn checked_keys(&self) -> Result<(&[u8; 10], &[u8; 10]), Refusal> {
        Ok((checked_key(self.key_ones)?, checked_key(self.key_zeros)?))
    }

    /// 7, of either block number.
    fn checked_blocks(&self, variant: Variant) -> Result<(u64, u64), Refusal> {
        Ok((
            checked_block(variant, self.ones)?,
            checked_block(variant, self.zeros)?,
        ))
    }
}

/// 16: a bit is known both as 0 and as 1.
const CONTRADICTION: Refusal = Refusal(16);

/// Rounds run on a sheet from position 0: what is known of the registers at a position, ones and then
/// zeros, into `out`, or the first fault in the order 1, 2, 6, 7, 16.
pub fn call_smudged(
    variant: u8,
    sheet: Parts,
    position: u64,
    out: &mut [u64],
) -> Result<(), Refusal> {
    let variant = checked_variant(variant)?;
    let keys = sheet.checked_keys()?;
    if out.len() != 2 {
        return Err(Refusal(2));
    }
    let position = checked_position(position)?;
    let blocks = sheet.checked_blocks(variant)?;
    let sheet = Sheet::from_parts(variant, blocks, keys).ok_or(CONTRADICTION)?;
    let (ones, zeros) = numbers(&run(variant, &sheet, position));
    out.copy_from_slice(&[ones, zeros]);
    Ok(())
}

/// Two sheets of one block joined: what either knows of the block into `out` and of the key into
/// `key_out`, each ones and then zeros, or the first fault in the order 1, 2, 7, 16.
pub fn call_join(
    variant: u8,
    sheet: Parts,
    other: Parts,
    out: &mut [u64],
    key_out: &mut [u8],
) -> Result<(), Refusal> {
    let variant = checked_variant(variant)?;
    let (keys, other_keys) = (sheet.checked_keys()?, other.checked_keys()?);
    if out.len() != 2 || key_out.len() != 20 {
        return Err(Refusal(2));
    }
    let blocks = sheet.checked_blocks(variant)?;
    let other_blocks = other.checked_blocks(variant)?;
    let sheet = Sheet::from_parts(variant, blocks, keys).ok_or(CONTRADICTION)?;
    let other = Sheet::from_parts(variant, other_blocks, other_keys).ok_or(CONTRADICTION)?;
    let joined = sheet.join(&other).ok_or(CONTRADICTION)?;
    let (ones, zeros) = numbers(&joined.block);
    let (key_ones, key_zeros) = key_bytes(&joined.key);
    out.copy_from_slice(&[ones, zeros]);
    key_out.copy_from_slice(&[key_ones, key_zeros].concat());
    Ok(())
}

pub fn call_registers_at(
    variant: u8,
    key: &[u8; 10],
    from: u8,
    to: u8,
    block: u64,
) -> Result<u64, Refusal> {
    let variant = checked_variant(variant)?;
    let from = checked_position(from.into())?;
    let to = checked_position(to.into())?;
    let block = checked_block(variant, block)?;
    Ok(registers_at(variant, key, from, to, block))
}

#[cfg(test)]
mod tests {
    use super::*;

    /// Request (i)'s limits: variant, start, bytes of data, and the refusal's number or 0.
    #[test]
    fn where_a_keystream_ends() {
        let cases = [
            (1, 0xffff_fffe, 8, 0),
            (1, 0xffff_fffe, 9, 14),
            (1, 0xffff_ffff, 0, 0),
            (1, 0xffff_ffff, 1, 0),
            (4, 0x1_0000_0000, 0, 7),
            (4, 0x1_0000_0000, 1, 14),
            (4, 0x1_0000_0001, 0, 14),
            (2, 0xffff_ffff_fffe, 12, 0),
            (2, 0xffff_ffff_fffe, 13, 14),
            (5, 0x1_0000_0000_0000, 0, 7),
            (5, 0x1_0000_0000_0001, 0, 14),
            (3, u64::MAX, 0, 0),
            (3, u64::MAX, 8, 0),
            (6, u64::MAX, 9, 14),
            (6, u64::MAX - 511, 4096, 0),
            (6, u64::MAX - 510, 4096, 14),
            (1, 0, 4096, 0),
            (1, 0, 4097, 14),
            (6, 0, 4097, 14),
        ];
        for (variant, start, length, expected) in cases {
            let mut out = vec![7; length];
            let data = vec![0; length];
            let answer = call_keystream(variant, &[1; 10], start, &data, &mut out);
            let number = answer.map_or_else(|Refusal(number)| number, |()| 0);
            assert_eq!(
                number, expected,
                "variant {variant}, start {start:x}, {length} bytes"
            );
            assert!(number == 0 || out.iter().all(|byte| *byte == 7));
        }
    }

    /// Request (vii)'s limits: variant, bytes of the key, block, clock, words of the output, and the
    /// refusal's number or 0.
    #[test]
    fn which_clocks_are_followed() {
        let cases = [
            (1, 10, 0, 0, 3, 0),
            (1, 10, 0xffff_ffff, 23, 3, 0),
            (1, 10, 0, 24, 3, 15),
            (6, 10, u64::MAX, 23, 3, 0),
            (6, 10, u64::MAX, 24, 3, 15),
            (2, 10, 0, 256, 3, 15),
            (3, 10, 0, 1 << 32, 3, 15),
            (4, 10, 0, (1 << 32) + 5, 3, 15),
            (5, 10, 0, u64::MAX, 3, 15),
            (1, 10, 1 << 32, 23, 3, 7),
            (1, 10, 1 << 32, 24, 3, 15),
            (5, 10, 1 << 48, 0, 3, 7),
            (5, 10, 1 << 48, u64::MAX, 3, 15),
            (1, 9, 0, 0, 3, 2),
            (1, 11, 0, 24, 3, 2),
            (1, 10, 0, 0, 2, 2),
            (1, 10, 1 << 32, 24, 4, 2),
            (0, 10, 0, 0, 3, 1),
            (7, 9, 0, 24, 2, 1),
        ];
        for (variant, key_length, block, clock, out_length, expected) in cases {
            let mut out = vec![7; out_length];
            let answer = call_origin(variant, &vec![1; key_length], block, clock, &mut out);
            let number = answer.map_or_else(|Refusal(number)| number, |()| 0);
            assert_eq!(
                number, expected,
                "variant {variant}, {key_length} bytes, block {block:x}, clock {clock}, \
                 {out_length} words"
            );
            assert_eq!(number == 0, out != vec![7; out_length]);
        }
    }

    /// Parts of keys for the cases below. KEY and OTHER share no bit; KEY and CLASH share key bit 79.
    const KEY: [u8; 10] = [0x0f, 0, 0, 0, 0, 0, 0, 0, 0, 0x80];
    const OTHER: [u8; 10] = [0xf0, 0, 0, 0, 0, 0, 0, 0, 0, 0];
    const CLASH: [u8; 10] = [0xf0, 0, 0, 0, 0, 0, 0, 0, 0, 0x80];

    fn parts<'a>(
        (ones, zeros): (u64, u64),
        (key_ones, key_zeros): (&'a [u8], &'a [u8]),
    ) -> Parts<'a> {
        Parts {
            ones,
            zeros,
            key_ones,
            key_zeros,
        }
    }

    /// Request (ix)'s limits of a run: variant, block, key, position, words of the output, and the refusal's
    /// number or 0.
    #[test]
    fn which_sheets_are_run() {
        let sound: (&[u8], &[u8]) = (&KEY, &OTHER);
        let clash: (&[u8], &[u8]) = (&KEY, &CLASH);
        let short: (&[u8], &[u8]) = (&KEY[1..], &OTHER);
        let long: (&[u8], &[u8]) = (&KEY, &[0; 11]);
        let cases = [
            (1, (1, 2), sound, 0, 2, 0),
            (1, (0xffff_0000, 0xffff), sound, 254, 2, 0),
            (6, (u64::MAX, 0), sound, 254, 2, 0),
            (6, (u64::MAX, 1 << 63), sound, 254, 2, 16),
            (1, (1, 3), sound, 0, 2, 16),
            (1, (1, 2), clash, 254, 2, 16),
            (1, (1 << 32, 0), sound, 0, 2, 7),
            (1, (0, 1 << 32), sound, 0, 2, 7),
            (1, (1 << 32, 1 << 32), clash, 0, 2, 7),
            (5, (0, 1 << 48), sound, 254, 2, 7),
            (2, (1, 2), sound, 255, 2, 6),
            (2, (1, 2), sound, 256, 2, 6),
            (3, (1, 2), sound, 1 << 32, 2, 6),
            (4, (1, 2), sound, (1 << 32) + 5, 2, 6),
            (5, (1, 2), sound, u64::MAX, 2, 6),
            (1, (1 << 32, 3), clash, 255, 2, 6),
            (1, (1, 2), short, 0, 2, 2),
            (1, (1, 2), long, 0, 2, 2),
            (1, (1, 2), sound, 0, 1, 2),
            (1, (1 << 32, 3), clash, 255, 3, 2),
            (0, (1, 2), sound, 0, 2, 1),
            (7, (1 << 32, 3), short, 255, 3, 1),
        ];
        for (variant, block, key, position, out_length, expected) in cases {
            let mut out = vec![7; out_length];
            let answer = call_smudged(variant, parts(block, key), position, &mut out);
            let number = answer.map_or_else(|Refusal(number)| number, |()| 0);
            let context = format!("{variant}, {block:x?}, {key:x?}, {position}, {out_length}");
            assert_eq!(number, expected, "{context}");
            assert_eq!(number == 0, out != vec![7; out_length], "{context}");
        }
    }

    /// Request (ix)'s limits of a join: variant, both blocks, both keys, words and bytes of the outputs, and
    /// the refusal's number or 0.
    #[test]
    fn which_sheets_are_joined() {
        let none: (&[u8], &[u8]) = (&[0; 10], &[0; 10]);
        let sound: (&[u8], &[u8]) = (&KEY, &OTHER);
        let turned: (&[u8], &[u8]) = (&OTHER, &KEY);
        let clash: (&[u8], &[u8]) = (&KEY, &CLASH);
        let short: (&[u8], &[u8]) = (&KEY, &OTHER[1..]);
        let cases = [
            (1, [(1, 2), (5, 8)], [sound, none], (2, 20), 0),
            (6, [(u64::MAX, 0), (0, 0)], [none, sound], (2, 20), 0),
            (1, [(1, 2), (2, 0)], [sound, none], (2, 20), 16),
            (1, [(1, 2), (0, 1)], [sound, none], (2, 20), 16),
            (1, [(1, 1), (0, 0)], [sound, none], (2, 20), 16),
            (1, [(0, 0), (1, 1)], [sound, none], (2, 20), 16),
            (1, [(0, 0), (0, 0)], [sound, turned], (2, 20), 16),
            (1, [(0, 0), (0, 0)], [clash, none], (2, 20), 16),
            (1, [(0, 0), (0, 0)], [none, clash], (2, 20), 16),
            (1, [(1 << 32, 0), (0, 0)], [none, clash], (2, 20), 7),
            (1, [(1, 1 << 32), (0, 0)], [none, none], (2, 20), 7),
            (1, [(0, 0), (1 << 32, 0)], [none, none], (2, 20), 7),
            (2, [(1, 1), (0, 1 << 48)], [clash, none], (2, 20), 7),
            (1, [(1 << 32, 0), (0, 0)], [short, none], (2, 20), 2),
            (1, [(0, 0), (0, 0)], [none, short], (2, 20), 2),
            (1, [(0, 0), (0, 0)], [none, none], (1, 20), 2),
            (1, [(0, 0), (0, 0)], [none, clash], (2, 10), 2),
            (0, [(1, 1), (0, 0)], [short, none], (3, 21), 1),
        ];
        for (variant, blocks, keys, (words, bytes), expected) in cases {
            let (mut out, mut key_out) = (vec![7; words], vec![7; bytes]);
            let [sheet, other] = [0, 1].map(|i| parts(blocks[i], keys[i]));
            let answer = call_join(variant, sheet, other, &mut out, &mut key_out);
            let number = answer.map_or_else(|Refusal(number)| number, |()| 0);
            let context = format!("{variant}, {blocks:x?}, {keys:x?}, {words}, {bytes}");
            assert_eq!(number, expected, "{context}");
            let kept = out == vec![7; words] && key_out == vec![7; bytes];
            assert_eq!(number != 0, kept, "{context}");
        }
    }

    /// What either sheet knows, ones and then zeros.
    #[test]
    fn a_join() {
        let (mut out, mut key_out) = ([0; 2], [0; 20]);
        let sheet = parts((0b0001, 0b0010), (&KEY, &[0; 10]));
        let other = parts((0b0101, 0b1000), (&[0; 10], &OTHER));
        let answer = call_join(1, sheet, other, &mut out, &mut key_out);
        assert_eq!(answer, Ok(()));
        assert_eq!(out, [0b0101, 0b1010]);
        assert_eq!(key_out, [KEY, OTHER].concat()[..]);
    }
}
