//! The driver's calls: what they return and what they leave in the memory lent to them, from the
//! layout that the driver's header documents.

use crate::bench::{Bench, Lane, Reading, Reply, Screen, LANES, RECORD_LENGTH};
use crate::calls::{
    call_decrypt, call_encrypt, call_join, call_keystream, call_many, call_origin, call_smudged,
    Direction, Parts, Refusal,
};
use crate::cipher::Variant;

/// A lane: its state, 0 empty and 1 loaded; its position; its key; its registers.
pub const LANE_LENGTH: usize = 20;

/// A bench: its variant, then its lanes.
pub const BENCH_LENGTH: usize = 1 + LANE_LENGTH * LANES;

/// A link: the last number, the total, the record.
pub const LINK_LENGTH: usize = 8 + RECORD_LENGTH;

/// One call of a replayed list: its kind and a number, then the record's bytes.
pub const HEAD_LENGTH: usize = 5;

/// One answer of a replayed list: its kind, a number of 4 bytes and one of 8.
pub const ANSWER_LENGTH: usize = 13;

const BAD_VARIANT: u8 = 1;
const BAD_LENGTH: u8 = 2;

fn number(refusal: Refusal) -> u8 {
    refusal.0
}

fn status(answer: Result<(), u8>) -> u8 {
    answer.map_or_else(|check| check, |()| 0)
}

fn word(bytes: &[u8]) -> u32 {
    u32::from_le_bytes(bytes.try_into().unwrap())
}

/// A lane's bytes; an unknown state is an error.
fn lane_in(bytes: &[u8]) -> Result<Option<Lane>, u8> {
    match bytes[0] {
        0 => Ok(None),
        1 => Ok(Some(Lane {
            key: bytes[2..12].try_into().unwrap(),
            position: bytes[1],
            registers: u64::from_le_bytes(bytes[12..20].try_into().unwrap()),
        })),
        _ => Err(BAD_VARIANT),
    }
}

/// The bench in memory of the right length; a link of another length is read as a fresh one.
fn bench_in(bench: &[u8], link: &[u8]) -> Result<Bench, u8> {
    let mut lanes = [None; LANES];
    for (lane, bytes) in lanes.iter_mut().zip(bench[1..].chunks(LANE_LENGTH)) {
        *lane = lane_in(bytes)?;
    }
    let fresh = [0; LINK_LENGTH];
    let link = if link.len() == LINK_LENGTH {
        link
    } else {
        &fresh
    };
    let record = link[8..].try_into().unwrap();
    Bench::from_lanes(
        bench[0],
        &lanes,
        word(&link[..4]),
        record,
        word(&link[4..8]),
    )
}

fn put_lane(lane: Option<Lane>, bytes: &mut [u8]) {
    bytes[0] = lane.is_some() as u8;
    if let Some(lane) = lane {
        bytes[1] = lane.position;
        bytes[2..12].copy_from_slice(&lane.key);
        bytes[12..20].copy_from_slice(&lane.registers.to_le_bytes());
    }
}

fn put(from: &Bench, bench: &mut [u8], link: &mut [u8]) {
    bench[0] = from.variant().number();
    for (i, bytes) in bench[1..].chunks_mut(LANE_LENGTH).enumerate() {
        put_lane(from.lane(i), bytes);
    }
    link.fill(0);
    link[..4].copy_from_slice(&from.last().to_le_bytes());
    link[4..8].copy_from_slice(&from.total().to_le_bytes());
    link[8..][..from.latest().len()].copy_from_slice(from.latest());
}

fn into_word(variant: u8, answer: Result<u64, u8>, out: &mut [u64]) -> u8 {
    if Variant::from_number(variant).is_none() {
        return BAD_VARIANT;
    }
    if out.len() != 1 {
        return BAD_LENGTH;
    }
    match answer {
        Ok(block) => {
            out[0] = block;
            0
        }
        Err(check) => check,
    }
}

pub fn encrypt(variant: u8, key: &[u8], block: u64, out: &mut [u64]) -> u8 {
    into_word(
        variant,
        call_encrypt(variant, key, block).map_err(number),
        out,
    )
}

pub fn decrypt(variant: u8, key: &[u8], block: u64, out: &mut [u64]) -> u8 {
    into_word(
        variant,
        call_decrypt(variant, key, block).map_err(number),
        out,
    )
}

pub fn many(direction: Direction, variant: u8, keys: &[u8], blocks: &[u64], out: &mut [u64]) -> u8 {
    status(call_many(direction, variant, keys, blocks, out).map_err(number))
}

pub fn keystream(variant: u8, key: &[u8], start: u64, data: &[u8], out: &mut [u8]) -> u8 {
    status(call_keystream(variant, key, start, data, out).map_err(number))
}

/// The output is fa, fb and the count of block bits looked up.
pub fn origin(variant: u8, key: &[u8], block: u64, clock: u64, out: &mut [u64]) -> u8 {
    status(call_origin(variant, key, block, clock, out).map_err(number))
}

/// The output is what is known of the registers: the bits known as 1, then those known as 0.
pub fn smudged(variant: u8, sheet: Parts, position: u64, out: &mut [u64]) -> u8 {
    status(call_smudged(variant, sheet, position, out).map_err(number))
}

/// The outputs are what either sheet knows of block and key, in the same two parts.
pub fn join(variant: u8, sheet: Parts, other: Parts, out: &mut [u64], key_out: &mut [u8]) -> u8 {
    status(call_join(variant, sheet, other, out, key_out).map_err(number))
}

/// A block is loaded in one cycle, and has 254 rounds.
const CYCLES_OF_A_BLOCK: u64 = 255;

pub fn cycles(blocks: u32) -> u64 {
    CYCLES_OF_A_BLOCK * blocks as u64
}

/// 12: the clock rate is 0 or over 2,940,000,000.
pub fn bit_rate(variant: u8, hertz: u64, out: &mut [u64]) -> u8 {
    let width = Variant::from_number(variant).map_or(0, |variant| variant.width() as u64);
    let rate = match hertz {
        1..=2_940_000_000 => Ok(width * hertz / CYCLES_OF_A_BLOCK),
        _ => Err(12),
    };
    into_word(variant, rate, out)
}

pub fn open(variant: u8, bench: &mut [u8], link: &mut [u8]) -> u8 {
    match Bench::new(variant) {
        Err(check) => check,
        Ok(_) if bench.len() != BENCH_LENGTH || link.len() != LINK_LENGTH => BAD_LENGTH,
        Ok(fresh) => {
            put(&fresh, bench, link);
            0
        }
    }
}

/// The answer is 0 for 'done' or 1 for 'again', then number and total.
pub fn arrive(bench: &mut [u8], link: &mut [u8], sent: &[u8], answer: &mut [u32]) -> u8 {
    if bench.len() != BENCH_LENGTH {
        return BAD_LENGTH;
    }
    let mut model = match bench_in(bench, link) {
        Ok(model) => model,
        Err(check) => return check,
    };
    if link.len() != LINK_LENGTH || answer.len() != 3 {
        return BAD_LENGTH;
    }
    match model.arrive(sent) {
        Reply::Done { number, total } => {
            put(&model, bench, link);
            answer.copy_from_slice(&[0, number, total]);
            0
        }
        Reply::Again { number, total } => {
            answer.copy_from_slice(&[1, number, total]);
            0
        }
        Reply::Refused(check) => check,
    }
}

/// Gives the record to a copy of the memory: the answer is [`arrive`]'s, and `room` gets the copy of the
/// bench, whether the record is refused or not. With a bench or a room of another length, nothing is
/// written. The room's length is looked at after check 1, as that of link, answer and record is.
pub fn preview(bench: &[u8], link: &[u8], sent: &[u8], answer: &mut [u32], room: &mut [u8]) -> u8 {
    let (mut bench, mut link, mut words) = (bench.to_vec(), link.to_vec(), answer.to_vec());
    let status = arrive(&mut bench, &mut link, sent, &mut words);
    if bench.len() != BENCH_LENGTH || room.len() != BENCH_LENGTH {
        return match status {
            BAD_VARIANT => BAD_VARIANT,
            _ => BAD_LENGTH,
        };
    }
    room.copy_from_slice(&bench);
    answer.copy_from_slice(&words);
    status
}

/// The answer is the position, then the registers.
pub fn read(bench: &[u8], lane: u64, answer: &mut [u64]) -> u8 {
    if bench.len() != BENCH_LENGTH {
        return BAD_LENGTH;
    }
    let model = match bench_in(bench, &[]) {
        Ok(model) => model,
        Err(check) => return check,
    };
    if answer.len() != 2 {
        return BAD_LENGTH;
    }
    match model.read(lane) {
        Reading::At {
            position,
            registers,
        } => {
            answer.copy_from_slice(&[position as u64, registers]);
            0
        }
        Reading::Refused(check) => check,
    }
}

/// The output is a number for each lane: its registers where the mask names it and it is loaded, and 0
/// otherwise. `shown` is the mask of the named loaded lanes.
pub fn screen(bench: &[u8], mask: u64, out: &mut [u64], shown: &mut [u64]) -> u8 {
    if bench.len() != BENCH_LENGTH {
        return BAD_LENGTH;
    }
    let model = match bench_in(bench, &[]) {
        Ok(model) => model,
        Err(check) => return check,
    };
    if out.len() != LANES || shown.len() != 1 {
        return BAD_LENGTH;
    }
    match model.screen(mask) {
        Screen::Shows { registers, lanes } => {
            out.copy_from_slice(&registers);
            shown[0] = lanes;
            0
        }
        Screen::Refused(check) => check,
    }
}

#[cfg(test)]
mod tests {
    use super::*;
    use crate::bench::{clear, forward, load};

    /// KATAN32, lane 0 loaded with the zero block under a key of ones, and lane 9 cleared. What was in
    /// the memory before is 0x77.
    fn memory() -> (Vec<u8>, Vec<u8>) {
        let (mut bench, mut link) = (vec![0x77; BENCH_LENGTH], vec![0x77; LINK_LENGTH]);
        assert_eq!(open(1, &mut bench, &mut link), 0);
        let records = [
            load(1, 0, 0, &[0xff; 10], 0),
            load(2, 9, 3, &[0x5a; 10], 8),
            clear(3, 1 << 9),
        ];
        for sent in records {
            assert_eq!(arrive(&mut bench, &mut link, &sent, &mut [0; 3]), 0);
        }
        (bench, link)
    }

    /// Status, answer and room, of 3 words and so many bytes that held something else.
    fn shown(bench: &[u8], link: &[u8], sent: &[u8], size: usize) -> (u8, [u32; 3], Vec<u8>) {
        let (mut answer, mut room) = ([7; 3], vec![0x99; size]);
        let status = preview(bench, link, sent, &mut answer, &mut room);
        (status, answer, room)
    }

    /// Document 01's all-ones key at positions 1 to 5, each previewed from position 0.
    #[test]
    fn previews_of_steps() {
        let (bench, link) = memory();
        let registers: [u32; 5] = [0x00080001, 0x00180003, 0x00380007, 0x0078000f, 0x00f8001e];
        for (count, registers) in (1..).zip(registers) {
            let sent = forward(4, 1, count);
            let mut expected = bench.clone();
            expected[2] = count;
            expected[13..17].copy_from_slice(&registers.to_le_bytes());
            let (status, answer, room) = shown(&bench, &link, &sent, BENCH_LENGTH);
            assert_eq!((status, answer), (0, [0, 4, count as u32]));
            assert!(room == expected, "{count}");
            // The cleared lane's old key is shown too, and what no lane has ever held.
            assert_eq!(
                room[181..193],
                [0, 3, 90, 90, 90, 90, 90, 90, 90, 90, 90, 90]
            );
            assert_eq!(room[21..25], [0, 0x77, 0x77, 0x77]);
        }
    }

    /// A repeat and refused records show the bench's own bytes; so does a damaged bench.
    #[test]
    fn previews_that_alter_nothing() {
        let (bench, link) = memory();
        let repeat = clear(3, 1 << 9);
        let again = shown(&bench, &link, &repeat, BENCH_LENGTH);
        assert_eq!(again, (0, [1, 3, 0], bench.clone()));
        let refused = [
            (2, vec![]),
            (8, clear(4, 0)),
            (9, forward(5, 1, 1)),
            (10, clear(3, 1 << 8)),
        ];
        for (check, sent) in refused {
            let expected = (check, [7; 3], bench.clone());
            assert_eq!(shown(&bench, &link, &sent, BENCH_LENGTH), expected);
        }
        for (at, byte) in [(0, 7), (1, 2), (2, 255), (17, 1)] {
            let mut damaged = bench.clone();
            damaged[at] = byte;
            let expected = (1, [7; 3], damaged.clone());
            assert_eq!(shown(&damaged, &link, &repeat, BENCH_LENGTH), expected);
            assert_eq!(shown(&damaged, &link[1..], &repeat, BENCH_LENGTH), expected);
        }
    }

    /// Nothing is written without a whole bench or room; a damaged bench is found before the room.
    #[test]
    fn previews_of_other_lengths() {
        let (bench, link) = memory();
        let sent = forward(4, 1, 5);
        let mut damaged = bench.clone();
        damaged[0] = 0;
        for size in [0, BENCH_LENGTH - 1, BENCH_LENGTH + 1] {
            let nothing = |check| (check, [7; 3], vec![0x99; size]);
            assert_eq!(shown(&bench, &link, &sent, size), nothing(2));
            assert_eq!(shown(&damaged, &link, &sent, size), nothing(1));
            assert_eq!(shown(&damaged[1..], &link, &sent, size), nothing(2));
        }
        let (status, answer, room) = shown(&bench[1..], &link, &sent, BENCH_LENGTH);
        assert_eq!(
            (status, answer, room),
            (2, [7; 3], vec![0x99; BENCH_LENGTH])
        );
        assert_eq!(
            shown(&bench, &link[1..], &sent, BENCH_LENGTH),
            (2, [7; 3], bench.clone())
        );
        let (mut answer, mut room) = ([7; 4], vec![0x99; BENCH_LENGTH]);
        assert_eq!(preview(&bench, &link, &sent, &mut answer, &mut room), 2);
        assert!(answer == [7; 4] && room == bench);
    }

    /// Status, output and mask shown, of so many words that held something else.
    fn on_screen(bench: &[u8], mask: u64, out: usize, shown: usize) -> (u8, Vec<u64>, Vec<u64>) {
        let (mut out, mut shown) = (vec![0x99; out], vec![0x55; shown]);
        let status = screen(bench, mask, &mut out, &mut shown);
        (status, out, shown)
    }

    /// Lane 0 is shown after a step. Nothing is shown of the cleared lane, which keeps its bytes, nor of
    /// lanes that were never loaded.
    #[test]
    fn screens_of_memory() {
        let (mut bench, mut link) = memory();
        let step = forward(4, 1, 5);
        assert_eq!(arrive(&mut bench, &mut link, &step, &mut [0; 3]), 0);
        let mut registers = vec![0; LANES];
        registers[0] = 0x00f8001e;
        for mask in [1, 3, 1 << 9 | 1, u64::MAX] {
            let expected = (0, registers.clone(), vec![1]);
            assert_eq!(on_screen(&bench, mask, LANES, 1), expected, "{mask:x}");
        }
        for mask in [2, 1 << 9, 1 << 63, !1] {
            let expected = (0, vec![0; LANES], vec![0]);
            assert_eq!(on_screen(&bench, mask, LANES, 1), expected, "{mask:x}");
        }
    }

    /// The bench's length, then the bench, then the other lengths, then the mask; a refusal writes
    /// nothing.
    #[test]
    fn screens_refused() {
        let (bench, _) = memory();
        // The byte written over, the bytes of the bench, the mask, the words of output and mask shown,
        // and the refusal's number.
        let sound = (0, 1);
        let cases = [
            (sound, 1281, 0, 64, 1, 8),
            (sound, 1281, 1, 63, 1, 2),
            (sound, 1281, 1, 65, 1, 2),
            (sound, 1281, 1, 64, 0, 2),
            (sound, 1281, 1, 64, 2, 2),
            (sound, 1281, 0, 0, 1, 2),
            (sound, 1280, 1, 64, 1, 2),
            (sound, 1282, 0, 64, 1, 2),
            ((0, 7), 1281, 1, 64, 1, 1),
            ((0, 0), 1281, 0, 63, 2, 1),
            ((0, 7), 1280, 0, 64, 1, 2),
            // Lane 1, which no mask here names: a state that is neither.
            ((21, 2), 1281, 1, 64, 1, 1),
            // Lane 0: a position over 254, a register bit at n.
            ((2, 255), 1281, 2, 64, 1, 1),
            ((17, 1), 1281, 2, 64, 0, 1),
            ((17, 1), 1282, 2, 64, 1, 2),
        ];
        for ((at, byte), bench_length, mask, out, shown, check) in cases {
            let mut damaged = bench.clone();
            damaged[at] = byte;
            damaged.resize(bench_length, 0);
            let expected = (check, vec![0x99; out], vec![0x55; shown]);
            assert_eq!(
                on_screen(&damaged, mask, out, shown),
                expected,
                "byte {at} is {byte}, {bench_length} bytes, mask {mask:x}"
            );
        }
        // The lane that was cleared may hold anything.
        let mut other = bench.clone();
        other[182..201].fill(0xff);
        assert_eq!(
            on_screen(&other, u64::MAX, LANES, 1),
            on_screen(&bench, u64::MAX, LANES, 1)
        );
    }
}
