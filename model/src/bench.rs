//! The bench of 64 lanes and its link: document 01's "One-block machine", "Records and turns" and
//! checks 1 to 11 of "Turned away", in the order of document 02, (vi); and the screen of document 02,
//! (viii). A lane's registers are computed from its key, block, load position and position whenever it
//! is read; they are not kept.

use crate::cipher::{registers_at, Variant, ROUNDS};

pub const LANES: usize = 64;

pub const RECORD_LENGTH: usize = 40;

pub const LOAD: u8 = 1;
pub const FORWARD: u8 = 2;
pub const BACK: u8 = 3;
pub const CLEAR: u8 = 4;

/// The answer to an arrival.
#[derive(Clone, Copy, Debug, PartialEq, Eq)]
pub enum Reply {
    Done { number: u32, total: u32 },
    Again { number: u32, total: u32 },
    Refused(u8),
}

/// The answer to a read.
#[derive(Clone, Copy, Debug, PartialEq, Eq)]
pub enum Reading {
    At { position: u8, registers: u64 },
    Refused(u8),
}

/// The answer to a read of every lane in a mask: 64 numbers, and the mask of the lanes whose registers are
/// among them.
#[derive(Clone, Copy, Debug, PartialEq, Eq)]
pub enum Screen {
    Shows { registers: [u64; LANES], lanes: u64 },
    Refused(u8),
}

/// The one-block machine of a lane: q is the load position, p the position.
#[derive(Clone, Copy, Debug, PartialEq, Eq)]
enum Machine {
    Empty,
    Loaded {
        key: [u8; 10],
        block: u64,
        q: u8,
        p: u8,
    },
}

impl Machine {
    /// Forward c; gives the positions moved.
    fn forward(&mut self, c: u8) -> u32 {
        match self {
            Machine::Empty => 0,
            Machine::Loaded { p, .. } => {
                let old = *p as u32;
                let new = (old + c as u32).min(ROUNDS as u32);
                *p = new as u8;
                new - old
            }
        }
    }

    /// Back c; gives the positions moved.
    fn back(&mut self, c: u8) -> u32 {
        match self {
            Machine::Empty => 0,
            Machine::Loaded { p, .. } => {
                let old = *p as i32;
                let new = (old - c as i32).max(0);
                *p = new as u8;
                (old - new) as u32
            }
        }
    }
}

/// A number, low byte first.
fn number_of(bytes: &[u8]) -> u64 {
    let mut number = 0;
    for (i, byte) in bytes.iter().enumerate() {
        number |= (*byte as u64) << (8 * i);
    }
    number
}

/// The fields of a record.
struct Fields {
    kind: u8,
    lane: u8,
    /// A load's position or a move's count.
    amount: u8,
    /// Byte 3 and bytes 34 to 39.
    zero_bytes: Vec<u8>,
    number: u32,
    mask: u64,
    key: [u8; 10],
    block: u64,
}

impl Fields {
    fn of(bytes: &[u8; RECORD_LENGTH]) -> Fields {
        Fields {
            kind: bytes[0],
            lane: bytes[1],
            amount: bytes[2],
            zero_bytes: [&bytes[3..4], &bytes[34..40]].concat(),
            number: number_of(&bytes[4..8]) as u32,
            mask: number_of(&bytes[8..16]),
            key: bytes[16..26].try_into().unwrap(),
            block: number_of(&bytes[26..34]),
        }
    }

    /// Whether a field that this kind does not use is not zero.
    fn unused_is_set(&self) -> bool {
        let lane = self.lane != 0;
        let amount = self.amount != 0;
        let mask = self.mask != 0;
        let key = self.key != [0; 10];
        let block = self.block != 0;
        match self.kind {
            LOAD => mask,
            FORWARD | BACK => lane || key || block,
            CLEAR => lane || amount || key || block,
            _ => false,
        }
    }

    fn names(&self, lane: usize) -> bool {
        if self.kind == LOAD {
            lane == self.lane as usize
        } else {
            self.mask >> lane & 1 == 1
        }
    }
}

/// What a loaded lane holds.
#[derive(Clone, Copy, Debug, PartialEq, Eq)]
pub struct Lane {
    pub key: [u8; 10],
    pub position: u8,
    pub registers: u64,
}

/// What the link remembers: the last counted number, its record and its total.
#[derive(Clone)]
struct Link {
    last: u32,
    record: Vec<u8>,
    total: u32,
}

/// A bench with its link.
#[derive(Clone)]
pub struct Bench {
    variant: Variant,
    machines: [Machine; LANES],
    link: Link,
}

impl Bench {
    /// A fresh bench with a fresh link. 1: the variant is not 1 to 6.
    pub fn new(variant: u8) -> Result<Bench, u8> {
        match Variant::from_number(variant) {
            None => Err(1),
            Some(variant) => Ok(Bench {
                variant,
                machines: [Machine::Empty; LANES],
                link: Link {
                    last: 0,
                    record: Vec::new(),
                    total: 0,
                },
            }),
        }
    }

    /// A bench and link as they are handed in. 1: the variant is not 1 to 6, or a loaded lane has a
    /// position over 254 or a register bit set at n or above.
    pub fn from_lanes(
        variant: u8,
        lanes: &[Option<Lane>; LANES],
        last: u32,
        record: &[u8; RECORD_LENGTH],
        total: u32,
    ) -> Result<Bench, u8> {
        let mut bench = Bench::new(variant)?;
        for (machine, lane) in bench.machines.iter_mut().zip(lanes) {
            let Some(lane) = lane else { continue };
            if lane.position > ROUNDS || !bench.variant.is_block(lane.registers) {
                return Err(1);
            }
            *machine = Machine::Loaded {
                key: lane.key,
                block: lane.registers,
                q: lane.position,
                p: lane.position,
            };
        }
        bench.link = Link {
            last,
            record: record.to_vec(),
            total,
        };
        Ok(bench)
    }

    /// What a lane from 0 to 63 holds; none where it is empty.
    pub fn lane(&self, lane: usize) -> Option<Lane> {
        match (self.machines[lane], self.read(lane as u64)) {
            (
                Machine::Loaded { key, .. },
                Reading::At {
                    position,
                    registers,
                },
            ) => Some(Lane {
                key,
                position,
                registers,
            }),
            _ => None,
        }
    }

    pub fn variant(&self) -> Variant {
        self.variant
    }

    /// The total of the latest counted record; 0 if none has counted.
    pub fn total(&self) -> u32 {
        self.link.total
    }

    /// The last counted number; 0 if none has counted.
    pub fn last(&self) -> u32 {
        self.link.last
    }

    /// The latest counted record; no bytes if none has counted.
    pub fn latest(&self) -> &[u8] {
        &self.link.record
    }

    /// The arrival of a record.
    pub fn arrive(&mut self, bytes: &[u8]) -> Reply {
        // 2: a record is not 40 bytes.
        let Ok(record) = <&[u8; RECORD_LENGTH]>::try_from(bytes) else {
            return Reply::Refused(2);
        };
        let fields = Fields::of(record);
        for check in [9, 10, 3, 4, 5, 6, 7, 8] {
            if self.meets(check, &fields, bytes) {
                return Reply::Refused(check);
            }
        }
        if fields.number == self.link.last {
            return Reply::Again {
                number: self.link.last,
                total: self.link.total,
            };
        }
        let total = self.step(&fields);
        self.link = Link {
            last: fields.number,
            record: bytes.to_vec(),
            total,
        };
        Reply::Done {
            number: fields.number,
            total,
        }
    }

    /// Whether a record of 40 bytes that meets no earlier check meets this one.
    fn meets(&self, check: u8, record: &Fields, bytes: &[u8]) -> bool {
        let is_move = record.kind == FORWARD || record.kind == BACK;
        let last = self.link.last;
        match check {
            3 => !(1..=4).contains(&record.kind),
            4 => record.unused_is_set() || record.zero_bytes.iter().any(|byte| *byte != 0),
            5 => record.kind == LOAD && record.lane > 63,
            6 => {
                (record.kind == LOAD && record.amount > ROUNDS)
                    || (is_move && (record.amount == 0 || record.amount > ROUNDS))
            }
            7 => record.kind == LOAD && !self.variant.is_block(record.block),
            8 => (is_move || record.kind == CLEAR) && record.mask == 0,
            9 => {
                let next = record.number as u64 == last as u64 + 1;
                let repeat = record.number == last && last != 0;
                !next && !repeat
            }
            10 => record.number == last && bytes != self.link.record,
            _ => unreachable!(),
        }
    }

    /// Steps the machines of the lanes that a counted record names; gives its total.
    fn step(&mut self, record: &Fields) -> u32 {
        let mut total = 0;
        for (lane, machine) in self.machines.iter_mut().enumerate() {
            if !record.names(lane) {
                continue;
            }
            match record.kind {
                LOAD => {
                    *machine = Machine::Loaded {
                        key: record.key,
                        block: record.block,
                        q: record.amount,
                        p: record.amount,
                    }
                }
                FORWARD => total += machine.forward(record.amount),
                BACK => total += machine.back(record.amount),
                CLEAR => *machine = Machine::Empty,
                _ => unreachable!(),
            }
        }
        total
    }

    /// Whether a lane from 0 to 63 is empty.
    pub fn is_empty(&self, lane: u64) -> bool {
        self.machines[lane as usize] == Machine::Empty
    }

    /// The position of a lane from 0 to 63; none where it is empty.
    pub fn position(&self, lane: usize) -> Option<u8> {
        match self.machines[lane] {
            Machine::Empty => None,
            Machine::Loaded { p, .. } => Some(p),
        }
    }

    /// A lane's position and registers. 5: the lane is over 63; 11: it is empty.
    pub fn read(&self, lane: u64) -> Reading {
        if lane > 63 {
            return Reading::Refused(5);
        }
        match self.machines[lane as usize] {
            Machine::Empty => Reading::Refused(11),
            Machine::Loaded { key, block, q, p } => Reading::At {
                position: p,
                registers: registers_at(self.variant, &key, q, p, block),
            },
        }
    }

    /// The registers of each named lane that is loaded, 0 for every other lane, and the mask of the named
    /// loaded lanes. 8: the mask is 0.
    pub fn screen(&self, mask: u64) -> Screen {
        if mask == 0 {
            return Screen::Refused(8);
        }
        let (mut registers, mut lanes) = ([0; LANES], 0);
        for (lane, machine) in self.machines.iter().enumerate() {
            let named = mask >> lane & 1 == 1;
            if let (true, Machine::Loaded { key, block, q, p }) = (named, machine) {
                registers[lane] = registers_at(self.variant, key, *q, *p, *block);
                lanes |= 1 << lane;
            }
        }
        Screen::Shows { registers, lanes }
    }
}

fn put(record: &mut [u8], at: usize, bytes: &[u8]) {
    record[at..at + bytes.len()].copy_from_slice(bytes);
}

/// The bytes of a load.
pub fn load(number: u32, lane: u8, position: u8, key: &[u8; 10], block: u64) -> Vec<u8> {
    let mut record = vec![0; RECORD_LENGTH];
    put(&mut record, 0, &[LOAD, lane, position]);
    put(&mut record, 4, &number.to_le_bytes());
    put(&mut record, 16, key);
    put(&mut record, 26, &block.to_le_bytes());
    record
}

fn masked(kind: u8, number: u32, mask: u64, count: u8) -> Vec<u8> {
    let mut record = vec![0; RECORD_LENGTH];
    put(&mut record, 0, &[kind, 0, count]);
    put(&mut record, 4, &number.to_le_bytes());
    put(&mut record, 8, &mask.to_le_bytes());
    record
}

/// The bytes of a forward.
pub fn forward(number: u32, mask: u64, count: u8) -> Vec<u8> {
    masked(FORWARD, number, mask, count)
}

/// The bytes of a back.
pub fn back(number: u32, mask: u64, count: u8) -> Vec<u8> {
    masked(BACK, number, mask, count)
}

/// The bytes of a clear.
pub fn clear(number: u32, mask: u64) -> Vec<u8> {
    masked(CLEAR, number, mask, 0)
}

/// The record with another number.
pub fn numbered(record: &[u8], number: u32) -> Vec<u8> {
    let mut record = record.to_vec();
    put(&mut record, 4, &number.to_le_bytes());
    record
}

/// Whether a record of 40 bytes names a lane from 0 to 63.
pub fn names(record: &[u8], lane: usize) -> bool {
    Fields::of(record.try_into().unwrap()).names(lane)
}

#[cfg(test)]
mod tests {
    use super::Reply::*;
    use super::*;
    use crate::random::Random;

    const ONES: [u8; 10] = [0xff; 10];
    const ZERO: [u8; 10] = [0; 10];
    const ALL: u64 = u64::MAX;

    fn done(number: u32, total: u32) -> Reply {
        Done { number, total }
    }

    fn again(number: u32, total: u32) -> Reply {
        Again { number, total }
    }

    fn at(position: u8, registers: u64) -> Reading {
        Reading::At {
            position,
            registers,
        }
    }

    fn readings(bench: &Bench) -> Vec<Reading> {
        (0..64).map(|lane| bench.read(lane)).collect()
    }

    /// Arrival and answer, with a check that a refusal or repeat alters neither bench nor link.
    fn arrive(bench: &mut Bench, bytes: &[u8]) -> Reply {
        let machines = bench.machines;
        let link = (bench.last(), bench.latest().to_vec(), bench.link.total);
        let reply = bench.arrive(bytes);
        if !matches!(reply, Done { .. }) {
            assert_eq!(bench.machines, machines);
            assert_eq!(
                (bench.last(), bench.latest().to_vec(), bench.link.total),
                link
            );
        }
        reply
    }

    #[test]
    fn variants() {
        for variant in 0..=255 {
            let bench = Bench::new(variant);
            assert_eq!(bench.is_ok(), (1..=6).contains(&variant));
            assert!(bench.is_ok() || bench.err() == Some(1));
        }
    }

    /// The layout of document 01, byte by byte.
    #[test]
    fn record_bytes() {
        let hex =
            |bytes: Vec<u8>| -> String { bytes.iter().map(|byte| format!("{byte:02x}")).collect() };
        let key: [u8; 10] = std::array::from_fn(|i| 0xa0 + i as u8);
        assert_eq!(
            hex(load(0x04030201, 63, 254, &key, 0x1817161514131211)),
            "013ffe00 01020304 0000000000000000 a0a1a2a3a4a5a6a7a8a9 1112131415161718 000000000000"
                .replace(' ', "")
        );
        assert_eq!(
            hex(forward(1, 0x8000000000000002, 5)),
            "02000500 01000000 0200000000000080 00000000000000000000 0000000000000000 000000000000"
                .replace(' ', "")
        );
        assert_eq!(back(1, 2, 5)[0], 3);
        assert_eq!(back(1, 2, 5)[1..], forward(1, 2, 5)[1..]);
        assert_eq!(
            hex(clear(256, 0x0102)),
            "04000000 00010000 0201000000000000 00000000000000000000 0000000000000000 000000000000"
                .replace(' ', "")
        );
        // A number is written over the old one and over nothing else.
        assert_eq!(
            numbered(&load(u32::MAX, 63, 254, &key, u64::MAX), 0x04030201),
            load(0x04030201, 63, 254, &key, u64::MAX)
        );
    }

    #[test]
    fn script_sample() {
        let mut bench = Bench::new(1).unwrap();
        assert_eq!(arrive(&mut bench, &load(1, 0, 0, &ONES, 0)), done(1, 0));
        assert_eq!(arrive(&mut bench, &forward(2, 1, 5)), done(2, 5));
        assert_eq!(arrive(&mut bench, &forward(2, 1, 5)), again(2, 5));
        assert_eq!(bench.read(0), at(5, 0x00f8001e));
    }

    #[test]
    fn fresh_link() {
        let mut bench = Bench::new(1).unwrap();
        assert_eq!(arrive(&mut bench, &load(0, 0, 0, &ZERO, 0)), Refused(9));
        assert_eq!(arrive(&mut bench, &load(1, 0, 0, &ZERO, 0)), done(1, 0));
        assert_eq!(arrive(&mut bench, &forward(3, 1, 1)), Refused(9));
    }

    #[test]
    fn lanes() {
        let mut bench = Bench::new(2).unwrap();
        assert_eq!(readings(&bench), [Reading::Refused(11); 64]);
        assert_eq!(arrive(&mut bench, &load(1, 63, 9, &ONES, 7)), done(1, 0));
        assert_eq!(arrive(&mut bench, &load(2, 64, 9, &ONES, 7)), Refused(5));
        assert_eq!(bench.read(63), at(9, 7));
        for lane in [64, 127, 255, 256, 319, 1 << 32, (1 << 32) + 63, u64::MAX] {
            assert_eq!(bench.read(lane), Reading::Refused(5));
        }
        assert_eq!(bench.read(62), Reading::Refused(11));
        assert_eq!(arrive(&mut bench, &clear(2, 1 << 63)), done(2, 0));
        assert_eq!(bench.read(63), Reading::Refused(11));
    }

    #[test]
    fn counts() {
        let mut bench = Bench::new(1).unwrap();
        assert_eq!(arrive(&mut bench, &load(1, 0, 0, &ZERO, 0)), done(1, 0));
        assert_eq!(arrive(&mut bench, &forward(2, 1, 255)), Refused(6));
        assert_eq!(arrive(&mut bench, &forward(2, 1, 0)), Refused(6));
        assert_eq!(arrive(&mut bench, &forward(2, 1, 254)), done(2, 254));
        assert_eq!(arrive(&mut bench, &back(3, 1, 255)), Refused(6));
        assert_eq!(arrive(&mut bench, &back(3, 1, 0)), Refused(6));
        assert_eq!(arrive(&mut bench, &back(3, 1, 254)), done(3, 254));
        assert_eq!(arrive(&mut bench, &load(4, 0, 255, &ZERO, 0)), Refused(6));
        assert_eq!(arrive(&mut bench, &load(4, 0, 254, &ZERO, 0)), done(4, 0));
    }

    /// A lane waits at either end, and only the positions moved count.
    #[test]
    fn totals() {
        for variant in 1..=6 {
            let mut bench = Bench::new(variant).unwrap();
            assert_eq!(arrive(&mut bench, &load(1, 3, 0, &ONES, 1)), done(1, 0));
            assert_eq!(arrive(&mut bench, &forward(2, 8, 200)), done(2, 200));
            assert_eq!(arrive(&mut bench, &forward(3, 8, 200)), done(3, 54));
            assert_eq!(arrive(&mut bench, &forward(4, 8, 200)), done(4, 0));
            assert_eq!(arrive(&mut bench, &load(5, 5, 10, &ONES, 1)), done(5, 0));
            // From 254 and 10: 100 and 10 positions; the other 62 lanes are empty.
            assert_eq!(arrive(&mut bench, &back(6, ALL, 100)), done(6, 110));
            assert_eq!(arrive(&mut bench, &back(7, ALL, 254)), done(7, 154));
            assert_eq!(arrive(&mut bench, &back(8, ALL, 254)), done(8, 0));
            assert_eq!(arrive(&mut bench, &forward(9, !0x28, 9)), done(9, 0));
            assert_eq!(arrive(&mut bench, &forward(10, ALL, 9)), done(10, 18));
            assert_eq!(arrive(&mut bench, &clear(11, ALL)), done(11, 0));
            assert_eq!(arrive(&mut bench, &forward(12, ALL, 9)), done(12, 0));
            assert_eq!(readings(&bench), [Reading::Refused(11); 64]);
        }
    }

    #[test]
    fn largest_total() {
        let mut bench = Bench::new(4).unwrap();
        for lane in 0..64 {
            let number = lane as u32 + 1;
            arrive(&mut bench, &load(number, lane, 0, &ONES, 0));
        }
        let reply = arrive(&mut bench, &forward(65, ALL, 254));
        assert_eq!(reply, done(65, 64 * 254));
    }

    #[test]
    fn repeats() {
        let mut bench = Bench::new(3).unwrap();
        let first = load(1, 7, 100, &ONES, 5);
        let second = forward(2, 1 << 7, 20);
        assert_eq!(arrive(&mut bench, &first), done(1, 0));
        assert_eq!(arrive(&mut bench, &first), again(1, 0));
        assert_eq!(arrive(&mut bench, &second), done(2, 20));
        assert_eq!(arrive(&mut bench, &second), again(2, 20));
        assert_eq!(arrive(&mut bench, &second), again(2, 20));
        // Older; the same number with other bytes; another length; a refusal between.
        assert_eq!(arrive(&mut bench, &first), Refused(9));
        assert_eq!(arrive(&mut bench, &forward(2, 1 << 7, 21)), Refused(10));
        assert_eq!(arrive(&mut bench, &back(2, 1 << 7, 20)), Refused(10));
        assert_eq!(arrive(&mut bench, &second[..39]), Refused(2));
        assert_eq!(
            arrive(&mut bench, &[&second[..], &[0]].concat()),
            Refused(2)
        );
        assert_eq!(arrive(&mut bench, &second), again(2, 20));
        // The same bytes in turn count.
        assert_eq!(arrive(&mut bench, &forward(3, 1 << 7, 20)), done(3, 20));
        assert_eq!(arrive(&mut bench, &second), Refused(9));
    }

    /// The last number of all takes nothing but a repeat.
    #[test]
    fn last_number() {
        let mut bench = Bench::new(1).unwrap();
        bench.link.last = u32::MAX - 1;
        let record = forward(u32::MAX, 1, 1);
        assert_eq!(arrive(&mut bench, &record), done(u32::MAX, 0));
        assert_eq!(arrive(&mut bench, &record), again(u32::MAX, 0));
        for number in [0, 1, u32::MAX - 1] {
            assert_eq!(arrive(&mut bench, &forward(number, 1, 1)), Refused(9));
        }
        assert_eq!(arrive(&mut bench, &forward(u32::MAX, 2, 1)), Refused(10));
    }

    /// Each byte that a kind does not use gives 4 when set, and no byte that it uses does.
    #[test]
    fn unused_fields() {
        let records = [
            load(1, 1, 1, &ONES, 1),
            forward(1, 1, 1),
            back(1, 1, 1),
            clear(1, 1),
        ];
        for record in records {
            let used: Vec<usize> = match record[0] {
                LOAD => [0, 1, 2].into_iter().chain(4..8).chain(16..34).collect(),
                FORWARD | BACK => [0, 2].into_iter().chain(4..16).collect(),
                _ => [0].into_iter().chain(4..16).collect(),
            };
            for i in 1..40 {
                for value in [1, 0x80, 0xff] {
                    let mut changed = record.clone();
                    changed[i] = value;
                    let reply = Bench::new(1).unwrap().arrive(&changed);
                    assert_eq!(reply == Refused(4), !used.contains(&i), "byte {i}");
                }
            }
        }
    }

    /// Records that meet check k and every later one that their kind can meet.
    #[test]
    fn order_of_checks() {
        let mut bench = Bench::new(1).unwrap();
        arrive(&mut bench, &load(1, 0, 0, &ZERO, 0));
        let wide = 1 << 32;

        let mut record = load(9, 64, 255, &ONES, wide);
        record[0] = 5;
        record[3] = 1;
        assert_eq!(arrive(&mut bench, &record[..39]), Refused(2));
        assert_eq!(arrive(&mut bench, &[]), Refused(2));
        assert_eq!(arrive(&mut bench, &record), Refused(9));
        record[4] = 1;
        assert_eq!(arrive(&mut bench, &record), Refused(10));
        record[4] = 2;
        assert_eq!(arrive(&mut bench, &record), Refused(3));
        record[0] = 1;
        assert_eq!(arrive(&mut bench, &record), Refused(4));
        record[3] = 0;
        assert_eq!(arrive(&mut bench, &record), Refused(5));
        record[1] = 0;
        assert_eq!(arrive(&mut bench, &record), Refused(6));
        record[2] = 0;
        assert_eq!(arrive(&mut bench, &record), Refused(7));
        record[30] = 0;
        assert_eq!(arrive(&mut bench, &record), done(2, 0));

        for kind in [FORWARD, BACK] {
            let last = bench.last();
            let mut record = masked(kind, last + 9, 0, 0);
            record[39] = 1;
            assert_eq!(arrive(&mut bench, &record), Refused(9));
            record[4] = last as u8;
            assert_eq!(arrive(&mut bench, &record), Refused(10));
            record[4] = last as u8 + 1;
            assert_eq!(arrive(&mut bench, &record), Refused(4));
            record[39] = 0;
            assert_eq!(arrive(&mut bench, &record), Refused(6));
            record[2] = 254;
            assert_eq!(arrive(&mut bench, &record), Refused(8));
            record[8] = 1;
            assert!(matches!(arrive(&mut bench, &record), Done { .. }));
        }

        let last = bench.last();
        let mut record = clear(last + 9, 0);
        record[2] = 255;
        assert_eq!(arrive(&mut bench, &record), Refused(9));
        record[4] = last as u8;
        assert_eq!(arrive(&mut bench, &record), Refused(10));
        record[4] = last as u8 + 1;
        assert_eq!(arrive(&mut bench, &record), Refused(4));
        record[2] = 0;
        assert_eq!(arrive(&mut bench, &record), Refused(8));
        record[15] = 0x80;
        assert!(matches!(arrive(&mut bench, &record), Done { .. }));
    }

    /// On a fresh link 40 zero bytes are out of turn before they are of no kind.
    #[test]
    fn zero_bytes_on_a_fresh_link() {
        let mut bench = Bench::new(1).unwrap();
        assert_eq!(arrive(&mut bench, &[0; 40]), Refused(9));
        let kind_0 = numbered(&[0; 40], 1);
        assert_eq!(arrive(&mut bench, &kind_0), Refused(3));
    }

    /// A link made by hand may remember a faulty record: its exact repeat gets the fault.
    #[test]
    fn faulty_record_remembered() {
        let faulty: [u8; 40] = forward(5, 1, 255).try_into().unwrap();
        let mut bench = Bench::from_lanes(1, &[None; LANES], 5, &faulty, 9).unwrap();
        assert_eq!(arrive(&mut bench, &faulty), Refused(6));
        assert_eq!(arrive(&mut bench, &forward(5, 2, 255)), Refused(10));
        assert_eq!(arrive(&mut bench, &forward(4, 1, 255)), Refused(9));
        assert_eq!(arrive(&mut bench, &forward(6, 1, 255)), Refused(6));
    }

    /// A block has to be below 2^n.
    #[test]
    fn block_widths() {
        for variant in Variant::ALL {
            let mut bench = Bench::new(variant.number()).unwrap();
            let largest = u64::MAX >> (64 - variant.width());
            if variant.width() < 64 {
                let record = load(1, 0, 0, &ZERO, largest + 1);
                assert_eq!(arrive(&mut bench, &record), Refused(7));
                let record = load(1, 0, 0, &ZERO, u64::MAX);
                assert_eq!(arrive(&mut bench, &record), Refused(7));
            }
            let record = load(1, 0, 0, &ZERO, largest);
            assert_eq!(arrive(&mut bench, &record), done(1, 0));
            assert_eq!(bench.read(0), at(0, largest));
        }
    }

    /// Lanes at different positions, a cleared one and others that were never loaded. The zero block
    /// under a zero key is zero at each position: only the mask tells it from an empty lane.
    #[test]
    fn screens() {
        let mut bench = Bench::new(1).unwrap();
        let records = [
            load(1, 0, 0, &ONES, 0),
            load(2, 1, 9, &ONES, 0xffff_ffff),
            load(3, 2, 100, &ZERO, 0),
            load(4, 63, 254, &ONES, 0x8000_0000),
            forward(5, 5, 5),
            clear(6, 2),
        ];
        for record in records {
            assert!(matches!(arrive(&mut bench, &record), Done { .. }));
        }
        let shows = |lanes| {
            let mut registers = [0; LANES];
            for (lane, shown) in [(0, 0x00f8001e), (63, 0x8000_0000)] {
                registers[lane] = (lanes >> lane & 1) * shown;
            }
            Screen::Shows { registers, lanes }
        };
        let cases = [
            (ALL, 1 << 63 | 5),
            (1, 1),
            (2, 0),
            (4, 4),
            (7, 5),
            (1 << 63, 1 << 63),
            (1 << 62, 0),
            (!(1 << 63 | 5), 0),
            (!1, 1 << 63 | 4),
        ];
        for (mask, lanes) in cases {
            assert_eq!(bench.screen(mask), shows(lanes), "{mask:x}");
        }
        assert_eq!(bench.screen(0), Screen::Refused(8));
    }

    /// A fresh bench shows no lane; a mask of 0 is refused there too.
    #[test]
    fn screens_of_a_fresh_bench() {
        let nothing = Screen::Shows {
            registers: [0; LANES],
            lanes: 0,
        };
        for variant in 1..=6 {
            let bench = Bench::new(variant).unwrap();
            for mask in (0..LANES).map(|lane| 1 << lane).chain([ALL]) {
                assert_eq!(bench.screen(mask), nothing, "{mask:x}");
            }
            assert_eq!(bench.screen(0), Screen::Refused(8));
        }
    }

    /// Request (viii): the registers given, and the named lanes left out as empty, are those of the single
    /// reads.
    #[test]
    fn screens_and_single_reads() {
        let mut random = Random::new(13);
        let (mut shown, mut left_out) = (0, 0);
        for variant in Variant::ALL {
            let mut bench = Bench::new(variant.number()).unwrap();
            for number in 1..=60 {
                let record = random_record(&mut random, variant.width());
                arrive(&mut bench, &numbered(&record, number));
                let mask = random.lanes() | 1 << random.below(LANES as u64);
                let Screen::Shows { registers, lanes } = bench.screen(mask) else {
                    panic!("{mask:x} is refused");
                };
                for (lane, given) in registers.into_iter().enumerate() {
                    let is_shown = lanes >> lane & 1 == 1;
                    match (mask >> lane & 1, bench.read(lane as u64)) {
                        (1, Reading::At { registers, .. }) => {
                            assert_eq!((is_shown, given), (true, registers));
                            shown += 1;
                        }
                        (1, reading) => {
                            assert_eq!(reading, Reading::Refused(11));
                            assert_eq!((is_shown, given), (false, 0));
                            left_out += 1;
                        }
                        _ => assert_eq!((is_shown, given), (false, 0)),
                    }
                }
            }
        }
        assert!(shown > 500 && left_out > 500, "{shown}, {left_out}");
    }

    /// A load at 0 read at 254 encrypts; the reverse decrypts.
    #[test]
    fn whole_encryptions() {
        for (variant, key, plaintext, ciphertext) in crate::vectors::PUBLISHED {
            let mut bench = Bench::new(variant.number()).unwrap();
            arrive(&mut bench, &load(1, 0, 0, &key, plaintext));
            arrive(&mut bench, &load(2, 1, 254, &key, ciphertext));
            assert_eq!(bench.read(0), at(0, plaintext));
            assert_eq!(bench.read(1), at(254, ciphertext));
            assert_eq!(arrive(&mut bench, &forward(3, 1, 254)), done(3, 254));
            assert_eq!(arrive(&mut bench, &back(4, 2, 254)), done(4, 254));
            assert_eq!(bench.read(0), at(254, ciphertext));
            assert_eq!(bench.read(1), at(0, plaintext));
        }
    }

    /// Below its load position a lane holds the state that forward carries to the block.
    #[test]
    fn below_the_load_position() {
        let mut random = Random::new(11);
        for variant in Variant::ALL {
            for (q, c) in [(1, 1), (254, 254), (254, 1), (100, 37), (200, 254)] {
                let mut bench = Bench::new(variant.number()).unwrap();
                let key = random.key();
                let block = random.bits(variant.width());
                arrive(&mut bench, &load(1, 0, q, &key, block));
                arrive(&mut bench, &back(2, 1, c));
                let Reading::At {
                    position,
                    registers,
                } = bench.read(0)
                else {
                    panic!("lane 0 is empty");
                };
                assert_eq!(position, q.saturating_sub(c));
                assert_eq!(registers_at(variant, &key, position, q, registers), block);
                // The same through a second lane, and back to q in the first.
                arrive(&mut bench, &load(3, 1, position, &key, registers));
                let count = q - position;
                let reply = arrive(&mut bench, &forward(4, 3, count));
                assert_eq!(reply, done(4, 2 * count as u32));
                assert_eq!(bench.read(0), at(q, block));
                assert_eq!(bench.read(1), at(q, block));
            }
        }
    }

    /// A record of random kind and lanes, numbered 0.
    fn random_record(random: &mut Random, width: u32) -> Vec<u8> {
        let mask = random.next_u64() | 1 << random.below(64);
        let count = random.below(254) as u8 + 1;
        match random.below(8) {
            0..=2 => {
                let lane = random.below(64) as u8;
                let position = random.below(255) as u8;
                load(0, lane, position, &random.key(), random.bits(width))
            }
            3 | 4 => forward(0, mask, count),
            5 | 6 => back(0, mask, count),
            _ => clear(0, mask & random.next_u64() & random.next_u64() | 1),
        }
    }

    /// A record that says the same of a lane as a given one, and otherwise something else.
    fn saying_the_same(record: &[u8], lane: usize, random: &mut Random, width: u32) -> Vec<u8> {
        if names(record, lane) {
            let mut other = record.to_vec();
            if record[0] != LOAD {
                let mask = random.next_u64() | 1 << lane;
                put(&mut other, 8, &mask.to_le_bytes());
            }
            return other;
        }
        loop {
            let mut other = random_record(random, width);
            if other[0] != LOAD {
                other[8 + lane / 8] &= !(1 << (lane % 8));
            }
            let names_some = other[0] == LOAD || other[8..16] != [0; 8];
            if names_some && !names(&other, lane) {
                return other;
            }
        }
    }

    /// Two lists whose counted records say the same of a lane leave it alike, whatever else
    /// arrives between.
    #[test]
    fn lanes_are_left_alike() {
        let mut random = Random::new(12);
        let mut loaded = 0;
        for variant in Variant::ALL {
            for _ in 0..20 {
                let lane = random.below(64) as usize;
                let width = variant.width();
                let mut one = Bench::new(variant.number()).unwrap();
                let mut two = Bench::new(variant.number()).unwrap();
                for number in 1..=60 {
                    let mut record = random_record(&mut random, width);
                    if record[0] == LOAD && random.bits(1) == 1 {
                        record[1] = lane as u8;
                    }
                    let other = saying_the_same(&record, lane, &mut random, width);
                    let record = numbered(&record, number);
                    let other = numbered(&other, number);
                    assert!(matches!(arrive(&mut one, &record), Done { .. }));
                    assert!(matches!(arrive(&mut two, &other), Done { .. }));
                    match random.below(4) {
                        0 => assert!(matches!(arrive(&mut two, &other), Again { .. })),
                        1 => {
                            let late = numbered(&other, number - 1);
                            assert_eq!(arrive(&mut two, &late), Refused(9));
                        }
                        _ => {}
                    }
                }
                assert_eq!(one.read(lane as u64), two.read(lane as u64));
                loaded += (one.read(lane as u64) != Reading::Refused(11)) as u32;
            }
        }
        assert!((20..120).contains(&loaded));
    }
}
