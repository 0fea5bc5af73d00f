//! Lists of calls of the bench, and the answers expected of it. One call a line:
//!
//! - `b V` opens a fresh bench and link of variant V; if that is refused, the bench and link
//!   before it stay. Answer: `bench V` or `refused 1`.
//! - `a HEX` is the arrival of a record's bytes, `-` for none. Answer: `done NUMBER TOTAL`,
//!   `again NUMBER TOTAL` or `refused K`.
//! - `r N` reads lane N. Answer: `at POSITION REGISTERS`, the registers as 16 digits, or
//!   `refused K`.

use crate::bench::{back, clear, forward, load, numbered, Bench, Lane, Reading, Reply, LANES};
use crate::bench::{BACK, CLEAR, FORWARD, LOAD, RECORD_LENGTH};
use crate::cipher::Variant;
use crate::exchange::{pair, pairs_of_kinds, totals, Met};
use crate::random::Random;
use std::fmt;

const ONES: [u8; 10] = [0xff; 10];
const ALL: u64 = u64::MAX;

/// The largest lane number read.
const LARGEST_LANE: u64 = 1 << 32;

/// The longest record.
const LONGEST: usize = 60;

#[derive(Clone, Debug, PartialEq, Eq)]
pub enum Call {
    Bench(u8),
    Arrive(Vec<u8>),
    Read(u64),
}

impl fmt::Display for Call {
    fn fmt(&self, f: &mut fmt::Formatter) -> fmt::Result {
        match self {
            Call::Bench(variant) => write!(f, "b {variant}"),
            Call::Arrive(bytes) if bytes.is_empty() => write!(f, "a -"),
            Call::Arrive(bytes) => {
                let digits: String = bytes.iter().map(|byte| format!("{byte:02x}")).collect();
                write!(f, "a {digits}")
            }
            Call::Read(lane) => write!(f, "r {lane}"),
        }
    }
}

fn reply_line(reply: Reply) -> String {
    match reply {
        Reply::Done { number, total } => format!("done {number} {total}"),
        Reply::Again { number, total } => format!("again {number} {total}"),
        Reply::Refused(number) => format!("refused {number}"),
    }
}

fn reading_line(reading: Reading) -> String {
    match reading {
        Reading::At {
            position,
            registers,
        } => format!("at {position} {registers:016x}"),
        Reading::Refused(number) => format!("refused {number}"),
    }
}

/// Every call with its answer, in the order of the input's lines.
pub fn lines() -> Vec<(Call, String)> {
    let mut lists = Lists {
        random: Random::new(0x62656e6368),
        bench: None,
        lines: Vec::new(),
    };
    lists.refused_benches();
    lists.script_sample();
    for variant in Variant::ALL {
        lists.document_cases(variant);
        lists.numbers(variant);
        lists.single_faults(variant);
        lists.pairs_of_faults(variant);
        lists.repeats(variant);
        lists.lanes_together(variant);
        lists.random_calls(variant);
        lists.refused_benches();
        lists.read_some(4);
    }
    let mut met = Met::default();
    for variant in Variant::ALL {
        for (i, kinds) in pairs_of_kinds().into_iter().enumerate() {
            // Few loads for most pairs keep the input short.
            let loads = if i % 4 == variant.number() as usize % 4 {
                12
            } else {
                3
            };
            lists.either_order(variant, kinds, loads, &mut met);
        }
    }
    met.assert_all();
    for variant in Variant::ALL {
        lists.turn_before_form(variant);
    }
    lists.lines
}

/// The lists as far as they are made, with the bench that the next call meets.
struct Lists {
    random: Random,
    bench: Option<Bench>,
    lines: Vec<(Call, String)>,
}

impl Lists {
    fn open(&mut self, variant: u8) {
        let answer = match Bench::new(variant) {
            Ok(bench) => {
                self.bench = Some(bench);
                format!("bench {variant}")
            }
            Err(number) => format!("refused {number}"),
        };
        self.lines.push((Call::Bench(variant), answer));
    }

    fn arrive(&mut self, record: Vec<u8>) -> Reply {
        let reply = self.bench.as_mut().unwrap().arrive(&record);
        self.lines.push((Call::Arrive(record), reply_line(reply)));
        reply
    }

    fn read(&mut self, lane: u64) -> Reading {
        let reading = self.bench().read(lane);
        self.lines.push((Call::Read(lane), reading_line(reading)));
        reading
    }

    fn call(&mut self, call: Call) {
        match call {
            Call::Bench(variant) => self.open(variant),
            Call::Arrive(record) => {
                self.arrive(record);
            }
            Call::Read(lane) => {
                self.read(lane);
            }
        }
    }

    fn read_all(&mut self) {
        for lane in 0..64 {
            self.read(lane);
        }
    }

    fn read_some(&mut self, count: u32) {
        for _ in 0..count {
            let lane = self.lane_to_read();
            self.read(lane);
        }
    }

    /// The first loaded lane of three random ones, or the third.
    fn lane_to_read(&mut self) -> u64 {
        let lanes = [(); 3].map(|_| self.random.below(64));
        let loaded = lanes.into_iter().find(|lane| !self.bench().is_empty(*lane));
        loaded.unwrap_or(lanes[2])
    }

    fn bench(&self) -> &Bench {
        self.bench.as_ref().unwrap()
    }

    fn variant(&self) -> Variant {
        self.bench().variant()
    }

    fn last(&self) -> u32 {
        self.bench().last()
    }

    fn next(&self) -> u32 {
        self.last() + 1
    }

    fn latest(&self) -> Vec<u8> {
        self.bench().latest().to_vec()
    }

    /// A faultless load, numbered last + 1.
    fn sound_load(&mut self, lane: u8, position: u8) -> Vec<u8> {
        let key = self.random.key();
        let block = self.random.bits(self.variant().width());
        load(self.next(), lane, position, &key, block)
    }

    /// A mask that is not 0: all lanes, one, few, or about half.
    fn mask(&mut self) -> u64 {
        let one = 1 << self.random.below(64);
        match self.random.below(4) {
            0 => ALL,
            1 => one,
            2 => one | (self.random.next_u64() & self.random.next_u64() & self.random.next_u64()),
            _ => one | self.random.next_u64(),
        }
    }

    /// A faultless record of a kind, numbered last + 1.
    fn sound(&mut self, kind: u8) -> Vec<u8> {
        let next = self.next();
        match kind {
            LOAD => {
                let lane = self.random.below(64) as u8;
                let position = self.random.position();
                self.sound_load(lane, position)
            }
            FORWARD => forward(next, self.mask(), self.random.count()),
            BACK => back(next, self.mask(), self.random.count()),
            _ => {
                let one = 1 << self.random.below(64);
                let few = self.mask() & self.random.next_u64() & self.random.next_u64();
                clear(next, one | few)
            }
        }
    }

    /// A bench with some lanes loaded.
    fn open_loaded(&mut self, variant: Variant) {
        self.open(variant.number());
        for lane in [0, 1, 31, 32, 62, 63] {
            let position = self.random.position();
            let record = self.sound_load(lane, position);
            self.arrive(record);
        }
    }

    fn refused_benches(&mut self) {
        for variant in [0, 7, 255] {
            self.open(variant);
        }
    }

    fn script_sample(&mut self) {
        self.open(1);
        self.arrive(load(1, 0, 0, &ONES, 0));
        self.arrive(forward(2, 1, 5));
        self.arrive(forward(2, 1, 5));
        self.read(0);
    }

    /// The unstarred bench cases of document 01.
    fn document_cases(&mut self, variant: Variant) {
        // The link.
        self.open(variant.number());
        self.arrive(vec![0; RECORD_LENGTH]);
        self.arrive(load(0, 0, 0, &ONES, 0));
        self.arrive(load(1, 0, 0, &ONES, 0));
        self.arrive(forward(3, 1, 5));
        self.read(0);
        // Lanes.
        self.open(variant.number());
        self.arrive(load(1, 63, 0, &ONES, 1));
        self.arrive(load(2, 64, 0, &ONES, 1));
        for lane in [0, 62, 63, 64] {
            self.read(lane);
        }
        // Counts.
        self.arrive(forward(2, 1 << 63, 254));
        self.read(63);
        self.arrive(back(3, 1 << 63, 255));
        self.arrive(back(3, 1 << 63, 254));
        self.arrive(forward(4, 1 << 63, 255));
        self.read(63);
        // Totals 200 and 54.
        self.open(variant.number());
        self.arrive(load(1, 0, 0, &ONES, 0));
        self.arrive(forward(2, 1, 200));
        self.read(0);
        self.arrive(forward(3, 1, 200));
        self.read(0);
    }

    /// Numbers around the last counted one, at both ends, and with their bytes reversed.
    fn numbers(&mut self, variant: Variant) {
        self.open(variant.number());
        for _ in 0..4 {
            let last = self.last();
            let wrong = [
                0,
                last,
                last + 2,
                last.wrapping_sub(1),
                (last + 1).swap_bytes(),
                (last + 1) | 0x100,
                (last + 1) | 0x10000,
                (last + 1) | 0x1000000,
                u32::MAX,
            ];
            for number in wrong {
                let kind = 1 + self.random.below(4) as u8;
                let record = numbered(&self.sound(kind), number);
                self.arrive(record);
            }
            let record = self.sound(LOAD);
            let lane = record[1] as u64;
            self.arrive(record);
            self.read(lane);
        }
    }

    /// Each fault that a kind can have by itself, in every form that is short to list.
    fn single_faults(&mut self, variant: Variant) {
        self.open(variant.number());
        // On a fresh bench and link.
        for kind in [LOAD, FORWARD, BACK, CLEAR] {
            for fault in faults(kind, variant) {
                if fault != 10 {
                    let record = self.spoiled(kind, &[fault]);
                    self.arrive(record);
                }
            }
        }
        self.open_loaded(variant);
        for length in [0, 1, 2, 16, 34, 38, 39, 41, 42, 59, LONGEST] {
            let mut record = self.sound(LOAD);
            record.resize(length, 0);
            self.arrive(record);
        }
        for kind in [0, 5, 6, 128, 129, 255] {
            let mut record = self.sound(FORWARD);
            record[0] = kind;
            self.arrive(record);
        }
        for kind in [LOAD, FORWARD, BACK, CLEAR] {
            for i in unused(kind) {
                let mut record = self.sound(kind);
                record[i] = self.nonzero_byte();
                self.arrive(record);
            }
            self.check_unaltered();
        }
        for lane in [64, 65, 127, 128, 192, 255] {
            let record = self.sound_load(lane, 3);
            self.arrive(record);
        }
        let record = self.sound_load(0, 255);
        self.arrive(record);
        for kind in [FORWARD, BACK] {
            for count in [0, 255] {
                let mut record = self.sound(kind);
                record[2] = count;
                self.arrive(record);
            }
        }
        for bit in variant.width()..64 {
            let mut record = self.sound(LOAD);
            record[26 + bit as usize / 8] |= 1 << (bit % 8);
            self.arrive(record);
        }
        for kind in [FORWARD, BACK, CLEAR] {
            let record = self.spoiled(kind, &[8]);
            self.arrive(record);
        }
        for kind in [LOAD, FORWARD, BACK, CLEAR] {
            for fault in [9, 9, 10, 10] {
                let record = self.spoiled(kind, &[fault]);
                self.arrive(record);
            }
        }
        self.check_unaltered();
        self.wrong_reads();
    }

    /// Reads that are refused: 5 for lanes over 63, 11 for an empty lane.
    fn wrong_reads(&mut self) {
        for lane in [64, 65, 95, 127, 128, 191, 255, 256, 287, 319, 511] {
            self.read(lane);
        }
        for bit in [12, 15, 16, 24, 31] {
            self.read(1 << bit);
        }
        self.read((1 << 31) + 63);
        self.read(LARGEST_LANE - 1);
        self.read(LARGEST_LANE);
        for lane in 0..64 {
            if self.bench().is_empty(lane) && self.random.below(4) == 0 {
                self.read(lane);
            }
        }
    }

    /// Some reads and an exact repeat, after calls that must not have altered anything.
    fn check_unaltered(&mut self) {
        for lane in [0, 1, 31, 32, 62, 63] {
            self.read(lane);
        }
        let latest = self.latest();
        self.arrive(latest);
    }

    /// Every two faults that one record of a kind can have. The one looked for first is the answer.
    fn pairs_of_faults(&mut self, variant: Variant) {
        self.open_loaded(variant);
        for kind in [LOAD, FORWARD, BACK, CLEAR] {
            let faults = faults(kind, variant);
            for (i, first) in faults.iter().enumerate() {
                for second in &faults[i + 1..] {
                    if (*first, *second) == (9, 10) {
                        continue;
                    }
                    let record = self.spoiled(kind, &[*first, *second]);
                    let reply = self.arrive(record);
                    assert_eq!(reply, Reply::Refused(first_of([*first, *second])));
                }
            }
            self.check_unaltered();
            let record = self.sound(kind);
            self.arrive(record);
        }
    }

    /// Each fault of form in a record that is out of turn, on a fresh link.
    fn turn_before_form(&mut self, variant: Variant) {
        self.open(variant.number());
        for kind in [LOAD, FORWARD, BACK, CLEAR] {
            let form = faults(kind, variant);
            for fault in form.into_iter().filter(|fault| (3..=8).contains(fault)) {
                let record = self.spoiled(kind, &[fault, 9]);
                assert_eq!(self.arrive(record), Reply::Refused(9));
            }
        }
        let record = self.sound(LOAD);
        self.arrive(record);
    }

    fn nonzero_byte(&mut self) -> u8 {
        match self.random.below(4) {
            0 => 1,
            1 => 0x80,
            _ => 1 + self.random.below(255) as u8,
        }
    }

    /// A record of a kind with the given faults, which are of those that `faults` gives.
    fn spoiled(&mut self, kind: u8, faults: &[u8]) -> Vec<u8> {
        let mut record = self.sound(kind);
        // The length last, for the others to have their bytes.
        for fault in faults.iter().rev() {
            self.spoil(kind, *fault, &mut record);
        }
        record
    }

    /// A record of a kind with one of its faults.
    fn faulty(&mut self, kind: u8) -> Vec<u8> {
        let faults = faults(kind, self.variant());
        let fault = faults[self.random.below(faults.len() as u64) as usize];
        self.spoiled(kind, &[fault])
    }

    fn spoil(&mut self, kind: u8, fault: u8, record: &mut Vec<u8>) {
        let last = self.last();
        match fault {
            2 => {
                let length = match self.random.below(3) {
                    0 => 39,
                    1 => 41,
                    _ => 42 + self.random.below(LONGEST as u64 - 41) as usize,
                };
                record.resize(length, 0);
            }
            3 => record[0] = (5 + self.random.below(252)) as u8,
            4 => {
                // Not the last, which a wrong length may take away.
                let unused = unused(kind);
                let i = self.random.below(unused.len() as u64 - 1) as usize;
                record[unused[i]] = self.nonzero_byte();
            }
            5 => record[1] = 64 + self.random.below(192) as u8,
            6 if kind == LOAD => record[2] = 255,
            6 => record[2] = [0, 255][self.random.below(2) as usize],
            7 => {
                let width = self.variant().width() as u64;
                let bit = width + self.random.below(64 - width);
                record[26 + bit as usize / 8] |= 1 << (bit % 8);
            }
            8 => record[8..16].fill(0),
            9 => {
                let number = loop {
                    let number = match self.random.below(6) {
                        0 => 0,
                        1 => last + 2,
                        2 => last.wrapping_sub(1),
                        3 => u32::MAX,
                        4 => self.random.below(last as u64 + 5) as u32,
                        _ => self.random.bits(32) as u32,
                    };
                    if number != last + 1 && (number != last || last == 0) {
                        break number;
                    }
                };
                *record = numbered(record, number);
            }
            10 => *record = numbered(record, last),
            _ => unreachable!(),
        }
    }

    /// Exact and near repeats after a record of each kind.
    fn repeats(&mut self, variant: Variant) {
        self.open_loaded(variant);
        for kind in [LOAD, FORWARD, BACK, CLEAR] {
            let older = self.latest();
            let record = match kind {
                LOAD => self.sound_load(7, 100),
                FORWARD => forward(self.next(), ALL, 3),
                BACK => back(self.next(), ALL, 5),
                _ => clear(self.next(), 1 << 31),
            };
            self.arrive(record.clone());
            self.arrive(record.clone());
            self.read(7);
            self.arrive(record.clone());
            // An older record, and older ones renumbered.
            self.arrive(older.clone());
            self.arrive(record.clone());
            self.arrive(numbered(&older, self.last()));
            self.arrive(record.clone());
            // The same with one byte changed, and with a byte lost or added.
            for i in 0..40 {
                let used = !unused(kind).contains(&i);
                if used && !(4..8).contains(&i) || i == 3 || i == 39 {
                    let mut near = record.clone();
                    near[i] ^= 1 << self.random.below(8);
                    self.arrive(near);
                }
            }
            let mut near = record.clone();
            near[0] = match kind {
                FORWARD => BACK,
                BACK => FORWARD,
                _ => 0,
            };
            self.arrive(near);
            self.arrive(record[..39].to_vec());
            self.arrive([&record[..], &[0]].concat());
            self.arrive(record.clone());
            // Other numbers.
            for number in [0, self.last() - 1, self.last() + 2, u32::MAX] {
                self.arrive(numbered(&record, number));
            }
            self.arrive(record.clone());
            self.read_some(4);
            // The same in turn counts, and leaves the first behind.
            self.arrive(numbered(&record, self.next()));
            self.arrive(record);
            self.read(7);
        }
    }

    /// All lanes loaded at many positions and moved together.
    fn lanes_together(&mut self, variant: Variant) {
        self.open(variant.number());
        // Empty lanes.
        self.arrive(forward(1, ALL, 9));
        self.arrive(back(2, ALL, 254));
        self.arrive(clear(3, ALL));
        self.read_some(2);
        for lane in 0..64 {
            let position = match lane {
                0..=3 => lane,
                4..=7 => 254 - (lane - 4),
                _ => (lane as u64 * 4 + self.random.below(4)).min(254) as u8,
            };
            let record = self.sound_load(lane, position);
            self.arrive(record);
        }
        self.read_all();
        self.arrive(forward(self.next(), ALL, 1));
        self.read_all();
        let mask = self.random.next_u64();
        self.arrive(back(self.next(), mask, 90));
        self.arrive(forward(self.next(), !mask, 60));
        self.read_all();
        self.arrive(back(self.next(), ALL, 254));
        self.read_some(12);
        self.arrive(back(self.next(), ALL, 1));
        self.arrive(forward(self.next(), ALL, 254));
        self.read_all();
        self.arrive(forward(self.next(), ALL, 254));
        self.arrive(back(self.next(), ALL, 1));
        self.arrive(clear(self.next(), 0x00ff_0000_8000_0101));
        self.arrive(back(self.next(), ALL, 100));
        self.read_some(12);
        self.arrive(forward(self.next(), 0x00ff_0000_8000_0101, 7));
        for lane in [0, 8, 31, 48, 55] {
            self.read(lane);
        }
        let record = self.sound_load(8, 10);
        self.arrive(record);
        self.arrive(forward(self.next(), 0x0000_0000_0000_0300, 7));
        self.read(8);
        self.read(9);
        self.arrive(clear(self.next(), ALL));
        self.read_some(4);
        self.arrive(forward(self.next(), ALL, 1));
    }

    /// Random calls until 320 records have counted, so that numbers pass 255.
    fn random_calls(&mut self, variant: Variant) {
        self.open(variant.number());
        while self.last() < 320 {
            self.random_arrival();
            if self.random.below(2) == 0 {
                self.random_read();
            }
        }
        self.read_all();
    }

    fn random_arrival(&mut self) {
        let kind = match self.random.below(10) {
            0..=3 => LOAD,
            4..=6 => FORWARD,
            7 | 8 => BACK,
            _ => CLEAR,
        };
        let record = match self.random.below(25) {
            0 | 1 if self.last() > 0 => self.latest(),
            2 if self.last() > 0 => {
                let mut near = self.latest();
                near[self.random.below(40) as usize] ^= 1 << self.random.below(8);
                near
            }
            3 => self.faulty(kind),
            4 => self.spoiled(kind, &[9]),
            5 => {
                let length = self.random.below(LONGEST as u64 + 1) as usize;
                self.random.bytes(length)
            }
            6 => {
                let mut bytes = self.random.bytes(40);
                bytes[0] = self.random.below(6) as u8;
                // Half of them in turn, to be looked at further.
                if bytes[4] % 2 == 0 {
                    bytes = numbered(&bytes, self.next());
                }
                bytes
            }
            _ => self.sound(kind),
        };
        self.arrive(record);
    }

    fn random_read(&mut self) {
        let lane = match self.random.below(40) {
            0 => self.random.bits(8),
            1 => self.random.below(LARGEST_LANE + 1),
            2 => self.random.below(64) << 8,
            _ => self.lane_to_read(),
        };
        self.read(lane);
    }

    /// Two records of the given kinds without a common lane, in either order, on two benches
    /// brought to the same state: the totals and the lanes are the same.
    fn either_order(&mut self, variant: Variant, kinds: [u8; 2], loads: u32, met: &mut Met) {
        let from = self.lines.len();
        self.open(variant.number());
        self.loads_and_another(loads);
        let earlier = self.lines[from..].to_vec();
        let before = self.bench().clone();
        let [s, t] = &pair(&mut self.random, &before, kinds);
        let ([s_first, t_second], one) = self.put_in_turn([s, t]);
        for (call, _) in &earlier {
            self.call(call.clone());
        }
        assert!(self.lines.ends_with(&earlier));
        let ([t_first, s_second], two) = self.put_in_turn([t, s]);
        assert_eq!((s_first, t_second), (s_second, t_first));
        assert_eq!(one, two);
        met.add(&before, [s, t], [s_first, t_second]);
    }

    /// Some loads and one other arrival.
    fn loads_and_another(&mut self, loads: u32) {
        for _ in 0..loads {
            let lane = match self.random.below(6) {
                0 => 0,
                1 => 63,
                _ => self.random.below(64) as u8,
            };
            let position = self.random.position();
            let record = self.sound_load(lane, position);
            self.arrive(record);
        }
        let record = match self.random.below(4) {
            0 => self.latest(),
            1 => forward(self.next(), ALL, self.random.count()),
            2 => back(self.next(), ALL, self.random.count()),
            _ => {
                let kind = 1 + self.random.below(4) as u8;
                self.faulty(kind)
            }
        };
        self.arrive(record);
    }

    /// The totals of two records put in turn, then each lane's reading and, key included, what it
    /// holds.
    fn put_in_turn(&mut self, records: [&[u8]; 2]) -> ([u32; 2], Vec<(Reading, Option<Lane>)>) {
        let totals = totals(self.last(), records, |record| self.arrive(record.to_vec()));
        let lanes = (0..LANES)
            .map(|lane| (self.read(lane as u64), self.bench().lane(lane)))
            .collect();
        (totals, lanes)
    }
}

/// The bytes that a record of a kind leaves zero.
fn unused(kind: u8) -> Vec<usize> {
    let fields: Vec<usize> = match kind {
        LOAD => (8..16).collect(),
        FORWARD | BACK => [1].into_iter().chain(16..34).collect(),
        _ => [1, 2].into_iter().chain(16..34).collect(),
    };
    [3].into_iter().chain(fields).chain(34..40).collect()
}

/// The faults that a record of a kind can have.
fn faults(kind: u8, variant: Variant) -> Vec<u8> {
    match kind {
        LOAD if variant.width() == 64 => vec![2, 3, 4, 5, 6, 9, 10],
        LOAD => vec![2, 3, 4, 5, 6, 7, 9, 10],
        FORWARD | BACK => vec![2, 3, 4, 6, 8, 9, 10],
        _ => vec![2, 3, 4, 8, 9, 10],
    }
}

/// Of two faults, the one that is looked for first: 2, then 9 and 10, then 3 to 8.
fn first_of(faults: [u8; 2]) -> u8 {
    let order = [2, 9, 10, 3, 4, 5, 6, 7, 8];
    *order.iter().find(|fault| faults.contains(fault)).unwrap()
}

#[cfg(test)]
mod tests {
    use super::*;

    #[test]
    fn call_lines() {
        assert_eq!(Call::Bench(255).to_string(), "b 255");
        assert_eq!(Call::Arrive(vec![]).to_string(), "a -");
        assert_eq!(Call::Arrive(vec![1, 0xa0, 0]).to_string(), "a 01a000");
        assert_eq!(Call::Read(LARGEST_LANE).to_string(), "r 4294967296");
    }

    #[test]
    fn contents() {
        let lines = lines();

        // The script sample.
        let bench = |(call, _): &(Call, String)| *call == Call::Bench(1);
        let start = lines.iter().position(bench).unwrap();
        let answers: Vec<&str> = lines[start..start + 5]
            .iter()
            .map(|(_, answer)| answer.as_str())
            .collect();
        let expected = [
            "bench 1",
            "done 1 0",
            "done 2 5",
            "again 2 5",
            "at 5 0000000000f8001e",
        ];
        assert_eq!(answers, expected);

        // No arrival or read comes before a bench.
        assert!(lines[..start]
            .iter()
            .all(|(call, answer)| matches!(call, Call::Bench(_)) && answer == "refused 1"));

        // Sizes.
        for (call, _) in &lines {
            match call {
                Call::Bench(_) => {}
                Call::Arrive(bytes) => assert!(bytes.len() <= LONGEST),
                Call::Read(lane) => assert!(*lane <= LARGEST_LANE),
            }
        }
        let bytes: usize = lines.iter().map(|(c, _)| c.to_string().len() + 1).sum();
        assert!(bytes < 750_000);

        // Every refusal, and about half of the arrivals counting.
        let arrivals: Vec<&String> = lines
            .iter()
            .filter(|(call, _)| matches!(call, Call::Arrive(_)))
            .map(|(_, answer)| answer)
            .collect();
        let reads = lines.iter().filter(|(c, _)| matches!(c, Call::Read(_)));
        assert!(arrivals.len() >= 2000 && reads.count() >= 1000);
        let done = arrivals.iter().filter(|a| a.starts_with("done")).count();
        assert!((40..=60).contains(&(100 * done / arrivals.len())));
        for number in 1..=11 {
            let refusal = format!("refused {number}");
            assert!(lines.iter().any(|(_, answer)| *answer == refusal));
        }
    }
}
