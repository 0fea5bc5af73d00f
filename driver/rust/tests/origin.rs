//! Bits followed back to the block: against the independent model, against a bench that is stepped, and
//! their checks.

mod common;

use common::{generator, length, one_of, start, variant, width};
use katan_bench::{origin, raw, record, Bench, Origin, LAST_CLOCK};
use katan_model::{driver as model, Random};

/// The words of the output.
const WORDS: usize = 3;

/// A call, but for the bytes of its key and output.
#[derive(Clone, Copy, Debug)]
struct Call {
    variant: u8,
    key_length: usize,
    block: u64,
    clock: u64,
    out_length: usize,
}

/// A call with the right lengths.
fn sound(variant: u8, block: u64, clock: u64) -> Call {
    Call {
        variant,
        key_length: 10,
        block,
        clock,
        out_length: WORDS,
    }
}

/// Makes the call with a random key, compares it with the model's, and gives its status. The output is
/// lent out of the middle of other words, and all of them are compared.
fn compared(random: &mut Random, call: Call) -> u8 {
    let key = random.bytes(call.key_length);
    compared_with_key(random, call, &key)
}

fn compared_with_key(random: &mut Random, call: Call, key: &[u8]) -> u8 {
    let Call {
        variant,
        block,
        clock,
        ..
    } = call;
    let lent: Vec<u64> = (0..2 + call.out_length + 2)
        .map(|_| random.next_u64())
        .collect();
    let out = 2..2 + call.out_length;
    let (mut ours, mut theirs) = (lent.clone(), lent.clone());
    let got = raw::origin(variant, key, block, clock, &mut ours[out.clone()]);
    let expected = model::origin(variant, key, block, clock, &mut theirs[out]);
    let context = format!("{call:x?}, key {key:02x?}");
    assert_eq!(got, expected, "{context}");
    assert_eq!(ours, theirs, "{context}: two words stand before the output");
    assert!(got == 0 || ours == lent, "{context}: refused, but written");
    got
}

/// 2^n, which is no 64-bit number where n is 64.
fn end(variant: u8) -> Option<u64> {
    1_u64.checked_shl(width(variant))
}

/// The largest block.
fn largest(variant: u8) -> u64 {
    u64::MAX >> (64 - width(variant))
}

/// Every clock of every variant, with random keys and blocks and with those at either end.
#[test]
fn every_clock() {
    let mut random = generator("every_clock");
    for variant in 1..=6 {
        let mut asked: Vec<([u8; 10], u64)> = (0..40)
            .map(|_| (random.key(), random.bits(width(variant))))
            .collect();
        for key in [[0; 10], [0xff; 10], random.key()] {
            asked.push((key, 0));
            asked.push((key, largest(variant)));
        }
        for (key, block) in asked {
            for clock in 0..=LAST_CLOCK {
                let call = sound(variant, block, clock);
                assert_eq!(compared_with_key(&mut random, call, &key), 0);
            }
        }
    }
}

/// Single block bits and single key bits, each set alone and each clear alone: a place taken for another,
/// or a key bit, shows.
#[test]
fn bits_that_tell() {
    let mut random = generator("bits_that_tell");
    for variant in 1..=6 {
        let last = largest(variant);
        for clock in 0..=LAST_CLOCK {
            for bit in 0..width(variant) {
                for block in [1 << bit, last ^ 1 << bit] {
                    let got = compared(&mut random, sound(variant, block, clock));
                    assert_eq!(got, 0);
                }
            }
            for bit in 0..80 {
                let mut key = [0; 10];
                key[bit / 8] = 1 << (bit % 8);
                for key in [key, key.map(|byte| !byte)] {
                    let got = compared_with_key(&mut random, sound(variant, 0, clock), &key);
                    assert_eq!(got, 0);
                }
            }
        }
    }
}

/// Counts from the row's places, for KATAN and KTANTAN: all places hold block bits at first, and the
/// lowest place is the first to hold a bit that entered.
#[test]
fn known_counts() {
    let mut random = generator("known_counts");
    let rows: [(u8, &[(u64, u64)]); 3] = [
        (1, &[(0, 11), (3, 11), (4, 20), (7, 25), (8, 43), (23, 957)]),
        (2, &[(0, 11), (6, 11), (7, 20), (8, 25), (23, 147)]),
        (3, &[(0, 11), (9, 11), (10, 20), (12, 25), (23, 61)]),
    ];
    for (katan, counts) in rows {
        for variant in [katan, katan + 3] {
            for (clock, looked_up) in counts {
                let block = random.bits(width(variant));
                let found = origin(variant, &random.key(), block, *clock).unwrap();
                assert_eq!(found.looked_up, *looked_up, "variant {variant}, {clock}");
            }
        }
    }
}

/// A lane of the driver's own bench, stepped round by round from position 0. After a round its clocks'
/// bits are the lowest of L2 and of L1, that of the last clock in place 0.
#[test]
fn beside_a_bench() {
    let mut random = generator("beside_a_bench");
    for variant in 1..=6 {
        // Document 01's table: the length of L2, and the clocks a round.
        let (l2, clocks) = match variant {
            1 | 4 => (19, 1),
            2 | 5 => (29, 2),
            _ => (39, 3),
        };
        let rounds = (LAST_CLOCK + 1) / clocks;
        for _ in 0..20 {
            let key = random.key();
            let block = random.bits(width(variant));
            let mut bench = Bench::open(variant).unwrap();
            bench.arrive(&record::load(1, 0, 0, &key, block)).unwrap();
            for round in 0..rounds {
                let step = record::forward(round as u32 + 2, 1, 1);
                bench.arrive(&step).unwrap();
                let reading = bench.read(0).unwrap();
                assert_eq!(u64::from(reading.position), round + 1);
                for clock in 0..clocks {
                    let place = clocks - 1 - clock;
                    let bit = |i: u64| (reading.registers >> i & 1) as u8;
                    let found = origin(variant, &key, block, round * clocks + clock).unwrap();
                    let Origin { fa, fb, .. } = found;
                    assert_eq!(
                        (fa, fb),
                        (bit(place), bit(l2 + place)),
                        "variant {variant}, key {key:02x?}, block {block:x}, round {round}, \
                         clock {clock} of it"
                    );
                }
            }
        }
    }
}

/// Every number that a byte can have for a variant.
#[test]
fn every_variant_number() {
    let mut random = generator("every_variant_number");
    for variant in 0..=255 {
        let expected = if (1..=6).contains(&variant) { 0 } else { 1 };
        let call = sound(variant, random.bits(32), random.below(24));
        assert_eq!(compared(&mut random, call), expected, "{call:x?}");
    }
}

/// Clock numbers over 23, also those that are not when some of their bits are cut off.
const OTHER_CLOCKS: [u64; 14] = [
    24,
    25,
    32,
    253,
    254,
    255,
    256,
    256 + 23,
    1 << 16,
    1 << 32,
    (1 << 32) + 5,
    1 << 63,
    (1 << 63) + 23,
    u64::MAX,
];

/// Each of the faults 1, 2, 15 and 7 alone and each two of them at once, in every way listed.
#[test]
fn pairs_of_faults() {
    let mut random = generator("pairs_of_faults");
    // The faults that a call has, and the status that it gets.
    let expected: [(&[u8], u8); 11] = [
        (&[], 0),
        (&[1], 1),
        (&[2], 2),
        (&[15], 15),
        (&[7], 7),
        (&[1, 2], 1),
        (&[1, 15], 1),
        (&[1, 7], 1),
        (&[2, 15], 2),
        (&[2, 7], 2),
        (&[15, 7], 15),
    ];
    for right in 1..=6 {
        let wide: Vec<u64> = match end(right) {
            Some(end) => vec![end, end + 1, end + 23, 1 << 63, u64::MAX],
            None => vec![],
        };
        let in_range: Vec<u64> = (0..=LAST_CLOCK).collect();
        for (faults, status) in expected {
            let variants: &[u8] = match faults.contains(&1) {
                true => &[0, 7, 8, 128, 255],
                false => &[right],
            };
            let lengths: &[(usize, usize)] = match faults.contains(&2) {
                true => &[
                    (0, WORDS),
                    (9, WORDS),
                    (11, WORDS),
                    (20, WORDS),
                    (10, 0),
                    (10, 1),
                    (10, 2),
                    (10, 4),
                    (9, 2),
                ],
                false => &[(10, WORDS)],
            };
            let clocks: &[u64] = match faults.contains(&15) {
                true => &OTHER_CLOCKS,
                false => &in_range,
            };
            let blocks: &[u64] = match faults.contains(&7) {
                true => &wide,
                false => &[0, 1, largest(right)],
            };
            for (variant, (key_length, out_length)) in variants
                .iter()
                .flat_map(|variant| lengths.iter().map(move |lengths| (*variant, *lengths)))
            {
                for (clock, block) in clocks
                    .iter()
                    .flat_map(|clock| blocks.iter().map(move |block| (*clock, *block)))
                {
                    let call = Call {
                        variant,
                        key_length,
                        block,
                        clock,
                        out_length,
                    };
                    let got = compared(&mut random, call);
                    assert_eq!(got, status, "{call:x?} has {faults:?}");
                }
            }
        }
    }
}

/// Random calls, most of them sound.
#[test]
fn random_calls() {
    let (mut random, calls) = start("random_calls", 20_000);
    let mut seen = [0; 16];
    for _ in 0..calls {
        let variant = match random.below(16) {
            0 => random.bits(8) as u8,
            _ => variant(&mut random),
        };
        let clock = match random.below(8) {
            0 => one_of(&mut random, &OTHER_CLOCKS),
            1 => one_of(&mut random, &[22, 23, 24, 25]),
            2 => one_of(&mut random, &[1 << 8, 1 << 16, 1 << 32, 1 << 63]) + random.below(24),
            _ => random.below(24),
        };
        let block = match random.below(8) {
            0 => random.next_u64(),
            1 => end(variant).unwrap_or(u64::MAX),
            2 => end(variant).map_or(0, |end| end + random.below(1000)),
            3 => largest(variant),
            _ => random.bits(width(variant)),
        };
        let call = Call {
            variant,
            key_length: length(&mut random, 10),
            block,
            clock,
            out_length: length(&mut random, WORDS),
        };
        seen[compared(&mut random, call) as usize] += 1;
    }
    println!("random_calls: statuses 0 to 15: {seen:?}");
    let met = [0, 1, 2, 7, 15].iter().all(|status| seen[*status] > 0);
    assert!(calls < 4_000 || met, "{seen:?}");
}
