//! The keystream against the independent model: its lengths, its starts and its checks.

mod common;

use common::{generator, length, one_of, start, variant, width};
use katan_bench::{keystream, raw, LONGEST_DATA};
use katan_model::{driver as model, Random};

/// The blocks that go through the lanes together.
const BATCH: usize = 64;

/// The bytes of a block.
fn block_length(variant: u8) -> usize {
    width(variant) as usize / 8
}

/// 2^n, which is no 64-bit number where n is 64.
fn end(variant: u8) -> i128 {
    1 << width(variant)
}

/// The start from which the blocks of so many bytes go up to 2^n.
fn last_start(variant: u8, data_length: usize) -> i128 {
    end(variant) - data_length.div_ceil(block_length(variant)) as i128
}

/// Starts at either end, before a carry into a higher half, around the last, and a random one: as far as
/// they are 64-bit numbers.
fn starts(random: &mut Random, variant: u8, data_length: usize) -> Vec<u64> {
    let (end, last) = (end(variant), last_start(variant, data_length));
    let sought = [
        0,
        0xffff,
        0xffff_ffff,
        last - 1,
        last,
        last + 1,
        end - 1,
        end,
        end + 1,
    ];
    let ends = sought.into_iter().filter_map(|start| start.try_into().ok());
    ends.chain([random.bits(width(variant)), u64::MAX])
        .collect()
}

/// A call, but for the bytes of its key, data and output.
#[derive(Clone, Copy, Debug)]
struct Call {
    variant: u8,
    key_length: usize,
    start: u64,
    data_length: usize,
    out_length: usize,
}

/// A call whose lengths belong together.
fn sound(variant: u8, start: u64, data_length: usize) -> Call {
    Call {
        variant,
        key_length: 10,
        start,
        data_length,
        out_length: data_length,
    }
}

/// Makes the call with random bytes, compares it with the model's, and gives its status. The output is
/// lent out of the middle of other bytes, and all of them are compared.
fn compared(random: &mut Random, call: Call) -> u8 {
    let Call { variant, start, .. } = call;
    let key = random.bytes(call.key_length);
    let data = random.bytes(call.data_length);
    let lent = random.bytes(8 + call.out_length + 8);
    let out = 8..8 + call.out_length;
    let (mut ours, mut theirs) = (lent.clone(), lent.clone());
    let got = raw::keystream(variant, &key, start, &data, &mut ours[out.clone()]);
    let expected = model::keystream(variant, &key, start, &data, &mut theirs[out]);
    assert_eq!(got, expected, "{call:?}");
    let other = ours.iter().zip(&theirs).position(|(a, b)| a != b);
    let context = format!("{call:?}, key {key:02x?}: a byte differs, 8 is the output's first");
    assert_eq!(other, None, "{context}");
    assert!(got == 0 || ours == lent, "{call:?}: refused, but written");
    got
}

/// Around each batch and around the longest message, each from a random start.
#[test]
fn long_messages() {
    let mut random = generator("long_messages");
    for variant in 1..=6 {
        let batch = BATCH * block_length(variant);
        let batches = (1..=LONGEST_DATA / batch).map(|count| count * batch);
        let around = |length| length - 1..=length + 1;
        for length in batches.chain([LONGEST_DATA]).flat_map(around) {
            let start = random.bits(width(variant));
            compared(&mut random, sound(variant, start, length));
        }
    }
}

/// Every length to 130, around a batch and around the longest message, each from every start of `starts`.
#[test]
fn starts_and_ends() {
    let mut random = generator("starts_and_ends");
    for variant in 1..=6 {
        let batch = BATCH * block_length(variant);
        let longer = [batch - 1, batch, batch + 1, LONGEST_DATA, LONGEST_DATA + 1];
        for length in (0..=130).chain(longer) {
            for start in starts(&mut random, variant, length) {
                compared(&mut random, sound(variant, start, length));
            }
        }
    }
}

/// One message, cut at every length: what comes out is the beginning of what the whole message makes,
/// and a second pass restores it. From any block on, the rest is a message that starts there.
#[test]
fn parts_of_a_message() {
    let mut random = generator("parts_of_a_message");
    for variant in 1..=6 {
        let key = random.key();
        let data = random.bytes(LONGEST_DATA);
        let last = last_start(variant, LONGEST_DATA) as u64;
        let start = random.bits(width(variant)).min(last);
        let mut whole = vec![0; LONGEST_DATA];
        let status = model::keystream(variant, &key, start, &data, &mut whole);
        assert_eq!(status, 0);
        let context = format!("variant {variant}, key {key:02x?}, start {start}");
        for length in 0..=LONGEST_DATA {
            let sent = keystream(variant, &key, start, &data[..length]).unwrap();
            assert!(sent == whole[..length], "{context}, {length} bytes");
            let restored = keystream(variant, &key, start, &sent).unwrap();
            assert!(restored == data[..length], "{context}, {length} bytes back");
        }
        for (i, from) in (0..LONGEST_DATA).step_by(block_length(variant)).enumerate() {
            let rest = keystream(variant, &key, start + i as u64, &data[from..]).unwrap();
            assert!(rest == whole[from..], "{context}, from block {i}");
        }
    }
}

/// Every two faults at once, and more of them: the answer is the first in the order 1, 2, 14, 7.
#[test]
fn order_of_checks() {
    let mut random = generator("order_of_checks");
    for right in 1..=6 {
        let (end, block) = (end(right), block_length(right));
        // Start, bytes of data, and the faults that the two make.
        let asked: [(i128, usize, &[u8]); 10] = [
            (0, 5, &[]),
            (end - 1, block, &[]),
            (end - 1, block + 1, &[14]),
            (0, LONGEST_DATA + 1, &[14]),
            (end - 1, LONGEST_DATA + 1, &[14]),
            (end, 0, &[7]),
            (end, 1, &[14, 7]),
            (end, LONGEST_DATA + 1, &[14, 7]),
            (end + 1, 0, &[14, 7]),
            (end + 1, LONGEST_DATA + 1, &[14, 7]),
        ];
        for (start, data_length, faults) in asked {
            let Ok(start) = u64::try_from(start) else {
                continue;
            };
            let lengths = [
                (10, data_length),
                (0, data_length),
                (9, data_length),
                (11, data_length),
                (10, 0),
                (10, data_length.saturating_sub(1)),
                (10, data_length + 1),
                (9, data_length + 1),
            ];
            for variant in [right, 0, 7, 255] {
                for (key_length, out_length) in lengths {
                    let met = |check| match check {
                        1 => variant != right,
                        2 => key_length != 10 || out_length != data_length,
                        _ => faults.contains(&check),
                    };
                    let first = [1, 2, 14, 7].into_iter().find(|check| met(*check));
                    let call = Call {
                        variant,
                        key_length,
                        start,
                        data_length,
                        out_length,
                    };
                    assert_eq!(compared(&mut random, call), first.unwrap_or(0), "{call:?}");
                }
            }
        }
    }
}

/// Random calls, most of them sound and short.
#[test]
fn random_calls() {
    let (mut random, calls) = start("random_calls", 4_000);
    let mut seen = [0; 15];
    for _ in 0..calls {
        let variant = variant(&mut random);
        let data_length = match random.below(32) {
            0 => random.below(LONGEST_DATA as u64 + 10) as usize,
            1..=4 => 0,
            _ => random.below(131) as usize,
        };
        let start = match random.below(3) {
            0 => {
                let starts = starts(&mut random, variant, data_length);
                one_of(&mut random, &starts)
            }
            _ => random.bits(width(variant)),
        };
        let call = Call {
            variant,
            key_length: length(&mut random, 10),
            start,
            data_length,
            out_length: length(&mut random, data_length),
        };
        seen[compared(&mut random, call) as usize] += 1;
    }
    println!("random_calls: statuses 0 to 14: {seen:?}");
    let met = [0, 1, 2, 7, 14].iter().all(|status| seen[*status] > 0);
    assert!(calls < 4_000 || met, "{seen:?}");
}
