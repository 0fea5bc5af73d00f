//! One move from every position to every other, of lanes that are loaded where it starts. Their registers
//! are compared with the traces of the independent model, which it makes by single rounds. The lanes that
//! are named go the whole count, and the others stay; `every_count` of traces.rs names all lanes, so that
//! some are cut short and none is left out. What a wrong program that works several rounds at once would
//! be caught at:
//!
//! - the rounds left over, where the count is no multiple, that are left out or become more;
//! - IR or key bits that change places among the rounds of one go, or ka with kb;
//! - IR or key bits that are found well from starts of some remainder only;
//! - a move back that takes them in the order of a move forward;
//! - a lane that moves without being named, or a key that does not stay.

mod common;

use common::{generator, Traced};
use katan_bench::raw::{BENCH_LENGTH, LANES, LANE_LENGTH};
use katan_bench::{Bench, Reply};
use katan_model::{bench as records, Variant, ROUNDS};

/// Moves from each of the 255 positions to each further on. There are as many back.
const PAIRS: u32 = 255 * 254 / 2;

/// How often each pair is moved, each time with other keys: a wrong key bit shows with half of them only.
const SETS: u32 = 4;

/// A way to move.
struct Way {
    /// The record, made from number, mask and count.
    record: fn(u32, u64, u8) -> Vec<u8>,
    /// Where a move from a position ends, if it goes the whole count.
    end: fn(u8, u8) -> Option<u8>,
}

const WAYS: [Way; 2] = [
    Way {
        record: records::forward,
        end: |position, count| position.checked_add(count).filter(|end| *end <= ROUNDS),
    },
    Way {
        record: records::back,
        end: u8::checked_sub,
    },
];

fn names(mask: u64, lane: usize) -> bool {
    mask >> lane & 1 == 1
}

/// A bench with lanes loaded, from lane 0 on.
struct Start<'a> {
    variant: Variant,
    bench: Bench,
    lanes: &'a [Traced],
}

impl Start<'_> {
    fn loaded(variant: Variant, lanes: &[Traced]) -> Start<'_> {
        let mut bench = Bench::open(variant.number()).unwrap();
        for (i, lane) in (0..).zip(lanes) {
            let (number, block) = (i as u32 + 1, lane.at(lane.position).registers);
            let sent = records::load(number, i, lane.position, &lane.key, block);
            let done = Reply::Done { number, total: 0 };
            assert_eq!(bench.arrive(&sent), Ok(done), "{sent:02x?}");
        }
        Start {
            variant,
            bench,
            lanes,
        }
    }

    /// The lanes that go the whole count.
    fn whole(&self, way: &Way, count: u8) -> u64 {
        let goes = |lane: &Traced| (way.end)(lane.position, count).is_some() as u64;
        (0..)
            .zip(self.lanes)
            .fold(0, |mask, (i, lane)| mask | goes(lane) << i)
    }

    /// A copy of the bench on which these lanes, which go the whole count, are moved in one record. They
    /// are where they should be with the registers that their traces have there, and everything else is as
    /// it was. Gives how many they are.
    fn moved(&self, way: &Way, mask: u64, count: u8) -> u32 {
        let mut bench = self.bench.clone();
        let (number, moves) = (self.lanes.len() as u32 + 1, mask.count_ones());
        let sent = (way.record)(number, mask, count);
        let total = moves * count as u32;
        let done = Reply::Done { number, total };
        let variant = self.variant;
        assert_eq!(bench.arrive(&sent), Ok(done), "{variant:?}, {sent:02x?}");

        let mut memory: [u8; BENCH_LENGTH] = *self.bench.bytes().0;
        for (i, lane) in self.lanes.iter().enumerate() {
            let position = match names(mask, i) {
                true => (way.end)(lane.position, count).unwrap(),
                false => lane.position,
            };
            let (expected, got) = (lane.at(position), bench.read(i as u64));
            assert!(
                got == Ok(expected),
                "{variant:?}, lane {i}, loaded at {} with {:02x?}, after {sent:02x?}: \
                 {got:x?}, not {expected:x?}",
                lane.position,
                lane.key
            );
            // By the header's layout.
            let bytes = &mut memory[1 + LANE_LENGTH * i..][..LANE_LENGTH];
            bytes[1] = position;
            bytes[12..].copy_from_slice(&expected.registers.to_le_bytes());
        }
        assert!(
            *bench.bytes().0 == memory,
            "{variant:?}, after {sent:02x?}: the lanes read well, but the bench is\n\
             {:02x?}, not\n{memory:02x?}",
            bench.bytes().0
        );
        moves
    }
}

/// The lanes that go the whole count are moved by two records, each on a copy of its own: some here, the
/// others there.
#[test]
fn whole_moves() {
    let mut random = generator("whole_moves");
    let mut moves = [0; 2];
    for variant in (0..SETS).flat_map(|_| Variant::ALL) {
        let lanes: Vec<Traced> = (0..=ROUNDS)
            .map(|position| Traced::random(&mut random, variant, position))
            .collect();
        for lanes in lanes.chunks(LANES) {
            let start = Start::loaded(variant, lanes);
            for count in 1..=ROUNDS {
                for (way, moves) in WAYS.iter().zip(&mut moves) {
                    let (whole, some) = (start.whole(way, count), random.next_u64());
                    for mask in [whole & some, whole & !some] {
                        // An empty mask is refused.
                        if mask != 0 {
                            *moves += start.moved(way, mask, count);
                        }
                    }
                }
            }
        }
    }
    println!("whole_moves: forward and back: {moves:?}");
    assert_eq!(moves, [SETS * 6 * PAIRS; 2]);
}
