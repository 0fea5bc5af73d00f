//! Lanes that are stepped round by round, and moved from every position by every count. Their registers
//! are compared with the traces of the independent model, which it makes by single rounds forward; a lane
//! that is loaded further on gets as its block what its trace has there. What a wrong program would be
//! caught at:
//!
//! - `there_and_back`: a round, either way, that takes IR or the key bits of another round or the key of
//!   another lane; a lane that does not wait at an end; a total that counts one that waits.
//! - `every_start`: key bits that are found well where a move starts at an end, or at positions of some
//!   remainder, and not elsewhere; a turn that goes on with what the way before has left.
//! - `every_count`: key bits that are carried along well for some counts only, or from some starts, or not
//!   in moves that are cut short.
//! - `keys_that_tell`: a key bit that is left out or taken for another. The lane at fault names the bit.

mod common;

use common::{call_answer, generator, model_answer, Traced};
use katan_bench::{Answer, Call, Refusal, Reply};
use katan_model::{bench as records, Random, Variant, ROUNDS};
use std::collections::HashSet;

const ALL: u64 = u64::MAX;

/// A move's record, made from number, mask and count.
type Way = fn(u32, u64, u8) -> Vec<u8>;

const WAYS: [Way; 2] = [records::forward, records::back];

/// Lanes at every position, each with a key of its own.
fn everywhere(random: &mut Random, variant: Variant) -> Vec<Traced> {
    (0..=ROUNDS)
        .map(|position| Traced::random(random, variant, position))
        .collect()
}

/// The driver's bench and the model's, with the lanes that were loaded, from lane 0 on.
#[derive(Clone)]
struct Sheet<'a> {
    ours: katan_bench::Bench,
    theirs: katan_model::Bench,
    lanes: &'a [Traced],
}

impl Sheet<'_> {
    fn loaded(variant: Variant, lanes: &[Traced]) -> Sheet<'_> {
        let mut sheet = Sheet {
            ours: katan_bench::Bench::open(variant.number()).unwrap(),
            theirs: katan_model::Bench::new(variant.number()).unwrap(),
            lanes,
        };
        for (i, lane) in (0..).zip(lanes) {
            let block = lane.at(lane.position).registers;
            sheet.arrive(&records::load(0, i, lane.position, &lane.key, block));
        }
        sheet.compare();
        sheet
    }

    /// A record put in turn, which both benches answer alike. Gives its total.
    fn arrive(&mut self, record: &[u8]) -> u32 {
        let number = self.theirs.last() + 1;
        let call = Call::Arrive(records::numbered(record, number));
        let got = call_answer(&mut self.ours, &call);
        assert_eq!(got, model_answer(&mut self.theirs, &call), "{call:02x?}");
        match got {
            Answer::Reply(Reply::Done { total, .. }) => total,
            _ => panic!("{call:02x?} is answered {got:?}"),
        }
    }

    /// Every lane is where the model's is, with the registers that its trace has there.
    fn compare(&self) {
        for i in 0..records::LANES {
            let position = self.theirs.position(i);
            let expected = position.map_or(Err(Refusal::EmptyLane), |p| Ok(self.lanes[i].at(p)));
            let got = self.ours.read(i as u64);
            let (variant, latest) = (self.theirs.variant(), self.theirs.latest());
            let lane = self.lanes.get(i).map(|lane| (lane.position, lane.key));
            assert!(
                got == expected,
                "{variant:?}, lane {i}, loaded with {lane:02x?}, after {latest:02x?}: \
                 {got:x?}, not {expected:x?}"
            );
        }
    }

    /// A move of all lanes, compared at its end. Gives its total.
    fn moved(&mut self, way: Way, count: u8) -> u32 {
        let total = self.arrive(&way(0, ALL, count));
        self.compare();
        total
    }

    /// From position 0 to 254 and back by single rounds, with one record more at each end.
    fn walk(&mut self) {
        let lanes = self.lanes.len() as u32;
        for way in WAYS {
            for _ in 0..ROUNDS {
                assert_eq!(self.moved(way, 1), lanes);
            }
            assert_eq!(self.moved(way, 1), 0);
        }
    }
}

#[test]
fn there_and_back() {
    let mut random = generator("there_and_back");
    for variant in Variant::ALL {
        let lanes: Vec<Traced> = (0..records::LANES)
            .map(|_| Traced::random(&mut random, variant, 0))
            .collect();
        Sheet::loaded(variant, &lanes).walk();
    }
}

/// A round forward and back, then a round back and forward, from every position.
#[test]
fn every_start() {
    let mut random = generator("every_start");
    let [forward, back] = WAYS;
    for variant in Variant::ALL {
        for lanes in everywhere(&mut random, variant).chunks(records::LANES) {
            let mut sheet = Sheet::loaded(variant, lanes);
            for way in [forward, back, back, forward] {
                sheet.moved(way, 1);
            }
        }
    }
}

/// One move from every position to every other, and those that are cut short.
#[test]
fn every_count() {
    let mut random = generator("every_count");
    for variant in Variant::ALL {
        for lanes in everywhere(&mut random, variant).chunks(records::LANES) {
            let start = Sheet::loaded(variant, lanes);
            for count in 1..=ROUNDS {
                for way in WAYS {
                    start.clone().moved(way, count);
                }
            }
        }
    }
}

/// The 80 keys with a single bit set, then the 80 with a single bit clear.
fn single_bits() -> Vec<[u8; 10]> {
    let set = (0..80).map(|i| std::array::from_fn(|j| if j == i / 8 { 1 << (i % 8) } else { 0 }));
    let clear = set.clone().map(|key: [u8; 10]| key.map(|byte| !byte));
    set.chain(clear).collect()
}

/// A zero block, under the zero key zero at every position: what shows comes from the key.
#[test]
fn keys_that_tell() {
    for variant in Variant::ALL {
        let lanes: Vec<Traced> = single_bits()
            .into_iter()
            .map(|key| Traced::new(variant, key, 0, 0))
            .collect();
        let traces: HashSet<&Vec<u64>> = lanes.iter().map(|lane| &lane.trace).collect();
        assert_eq!(traces.len(), 160, "{variant:?}: two keys have one trace");
        for lanes in lanes.chunks(records::LANES) {
            Sheet::loaded(variant, lanes).walk();
        }
    }
}
