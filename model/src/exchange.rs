//! Two records that name no common lane, put in turn in either order with their numbers exchanged:
//! request (ii) of document 02. Random pairs of them, and what the pairs tried have met.

use crate::bench::{back, clear, forward, load, names, numbered, Bench, Reply, LANES};
use crate::bench::{BACK, CLEAR, FORWARD, LOAD};
use crate::cipher::ROUNDS;
use crate::random::Random;
use std::collections::BTreeMap;

/// Every two kinds, in both orders.
pub fn pairs_of_kinds() -> Vec<[u8; 2]> {
    let kinds = [LOAD, FORWARD, BACK, CLEAR];
    kinds.iter().flat_map(|s| kinds.map(|t| [*s, t])).collect()
}

/// A lane, more often than others one at an end or a loaded one.
fn lane(random: &mut Random, bench: &Bench) -> u8 {
    let loaded: Vec<u8> = (0..LANES as u8)
        .filter(|lane| !bench.is_empty(*lane as u64))
        .collect();
    match random.below(8) {
        0 => 0,
        1 => LANES as u8 - 1,
        2..=5 if !loaded.is_empty() => loaded[random.below(loaded.len() as u64) as usize],
        _ => random.below(LANES as u64) as u8,
    }
}

/// Two sound records of the given kinds, numbered 0, that name no common lane. Masks go from one lane
/// to all that the other record does not name.
pub fn pair(random: &mut Random, bench: &Bench, kinds: [u8; 2]) -> [Vec<u8>; 2] {
    let first = lane(random, bench);
    let second = loop {
        let second = lane(random, bench);
        if second != first {
            break second;
        }
    };
    let lanes = [first, second];
    let mut masks = lanes.map(|lane| 1 << lane);
    let first_widened = random.below(2) as usize;
    for i in [first_widened, 1 - first_widened] {
        // A load names its own lane alone.
        if kinds[i] != LOAD {
            masks[i] |= random.lanes() & !masks[1 - i];
        }
    }
    let width = bench.variant().width();
    [0, 1].map(|i| match kinds[i] {
        LOAD => {
            let position = random.position();
            load(0, lanes[i], position, &random.key(), random.bits(width))
        }
        FORWARD => forward(0, masks[i], random.count()),
        BACK => back(0, masks[i], random.count()),
        _ => clear(0, masks[i]),
    })
}

/// Two records with the numbers that they have when put in turn.
pub fn in_turn(last: u32, [first, second]: [&[u8]; 2]) -> [Vec<u8>; 2] {
    [
        numbered(first, last.wrapping_add(1)),
        numbered(second, last.wrapping_add(2)),
    ]
}

/// The totals of two records put in turn, both of which count.
pub fn totals(last: u32, records: [&[u8]; 2], mut arrive: impl FnMut(&[u8]) -> Reply) -> [u32; 2] {
    let mut next = last;
    in_turn(last, records).map(|record| {
        next += 1;
        match arrive(&record) {
            Reply::Done { number, total } if number == next => total,
            reply => panic!("{reply:?} to {record:02x?}, which is to be {next}"),
        }
    })
}

/// What the pairs tried have met, each with how often.
#[derive(Debug, Default)]
pub struct Met {
    times: BTreeMap<&'static str, u32>,
}

impl Met {
    fn note(&mut self, what: &'static str, is_met: bool) {
        *self.times.entry(what).or_default() += is_met as u32;
    }

    /// Notes a pair with its totals, on the bench as it was before.
    pub fn add(&mut self, bench: &Bench, pair: [&[u8]; 2], totals: [u32; 2]) {
        let named =
            pair.map(|record| -> Vec<usize> { (0..LANES).filter(|i| names(record, *i)).collect() });
        let [first, second] = &named;
        assert!(!first.iter().any(|lane| second.contains(lane)));
        self.note("one lane each", first.len() == 1 && second.len() == 1);
        self.note("all lanes", first.len() + second.len() == LANES);
        let differ = totals[0] != totals[1];
        self.note("totals that differ", differ);
        self.note("neither of them 0", differ && !totals.contains(&0));
        let loaded = (0..LANES).filter(|lane| bench.lane(*lane).is_some());
        self.note("more than eight lanes loaded", loaded.count() > 8);
        for i in 0..2 {
            self.add_record(bench, pair[i], &named[i], totals[i]);
        }
    }

    fn add_record(&mut self, bench: &Bench, record: &[u8], named: &[usize], total: u32) {
        let (kind, amount) = (record[0], record[2]);
        let positions: Vec<u8> = named
            .iter()
            .filter_map(|lane| bench.lane(*lane))
            .map(|lane| lane.position)
            .collect();
        let some_empty = positions.len() < named.len();
        let some_loaded = !positions.is_empty();
        let is_move = kind == FORWARD || kind == BACK;
        // The positions from a lane to the end ahead of it.
        let ahead = |p: &u8| if kind == FORWARD { ROUNDS - p } else { *p };
        let is_cut = positions.iter().any(|p| (1..amount).contains(&ahead(p)));
        let is_at_end = positions.iter().any(|p| ahead(p) == 0);
        for (what, is_met) in [
            ("lane 0", named.contains(&0)),
            ("the last lane", named.contains(&(LANES - 1))),
            ("a load into an empty lane", kind == LOAD && some_empty),
            ("a load over a loaded lane", kind == LOAD && some_loaded),
            ("a clear of an empty lane", kind == CLEAR && some_empty),
            ("a clear of a loaded lane", kind == CLEAR && some_loaded),
            ("a move of an empty lane", is_move && some_empty),
            ("a move of nothing", is_move && total == 0),
            ("a move of something", is_move && total > 0),
            ("a forward cut short", kind == FORWARD && is_cut),
            ("a back cut short", kind == BACK && is_cut),
            ("a forward at 254", kind == FORWARD && is_at_end),
            ("a back at 0", kind == BACK && is_at_end),
        ] {
            self.note(what, is_met);
        }
    }

    /// Panics unless pairs were tried and have met each of these.
    pub fn assert_all(&self) {
        let all = self.times.values().all(|times| *times > 0);
        assert!(all && !self.times.is_empty(), "{self:?}");
    }
}

#[cfg(test)]
mod tests {
    use super::*;
    use crate::cipher::Variant;

    /// A bench that some records have come to.
    fn used_bench(random: &mut Random, variant: Variant) -> Bench {
        let mut bench = Bench::new(variant.number()).unwrap();
        for _ in 0..random.below(12) {
            let kind = 1 + random.below(4) as u8;
            let earlier = pair(random, &bench, [LOAD, kind]);
            totals(bench.last(), [&earlier[0], &earlier[1]], |record| {
                bench.arrive(record)
            });
        }
        bench
    }

    #[test]
    fn either_order() {
        let mut random = Random::new(14);
        let mut met = Met::default();
        for variant in Variant::ALL {
            for kinds in pairs_of_kinds().repeat(25) {
                let bench = used_bench(&mut random, variant);
                let [s, t] = &pair(&mut random, &bench, kinds);
                let (mut one, mut two) = (bench.clone(), bench.clone());
                let [s_first, t_second] = totals(bench.last(), [s, t], |record| one.arrive(record));
                let [t_first, s_second] = totals(bench.last(), [t, s], |record| two.arrive(record));
                assert_eq!((s_first, t_second), (s_second, t_first));
                for lane in 0..LANES {
                    assert_eq!(one.lane(lane), two.lane(lane));
                }
                met.add(&bench, [s, t], [s_first, t_second]);
            }
        }
        met.assert_all();
    }

    /// A common lane may end otherwise, and the totals with it.
    #[test]
    fn a_common_lane() {
        let mut bench = Bench::new(1).unwrap();
        bench.arrive(&load(1, 9, 100, &[0xff; 10], 0));
        let ended = |records: [&[u8]; 2]| {
            let mut bench = bench.clone();
            let totals = totals(bench.last(), records, |record| bench.arrive(record));
            (totals, bench.lane(9).unwrap().position)
        };
        let (s, t) = (forward(0, 1 << 9, 200), back(0, 1 << 9, 254));
        assert_eq!(ended([&s, &t]), ([154, 254], 0));
        assert_eq!(ended([&t, &s]), ([100, 200], 200));
    }
}
