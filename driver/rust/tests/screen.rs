//! All lanes on the screen: against the independent model, against single reads of each lane, and the
//! checks.

mod common;

use common::{arrival, generator, length, one_of, start, variant, width};
use katan_bench::raw::{self, BENCH_LENGTH, LANES, LANE_LENGTH, LINK_LENGTH};
use katan_bench::{Bench, Refusal};
use katan_model::{bench as records, driver as model, Random, Reply, Screen};

const ALL: u64 = u64::MAX;

/// Every other lane, from lane 0 on.
const EVEN: u64 = 0x5555_5555_5555_5555;

/// The words of the mask shown.
const SHOWN: usize = 1;

/// What a call is given beside the bench.
#[derive(Clone, Copy, Debug)]
struct Call {
    mask: u64,
    out_length: usize,
    shown_length: usize,
}

/// A call with the right lengths.
fn sound(mask: u64) -> Call {
    Call {
        mask,
        out_length: LANES,
        shown_length: SHOWN,
    }
}

/// The status, and what the lent outputs hold then.
type Given = (u8, Vec<u64>, Vec<u64>);

fn names(mask: u64, lane: usize) -> bool {
    mask >> lane & 1 == 1
}

/// Makes calls and compares them, and counts what was met.
struct Trial {
    test: &'static str,
    random: Random,
    /// Calls of each status.
    statuses: [u64; 9],
    /// Lanes in calls of status 0: named and loaded, named and empty, loaded and not named.
    shown: u64,
    left_out: u64,
    not_named: u64,
}

impl Trial {
    fn new(test: &'static str, random: Random) -> Trial {
        Trial {
            test,
            random,
            statuses: [0; 9],
            shown: 0,
            left_out: 0,
            not_named: 0,
        }
    }

    /// Two words, those to be lent, and two more. They hold anything but 0.
    fn words(&mut self, lent: usize) -> Vec<u64> {
        let count = 2 + lent + 2;
        (0..count).map(|_| self.random.next_u64() | 1).collect()
    }

    /// Makes the call, and compares it with the model's and with single reads. Bench and outputs are lent
    /// out of the middle of other memory, and all of it is compared.
    fn call(&mut self, bench: &[u8], call: Call) -> Given {
        let (out, shown) = (self.words(call.out_length), self.words(call.shown_length));
        let (to, into) = (2..2 + call.out_length, 2..2 + call.shown_length);
        let from = self.random.below(8) as usize;
        let at = from..from + bench.len();
        let mut memory = self.random.bytes(at.end + 3);
        memory[at.clone()].copy_from_slice(bench);
        let lent = memory.clone();
        let (mut ours, mut theirs) = ((out.clone(), shown.clone()), (out.clone(), shown.clone()));

        let got = {
            let (out, shown) = (&mut ours.0[to.clone()], &mut ours.1[into.clone()]);
            raw::screen(&lent[at], call.mask, out, shown)
        };
        let expected = {
            let (out, shown) = (&mut theirs.0[to.clone()], &mut theirs.1[into.clone()]);
            model::screen(bench, call.mask, out, shown)
        };
        let test = self.test;
        let context = || format!("{test}: {call:x?}, bench {bench:02x?}");
        assert_eq!(got, expected, "{}", context());
        assert!(
            ours == theirs,
            "{}: two words stand before each output\n{ours:x?}\n{theirs:x?}",
            context()
        );
        let as_before = ours == (out, shown);
        assert!(got == 0 || as_before, "{}: refused, but written", context());
        assert!(lent == memory, "{}: the bench is written", context());

        let given = (got, ours.0[to].to_vec(), ours.1[into].to_vec());
        self.statuses[got as usize] += 1;
        if got == 0 {
            self.beside_reads(bench, call.mask, &given);
        } else {
            // A read meets what is wrong with the bench, and nothing else.
            let read = raw::read(bench, self.random.below(LANES as u64), &mut [7; 2]);
            let of_bench: &[u8] = match got {
                1 => &[1],
                _ if bench.len() != BENCH_LENGTH => &[2],
                _ => &[0, 11],
            };
            let met = of_bench.contains(&read);
            assert!(met, "{}: a read gives {read}", context());
        }
        given
    }

    /// The registers given, and the named lanes left out as empty, are those of single reads.
    fn beside_reads(&mut self, bench: &[u8], mask: u64, given: &Given) {
        let (_, out, shown) = given;
        for (lane, word) in out.iter().enumerate() {
            let mut reading = [7; 2];
            let status = raw::read(bench, lane as u64, &mut reading);
            let expected = match (status, names(mask, lane)) {
                (0, true) => {
                    self.shown += 1;
                    (true, reading[1])
                }
                (0, false) => {
                    self.not_named += 1;
                    (false, 0)
                }
                (11, named) => {
                    self.left_out += named as u64;
                    (false, 0)
                }
                _ => panic!("a read of lane {lane} gives {status}: {bench:02x?}"),
            };
            let got = (names(shown[0], lane), *word);
            assert_eq!(
                got, expected,
                "{}: mask {mask:x}, lane {lane}, bench {bench:02x?}",
                self.test
            );
        }
    }

    /// Each of these statuses was met and no other, and all three kinds of lanes.
    fn close(&self, statuses: &[usize]) {
        let calls: u64 = self.statuses.iter().sum();
        let met: Vec<usize> = (0..9).filter(|i| self.statuses[*i] > 0).collect();
        let lanes = [self.shown, self.left_out, self.not_named];
        println!(
            "{}: {calls} calls, statuses 0 to 8: {:?}; lanes shown, named and empty, loaded and not \
             named: {lanes:?}",
            self.test, self.statuses
        );
        assert_eq!(met, statuses, "{}", self.test);
        assert!(lanes.iter().all(|count| *count > 0), "{}", self.test);
    }
}

fn trial(test: &'static str) -> Trial {
    Trial::new(test, generator(test))
}

/// A mask of no lane, one, all, all but one, few, or about half.
fn any_mask(random: &mut Random) -> u64 {
    let one = 1 << random.below(LANES as u64);
    match random.below(8) {
        0 => 0,
        1 => one,
        2 => ALL,
        3 => !one,
        4 => random.next_u64() & random.next_u64() & random.next_u64(),
        _ => random.next_u64(),
    }
}

/// A mask that names some lane.
fn some_mask(random: &mut Random) -> u64 {
    any_mask(random) | 1 << random.below(LANES as u64)
}

/// Where a lane begins, by the header's layout.
fn at_lane(lane: usize) -> usize {
    1 + LANE_LENGTH * lane
}

fn at_registers(lane: usize) -> usize {
    at_lane(lane) + 12
}

fn put_registers(bench: &mut [u8], lane: usize, registers: u64) {
    bench[at_registers(lane)..][..8].copy_from_slice(&registers.to_le_bytes());
}

fn registers_in(bench: &[u8], lane: usize) -> u64 {
    u64::from_le_bytes(bench[at_registers(lane)..][..8].try_into().unwrap())
}

/// A sound bench with these lanes loaded. Of an empty lane, all bytes but the state hold anything.
fn memory(random: &mut Random, variant: u8, loaded: u64) -> Vec<u8> {
    let mut bench = random.bytes(BENCH_LENGTH);
    bench[0] = variant;
    for lane in 0..LANES {
        bench[at_lane(lane)] = names(loaded, lane) as u8;
        if names(loaded, lane) {
            bench[at_lane(lane) + 1] = random.position();
            put_registers(&mut bench, lane, random.bits(width(variant)));
        }
    }
    bench
}

/// Makes a call on a sound bench with these lanes loaded, and holds what it gives to the bench's own
/// bytes.
fn shows(trial: &mut Trial, bench: &[u8], loaded: u64, mask: u64) {
    let (status, out, shown) = trial.call(bench, sound(mask));
    assert_eq!((status, shown), (0, vec![mask & loaded]), "{mask:x}");
    let expected: Vec<u64> = (0..LANES)
        .map(|lane| match names(mask & loaded, lane) {
            true => registers_in(bench, lane),
            false => 0,
        })
        .collect();
    assert_eq!(out, expected, "{mask:x}");
}

/// What the wrapper shows, against the model's answer.
fn wrapped(bench: &Bench, mask: u64, expected: Screen) {
    let got = bench.screen(mask);
    match expected {
        Screen::Refused(check) => assert_eq!(got.err(), Refusal::from_number(check)),
        Screen::Shows { registers, lanes } => {
            let got = got.unwrap();
            let shown: Vec<(u64, u64)> = (0..LANES)
                .filter(|lane| names(lanes, *lane))
                .map(|lane| (lane as u64, registers[lane]))
                .collect();
            assert_eq!(got.shown(), lanes);
            assert_eq!(got.lanes().collect::<Vec<_>>(), shown);
            for (lane, registers) in registers.into_iter().enumerate() {
                let of_lane = names(lanes, lane).then_some(registers);
                let lane = lane as u64;
                assert_eq!(got.registers(lane), of_lane);
                for other in [lane + LANES as u64, lane + (1 << 32), ALL - lane] {
                    assert_eq!(got.registers(other), None);
                }
            }
        }
    }
}

/// Benches that lists of records leave: in each variant a load at each position, with moves and clears
/// among them. The model's bench gets the same records, and finds a lane's registers from its load. Some
/// loads are of the zero block under a zero key, which is zero at each position.
#[test]
fn lists_of_records() {
    let mut trial = trial("lists_of_records");
    let (mut kinds, mut zeros) = ([0; 5], 0);
    for variant in 1..=6 {
        let mut ours = Bench::open(variant).unwrap();
        let mut theirs = katan_model::Bench::new(variant).unwrap();
        let mut positions = [0; 255];
        for position in 0..=254 {
            let random = &mut trial.random;
            let lane = random.below(LANES as u64) as u8;
            let (key, block) = match random.below(8) {
                0 => ([0; 10], 0),
                _ => (random.key(), random.bits(width(variant))),
            };
            let mut list = vec![records::load(0, lane, position, &key, block)];
            if random.below(2) == 0 {
                let (mask, count) = (some_mask(random), random.count());
                list.push(match random.below(5) {
                    0 | 1 => records::forward(0, mask, count),
                    2 | 3 => records::back(0, mask, count),
                    _ => records::clear(0, mask & random.next_u64() | 1),
                });
            }
            for sent in list {
                let sent = records::numbered(&sent, theirs.last() + 1);
                assert!(ours.arrive(&sent).is_ok(), "{sent:02x?}");
                assert!(matches!(theirs.arrive(&sent), Reply::Done { .. }));
                kinds[sent[0] as usize] += 1;
            }
            let mask = any_mask(random);
            let (status, out, shown) = trial.call(ours.bytes().0, sound(mask));
            let expected = theirs.screen(mask);
            match expected {
                Screen::Refused(check) => assert_eq!(status, check),
                Screen::Shows { registers, lanes } => {
                    assert_eq!(status, 0);
                    assert_eq!(out, registers, "variant {variant}, {mask:x}");
                    assert_eq!(shown, [lanes], "variant {variant}, {mask:x}");
                    for lane in (0..LANES).filter(|lane| names(lanes, *lane)) {
                        positions[theirs.position(lane).unwrap() as usize] += 1;
                        zeros += (registers[lane] == 0) as u32;
                    }
                }
            }
            wrapped(&ours, mask, expected);
        }
        let met = positions.iter().filter(|count| **count > 0).count();
        assert!(positions[0] > 0 && positions[254] > 0 && met > 150, "{met}");
    }
    assert!(kinds[1..].iter().all(|count| *count > 50), "{kinds:?}");
    assert!(zeros > 100, "{zeros}");
    trial.close(&[0, 8]);
}

/// Each lane alone, all lanes but one, those below one and those from one on, all and none, on benches
/// with all lanes loaded, every other one, a single one, or none.
#[test]
fn masks_of_each_lane() {
    let mut trial = trial("masks_of_each_lane");
    let mut masks = vec![ALL, EVEN, !EVEN];
    for lane in 0..LANES {
        masks.extend([1 << lane, !(1 << lane), (1 << lane) - 1, ALL << lane]);
    }
    for variant in 1..=6 {
        let one = 1 << trial.random.below(LANES as u64);
        for loaded in [ALL, EVEN, !EVEN, one, 0] {
            let bench = memory(&mut trial.random, variant, loaded);
            for mask in &masks {
                match mask {
                    0 => assert_eq!(trial.call(&bench, sound(0)).0, 8),
                    _ => shows(&mut trial, &bench, loaded, *mask),
                }
            }
        }
    }
    trial.close(&[0, 8]);
}

/// Loaded lanes are shown at every position, also where their registers are 0.
#[test]
fn every_position() {
    let mut trial = trial("every_position");
    for variant in 1..=6 {
        let largest = ALL >> (64 - width(variant));
        for position in 0..=254 {
            let loaded = trial.random.next_u64();
            let mut bench = memory(&mut trial.random, variant, loaded);
            for lane in (0..LANES).filter(|lane| names(loaded, *lane)) {
                bench[at_lane(lane) + 1] = position;
                let some = trial.random.bits(width(variant));
                let registers = one_of(&mut trial.random, &[0, 1, largest, some]);
                put_registers(&mut bench, lane, registers);
            }
            let mask = some_mask(&mut trial.random);
            shows(&mut trial, &bench, loaded, mask);
        }
    }
    trial.close(&[0]);
}

/// Single register bits: each is shown in its place.
#[test]
fn every_register_bit() {
    let mut trial = trial("every_register_bit");
    for variant in 1..=6 {
        for bit in 0..width(variant) {
            let loaded = trial.random.next_u64();
            let mut bench = memory(&mut trial.random, variant, loaded);
            for lane in (0..LANES).filter(|lane| names(loaded, *lane)) {
                put_registers(&mut bench, lane, 1 << bit);
            }
            let mask = some_mask(&mut trial.random);
            shows(&mut trial, &bench, loaded, mask);
        }
    }
    trial.close(&[0]);
}

/// Of an empty lane only the state is looked at: what its position, key and registers hold is neither
/// damage nor shown. A lane that is cleared keeps them.
#[test]
fn empty_lanes_hold_anything() {
    let mut trial = trial("empty_lanes_hold_anything");
    for variant in 1..=6 {
        for fill in [0, 1, 2, 128, 254, 255] {
            let loaded = trial.random.next_u64();
            let mut bench = memory(&mut trial.random, variant, loaded);
            for lane in (0..LANES).filter(|lane| !names(loaded, *lane)) {
                bench[at_lane(lane) + 1..at_lane(lane + 1)].fill(fill);
            }
            for mask in [ALL, loaded, !loaded, some_mask(&mut trial.random)] {
                shows(&mut trial, &bench, loaded, mask);
            }
        }
        // All lanes loaded, and some cleared.
        let mut bench = memory(&mut trial.random, variant, ALL);
        let mask = trial.random.next_u64();
        let clear = records::clear(1, mask);
        let mut link = [0; LINK_LENGTH];
        let kept = bench.clone();
        assert_eq!(raw::arrive(&mut bench, &mut link, &clear, &mut [0; 3]), 0);
        for lane in (0..LANES).filter(|lane| names(mask, *lane)) {
            assert_eq!(registers_in(&bench, lane), registers_in(&kept, lane));
        }
        for named in [ALL, mask, !mask] {
            shows(&mut trial, &bench, !mask, named);
        }
    }
    trial.close(&[0]);
}

/// A fresh bench shows nothing, whatever the mask and whatever its memory held before.
#[test]
fn fresh_benches() {
    let mut trial = trial("fresh_benches");
    for variant in 1..=6 {
        for _ in 0..40 {
            let mut bench = memory(&mut trial.random, variant, ALL);
            let before = trial.random.next_u64();
            shows(&mut trial, &bench, ALL, before | 1);
            assert_eq!(raw::open(variant, &mut bench, &mut [0; LINK_LENGTH]), 0);
            let mask = some_mask(&mut trial.random);
            let (status, out, shown) = trial.call(&bench, sound(mask));
            assert_eq!((status, out, shown), (0, vec![0; LANES], vec![0]));
            assert_eq!(trial.call(&bench, sound(0)).0, 8);
        }
    }
    trial.close(&[0, 8]);
}

/// Every number that a byte can have for a variant, with lanes loaded and without.
#[test]
fn every_variant_number() {
    let mut trial = trial("every_variant_number");
    for variant in 0..=255 {
        let expected = if (1..=6).contains(&variant) { 0 } else { 1 };
        for loaded in [0, trial.random.next_u64()] {
            let mut bench = memory(&mut trial.random, 1, loaded);
            bench[0] = variant;
            let mask = some_mask(&mut trial.random);
            let (status, ..) = trial.call(&bench, sound(mask));
            assert_eq!(status, expected, "variant {variant}");
        }
    }
    trial.close(&[0, 1]);
}

/// A damaged lane gets 1, whether the mask names it or not: every state that is neither, the position 255,
/// and every register bit from n on.
#[test]
fn damaged_lanes() {
    let mut trial = trial("damaged_lanes");
    let mut named = [0; 2];
    for variant in 1..=6 {
        for lane in 0..LANES {
            // Each state and each bit comes in some lane of each variant, the first and the last in all.
            let turn = |number: usize| number % LANES == lane;
            let states = (2..=255).filter(|state| turn(*state) || [2, 255].contains(state));
            let mut damages: Vec<(usize, u8)> =
                states.map(|state| (at_lane(lane), state as u8)).collect();
            damages.push((at_lane(lane) + 1, 255));
            let first = width(variant) as usize;
            let bits = (first..64).filter(|bit| turn(*bit) || [first, 63].contains(bit));
            damages.extend(bits.map(|bit| (at_registers(lane) + bit / 8, 1 << (bit % 8))));
            for (at, byte) in damages {
                let loaded = trial.random.next_u64() | 1 << lane;
                let mut bench = memory(&mut trial.random, variant, loaded);
                let others = trial.random.next_u64() | 1 << ((lane + 1) % LANES);
                let masks = [1 << lane, ALL, others | 1 << lane, others & !(1 << lane)];
                shows(&mut trial, &bench, loaded, others);
                bench[at] = byte;
                for mask in masks {
                    let (status, ..) = trial.call(&bench, sound(mask));
                    assert_eq!(status, 1, "{mask:x}, byte {at} is {byte}");
                    named[names(mask, lane) as usize] += 1;
                }
            }
        }
    }
    assert!(named.iter().all(|count| *count > 1000), "{named:?}");
    trial.close(&[0, 1]);
}

/// Lengths up to some more than the right ones.
#[test]
fn every_length() {
    let mut trial = trial("every_length");
    let mut calls = vec![(BENCH_LENGTH, LANES, SHOWN); 40];
    for length in (0..1300).chain([2 * BENCH_LENGTH]) {
        calls.push((length, LANES, SHOWN));
    }
    for length in (0..=2 * LANES).chain([1000]) {
        calls.push((BENCH_LENGTH, length, SHOWN));
    }
    for length in (0..=LANES).chain([1000]) {
        calls.push((BENCH_LENGTH, LANES, length));
        // The lengths of the two outputs exchanged, and others with the right sum.
        calls.push((BENCH_LENGTH, SHOWN, length));
        calls.push((BENCH_LENGTH, LANES + SHOWN - length.min(LANES), length));
    }
    for (bench_length, out_length, shown_length) in calls {
        let loaded = trial.random.next_u64();
        let mut bench = memory(&mut trial.random, 3, loaded);
        bench.resize(bench_length, 0);
        let call = Call {
            mask: some_mask(&mut trial.random),
            out_length,
            shown_length,
        };
        let right = (bench_length, out_length, shown_length) == (1281, 64, 1);
        let (status, ..) = trial.call(&bench, call);
        let expected = if right { 0 } else { 2 };
        assert_eq!(status, expected, "{bench_length}, {call:?}");
    }
    trial.close(&[0, 2]);
}

/// What can be wrong with a call.
#[derive(Clone, Copy, Debug, PartialEq)]
enum Fault {
    BenchLength,
    Damage,
    Length,
    Mask,
}

/// Each fault alone, each two at once, each three and all, in every way listed.
#[test]
fn faults_at_once() {
    use Fault::*;
    let mut trial = trial("faults_at_once");
    // The faults that a call has, and the status that it gets.
    let expected: [(&[Fault], u8); 16] = [
        (&[], 0),
        (&[BenchLength], 2),
        (&[Damage], 1),
        (&[Length], 2),
        (&[Mask], 8),
        (&[BenchLength, Damage], 2),
        (&[BenchLength, Length], 2),
        (&[BenchLength, Mask], 2),
        (&[Damage, Length], 1),
        (&[Damage, Mask], 1),
        (&[Length, Mask], 2),
        (&[BenchLength, Damage, Length], 2),
        (&[BenchLength, Damage, Mask], 2),
        (&[BenchLength, Length, Mask], 2),
        (&[Damage, Length, Mask], 1),
        (&[BenchLength, Damage, Length, Mask], 2),
    ];
    for variant in 1..=6 {
        // Lane 5 is loaded and lane 6 is empty.
        let loaded = trial.random.next_u64() & !(1 << 6) | 1 << 5;
        let sound = memory(&mut trial.random, variant, loaded);
        // A byte's place, and what it holds then.
        let mut damages = vec![
            (0, 0),
            (0, 7),
            (0, 255),
            (at_lane(5), 2),
            (at_lane(5) + 1, 255),
            (at_lane(6), 255),
        ];
        if width(variant) < 64 {
            damages.push((at_registers(5) + width(variant) as usize / 8, 1));
        }
        for (faults, status) in expected {
            let bench_lengths: &[usize] = match faults.contains(&BenchLength) {
                true => &[0, 1, 20, 21, 64, 1280, 1282, 1301, 2562],
                false => &[1281],
            };
            let damages: &[(usize, u8)] = match faults.contains(&Damage) {
                true => &damages,
                false => &[(0, variant)],
            };
            let lengths: &[(usize, usize)] = match faults.contains(&Length) {
                true => &[
                    (0, 1),
                    (1, 1),
                    (63, 1),
                    (65, 1),
                    (128, 1),
                    (64, 0),
                    (64, 2),
                    (64, 64),
                    (1, 64),
                    (0, 0),
                    (65, 2),
                ],
                false => &[(64, 1)],
            };
            let masks: &[u64] = match faults.contains(&Mask) {
                true => &[0],
                false => &[1 << 5, 1 << 6, !(1 << 5), ALL],
            };
            for ((bench_length, (at, byte)), (out_length, shown_length)) in bench_lengths
                .iter()
                .flat_map(|length| damages.iter().map(move |damage| (*length, *damage)))
                .flat_map(|bench| lengths.iter().map(move |lengths| (bench, *lengths)))
            {
                let mut bench = sound.clone();
                bench[at] = byte;
                bench.resize(bench_length, 0);
                for mask in masks {
                    let call = Call {
                        mask: *mask,
                        out_length,
                        shown_length,
                    };
                    let (got, ..) = trial.call(&bench, call);
                    assert_eq!(got, status, "{bench_length}, {call:x?} has {faults:?}");
                }
            }
        }
    }
    trial.close(&[0, 1, 2, 8]);
}

/// The room of a preview, whatever the record: it shows what the bench shows once the record has arrived.
#[test]
fn rooms_of_previews() {
    let (random, calls) = start("rooms_of_previews", 2_000);
    let mut trial = Trial::new("rooms_of_previews", random);
    let (mut altered, mut refused) = (0, 0);
    let mut made = 0;
    while made < calls {
        let variant = 1 + trial.random.below(6) as u8;
        let loaded = trial.random.next_u64();
        let mut bench = memory(&mut trial.random, variant, loaded);
        let mut link = [0; LINK_LENGTH];
        for _ in 0..10 {
            let last = u32::from_le_bytes(link[..4].try_into().unwrap());
            let sent = arrival(&mut trial.random, variant, last, &link[8..]);
            let mut room = vec![0x99; BENCH_LENGTH];
            let status = raw::preview(&bench, &link, &sent, &mut [0; 3], &mut room);
            let mask = any_mask(&mut trial.random);
            let (before, in_room) = (
                trial.call(&bench, sound(mask)),
                trial.call(&room, sound(mask)),
            );
            let arrived = raw::arrive(&mut bench, &mut link, &sent, &mut [0; 3]);
            assert_eq!(status, arrived, "{sent:02x?}");
            let after = trial.call(&bench, sound(mask));
            assert_eq!(in_room.0, after.0, "{sent:02x?}, {mask:x}");
            if after.0 == 0 {
                assert_eq!(in_room, after, "{sent:02x?}, {mask:x}");
                assert!(status == 0 || before == after, "{sent:02x?}, {mask:x}");
                altered += (before != after) as u32;
                refused += (status != 0) as u32;
            }
            made += 1;
        }
    }
    println!("rooms_of_previews: {altered} altered the screen, {refused} refused");
    if calls >= 1_000 {
        assert!(altered > 100 && refused > 100);
        trial.close(&[0, 8]);
    }
}

/// Random calls on whatever a driver hands in: sound benches, some with bits turned over or bytes
/// overwritten anywhere, and benches of random bytes alone.
#[test]
fn random_calls() {
    let (random, calls) = start("random_calls", 20_000);
    let mut trial = Trial::new("random_calls", random);
    // Benches with damaged bytes, of the right length, that pass check 1 or do not.
    let mut spoilt = [0; 2];
    for _ in 0..calls {
        let random = &mut trial.random;
        let (variant, loaded) = (variant(random), any_mask(random));
        let mut bench = memory(random, variant, loaded);
        let damage = random.below(4);
        for _ in 0..1 + random.below(3) {
            let at = random.below(BENCH_LENGTH as u64) as usize;
            match damage {
                0 => bench[at] ^= 1 << random.below(8),
                1 => bench[at] = random.bits(8) as u8,
                _ => {}
            }
        }
        if random.below(64) == 0 {
            bench = random.bytes(BENCH_LENGTH);
        }
        let bench_length = length(random, BENCH_LENGTH);
        bench.resize(bench_length, 0);
        let call = Call {
            mask: any_mask(random),
            out_length: length(random, LANES),
            shown_length: length(random, SHOWN),
        };
        let (status, _, shown) = trial.call(&bench, call);
        if let (Ok(bytes), LANES, SHOWN) =
            (bench[..].try_into(), call.out_length, call.shown_length)
        {
            let got = Bench::from_bytes(bytes, [0; LINK_LENGTH]).screen(call.mask);
            let expected = match status {
                0 => Ok(shown[0]),
                _ => Err(Refusal::from_number(status).unwrap()),
            };
            assert_eq!(got.map(|screen| screen.shown()), expected, "{call:x?}");
        }
        if damage < 2 && status < 2 && (1..=6).contains(&variant) {
            spoilt[status as usize] += 1;
        }
    }
    println!("random_calls: spoilt benches that pass check 1, and do not: {spoilt:?}");
    if calls >= 4_000 {
        assert!(spoilt.iter().all(|count| *count > 100), "{spoilt:?}");
        trial.close(&[0, 1, 2, 8]);
    }
}
