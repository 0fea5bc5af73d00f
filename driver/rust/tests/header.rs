//! The numbers of the C header, against the calls.

use katan_bench::{
    raw, record, version, Bench, Lane, Reading, Refusal, LAST_CLOCK, LONGEST_DATA, VERSION,
};
use std::collections::HashMap;

/// The header's names for numbers: `#define NAME NUMBER`, perhaps with a suffix and a comment.
fn names() -> HashMap<&'static str, usize> {
    include_str!("../../katan_bench.h")
        .lines()
        .filter_map(|line| {
            let mut words = line.strip_prefix("#define ")?.split_whitespace();
            let (name, value) = (words.next()?, words.next()?);
            Some((name, value.trim_end_matches('u').parse().ok()?))
        })
        .collect()
}

fn number(bytes: &[u8]) -> u64 {
    bytes
        .iter()
        .rev()
        .fold(0, |x, byte| x << 8 | u64::from(*byte))
}

#[test]
fn statuses_and_lengths() {
    let names = names();
    let refusals = [
        ("KATAN_BAD_VARIANT", Refusal::BadVariant),
        ("KATAN_BAD_LENGTH", Refusal::BadLength),
        ("KATAN_BAD_KIND", Refusal::BadKind),
        ("KATAN_FIELD_NOT_ZERO", Refusal::FieldNotZero),
        ("KATAN_BAD_LANE", Refusal::BadLane),
        ("KATAN_BAD_POSITION", Refusal::BadPosition),
        ("KATAN_BAD_BLOCK", Refusal::BadBlock),
        ("KATAN_EMPTY_MASK", Refusal::EmptyMask),
        ("KATAN_OUT_OF_TURN", Refusal::OutOfTurn),
        ("KATAN_OTHER_BYTES", Refusal::OtherBytes),
        ("KATAN_EMPTY_LANE", Refusal::EmptyLane),
        ("KATAN_BAD_RATE", Refusal::BadRate),
        ("KATAN_BEYOND_END", Refusal::BeyondEnd),
        ("KATAN_BAD_CLOCK", Refusal::BadClock),
        ("KATAN_CONTRADICTION", Refusal::Contradiction),
    ];
    for (name, refusal) in refusals {
        assert_eq!(names[name], usize::from(refusal.number()), "{name}");
    }
    assert_eq!(names["KATAN_VERSION"], VERSION as usize);
    assert_eq!(version(), VERSION);
    assert_eq!(names["KATAN_RECORD_LENGTH"], record::LENGTH);
    assert_eq!(names["KATAN_LANES"], raw::LANES);
    assert_eq!(names["KATAN_LANE_LENGTH"], raw::LANE_LENGTH);
    let lanes = names["KATAN_LANE_LENGTH"] * names["KATAN_LANES"];
    assert_eq!(names["KATAN_BENCH_LANES"] + lanes, raw::BENCH_LENGTH);
    assert_eq!(
        names["KATAN_LINK_RECORD"] + record::LENGTH,
        raw::LINK_LENGTH
    );
    assert_eq!(names["KATAN_CALL_ANSWER_LENGTH"], raw::ANSWER_LENGTH);
    let key = vec![0; names["KATAN_KEY_LENGTH"]];
    let longest = names["KATAN_LONGEST_DATA"];
    assert_eq!(longest, LONGEST_DATA);
    let status = |length| katan_bench::keystream(1, &key, 0, &vec![0; length]).err();
    assert_eq!(status(longest), None);
    assert_eq!(status(longest + 1), Some(Refusal::BeyondEnd));
    let last = names["KATAN_LAST_CLOCK"] as u64;
    assert_eq!(last, LAST_CLOCK);
    assert!(katan_bench::origin(1, &key, 0, last).is_ok());
    let after = katan_bench::origin(1, &key, 0, last + 1);
    assert_eq!(after, Err(Refusal::BadClock));
    let words = names["KATAN_ORIGIN_WORDS"];
    let status = |length| raw::origin(1, &key, 0, last, &mut vec![7; length]);
    assert_eq!([words - 1, words, words + 1].map(status), [2, 0, 2]);
    let last = names["KATAN_ROUNDS"] as u64;
    let words = names["KATAN_SMUDGED_WORDS"];
    let sheet = raw::Parts {
        ones: 0,
        zeros: 0,
        key_ones: &key,
        key_zeros: &key,
    };
    let status = |position, length| raw::smudged(1, sheet, position, &mut vec![7; length]);
    assert_eq!([last, last + 1].map(|p| status(p, words)), [0, 6]);
    assert_eq!([words - 1, words + 1].map(|n| status(last, n)), [2, 2]);
    let bytes = names["KATAN_JOINED_KEY_LENGTH"];
    assert_eq!(bytes, 2 * key.len());
    let status =
        |words, bytes| raw::join(1, sheet, sheet, &mut vec![7; words], &mut vec![7; bytes]);
    assert_eq!(
        [words - 1, words, words + 1].map(|n| status(n, bytes)),
        [2, 0, 2]
    );
    assert_eq!([bytes - 1, bytes + 1].map(|n| status(words, n)), [2, 2]);
    let bench = Bench::open(1).unwrap();
    let bench = bench.bytes().0;
    let lanes = names["KATAN_LANES"];
    let status = |length| raw::screen(bench, 1, &mut vec![7; length], &mut [7]);
    assert_eq!([lanes - 1, lanes, lanes + 1].map(status), [2, 0, 2]);
    let status = |length| raw::screen(bench, 1, &mut vec![7; lanes], &mut vec![7; length]);
    assert_eq!([0, 1, 2].map(status), [2, 0, 2]);
    let highest = names["KATAN_HIGHEST_RATE"] as u64;
    assert!(katan_bench::bit_rate(1, highest).is_ok());
    assert_eq!(katan_bench::bit_rate(1, highest + 1), Err(Refusal::BadRate));
}

/// A load and a step, by the header's offsets.
#[test]
fn offsets() {
    let names = names();
    let key = [1, 2, 3, 4, 5, 6, 7, 8, 9, 10];
    let (lane, position, block) = (5, 100, 0x0123_4567_89ab);
    let mut load = [0; record::LENGTH];
    load[names["KATAN_RECORD_KIND"]] = names["KATAN_LOAD"] as u8;
    load[names["KATAN_RECORD_LANE"]] = lane;
    load[names["KATAN_RECORD_COUNT"]] = position;
    load[names["KATAN_RECORD_NUMBER"]] = 1;
    let at = names["KATAN_RECORD_KEY"];
    load[at..at + key.len()].copy_from_slice(&key);
    let at = names["KATAN_RECORD_BLOCK"];
    load[at..at + 8].copy_from_slice(&u64::to_le_bytes(block));
    assert_eq!(load, record::load(1, lane, position, &key, block));

    let moves = [
        ("KATAN_FORWARD", record::forward(2, 1 << lane, 7)),
        ("KATAN_BACK", record::back(2, 1 << lane, 7)),
        ("KATAN_CLEAR", record::clear(2, 1 << lane)),
    ];
    for (kind, sent) in moves {
        assert_eq!(sent[names["KATAN_RECORD_KIND"]], names[kind] as u8);
        let at = names["KATAN_RECORD_MASK"];
        assert_eq!(number(&sent[at..at + 8]), 1 << lane);
    }

    let variant = names["KATAN48"] as u8;
    let mut bench = Bench::open(variant).unwrap();
    bench.arrive(&load).unwrap();
    let sent = record::forward(2, 1 << lane, 7);
    bench.arrive(&sent).unwrap();
    let Reading {
        position,
        registers,
    } = bench.read(u64::from(lane)).unwrap();

    let (bytes, link) = bench.bytes();
    assert_eq!(bytes[names["KATAN_BENCH_VARIANT"]], variant);
    let start = names["KATAN_BENCH_LANES"] + names["KATAN_LANE_LENGTH"] * usize::from(lane);
    let at = |name: &str| start + names[name];
    let loaded = names["KATAN_LANE_LOADED"] as u8;
    assert_eq!(bytes[at("KATAN_LANE_STATE")], loaded);
    assert_eq!(bytes[at("KATAN_LANE_POSITION")], position);
    let (from, to) = (at("KATAN_LANE_KEY"), at("KATAN_LANE_REGISTERS"));
    assert_eq!(bytes[from..from + key.len()], key);
    assert_eq!(number(&bytes[to..to + 8]), registers);
    let empty = names["KATAN_LANE_EMPTY"] as u8;
    assert_eq!(bytes[names["KATAN_BENCH_LANES"]], empty);

    let at = names["KATAN_LINK_LAST"];
    assert_eq!(number(&link[at..at + 4]), 2);
    let at = names["KATAN_LINK_TOTAL"];
    assert_eq!(number(&link[at..at + 4]), 7);
    assert_eq!(link[names["KATAN_LINK_RECORD"]..], sent);
}

/// Loaded lanes, an empty one and damaged ones, by the header's offsets: a preview that is refused for
/// them shows each as it is.
#[test]
fn lanes_as_they_are() {
    let names = names();
    let mut bench = Bench::open(names["KATAN64"] as u8).unwrap();
    let block = 0x0123_4567_89ab_cdef;
    for lane in 0..raw::LANES as u8 - 1 {
        let load = record::load(u32::from(lane) + 1, lane, lane + 100, &[lane; 10], block);
        bench.arrive(&load).unwrap();
    }
    let (bytes, link) = bench.bytes();
    let (mut bytes, link) = (*bytes, *link);
    let lane = |i: usize| names["KATAN_BENCH_LANES"] + names["KATAN_LANE_LENGTH"] * i;
    for state in 2..=255_u8 {
        bytes[lane(7) + names["KATAN_LANE_STATE"]] = state;
        bytes[lane(8) + names["KATAN_LANE_POSITION"]] = state;
        bytes[lane(62) + names["KATAN_LANE_REGISTERS"] + 7] = state;
        let shown = Bench::from_bytes(bytes, link).preview(&record::clear(64, u64::MAX));
        assert_eq!(shown.reply, Err(Refusal::BadVariant));
        for (i, lane) in shown.lanes.into_iter().enumerate() {
            let mut reading = Reading {
                position: i as u8 + 100,
                registers: block,
            };
            match i {
                8 => reading.position = state,
                62 => reading.registers = u64::from(state) << 56 | block & (u64::MAX >> 8),
                _ => {}
            }
            let expected = match i {
                7 => Lane::OtherState,
                63 => Lane::Empty,
                _ => Lane::Loaded(reading),
            };
            assert_eq!(lane, expected, "lane {i}");
        }
    }
}

/// The four kinds of answers, by the header's names.
#[test]
fn lists() {
    let names = names();
    let load = record::load(1, 0, 9, &[0; 10], 0);
    let mut calls = Vec::new();
    for _ in 0..2 {
        calls.push(names["KATAN_CALL_ARRIVE"] as u8);
        calls.extend((record::LENGTH as u32).to_le_bytes());
        calls.extend(load);
    }
    for lane in 0..2u32 {
        calls.push(names["KATAN_CALL_READ"] as u8);
        calls.extend(lane.to_le_bytes());
    }
    let size = names["KATAN_CALL_ANSWER_LENGTH"];
    let (mut bench, mut answers) = ([0; raw::BENCH_LENGTH], vec![0; 4 * size]);
    assert_eq!(raw::replay(1, &calls, &mut bench, &mut answers), 0);
    let expected = [
        ("KATAN_ANSWER_DONE", 1),
        ("KATAN_ANSWER_AGAIN", 1),
        ("KATAN_ANSWER_READ", 9),
        ("KATAN_ANSWER_REFUSED", names["KATAN_EMPTY_LANE"] as u64),
    ];
    for (answer, (kind, first)) in answers.chunks(size).zip(expected) {
        assert_eq!(answer[names["KATAN_ANSWER_KIND"]], names[kind] as u8);
        let (at, value) = (names["KATAN_ANSWER_NUMBER"], names["KATAN_ANSWER_VALUE"]);
        assert_eq!(number(&answer[at..value]), first);
    }
    let (mut bench, mut words) = (
        [0; raw::BENCH_LENGTH],
        vec![7; names["KATAN_ARRIVAL_WORDS"]],
    );
    let mut link = [0; raw::LINK_LENGTH];
    assert_eq!(raw::open(1, &mut bench, &mut link), 0);
    for name in ["KATAN_DONE", "KATAN_AGAIN"] {
        assert_eq!(raw::arrive(&mut bench, &mut link, &load, &mut words), 0);
        assert_eq!(words[0] as usize, names[name]);
    }
    let mut words = vec![7; names["KATAN_READING_WORDS"]];
    assert_eq!(raw::read(&bench, 0, &mut words), 0);
    assert_eq!(words[0], 9);
}
