//! Every function of the driver, but for the keystream, the origin of bits, smudged sheets and the screen,
//! against the independent model, on sound and damaged input.

mod common;

use common::{
    arrival, call_answer, length, list, model_answer, model_preview, one_of, record, start,
    variant, width, with_previews, Event,
};
use katan_bench::raw::{self, BENCH_LENGTH, LINK_LENGTH};
use katan_bench::{replay, Answer, Call, Refusal};
use katan_model::calls::Direction;
use katan_model::{bench as records, driver as model, Random, Reply, Variant};

/// A block, mostly below 2^n; at either end now and then.
fn block(random: &mut Random, variant: u8) -> u64 {
    let width = width(variant);
    let largest = u64::MAX >> (64 - width);
    match random.below(16) {
        0 => random.next_u64(),
        1 => largest,
        2 => largest.wrapping_add(1),
        _ => random.bits(width),
    }
}

#[test]
fn one_block() {
    let (mut random, calls) = start("one_block", 30_000);
    for _ in 0..calls {
        let variant = variant(&mut random);
        let key_length = length(&mut random, 10);
        let key = random.bytes(key_length);
        let block = block(&mut random, variant);
        let out_length = length(&mut random, 1);
        let out: Vec<u64> = (0..out_length).map(|_| random.next_u64()).collect();
        let (mut ours, mut theirs) = (out.clone(), out);
        let context =
            format!("variant {variant}, key {key:02x?}, block {block:x}, {out_length} words");
        let (got, expected) = if random.below(2) == 0 {
            (
                raw::encrypt(variant, &key, block, &mut ours),
                model::encrypt(variant, &key, block, &mut theirs),
            )
        } else {
            (
                raw::decrypt(variant, &key, block, &mut ours),
                model::decrypt(variant, &key, block, &mut theirs),
            )
        };
        assert_eq!((got, ours), (expected, theirs), "{context}");
    }
}

/// Every length from 0 to 66, every variant, both ways; then random lengths and faults.
#[test]
fn many_blocks() {
    let (mut random, calls) = start("many_blocks", 3_000);
    let mut cases: Vec<(u8, Direction, usize)> = Vec::new();
    for variant in 0..=7 {
        for direction in [Direction::Encrypt, Direction::Decrypt] {
            cases.extend((0..=66).map(|blocks| (variant, direction, blocks)));
        }
    }
    for (i, (variant, direction, count)) in cases.iter().cycle().take(calls as usize).enumerate() {
        let exact = i < cases.len();
        let mut near = |right| {
            if exact {
                right
            } else {
                length(&mut random, right)
            }
        };
        let (keys_length, out_length) = (near(10 * count), near(*count));
        let keys = random.bytes(keys_length);
        let blocks: Vec<u64> = (0..*count)
            .map(|_| {
                if exact {
                    random.bits(width(*variant))
                } else {
                    block(&mut random, *variant)
                }
            })
            .collect();
        let out: Vec<u64> = (0..out_length).map(|_| random.next_u64()).collect();
        let (mut ours, mut theirs) = (out.clone(), out);
        let got = match direction {
            Direction::Encrypt => raw::encrypt_many(*variant, &keys, &blocks, &mut ours),
            Direction::Decrypt => raw::decrypt_many(*variant, &keys, &blocks, &mut ours),
        };
        let expected = model::many(*direction, *variant, &keys, &blocks, &mut theirs);
        assert_eq!(
            (got, ours),
            (expected, theirs),
            "variant {variant}, {direction:?}, keys {keys:02x?}, blocks {blocks:x?}"
        );
    }
}

#[test]
fn rate_sheet() {
    let (mut random, calls) = start("rate_sheet", 20_000);
    for _ in 0..calls {
        let blocks = random.bits(32) as u32;
        assert_eq!(raw::cycles(blocks), model::cycles(blocks));
        let variant = variant(&mut random);
        let limit = 2_940_000_000;
        let hertz = match random.below(6) {
            0 => one_of(
                &mut random,
                &[0, 1, 100_000, limit, limit + 1, 1 << 32, u64::MAX],
            ),
            1 => random.next_u64(),
            _ => random.below(limit + 2),
        };
        let out = vec![random.next_u64(); length(&mut random, 1)];
        let (mut ours, mut theirs) = (out.clone(), out);
        let got = raw::bit_rate(variant, hertz, &mut ours);
        let expected = model::bit_rate(variant, hertz, &mut theirs);
        assert_eq!(
            (got, ours),
            (expected, theirs),
            "variant {variant}, {hertz} Hz"
        );
    }
    // The largest of both, in numbers that are wider.
    let cycles = 255 * u128::from(u32::MAX);
    assert_eq!(u128::from(raw::cycles(u32::MAX)), cycles);
    assert_eq!(u128::from(model::cycles(u32::MAX)), cycles);
    let mut highest = [0];
    assert_eq!(raw::bit_rate(3, 2_940_000_000, &mut highest), 0);
    assert_eq!(u128::from(highest[0]), 64 * 2_940_000_000 / 255);
}

/// Bits a second at 100,000 Hz, the first and the last from document 02, beside the kbit/s that document
/// 004 prints, KTANTAN's too.
#[test]
fn printed_rates() {
    let rows = [
        (1, 12_549, "12.5"),
        (2, 18_823, "18.8"),
        (3, 25_098, "25.1"),
    ];
    for (katan, bits, printed) in rows {
        assert_eq!(format!("{:.1}", bits as f64 / 1000.0), printed);
        for variant in [katan, katan + 3] {
            let (mut ours, mut theirs) = ([0], [0]);
            assert_eq!(raw::bit_rate(variant, 100_000, &mut ours), 0);
            assert_eq!(model::bit_rate(variant, 100_000, &mut theirs), 0);
            assert_eq!((ours, theirs), ([bits], [bits]), "variant {variant}");
        }
    }
}

/// Bench and link as a driver may hand them in: every lane empty or loaded at some position, with bytes
/// in empty lanes too, and now and then damaged.
fn memory(random: &mut Random) -> (Vec<u8>, Vec<u8>) {
    let variant = variant(random);
    let mut bench = random.bytes(BENCH_LENGTH);
    bench[0] = variant;
    for lane in bench[1..].chunks_mut(model::LANE_LENGTH) {
        lane[0] = random.below(2) as u8;
        lane[1] = random.below(255) as u8;
        let registers = random.bits(width(variant));
        lane[12..].copy_from_slice(&registers.to_le_bytes());
    }
    let mut link = random.bytes(LINK_LENGTH);
    let last = one_of(random, &[0, 1, 5, u32::MAX - 1, u32::MAX]);
    link[..4].copy_from_slice(&last.to_le_bytes());
    if random.below(2) == 0 {
        let kept = record(random, variant, last);
        link[8..].copy_from_slice(&kept);
    }
    if random.below(4) == 0 {
        let lane = 1 + model::LANE_LENGTH * random.below(64) as usize;
        match random.below(3) {
            0 => bench[lane] = one_of(random, &[2, 3, 128, 255]),
            1 => bench[lane + 1] = 255,
            _ => bench[lane + 19] = 0xff,
        }
    }
    let (bench_length, link_length) = (length(random, BENCH_LENGTH), length(random, LINK_LENGTH));
    bench.resize(bench_length, 0);
    link.resize(link_length, 0);
    (bench, link)
}

/// A record for such memory: in turn or not, with faults or without, or the one that the link keeps.
fn arrival_at(random: &mut Random, bench: &[u8], link: &[u8]) -> Vec<u8> {
    let variant = bench.first().copied().unwrap_or(1);
    let last = link
        .get(..4)
        .map_or(0, |bytes| u32::from_le_bytes(bytes.try_into().unwrap()));
    arrival(random, variant, last, link.get(8..).unwrap_or(&[]))
}

/// Single calls on whatever a driver hands in.
#[test]
fn handed_in() {
    let (mut random, calls) = start("handed_in", 20_000);
    let mut seen = [0; 12];
    for _ in 0..calls {
        let (bench, link) = memory(&mut random);
        let (mut ours, mut theirs) = ((bench.clone(), link.clone()), (bench, link));
        let (got, expected, context) = match random.below(8) {
            0 => {
                let variant = variant(&mut random);
                let got = raw::open(variant, &mut ours.0, &mut ours.1);
                let expected = model::open(variant, &mut theirs.0, &mut theirs.1);
                ((got, vec![]), (expected, vec![]), format!("open {variant}"))
            }
            1 | 2 => {
                let lane = match random.below(4) {
                    0 => one_of(&mut random, &[64, 255, 256, 1 << 32, u64::MAX]),
                    _ => random.below(64),
                };
                let answer = vec![7; length(&mut random, 2)];
                let (mut first, mut second) = (answer.clone(), answer);
                let got = raw::read(&ours.0, lane, &mut first);
                let expected = model::read(&theirs.0, lane, &mut second);
                ((got, first), (expected, second), format!("read {lane}"))
            }
            _ => {
                let sent = arrival_at(&mut random, &ours.0, &ours.1);
                let answer = vec![7; length(&mut random, 3)];
                let (mut first, mut second) = (answer.clone(), answer);
                let got = raw::arrive(&mut ours.0, &mut ours.1, &sent, &mut first);
                let expected = model::arrive(&mut theirs.0, &mut theirs.1, &sent, &mut second);
                let wide = |words: Vec<u32>| words.into_iter().map(u64::from).collect();
                (
                    (got, wide(first)),
                    (expected, wide(second)),
                    format!("arrive {sent:02x?}"),
                )
            }
        };
        seen[expected.0 as usize] += 1;
        assert_eq!(got, expected, "{context} on {:02x?}", theirs);
        assert!(
            ours == theirs,
            "{context}: bench or link differ\n{ours:02x?}\n{theirs:02x?}"
        );
    }
    println!("handed_in: statuses 0 to 11: {seen:?}");
    assert!(
        calls < 10_000 || seen.iter().all(|count| *count > 0),
        "{seen:?}"
    );
}

/// Previews of whatever a driver hands in, into rooms that hold anything.
#[test]
fn previews() {
    let (mut random, calls) = start("previews", 20_000);
    let mut seen = [0; 11];
    let (mut again, mut altered) = (0, 0);
    for _ in 0..calls {
        let (bench, link) = memory(&mut random);
        let sent = arrival_at(&mut random, &bench, &link);
        let answer = vec![7; length(&mut random, 3)];
        let room_length = length(&mut random, BENCH_LENGTH);
        let room = random.bytes(room_length);
        let context = || format!("{sent:02x?}, {room_length} bytes, on {bench:02x?} {link:02x?}");

        let lent = (bench.clone(), link.clone());
        let (mut ours, mut theirs) = ((answer.clone(), room.clone()), (answer, room.clone()));
        let got = raw::preview(&lent.0, &lent.1, &sent, &mut ours.0, &mut ours.1);
        let expected = model::preview(&bench, &link, &sent, &mut theirs.0, &mut theirs.1);
        assert_eq!((got, &ours.0), (expected, &theirs.0), "{}", context());
        assert!(ours.1 == theirs.1, "{}: {:02x?}", context(), ours.1);
        assert!(lent.0 == bench, "{}: bench {:02x?}", context(), lent.0);
        assert!(lent.1 == link, "{}: link {:02x?}", context(), lent.1);

        let whole = bench.len() == BENCH_LENGTH && room_length == BENCH_LENGTH;
        let done = got == 0 && ours.0[0] == 0;
        let own = if whole { &bench } else { &room };
        assert!(done || ours.1 == *own, "{}: {:02x?}", context(), ours.1);
        altered += (done && ours.1 != bench) as u32;
        again += (got == 0 && !done) as u32;
        seen[expected as usize] += 1;
    }
    println!("previews: {again} again, {altered} altered, statuses 0 to 10: {seen:?}");
    assert!(
        calls < 10_000 || (again > 0 && altered > 0 && seen.iter().all(|count| *count > 0)),
        "{again} again, {altered} altered, {seen:?}"
    );
}

/// A preview on sound and damaged benches with every choice of right and other lengths: its status, and
/// what is written of answer and room, as the header says.
#[test]
fn lengths_of_a_preview() {
    let (mut bench, mut link) = (vec![0x5a; BENCH_LENGTH], vec![0; LINK_LENGTH]);
    assert_eq!(raw::open(1, &mut bench, &mut link), 0);
    let load = records::load(1, 0, 0, &[0xff; 10], 0);
    assert_eq!(raw::arrive(&mut bench, &mut link, &load, &mut [0; 3]), 0);
    // Document 01: position 5 of the zero block under a key of ones.
    let mut moved = bench.clone();
    moved[2] = 5;
    moved[13..17].copy_from_slice(&0x00f8001e_u32.to_le_bytes());

    let sent = [
        (records::forward(2, 1, 5), 0, [0, 2, 5], &moved),
        (load.clone(), 0, [1, 1, 0], &bench),
        (load[..39].to_vec(), 2, [7; 3], &bench),
        ([&load[..], &[0]].concat(), 2, [7; 3], &bench),
        (records::clear(2, 0), 8, [7; 3], &bench),
    ];
    let damages = [None, Some((0, 7)), Some((2, 255)), Some((21, 2))];
    for ((sent, check, words, shown), damage) in sent
        .iter()
        .flat_map(|sent| damages.map(|damage| (sent, damage)))
    {
        // Each of four lengths is right, one less or one more.
        for choice in 0..81 {
            let pick = |i, right| [right, right - 1, right + 1][choice / 3_usize.pow(i) % 3];
            let (bench_length, link_length) = (pick(0, BENCH_LENGTH), pick(1, LINK_LENGTH));
            let (answer_length, room_length) = (pick(2, 3), pick(3, BENCH_LENGTH));
            let (mut bench, mut link) = (bench.clone(), link.clone());
            if let Some((at, byte)) = damage {
                bench[at] = byte;
            }
            bench.resize(bench_length, 0);
            link.resize(link_length, 0);
            let (mut answer, mut room) = (vec![7; answer_length], vec![0x99; room_length]);

            let status = if bench_length != BENCH_LENGTH {
                2
            } else if damage.is_some() {
                1
            } else if [link_length, answer_length, room_length] != [LINK_LENGTH, 3, BENCH_LENGTH] {
                2
            } else {
                *check
            };
            let expected = (
                if status == 0 {
                    words.to_vec()
                } else {
                    answer.clone()
                },
                match status {
                    _ if bench_length != BENCH_LENGTH || room_length != BENCH_LENGTH => {
                        room.clone()
                    }
                    0 => shown.to_vec(),
                    _ => bench.clone(),
                },
            );
            let context = format!(
                "{sent:02x?}, damage {damage:?}, lengths {bench_length}, {link_length}, \
                 {answer_length}, {room_length}"
            );
            let lent = (bench.clone(), link.clone());
            let got = raw::preview(&bench, &link, sent, &mut answer, &mut room);
            assert_eq!((got, &answer), (status, &expected.0), "{context}");
            assert!(room == expected.1, "{context}: {room:02x?}");
            assert!((bench, link) == lent, "{context}: bench or link is written");
        }
    }
}

/// Every two faults at once, in every kind of record, on a bench where two records have counted. Each
/// record is previewed before it arrives.
#[test]
fn pairs_of_faults() {
    type Fault = fn(&mut Vec<u8>);
    const FAULTS: [Fault; 16] = [
        |_| {},
        |sent| sent.truncate(39),
        |sent| sent.push(0),
        |sent| sent[0] = 0,
        |sent| sent[0] = 5,
        |sent| sent[3] = 1,
        |sent| sent[39] = 128,
        |sent| sent[1] = 64,
        |sent| sent[2] = 0,
        |sent| sent[2] = 255,
        |sent| sent[16] ^= 1,
        |sent| sent[33] = 255,
        |sent| sent[8..16].fill(0),
        |sent| sent[8] ^= 1,
        |sent| sent[4] = 2,
        |sent| sent[4] = 4,
    ];
    let mut seen = [0; 12];
    for variant in 1..=6 {
        let (mut bench, mut link) = (vec![0; BENCH_LENGTH], vec![0; LINK_LENGTH]);
        assert_eq!(raw::open(variant, &mut bench, &mut link), 0);
        let counted = [
            records::load(1, 5, 100, &[0x5a; 10], 77),
            records::forward(2, 0x21, 9),
        ];
        for sent in &counted {
            assert_eq!(raw::arrive(&mut bench, &mut link, sent, &mut [0; 3]), 0);
        }
        let sound = [
            records::load(3, 63, 254, &[0xa5; 10], 99),
            records::forward(3, 0x20, 7),
            records::back(3, 0x20, 7),
            records::clear(3, 0x20),
            counted[1].clone(),
        ];
        for record in &sound {
            for first in FAULTS {
                for second in FAULTS {
                    let mut sent = record.clone();
                    first(&mut sent);
                    if sent.len() == records::RECORD_LENGTH {
                        second(&mut sent);
                    }
                    let (mut ours, mut theirs) = (
                        (bench.clone(), link.clone(), [7; 3]),
                        (bench.clone(), link.clone(), [7; 3]),
                    );
                    let (mut answer, mut room) = ([7; 3], vec![0x99; BENCH_LENGTH]);
                    let shown = raw::preview(&ours.0, &ours.1, &sent, &mut answer, &mut room);
                    assert!(
                        ours == theirs,
                        "variant {variant}, {sent:02x?}: its preview writes bench or link"
                    );
                    let got = raw::arrive(&mut ours.0, &mut ours.1, &sent, &mut ours.2);
                    assert!(
                        (shown, &room, answer) == (got, &ours.0, ours.2),
                        "variant {variant}, {sent:02x?}: its preview shows {shown}, {answer:?}, \
                         {room:02x?}"
                    );
                    let expected =
                        model::arrive(&mut theirs.0, &mut theirs.1, &sent, &mut theirs.2);
                    assert_eq!(got, expected, "variant {variant}, {sent:02x?}");
                    assert!(
                        ours == theirs,
                        "variant {variant}, {sent:02x?}: memory differs"
                    );
                    seen[expected as usize] += 1;
                }
            }
        }
    }
    assert!(
        seen[2..=10].iter().all(|count| *count > 0) && seen[0] > 0,
        "{seen:?}"
    );
}

/// A change of a record, and the number of the first of 3 to 8 that it then meets.
type FormFault = (u8, fn(&mut [u8]));

/// Faults of form of every number that a record of a kind can have.
fn form_faults(kind: u8, variant: u8) -> Vec<FormFault> {
    let mut faults: Vec<FormFault> = vec![
        (3, |sent| sent[0] = 0),
        (3, |sent| sent[0] = 5),
        (4, |sent| sent[3] = 1),
        (4, |sent| sent[39] = 128),
    ];
    if kind == records::LOAD {
        faults.push((4, |sent| sent[8] = 1));
        faults.push((5, |sent| sent[1] = 64));
        faults.push((6, |sent| sent[2] = 255));
        if width(variant) < 64 {
            faults.push((7, |sent| sent[33] = 1));
        }
    } else {
        faults.push((4, |sent| sent[1] = 1));
        faults.push((4, |sent| sent[16] = 1));
        faults.push((8, |sent| sent[8..16].fill(0)));
    }
    if kind == records::CLEAR {
        faults.push((4, |sent| sent[2] = 1));
    } else if kind != records::LOAD {
        faults.push((6, |sent| sent[2] = 0));
        faults.push((6, |sent| sent[2] = 255));
    }
    faults
}

/// Every fault of form in a record that is out of turn, has other bytes than the last counted one, is in
/// turn, or is what a link made by hand remembers: 9, 10 or the fault itself, as the header says; and 1 and
/// 2 before all of them. The record is previewed, sent, and replayed where its link is its calls' own.
#[test]
fn turn_before_form() {
    let mut seen = [[0; 11]; 9];
    for variant in 1..=6 {
        let counted = [
            records::load(1, 5, 100, &[0x5a; 10], 77),
            records::forward(2, 0x21, 9),
        ];
        for last in [0, 2, u32::MAX - 1, u32::MAX] {
            let (mut bench, mut link) = (vec![0; BENCH_LENGTH], vec![0; LINK_LENGTH]);
            assert_eq!(raw::open(variant, &mut bench, &mut link), 0);
            let list = &counted[..last.min(2) as usize];
            for sent in list {
                assert_eq!(raw::arrive(&mut bench, &mut link, sent, &mut [0; 3]), 0);
            }
            link[..4].copy_from_slice(&last.to_le_bytes());
            let mut damaged = bench.clone();
            damaged[1] = 2;
            let sound = [
                records::load(0, 63, 254, &[0xa5; 10], 99),
                records::forward(0, 0x20, 7),
                records::back(0, 0x20, 7),
                records::clear(0, 0x20),
            ];
            for (record, number) in sound.iter().flat_map(|record| {
                [0, 1, 2, 3, 4, 256, u32::MAX - 1, u32::MAX].map(|number| (record, number))
            }) {
                for (fault, spoil) in form_faults(record[0], variant) {
                    let mut sent = records::numbered(record, number);
                    spoil(&mut sent);
                    let expected = if number as u64 == last as u64 + 1 {
                        fault
                    } else if number == last && last != 0 {
                        10
                    } else {
                        9
                    };
                    refused_by_all((&bench, &link), &sent, expected);
                    refused_by_all((&bench, &link), &sent[..39], 2);
                    refused_by_all((&damaged, &link), &sent, 1);
                    refused_by_all((&damaged, &link), &sent[..39], 1);
                    seen[fault as usize][expected as usize] += 1;
                    if last == list.len() as u32 {
                        let calls: Vec<Call> = [list, &[sent.clone()]]
                            .concat()
                            .into_iter()
                            .map(Call::Arrive)
                            .collect();
                        let refusal = Refusal::from_number(expected).unwrap();
                        let (answers, left) = replay(variant, &calls).unwrap();
                        assert_eq!(
                            answers.last(),
                            Some(&Answer::Refused(refusal)),
                            "{sent:02x?}"
                        );
                        assert!(left[..] == bench[..], "variant {variant}, {sent:02x?}");
                    }
                    // A link that remembers this very record.
                    if number == last && last != 0 {
                        let mut by_hand = link.clone();
                        by_hand[8..].copy_from_slice(&sent);
                        refused_by_all((&bench, &by_hand), &sent, fault);
                        for at in [0, 3, 8, 15, 16, 25, 26, 39] {
                            let mut near = sent.clone();
                            near[at] ^= 64;
                            refused_by_all((&bench, &by_hand), &near, 10);
                        }
                    }
                }
            }
        }
    }
    for (fault, turns) in seen.iter().enumerate().skip(3) {
        let met = turns[9] > 0 && turns[10] > 0 && turns[fault] > 0;
        assert!(met, "{fault}: {turns:?}");
    }
}

/// A record is refused with this number by the driver's arrival and preview and by the model's, and
/// nothing is altered; the preview's room has the bench's own bytes.
fn refused_by_all((bench, link): (&[u8], &[u8]), sent: &[u8], check: u8) {
    let context = format!("{sent:02x?} on {:02x?} {link:02x?}", &bench[..1]);
    for arrive in [raw::arrive, model::arrive] {
        let (mut lent, mut answer) = ((bench.to_vec(), link.to_vec()), [7; 3]);
        let status = arrive(&mut lent.0, &mut lent.1, sent, &mut answer);
        assert_eq!((status, answer), (check, [7; 3]), "{context}");
        assert!(lent.0 == bench && lent.1 == link, "{context}: altered");
    }
    for preview in [raw::preview, model::preview] {
        let (mut answer, mut room) = ([7; 3], vec![0x99; BENCH_LENGTH]);
        let status = preview(bench, link, sent, &mut answer, &mut room);
        assert_eq!((status, answer), (check, [7; 3]), "{context}: previewed");
        assert!(room == bench, "{context}: {room:02x?}");
    }
}

/// What goes wrong with a list, if anything does: call by call with the bench handed back and forth and
/// previews between them, and the calls alone as one replay. The model gets the calls alone too.
fn fault_of(variant: u8, events: &[Event]) -> Option<String> {
    let mut reference = katan_model::Bench::new(variant).unwrap();
    let mut bench = katan_bench::Bench::open(variant).unwrap();
    let (mut calls, mut expected) = (Vec::new(), Vec::new());
    for (i, event) in events.iter().enumerate() {
        match event {
            Event::Call(call) => {
                let answer = model_answer(&mut reference, call);
                let got = call_answer(&mut bench, call);
                if got != answer {
                    return Some(format!("event {i} answered {got:?}, not {answer:?}"));
                }
                calls.push(call.clone());
                expected.push(answer);
            }
            Event::Preview(sent) => {
                let before = bench.clone();
                let (got, shown) = (bench.preview(sent), model_preview(&reference, sent));
                if bench != before {
                    return Some(format!("event {i} writes to bench or link"));
                }
                if got.reply != shown.reply {
                    let (got, shown) = (got.reply, shown.reply);
                    return Some(format!("event {i} shows {got:?}, not {shown:?}"));
                }
                let mut lanes = got.lanes.iter().zip(&shown.lanes).enumerate();
                if let Some((lane, (got, shown))) = lanes.find(|(_, (got, shown))| got != shown) {
                    return Some(format!("event {i}, lane {lane}: {got:x?}, not {shown:x?}"));
                }
                // The room has every byte of a copy that the record arrives at, keys and empty lanes too.
                let (mut copy, mut room) = (before.clone(), [0x99; BENCH_LENGTH]);
                let (memory, link) = before.bytes();
                raw::preview(memory, link, sent, &mut [0; 3], &mut room);
                let _ = copy.arrive(sent);
                if room != *copy.bytes().0 {
                    return Some(format!("event {i} leaves other bytes in the room"));
                }
            }
        }
    }
    for lane in 0..records::LANES as u32 {
        let expected = model_answer(&mut reference, &Call::Read(lane));
        if call_answer(&mut bench, &Call::Read(lane)) != expected {
            return Some(format!("lane {lane} is not left as {expected:?}"));
        }
    }
    let (answers, left) = match replay(variant, &calls) {
        Ok(replayed) => replayed,
        Err(refusal) => return Some(format!("the replay is {refusal}")),
    };
    if answers != expected {
        return Some(format!("the replay answered {answers:?}, not {expected:?}"));
    }
    let left = katan_bench::Bench::from_bytes(left, [0; LINK_LENGTH]);
    (0..records::LANES as u64)
        .find(|lane| left.read(*lane) != bench.read(*lane))
        .map(|lane| format!("the replay leaves lane {lane} otherwise"))
}

/// The same list with all records numbered in turn: a previewed one as the next that arrives, or as the
/// one before if it repeats that.
fn renumbered(events: &[Event]) -> Vec<Event> {
    let (mut number, mut before): (u32, _) = (1, Vec::new());
    let mut events = events.to_vec();
    for event in &mut events {
        let (sent, arrives) = match event {
            Event::Call(Call::Arrive(sent)) => (sent, true),
            Event::Preview(sent) => (sent, false),
            Event::Call(Call::Read(_)) => continue,
        };
        if sent.len() != records::RECORD_LENGTH {
            continue;
        }
        if arrives {
            before = sent.clone();
            *sent = records::numbered(sent, number);
            number += 1;
        } else {
            let repeats = *sent == before;
            *sent = records::numbered(sent, number - repeats as u32);
        }
    }
    events
}

/// The list with some events left out that still goes wrong; as it was where there is none.
fn shorter(variant: u8, mut events: Vec<Event>) -> Vec<Event> {
    let mut part = events.len().div_ceil(2);
    while part > 0 {
        let mut from = 0;
        while from < events.len() {
            let mut fewer = events.clone();
            fewer.drain(from..(from + part).min(events.len()));
            let in_turn = renumbered(&fewer);
            match [fewer, in_turn]
                .into_iter()
                .find(|list| fault_of(variant, list).is_some())
            {
                Some(list) => events = list,
                None => from += part,
            }
        }
        part /= 2;
    }
    events
}

/// The shortest list found, by leaving out events, that still goes wrong.
fn shrunk(variant: u8, mut events: Vec<Event>) -> Vec<Event> {
    loop {
        let length = events.len();
        events = shorter(variant, events);
        if events.len() == length {
            return events;
        }
    }
}

/// Lists of calls from a fresh bench and link, with previews strewn in.
#[test]
fn lists() {
    let (mut random, calls) = start("lists", 40_000);
    let (mut made, mut done, mut again) = (0, 0, 0);
    let mut refused = [0; 11];
    while made < calls {
        let variant = 1 + random.below(6) as u8;
        let list = list(&mut random, variant);
        made += 2 * list.len() as u64;
        let events = with_previews(&mut random, variant, &list, |reply| match reply {
            Reply::Done { .. } => done += 1,
            Reply::Again { .. } => again += 1,
            Reply::Refused(check) => refused[check as usize] += 1,
        });
        if fault_of(variant, &events).is_some() {
            let least = shrunk(variant, events);
            let fault = fault_of(variant, &least);
            let lines: Vec<String> = least.iter().map(|event| format!("{event:02x?}")).collect();
            panic!("variant {variant}: {fault:?}\n{}", lines.join("\n"));
        }
    }
    println!("lists: {made} calls, half of them in replays");
    println!("lists: previews: {done} done, {again} again, refused 0 to 10: {refused:?}");
    let all = done > 0 && again > 0 && refused[2..].iter().all(|count| *count > 0);
    assert!(calls < 10_000 || all, "{done}, {again}, {refused:?}");
}

/// Lists of calls that are not laid out as they must be, and outputs without the right room.
#[test]
fn replays_refused() {
    let (mut random, calls) = start("replays_refused", 3_000);
    for _ in 0..calls {
        let variant = variant(&mut random);
        let count = random.below(5) as usize;
        let mut bytes = Vec::new();
        for _ in 0..count {
            let size = random.below(50) as u32;
            bytes.push(1);
            bytes.extend(size.to_le_bytes());
            bytes.extend(random.bytes(size as usize));
        }
        let room = raw::ANSWER_LENGTH * count;
        let (spoilt, bad_room) = (random.below(2) == 0, random.below(2) == 0);
        match random.below(3) {
            _ if !spoilt => {}
            0 => bytes.push(1),
            1 => bytes.extend([one_of(&mut random, &[0, 3, 4, 255]), 0, 0, 0, 0]),
            _ => bytes.extend([1, 1, 0, 0, 0]),
        }
        let out_length = if bad_room { room + 1 } else { room };
        let (mut bench, mut answers) = (vec![7; BENCH_LENGTH], vec![7; out_length]);
        let status = raw::replay(variant, &bytes, &mut bench, &mut answers);
        let expected = match Variant::from_number(variant) {
            None => 1,
            Some(_) if spoilt || bad_room => 2,
            Some(_) => 0,
        };
        assert_eq!(
            status, expected,
            "variant {variant}, {bytes:02x?}, {out_length} bytes"
        );
        if expected != 0 {
            assert!(bench == [7; BENCH_LENGTH] && answers.iter().all(|byte| *byte == 7));
        }
    }
}
