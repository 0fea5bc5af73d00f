//! What the comparisons with the independent model share. The seed is printed; `KATAN_SEED` gives
//! another, and `KATAN_CALLS` how many calls each test on random input makes.

// No test file needs all of it.
#![allow(dead_code)]

use katan_bench::{Answer, Call, Lane, Preview, Reading, Refusal, Reply};
use katan_model::{bench as records, trace, Random, Variant};

/// A number from the environment, or the one given.
fn setting(name: &str, usual: u64) -> u64 {
    std::env::var(name).map_or(usual, |text| {
        text.parse()
            .unwrap_or_else(|_| panic!("{name} is not a number: {text}"))
    })
}

/// The generator of a test.
pub fn generator(test: &str) -> Random {
    let seed = setting("KATAN_SEED", 1);
    println!("{test}: KATAN_SEED={seed}");
    let salt = test.bytes().fold(0, |h: u64, byte| {
        h.wrapping_mul(31).wrapping_add(byte as u64)
    });
    Random::new(seed ^ salt << 20)
}

/// The generator of a test, and how many calls the test makes.
pub fn start(test: &str, usual: u64) -> (Random, u64) {
    let calls = setting("KATAN_CALLS", usual);
    println!("{test}: KATAN_CALLS={calls}");
    (generator(test), calls)
}

pub fn one_of<T: Clone>(random: &mut Random, choices: &[T]) -> T {
    choices[random.below(choices.len() as u64) as usize].clone()
}

/// A variant number, mostly 1 to 6.
pub fn variant(random: &mut Random) -> u8 {
    match random.below(12) {
        0 => one_of(random, &[0, 7, 8, 255]),
        _ => 1 + random.below(6) as u8,
    }
}

pub fn width(variant: u8) -> u32 {
    Variant::from_number(variant).map_or(32, |variant| variant.width())
}

/// A length, mostly the one given.
pub fn length(random: &mut Random, right: usize) -> usize {
    match random.below(16) {
        0 => right.saturating_sub(1),
        1 => right + 1,
        2 => random.below(2 * right as u64 + 3) as usize,
        _ => right,
    }
}

/// A sound record of any kind, numbered so.
pub fn record(random: &mut Random, variant: u8, number: u32) -> Vec<u8> {
    let mask = match random.below(4) {
        0 => 1 << random.below(64),
        1 => u64::MAX,
        _ => random.next_u64() | 1,
    };
    let count = match random.below(3) {
        0 => one_of(random, &[1, 2, 253, 254]),
        _ => 1 + random.below(254) as u8,
    };
    match random.below(8) {
        0..=2 => {
            let key = random.key();
            let lane = one_of(random, &[0, 1, 2, 31, 32, 62, 63]);
            let position = random.below(255) as u8;
            let width = width(variant);
            records::load(number, lane, position, &key, random.bits(width))
        }
        3 | 4 => records::forward(number, mask, count),
        5 | 6 => records::back(number, mask, count),
        _ => records::clear(number, mask),
    }
}

/// One fault of any number from 2 to 10, put into a record of 40 bytes.
fn fault(random: &mut Random, sent: &mut Vec<u8>) {
    match random.below(9) {
        0 => {
            let length = one_of(random, &[0, 1, 39, 41, 80, 400]);
            sent.resize(length, 0);
        }
        1 => sent[0] = one_of(random, &[0, 5, 6, 128, 255]),
        2 => sent[one_of(random, &[3, 34, 35, 36, 37, 38, 39])] = 1 << random.below(8),
        3 => sent[1] = one_of(random, &[64, 65, 127, 128, 255]),
        4 => sent[2] = one_of(random, &[0, 255]),
        5 => sent[26 + random.below(8) as usize] = random.bits(8) as u8,
        6 => sent[8..16].fill(0),
        7 => sent[4 + random.below(4) as usize] ^= 1 << random.below(8),
        _ => sent[random.below(40) as usize] ^= 1 << random.below(8),
    }
}

/// A record of any kind, in turn or not, with no fault, one or two, or a repeat of the latest one.
pub fn arrival(random: &mut Random, variant: u8, last: u32, latest: &[u8]) -> Vec<u8> {
    let number = match random.below(10) {
        0 => last,
        1 => one_of(random, &[0, 1, last.wrapping_add(2), u32::MAX]),
        2 => random.bits(32) as u32,
        _ => last.wrapping_add(1),
    };
    let mut sent = match random.below(6) {
        0 if latest.len() == records::RECORD_LENGTH => latest.to_vec(),
        _ => record(random, variant, number),
    };
    for _ in 0..one_of(random, &[0, 0, 0, 1, 1, 2]) {
        if sent.len() == records::RECORD_LENGTH {
            fault(random, &mut sent);
        }
    }
    sent
}

pub fn model_answer(bench: &mut katan_model::Bench, call: &Call) -> Answer {
    let refused = |check| Answer::Refused(Refusal::from_number(check).unwrap());
    match call {
        Call::Arrive(sent) => match bench.arrive(sent) {
            katan_model::Reply::Done { number, total } => {
                Answer::Reply(Reply::Done { number, total })
            }
            katan_model::Reply::Again { number, total } => {
                Answer::Reply(Reply::Again { number, total })
            }
            katan_model::Reply::Refused(check) => refused(check),
        },
        Call::Read(lane) => match bench.read(*lane as u64) {
            katan_model::Reading::At {
                position,
                registers,
            } => Answer::Reading(Reading {
                position,
                registers,
            }),
            katan_model::Reading::Refused(check) => refused(check),
        },
    }
}

pub fn call_answer(bench: &mut katan_bench::Bench, call: &Call) -> Answer {
    match call {
        Call::Arrive(sent) => bench
            .arrive(sent)
            .map_or_else(Answer::Refused, Answer::Reply),
        Call::Read(lane) => bench
            .read(*lane as u64)
            .map_or_else(Answer::Refused, Answer::Reading),
    }
}

/// A list of calls from a fresh bench and link.
pub fn list(random: &mut Random, variant: u8) -> Vec<Call> {
    let mut reference = katan_model::Bench::new(variant).unwrap();
    let length = random.below(80);
    (0..length)
        .map(|_| {
            let call = match random.below(4) {
                0 => Call::Read(match random.below(8) {
                    0 => one_of(random, &[64, 255, 256, u32::MAX]),
                    _ => one_of(random, &[0, 1, 2, 31, 32, 62, 63]),
                }),
                _ => {
                    let (last, latest) = (reference.last(), reference.latest().to_vec());
                    Call::Arrive(arrival(random, variant, last, &latest))
                }
            };
            model_answer(&mut reference, &call);
            call
        })
        .collect()
}

/// What a preview of a record must show: a copy of the model's bench gets it.
pub fn model_preview(bench: &katan_model::Bench, sent: &[u8]) -> Preview {
    let mut copy = bench.clone();
    let reply = match model_answer(&mut copy, &Call::Arrive(sent.to_vec())) {
        Answer::Reply(reply) => Ok(reply),
        Answer::Refused(refusal) => Err(refusal),
        Answer::Reading(_) => unreachable!(),
    };
    let lanes = std::array::from_fn(|lane| match copy.read(lane as u64) {
        katan_model::Reading::At {
            position,
            registers,
        } => Lane::Loaded(Reading {
            position,
            registers,
        }),
        katan_model::Reading::Refused(11) => Lane::Empty,
        katan_model::Reading::Refused(check) => unreachable!("lane {lane} of the model: {check}"),
    });
    Preview { reply, lanes }
}

/// A call of a list, or a preview that stands among the calls.
#[derive(Clone, Debug)]
pub enum Event {
    Call(Call),
    Preview(Vec<u8>),
}

/// The calls with previews strewn in: of the record that comes next, of the latest that counted, and of
/// any other. What the model answers to these is given to `seen`.
pub fn with_previews(
    random: &mut Random,
    variant: u8,
    calls: &[Call],
    mut seen: impl FnMut(katan_model::Reply),
) -> Vec<Event> {
    let mut reference = katan_model::Bench::new(variant).unwrap();
    let mut events = Vec::new();
    for call in calls.iter().map(Some).chain([None]) {
        for _ in 0..one_of(random, &[0, 0, 0, 1, 2]) {
            let sent = match (random.below(4), call) {
                (0, Some(Call::Arrive(next))) => next.clone(),
                (1, _) => reference.latest().to_vec(),
                _ => arrival(random, variant, reference.last(), reference.latest()),
            };
            seen(reference.clone().arrive(&sent));
            events.push(Event::Preview(sent));
        }
        if let Some(call) = call {
            model_answer(&mut reference, call);
            events.push(Event::Call(call.clone()));
        }
    }
    events
}

/// A lane to be loaded at a position, with the model's registers at all positions.
pub struct Traced {
    pub key: [u8; 10],
    pub position: u8,
    pub trace: Vec<u64>,
}

impl Traced {
    /// The lane whose registers are `block` at position 0.
    pub fn new(variant: Variant, key: [u8; 10], position: u8, block: u64) -> Traced {
        Traced {
            key,
            position,
            trace: trace(variant, &key, block),
        }
    }

    pub fn random(random: &mut Random, variant: Variant, position: u8) -> Traced {
        let key = random.key();
        Traced::new(variant, key, position, random.bits(variant.width()))
    }

    pub fn at(&self, position: u8) -> Reading {
        Reading {
            position,
            registers: self.trace[position as usize],
        }
    }
}
